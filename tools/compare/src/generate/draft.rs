//! A text in the making, with the graph that its lines leave.

use crate::call::{Call, Given};
use crate::graph::Graph;
use crate::object::{Object, Value};
use crate::partsheet::empty_heap;
use crate::ranges::REGISTERS;
use crate::text::TEXT_LIMIT;

use super::random::Random;

/// A text in the making: the lines so far, all of them granted, and the graph that they leave.
#[derive(Clone)]
pub struct Draft {
    pub graph: Graph,
    pub text: Vec<u8>,
}

impl Draft {
    /// The empty text on an empty heap.
    pub fn empty() -> Draft {
        Draft { graph: empty_heap(), text: Vec::new() }
    }

    /// Adds a line if it fits the text and its call is granted; answers whether it was added.
    pub fn add(&mut self, call: Call) -> bool {
        let line = line(call);
        let added = self.text.len() + line.len() <= TEXT_LIMIT && self.graph.run(call).is_ok();
        if added {
            self.text.extend(line);
        }
        added
    }

    /// Adds the line that puts a fixnum.
    pub fn put(&mut self, to: u32, number: i32) -> bool {
        self.add(Call::Put { to, value: Given::Fixnum(number) })
    }

    /// Adds the line that puts a character.
    pub fn put_character(&mut self, to: u32, code: u8) -> bool {
        self.add(Call::Put { to, value: Given::Character(code.into()) })
    }

    /// The object that a register holds, if it holds one.
    pub fn held(&self, register: u32) -> Option<&Object> {
        self.graph.object(self.graph.registers()[register as usize])
    }

    /// A register whose value is as wanted, if there is one.
    pub fn register(&self, random: &mut Random, wanted: impl Fn(Value) -> bool) -> Option<u32> {
        let mut found: Vec<u32> = registers();
        found.retain(|register| wanted(self.graph.registers()[*register as usize]));
        (!found.is_empty()).then(|| random.pick(&found))
    }

    /// A register that holds an object with cells or entries, if there is one.
    pub fn register_with_cells(&self, random: &mut Random) -> Option<u32> {
        self.register(random, |value| self.graph.object(value).is_some_and(|object| !object.cells.is_empty()))
    }
}

/// A call as a line of a text.
pub fn line(call: Call) -> Vec<u8> {
    format!("{call}\n").into_bytes()
}

/// Every register.
pub fn registers() -> Vec<u32> {
    (0..REGISTERS as u32).collect()
}

/// Any register.
pub fn any_register(random: &mut Random) -> u32 {
    random.below(REGISTERS) as u32
}

/// An index of the object: often the first, the last, or one beside the bounds of a word.
pub fn index(random: &mut Random, object: &Object) -> u32 {
    let last = object.cells.len().saturating_sub(1);
    let in_word = 32 / object.bits;
    let near_bound = (random.below(last / in_word + 1) * in_word + random.below(2)).saturating_sub(1);
    let at = match random.below(6) {
        0 => 0,
        1 => last,
        2 | 3 => near_bound,
        _ => random.below(last + 1),
    };
    at.min(last) as u32
}
