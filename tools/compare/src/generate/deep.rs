//! Good texts of hundreds of lines that build, share, tie and take apart objects of every kind.

use crate::call::{Call, Given};
use crate::object::Value;
use crate::ranges::{ACCESS_MAX, FIXNUM_MAX, FIXNUM_MIN};
use crate::text::TEXT_LIMIT;
use crate::windows::Kind;

use super::draft::{Draft, any_register, index, registers};
use super::random::Random;

/// The bytes that are left for the lines that show what was built.
const SHOWING_BYTES: usize = 2_600;

/// A good text whose lines build on each other and end by showing what was built.
pub fn deep(random: &mut Random) -> Vec<u8> {
    let mut draft = Draft::empty();
    let bytes = random.between(2_000, TEXT_LIMIT - SHOWING_BYTES);
    build(random, &mut draft, bytes);
    show(random, &mut draft);
    draft.text
}

/// Adds one piece of work after the other until the text has so many bytes.
pub fn build(random: &mut Random, draft: &mut Draft, bytes: usize) {
    while draft.text.len() < bytes {
        match random.below(9) {
            0 => spell(random, draft),
            1 => name_symbol(random, draft),
            2 => grow_list(random, draft),
            3 => set_properties(random, draft),
            4 => fill_vector(random, draft),
            5 => pack_words(random, draft),
            6 => tie(random, draft),
            _ => stray(random, draft),
        }
    }
}

/// Any value that can be put: often one at a limit.
pub fn value(random: &mut Random) -> Given {
    let around = random.below(2_000) as i32 - 1_000;
    match random.below(8) {
        0 => Given::Null,
        1 | 2 => Given::Character(random.below(256) as u32),
        3 => Given::Fixnum(random.pick(&[FIXNUM_MIN, FIXNUM_MAX, FIXNUM_MIN + 1, FIXNUM_MAX - 1, 0, -1, 1])),
        4 => Given::Fixnum((random.draw() as i32) >> 4),
        _ => Given::Fixnum(around),
    }
}

/// Makes a string and writes its entries.
fn spell(random: &mut Random, draft: &mut Draft) {
    let (to, with, count) = (any_register(random), any_register(random), random.below(13) as u32);
    if !draft.add(Call::String { to, count }) || to == with {
        return;
    }
    for at in 0..count {
        draft.put_character(with, random.below(256) as u8);
        draft.add(Call::Write { into: to, at, value: with });
    }
}

/// Makes a symbol of some string and sets a few of its cells.
fn name_symbol(random: &mut Random, draft: &mut Draft) {
    let is_string = |value: Value| draft.graph.kind(value) == Some(Kind::String);
    let Some(name) = draft.register(random, is_string) else {
        return spell(random, draft);
    };
    let to = any_register(random);
    if draft.add(Call::Symbol { to, name }) {
        for _ in 0..random.below(4) {
            let (at, value) = (random.pick(&[0, 0, 1, 3, 4, 5]), any_register(random));
            draft.add(Call::Write { into: to, at, value });
        }
    }
}

/// Makes a chain of lists: longer at the front, nested in the car, or both.
fn grow_list(random: &mut Random, draft: &mut Draft) {
    let (chain, with) = (any_register(random), any_register(random));
    for _ in 0..random.between(1, 9) {
        draft.add(Call::Put { to: with, value: value(random) });
        let (car, cdr) = if random.once_in(4) { (chain, with) } else { (with, chain) };
        draft.add(Call::List { to: chain, car, cdr });
    }
}

/// Gives a symbol a property list whose keys are symbols.
fn set_properties(random: &mut Random, draft: &mut Draft) {
    let is_symbol = |value: Value| draft.graph.kind(value) == Some(Kind::Symbol);
    let Some(symbol) = draft.register(random, is_symbol) else {
        return name_symbol(random, draft);
    };
    let mut others = registers();
    others.retain(|register| *register != symbol);
    random.shuffle(&mut others);
    let properties = others[0];
    draft.add(Call::Put { to: properties, value: Given::Null });
    for _ in 0..random.between(1, 4) {
        let key = draft.register(random, |value| draft.graph.kind(value) == Some(Kind::Symbol)).unwrap_or(symbol);
        draft.add(Call::List { to: properties, car: random.pick(&others[1..]), cdr: properties });
        draft.add(Call::List { to: properties, car: key, cdr: properties });
    }
    draft.add(Call::Write { into: symbol, at: 2, value: properties });
}

/// Makes a vector and sets some of its entries.
fn fill_vector(random: &mut Random, draft: &mut Draft) {
    let (to, count) = (any_register(random), random.below(24) as u32);
    if !draft.add(Call::Vector { to, count, fill: any_register(random) }) {
        return;
    }
    for _ in 0..random.below(8) {
        draft.add(Call::Write { into: to, at: random.below(count as usize) as u32, value: any_register(random) });
    }
}

/// Makes words of some access type, writes entries at the limits of their range and reads them back.
fn pack_words(random: &mut Random, draft: &mut Draft) {
    let (to, with, back) = (any_register(random), any_register(random), any_register(random));
    let access = random.between(0, ACCESS_MAX as usize) as u32;
    let in_word = 32 >> access;
    let count = (random.below(5) * in_word + random.below(4)) as u32;
    if !draft.add(Call::Words { to, count, access }) || count == 0 || to == with || to == back {
        return;
    }
    let greatest = (1 << (1 << access)) - 1;
    for _ in 0..random.between(1, 10) {
        let Some(object) = draft.held(to) else { return };
        let (at, beside) = (index(random, object), index(random, object));
        draft.put(with, random.pick(&[greatest, greatest, greatest - 1, 0, 1, greatest / 2 + 1]));
        draft.add(Call::Write { into: to, at, value: with });
        draft.add(Call::Read { to: back, from: to, at: if random.once_in(2) { at } else { beside } });
    }
}

/// Writes objects into objects, so that they are shared or lead back to themselves.
fn tie(random: &mut Random, draft: &mut Draft) {
    for _ in 0..random.between(1, 4) {
        let Some(into) = draft.register_with_cells(random) else { return };
        let Some(value) = draft.register(random, |value| draft.graph.object(value).is_some()) else { return };
        let Some(at) = draft.held(into).map(|object| index(random, object)) else { return };
        draft.add(Call::Write { into, at, value: if random.once_in(3) { into } else { value } });
    }
}

/// Adds one line that is likely to be granted.
pub fn stray(random: &mut Random, draft: &mut Draft) {
    let to = any_register(random);
    let (from, other) = (draft.register_with_cells(random), any_register(random));
    let at = from.and_then(|from| draft.held(from)).map_or(0, |object| index(random, object));
    draft.add(match (random.below(8), from) {
        (0 | 1, _) => Call::Put { to, value: value(random) },
        (2..=4, Some(from)) => Call::Read { to, from, at },
        (5 | 6, Some(into)) => Call::Write { into, at, value: other },
        _ => Call::List { to, car: any_register(random), cdr: other },
    });
}

/// Reads what lies deep under a few registers into the others.
pub fn show(random: &mut Random, draft: &mut Draft) {
    let (mut roots, mut shown) = (Vec::new(), Vec::new());
    let mut order = registers();
    random.shuffle(&mut order);
    for register in order {
        let is_root = roots.len() < 5 && draft.held(register).is_some();
        if is_root { roots.push(register) } else { shown.push(register) }
    }
    if roots.is_empty() {
        return;
    }
    for to in shown {
        let mut from = random.pick(&roots);
        for _ in 0..random.between(1, 7) {
            let Some(at) = draft.held(from).map(|object| index(random, object)) else { break };
            if !draft.add(Call::Read { to, from, at }) {
                break;
            }
            from = to;
        }
    }
    for to in roots {
        if let Some(at) = draft.held(to).map(|object| index(random, object)) {
            draft.add(Call::Read { to, from: to, at });
        }
    }
}
