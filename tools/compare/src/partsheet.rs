//! What `partsheet` prints for a text.

use crate::call::Given;
use crate::graph::Graph;
use crate::object::Value;
use crate::refusal::Refusal;
use crate::text::{self, TEXT_LIMIT};
use crate::windows::{Kind, Space, Windows};

/// The length in words of each kind's dynamic window.
pub const WINDOW_WORDS: usize = 512;

/// Where a text was sent back and why; line 0 stands for the text as a whole.
#[derive(Clone, Copy, Debug, PartialEq, Eq)]
pub struct SentBack {
    pub line: usize,
    pub refusal: Refusal,
}

/// The heap on which `partsheet` opens a text.
pub fn empty_heap() -> Graph {
    let windows =
        Kind::ALL.iter().fold(Windows::default(), |windows, kind| windows.with(*kind, Space::Dynamic, WINDOW_WORDS));
    Graph::new(windows)
}

/// Runs a text's lines in order with objects made in this space, up to the first that is refused.
pub fn open(graph: &mut Graph, text: &[u8], space: Space) -> Result<(), SentBack> {
    if text.len() > TEXT_LIMIT {
        return Err(SentBack { line: 0, refusal: Refusal::TooLong });
    }
    let former = graph.space();
    graph.set_space(space);
    let opened = text::lines(text).zip(1..).try_for_each(|(bytes, line)| {
        let asked = text::call(bytes).ok_or(Refusal::NoForm);
        asked.and_then(|call| graph.run(call)).map_err(|refusal| SentBack { line, refusal })
    });
    graph.set_space(former);
    opened
}

/// The registers that are not null, rising, one a line.
pub fn listing(graph: &Graph) -> String {
    let mut listing = String::new();
    for (register, value) in graph.registers().iter().enumerate() {
        let shown = match *value {
            Value::Null => continue,
            Value::Fixnum(number) => Given::Fixnum(number).to_string(),
            Value::Character(code) => Given::Character(code.into()).to_string(),
            Value::Object(identity) => format!("o{}", graph.at(identity).kind as u32),
        };
        listing += &format!("reg={register} value={shown}\n");
    }
    listing
}

/// What is printed for a text, and how it was sent back if it was.
pub fn sheet(text: &[u8]) -> (String, Option<SentBack>) {
    let mut graph = empty_heap();
    match open(&mut graph, text, Space::Dynamic) {
        Ok(()) => (listing(&graph), None),
        Err(sent_back) => {
            let SentBack { line, refusal } = sent_back;
            (format!("line={line} refusal={}\n", refusal.number()), Some(sent_back))
        }
    }
}
