//! The kinds of object, the spaces, and the windows in which objects of a kind lie.

use std::collections::BTreeMap;

/// The kinds of object; as a number, the type code.
#[derive(Clone, Copy, Debug, PartialEq, Eq, PartialOrd, Ord)]
pub enum Kind {
    UVector = 3,
    String = 4,
    BVector = 7,
    Symbol = 10,
    List = 11,
}

impl Kind {
    pub const ALL: [Kind; 5] = [Kind::UVector, Kind::String, Kind::BVector, Kind::Symbol, Kind::List];

    /// The words that an object has before its cells or entries.
    pub fn header_words(self) -> usize {
        match self {
            Kind::UVector | Kind::String => 2,
            Kind::BVector => 1,
            Kind::Symbol | Kind::List => 0,
        }
    }
}

/// Where an object was made; as a number, the space code.
#[derive(Clone, Copy, Debug, PartialEq, Eq, PartialOrd, Ord)]
pub enum Space {
    Dynamic = 0,
    Static = 2,
    ReadOnly = 3,
}

/// The window lengths in words, by kind and space; a window that is not named has none.
#[derive(Clone, Debug, Default)]
pub struct Windows(BTreeMap<(Kind, Space), usize>);

impl Windows {
    /// These windows, with one of them given a length.
    pub fn with(mut self, kind: Kind, space: Space, words: usize) -> Windows {
        self.0.insert((kind, space), words);
        self
    }

    /// The length of one window.
    pub fn length(&self, kind: Kind, space: Space) -> usize {
        self.0.get(&(kind, space)).copied().unwrap_or(0)
    }
}
