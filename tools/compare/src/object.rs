//! The objects of a heap and the values that their cells hold.

use crate::windows::{Kind, Space};

/// The bits of a word, and so of each cell of a boxed object.
pub const WORD_BITS: usize = 32;

/// An object's identity.
#[derive(Clone, Copy, Debug, PartialEq, Eq)]
pub struct Identity(pub(crate) usize);

/// What a register, or a cell that is set, holds.
#[derive(Clone, Copy, Debug, PartialEq, Eq)]
pub enum Value {
    Null,
    Fixnum(i32),
    Character(u8),
    Object(Identity),
}

/// An object with its cells or entries; a cell that was never set holds nothing.
#[derive(Clone, Debug)]
pub struct Object {
    pub kind: Kind,
    pub space: Space,
    pub frozen: bool,
    /// The bits that each cell or entry takes.
    pub bits: usize,
    pub cells: Vec<Option<Value>>,
}

impl Object {
    /// The words that the object takes in its window.
    pub fn words(&self) -> usize {
        self.kind.header_words() + (self.cells.len() * self.bits).div_ceil(WORD_BITS)
    }
}
