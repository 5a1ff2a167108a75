//! The ranges of registers, access types, counts and fixnums.

use crate::refusal::Refusal;

pub const REGISTERS: usize = 16;
pub const COUNT_LIMIT: u32 = 65_534;
pub const FIXNUM_MIN: i32 = -134_217_728;
pub const FIXNUM_MAX: i32 = 134_217_727;
pub const ACCESS_MAX: u32 = 4;

/// The register of this number.
pub fn register(number: u32) -> Result<usize, Refusal> {
    if (number as usize) < REGISTERS { Ok(number as usize) } else { Err(Refusal::Unknown) }
}

/// The number of cells or entries that a count asks for.
pub fn counted(count: u32) -> Result<usize, Refusal> {
    if count <= COUNT_LIMIT { Ok(count as usize) } else { Err(Refusal::OutOfRange) }
}

/// The bits of an entry of this access type.
pub fn entry_bits(access: u32) -> Result<usize, Refusal> {
    if access <= ACCESS_MAX { Ok(1 << access) } else { Err(Refusal::Unknown) }
}
