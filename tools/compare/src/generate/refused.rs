//! Texts of which one line is refused by a given number, often with greater numbers beneath it.

use crate::call::{Call, Given};
use crate::ranges::{ACCESS_MAX, COUNT_LIMIT, FIXNUM_MAX, FIXNUM_MIN};
use crate::refusal::Refusal;

use super::deep;
use super::draft::{Draft, any_register, line, registers};
use super::random::Random;

/// The refusals that one line's call can meet.
pub const OF_A_CALL: [Refusal; 6] =
    [Refusal::Unknown, Refusal::NoObject, Refusal::OutOfRange, Refusal::Unset, Refusal::Unfit, Refusal::NoRoom];

/// A text of good lines, then one that is refused by this number, then lines that are not reached.
pub fn refused(random: &mut Random, refusal: Refusal) -> Vec<u8> {
    let mut draft = Draft::empty();
    lay_out(random, &mut draft);
    let bytes = random.pick(&[0, 0, 1_500, 8_000]);
    deep::build(random, &mut draft, bytes);
    if refusal == Refusal::Unset {
        fresh_symbol(random, &mut draft);
    }
    let last = loop {
        let call = reckless(random, &draft);
        if draft.graph.clone().run(call) == Err(refusal) {
            break call;
        }
        draft.add(call);
        if draft.text.len() > 14_000 {
            draft = Draft::empty();
            lay_out(random, &mut draft);
            fresh_symbol(random, &mut draft);
        }
    };
    draft.text.extend(line(last));
    for _ in 0..random.below(4) {
        draft.text.extend(line(reckless(random, &draft)));
    }
    draft.text
}

/// Sets the registers to values and objects of every sort, in a random order.
pub fn lay_out(random: &mut Random, draft: &mut Draft) {
    let mut order = registers();
    random.shuffle(&mut order);
    let [string, symbol, list, vector, ..] = order[..] else { return };
    draft.add(Call::String { to: string, count: random.below(9) as u32 });
    draft.add(Call::Symbol { to: symbol, name: string });
    draft.add(Call::List { to: list, car: any_register(random), cdr: any_register(random) });
    draft.add(Call::Vector { to: vector, count: random.below(4) as u32, fill: any_register(random) });
    for (to, access) in order[4..9].iter().zip(0..=ACCESS_MAX) {
        draft.add(Call::Words { to: *to, count: random.below(40) as u32, access });
    }
    for to in &order[9..15] {
        let limit = 1 << random.pick(&[0, 1, 2, 4, 8, 16]);
        let number = random.pick(&[limit, limit - 1, -1, FIXNUM_MAX, FIXNUM_MIN]);
        let value = random.pick(&[Given::Fixnum(number), Given::Fixnum(number), Given::Character(255), Given::Null]);
        draft.add(Call::Put { to: *to, value });
    }
}

/// Makes a symbol, and perhaps sets one of the two cells that start unset.
fn fresh_symbol(random: &mut Random, draft: &mut Draft) {
    let (name, to) = (any_register(random), any_register(random));
    draft.add(Call::String { to: name, count: 3 });
    draft.add(Call::Symbol { to, name });
    if random.once_in(2) {
        draft.add(Call::Write { into: to, at: random.below(2) as u32, value: any_register(random) });
    }
}

/// A call whose numbers are in range most of the time, and else at or past a limit.
pub fn reckless(random: &mut Random, draft: &Draft) -> Call {
    let (to, one, other) = (register(random), register(random), register(random));
    let cells = if one < 16 { draft.held(one).map_or(0, |object| object.cells.len()) } else { 3 };
    let at = at(random, cells);
    match random.below(10) {
        0 => Call::Put { to, value: given(random) },
        1 => Call::List { to, car: one, cdr: other },
        2 => Call::Symbol { to, name: one },
        3 => Call::Vector { to, count: count(random), fill: one },
        4 => Call::String { to, count: count(random) },
        5 => Call::Words { to, count: count(random), access: access(random) },
        6 | 7 => Call::Read { to, from: one, at },
        _ => Call::Write { into: one, at, value: other },
    }
}

/// A register, or seldom a number that is none.
fn register(random: &mut Random) -> u32 {
    match random.below(40) {
        0 => random.pick(&[16, 17, 31, 32, 255, 256, 271, 65_536, 999_999_999]),
        _ => any_register(random),
    }
}

/// An access type, or at times a number that is none.
fn access(random: &mut Random) -> u32 {
    match random.below(12) {
        0 => random.pick(&[5, 6, 7, 8, 15, 16, 32, 256, 999_999_999]),
        _ => random.between(0, ACCESS_MAX as usize) as u32,
    }
}

/// A count: small, about the size of a window, or about the greatest.
fn count(random: &mut Random) -> u32 {
    match random.below(8) {
        0 => random.pick(&[COUNT_LIMIT - 1, COUNT_LIMIT, COUNT_LIMIT + 1, 65_536, 131_072, 16_777_216, 999_999_999]),
        1 => random.pick(&[509, 510, 511, 512, 1_020, 2_040, 2_041, 4_080, 8_160, 16_320, 16_321]),
        _ => random.below(9) as u32,
    }
}

/// An index: of a cell, or just past the last one, or far past it.
fn at(random: &mut Random, cells: usize) -> u32 {
    match random.below(12) {
        0 => cells as u32 + random.below(3) as u32,
        1 => random.pick(&[6, 31, 32, 255, 256, 65_535, 65_536, 16_777_216, 999_999_999]),
        _ => random.below(cells.max(2)) as u32,
    }
}

/// A value to put, at times one past a limit.
fn given(random: &mut Random) -> Given {
    match random.below(5) {
        0 => Given::Fixnum(random.pick(&[FIXNUM_MIN - 1, FIXNUM_MAX + 1, 268_435_455, 999_999_999, -999_999_999])),
        1 => Given::Character(random.pick(&[255, 256, 257, 511, 65_536, 16_777_216, 999_999_999])),
        _ => deep::value(random),
    }
}
