//! Texts at the limits of their length and of the windows.

use crate::call::{Call, Given};
use crate::ranges::{ACCESS_MAX, REGISTERS};
use crate::text::TEXT_LIMIT;
use crate::windows::{Kind, Space};

use super::deep;
use super::draft::{Draft, any_register, line};
use super::random::Random;
use super::refused::reckless;

/// A text of exactly the greatest length.
pub fn exact_length(random: &mut Random) -> Vec<u8> {
    let mut draft = good(random);
    pad(random, &mut draft.text, TEXT_LIMIT);
    draft.text
}

/// A text past the greatest length: mostly by one byte, which is part of a good line, or ends a line, or fits none.
pub fn over_length(random: &mut Random) -> Vec<u8> {
    let mut text = good(random).text;
    match random.below(5) {
        0 => {
            pad(random, &mut text, TEXT_LIMIT);
            text.push(random.pick(b"\n 0o\xff"));
        }
        1 => {
            pad(random, &mut text, TEXT_LIMIT);
            text.insert(random.below(TEXT_LIMIT), b'\n');
        }
        2 => {
            let bytes = random.between(TEXT_LIMIT + 2, 6 * TEXT_LIMIT);
            pad(random, &mut text, bytes);
        }
        3 => text = vec![random.below(256) as u8; random.between(TEXT_LIMIT + 1, 6 * TEXT_LIMIT)],
        _ => pad(random, &mut text, TEXT_LIMIT + 1),
    }
    text
}

/// A text that fills one kind's window to the last word, and perhaps asks for one object more.
pub fn full_window(random: &mut Random) -> Vec<u8> {
    let mut draft = Draft::empty();
    let kind = random.pick(&Kind::ALL);
    draft.add(Call::String { to: 0, count: 4 });
    loop {
        let to = random.between(2, REGISTERS - 1) as u32;
        draft.add(Call::Put { to: 1, value: deep::value(random) });
        let room = draft.graph.room(kind, Space::Dynamic);
        if !draft.add(sized(random, kind, to, room)) {
            break;
        }
    }
    if random.once_in(2) {
        draft.text.extend(line(sized(random, kind, 2, 0)));
    }
    deep::show(random, &mut draft);
    draft.text
}

/// The making of an object that fits the room, and in a small room often fills it; else the smallest of its kind.
fn sized(random: &mut Random, kind: Kind, to: u32, room: usize) -> Call {
    let header = if kind == Kind::BVector { 1 } else { 2 };
    let payload = match room.saturating_sub(header) {
        few @ 0..=40 if random.once_in(2) => few,
        most => random.below(most.min(60) + 1),
    };
    let access = random.between(0, ACCESS_MAX as usize) as u32;
    let packed = |in_word: usize, random: &mut Random| (payload * in_word).saturating_sub(random.below(in_word)) as u32;
    match kind {
        Kind::UVector => Call::Words { to, count: packed(32 >> access, random), access },
        Kind::String => Call::String { to, count: packed(4, random) },
        Kind::BVector => Call::Vector { to, count: payload as u32, fill: 1 },
        Kind::Symbol => Call::Symbol { to, name: 0 },
        Kind::List => Call::List { to, car: 1, cdr: to },
    }
}

/// A text that ends with an object that alone fills its window, or is one entry too large for it.
pub fn one_object(random: &mut Random) -> Vec<u8> {
    let mut draft = Draft::empty();
    let access = random.between(0, ACCESS_MAX as usize) as u32;
    let (to, over) = (any_register(random), random.below(2) as u32);
    let most = (510 * 32) >> access;
    let (call, last) = match random.below(3) {
        0 => (Call::Vector { to, count: 511 + over, fill: any_register(random) }, 510),
        1 => (Call::String { to, count: 2_040 + over }, 2_039),
        _ => (Call::Words { to, count: most + over, access }, most - 1),
    };
    if !draft.add(call) {
        draft.text.extend(line(call));
    }
    for at in [last, last + 1] {
        draft.text.extend(line(Call::Read { to: any_register(random), from: to, at }));
    }
    draft.text
}

/// The text without lines, or one of a single line.
pub fn tiny(random: &mut Random) -> Vec<u8> {
    match random.below(4) {
        0 => Vec::new(),
        1 => vec![random.below(256) as u8; random.between(1, 2)],
        _ => line(reckless(random, &Draft::empty())),
    }
}

/// A good text that leaves room to be padded.
fn good(random: &mut Random) -> Draft {
    let mut draft = Draft::empty();
    let bytes = random.pick(&[0, 2_000, 12_000]);
    deep::build(random, &mut draft, bytes);
    draft
}

/// Adds good lines, 20 to 31 bytes each, until the text has exactly so many bytes; it wants at least 40 more.
fn pad(random: &mut Random, text: &mut Vec<u8>, bytes: usize) {
    let missing = bytes - text.len();
    let lines = missing.div_ceil(31);
    for place in 0..lines {
        let length = missing / lines + usize::from(place < missing % lines);
        text.extend(line_of(random, length));
    }
}

/// A line that puts something and has so many bytes, 20 to 31.
fn line_of(random: &mut Random, bytes: usize) -> Vec<u8> {
    let (to, length) = if bytes > 20 && random.once_in(2) || bytes == 31 { (15, bytes - 20) } else { (9, bytes - 19) };
    let tens = 10_i32.pow(length.clamp(2, 10) as u32 - 2);
    let value = match length {
        1 => Given::Null,
        2 => Given::Fixnum(random.below(10) as i32),
        3..=10 => Given::Fixnum(tens + random.below(tens.min(10_000_000) as usize) as i32),
        _ => Given::Fixnum(-tens - random.below(10_000_000) as i32),
    };
    line(Call::Put { to, value })
}
