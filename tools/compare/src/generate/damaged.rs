//! Good texts with a byte or a line out of place; a few of them stay good.

use super::deep;
use super::draft::Draft;
use super::random::Random;
use super::refused::lay_out;
use crate::text;

/// A way to damage a text.
type Damage = fn(&mut Random, &mut Vec<u8>);

/// The ways in which texts are damaged.
const DAMAGES: [Damage; 8] =
    [change_byte, change_byte, drop_byte, double_byte, insert_byte, truncate, lose_last_end, swap_lines];

/// A text whose bytes were damaged somewhere.
pub fn damaged(random: &mut Random) -> Vec<u8> {
    let mut text = good(random);
    random.pick(&DAMAGES)(random, &mut text);
    text
}

/// A good text, short or long, with lines of every form.
pub fn good(random: &mut Random) -> Vec<u8> {
    let mut draft = Draft::empty();
    lay_out(random, &mut draft);
    let bytes = random.pick(&[0, 0, 1_000, 4_000]);
    deep::build(random, &mut draft, bytes);
    deep::show(random, &mut draft);
    draft.text
}

/// One byte is another.
fn change_byte(random: &mut Random, text: &mut Vec<u8>) {
    let at = random.below(text.len());
    text.splice(at..=at, [any_byte(random)]);
}

/// One byte is missing.
fn drop_byte(random: &mut Random, text: &mut Vec<u8>) {
    text.remove(random.below(text.len()));
}

/// One byte stands twice.
fn double_byte(random: &mut Random, text: &mut Vec<u8>) {
    let at = random.below(text.len());
    text.insert(at, text[at]);
}

/// One byte is too many.
fn insert_byte(random: &mut Random, text: &mut Vec<u8>) {
    text.insert(random.below(text.len() + 1), any_byte(random));
}

/// The text ends early.
fn truncate(random: &mut Random, text: &mut Vec<u8>) {
    text.truncate(random.below(text.len()));
}

/// The last line has no end.
fn lose_last_end(_: &mut Random, text: &mut Vec<u8>) {
    text.pop();
}

/// Two lines have changed places.
fn swap_lines(random: &mut Random, text: &mut Vec<u8>) {
    let mut lines: Vec<&[u8]> = text::lines(text).collect();
    let (one, other) = (random.below(lines.len()), random.below(lines.len()));
    lines.swap(one, other);
    *text = lines.concat();
}

/// A byte of the texts' own alphabet, or one that looks like it, or any other.
fn any_byte(random: &mut Random) -> u8 {
    match random.below(4) {
        0 => random.below(256) as u8,
        1 => random.pick(b" =-\n\r\t\0+.,_:;#\"/\x7f\x80\xa0\xff"),
        _ => random.pick(b"0123456789fcnopuewlisymbrtavdhgkx"),
    }
}
