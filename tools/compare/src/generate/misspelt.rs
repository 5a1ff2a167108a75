//! Good texts of which one line is written in another way: tried one way after the other, on a random line.

use super::damaged::good;
use super::random::Random;
use crate::text;

/// Parts of a line, and what is written there instead.
#[rustfmt::skip]
const PARTS: [(&str, &str); 52] = [
    ("\n", "\r\n"), ("\n", " \n"), ("\n", "\n\n"), ("\n", ""), ("\n", "\0"), ("\n", "\r"), ("\n", "\t\n"),
    ("\n", "\0\n"), ("\n", ".0\n"), ("\n", ";\n"), ("\n", " # hole\n"), ("\n", "\u{a0}\n"),
    (" ", "  "), (" ", "\t"), (" ", ""), (" ", "\n"), (" ", " \n"), (" ", "\u{a0}"), (" ", ","),
    ("op=", " op="), ("op=", "\nop="), ("op=", "OP="), ("op=", "op= "), ("op=", ""), ("op=", "op:"),
    ("op=", "\u{feff}op="), ("=", "=="), ("=", " = "), ("=", "= "), ("=", " ="), ("=", ""),
    ("op=put", "op=puts"), ("op=list", "op=cons"), ("op=symbol", "op=symbo"), ("op=vector", "op=Vector"),
    ("op=string", "op=strings"), ("op=words", "op=word"), ("op=read", "op=reads"), ("op=write", "op=writ"),
    ("value=", "fill="), ("value=f", "fill=f"), ("to=", "into="), ("into=", "to="), ("from=", "to="),
    ("at=", "index="), ("count=", "size="), ("car=", "cdr="), ("cdr=", "car="), ("name=", "string="),
    ("fill=", "value="), ("access=", "bits="), ("count=", "at="),
];

/// What is written instead of a number.
#[rustfmt::skip]
const NUMBERS: [&str; 23] = [
    "00", "01", "007", "0000000001", "-0", "-1", "--1", "+1", "", "-", "1.5", ".5", "1.", "1e3", "0x1", "1_0", "n",
    "f1", "999999999", "1000000000", "4294967296", "4294967297", "18446744073709551616",
];

/// What is written instead of the value that a line puts.
#[rustfmt::skip]
const VALUES: [&str; 38] = [
    "f-0", "f00", "f01", "f-01", "f007", "f+7", "f-+7", "f--7", "f", "f-", "f ", "f 7", "f7 ", "f7n", "f1.5", "f1.",
    "f.5", "f0x1", "f1e3", "F7", "fn", "f1000000000", "f-1000000000", "f4294967303", "c", "c-1", "c-0", "c01", "c+1",
    "c1000000000", "ca", "C65", "n0", "nil", "N", "", "7", "-7",
];

/// A way to set the fields of a line in another order or number.
type Reordering = fn(&mut Random, &mut Vec<&[u8]>);

/// The ways in which fields are set otherwise.
const FIELDS: [Reordering; 3] = [swap_fields, drop_field, double_field];

/// A text with one line misspelt in the way of this number, counted round and round.
pub fn misspelt(random: &mut Random, way: usize) -> Vec<u8> {
    let text = good(random);
    let mut lines: Vec<Vec<u8>> = text::lines(&text).map(<[u8]>::to_vec).collect();
    let mut order: Vec<usize> = (0..lines.len()).collect();
    random.shuffle(&mut order);
    for place in order {
        if let Some(spelt) = respelt(random, &lines[place], way) {
            lines[place] = spelt;
            break;
        }
    }
    lines.concat()
}

/// The line written in the way of this number, if it has something that can be so written.
fn respelt(random: &mut Random, line: &[u8], way: usize) -> Option<Vec<u8>> {
    let way = way % (PARTS.len() + NUMBERS.len() + VALUES.len() + FIELDS.len());
    let mut fields: Vec<&[u8]> = line.trim_ascii_end().split(|byte| *byte == b' ').collect();
    if let Some((part, other)) = PARTS.get(way) {
        let places: Vec<usize> = (0..line.len()).filter(|place| line[*place..].starts_with(part.as_bytes())).collect();
        let place = *places.get(random.below(places.len()))?;
        return Some([&line[..place], other.as_bytes(), &line[place + part.len()..]].concat());
    }
    let way = way - PARTS.len();
    if let Some(number) = NUMBERS.get(way) {
        let place = random.between(1, fields.len() - 1);
        let field = fields[place];
        let digits = field.iter().rev().take_while(|byte| byte.is_ascii_digit()).count();
        let other = [&field[..field.len() - digits], number.as_bytes()].concat();
        fields[place] = &other;
        return (digits > 0).then(|| joined(&fields));
    }
    let way = way - NUMBERS.len();
    if let Some(value) = VALUES.get(way) {
        let other = format!("value={value}").into_bytes();
        *fields.last_mut()? = &other;
        return line.starts_with(b"op=put").then(|| joined(&fields));
    }
    FIELDS[way - VALUES.len()](random, &mut fields);
    Some(joined(&fields))
}

/// The line of these fields.
fn joined(fields: &[&[u8]]) -> Vec<u8> {
    [fields.join(&b' '), b"\n".to_vec()].concat()
}

/// Two fields have changed places.
fn swap_fields(random: &mut Random, fields: &mut Vec<&[u8]>) {
    let one = random.below(fields.len());
    let other = (one + random.between(1, fields.len() - 1)) % fields.len();
    fields.swap(one, other);
}

/// One field is missing.
fn drop_field(random: &mut Random, fields: &mut Vec<&[u8]>) {
    fields.remove(random.below(fields.len()));
}

/// One field stands twice.
fn double_field(random: &mut Random, fields: &mut Vec<&[u8]>) {
    let at = random.below(fields.len());
    fields.insert(at, fields[at]);
}
