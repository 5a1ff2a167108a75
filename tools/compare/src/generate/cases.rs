//! Texts that try, one after the other, every number at its limit, every two refusals at once, and every value in every
//! cell that is choosy.

use crate::call::{Call, Given};
use crate::ranges::{ACCESS_MAX, COUNT_LIMIT, FIXNUM_MAX, FIXNUM_MIN, REGISTERS};

use super::draft::{Draft, line};

/// The registers of the objects that every case starts with, a null one and one for the answer.
const STRING: u32 = 0;
const SYMBOL: u32 = 1;
const LIST: u32 = 2;
const VECTOR: u32 = 3;
const WORDS: u32 = 4;
const NULL: u32 = 5;
const TO: u32 = 6;

/// The last register, and the first number that is none.
const LAST: u32 = REGISTERS as u32 - 1;
const NONE: u32 = REGISTERS as u32;

/// The first count that is out of range.
const OVER: u32 = COUNT_LIMIT + 1;

/// The entries of the string that every case starts with.
const STRING_ENTRIES: u32 = 3;

/// The text of this case, counted round and round.
pub fn case(number: usize) -> Vec<u8> {
    let cases = [at_limits(), two_at_once(), choosy_cells()].concat();
    let mut draft = Draft::empty();
    draft.add(Call::String { to: STRING, count: STRING_ENTRIES });
    draft.add(Call::Symbol { to: SYMBOL, name: STRING });
    draft.add(Call::List { to: LIST, car: STRING, cdr: SYMBOL });
    draft.add(Call::Vector { to: VECTOR, count: 3, fill: LIST });
    draft.add(Call::Words { to: WORDS, count: 5, access: 2 });
    draft.text.extend(cases[number % cases.len()].iter().flat_map(|call| line(*call)));
    draft.text
}

/// Calls with a number that is just in its range, or just not.
fn at_limits() -> Vec<Vec<Call>> {
    let fixnums = [0, FIXNUM_MAX, FIXNUM_MAX + 1, FIXNUM_MIN, FIXNUM_MIN - 1, 999_999_999, -999_999_999];
    let characters = [0, 255, 256, 999_999_999];
    let values = [fixnums.map(Given::Fixnum).as_slice(), &characters.map(Given::Character), &[Given::Null]].concat();
    let mut cases: Vec<Vec<Call>> = values.into_iter().map(|value| vec![Call::Put { to: TO, value }]).collect();
    for register in [LAST, NONE, NONE + 1, 256, 999_999_999] {
        cases.extend([
            vec![Call::Put { to: register, value: Given::Fixnum(1) }],
            vec![Call::List { to: register, car: NULL, cdr: NULL }],
            vec![Call::List { to: TO, car: register, cdr: NULL }],
            vec![Call::List { to: TO, car: NULL, cdr: register }],
            vec![Call::Symbol { to: register, name: STRING }],
            vec![Call::Symbol { to: TO, name: register }],
            vec![Call::Vector { to: register, count: 1, fill: NULL }],
            vec![Call::Vector { to: TO, count: 0, fill: register }],
            vec![Call::String { to: register, count: 1 }],
            vec![Call::Words { to: register, count: 1, access: 0 }],
            vec![Call::Read { to: register, from: LIST, at: 0 }],
            vec![Call::Read { to: TO, from: register, at: 0 }],
            vec![Call::Write { into: register, at: 0, value: NULL }],
            vec![Call::Write { into: LIST, at: 0, value: register }],
        ]);
    }
    for count in [COUNT_LIMIT, OVER, 65_536, 999_999_999] {
        cases.extend([
            vec![Call::Vector { to: TO, count, fill: NULL }],
            vec![Call::String { to: TO, count }],
            vec![Call::Words { to: TO, count, access: 0 }],
            vec![Call::Words { to: TO, count, access: ACCESS_MAX }],
        ]);
    }
    cases.extend([ACCESS_MAX, ACCESS_MAX + 1, 8, 256].map(|access| vec![Call::Words { to: TO, count: 1, access }]));
    for (from, cells) in [(STRING, STRING_ENTRIES), (SYMBOL, 6), (LIST, 2), (VECTOR, 3), (WORDS, 5)] {
        cases.extend([cells - 1, cells, cells + 1, 999_999_999].map(|at| vec![Call::Read { to: TO, from, at }]));
    }
    cases
}

/// Calls that two refusals fit, of which the smaller is the answer.
fn two_at_once() -> Vec<Vec<Call>> {
    let full_of_lists = vec![Call::List { to: TO, car: NULL, cdr: TO }; 255];
    let full_of_symbols = vec![Call::Symbol { to: TO, name: STRING }; 84];
    let mut cases: Vec<Vec<Call>> = [
        Call::Put { to: NONE, value: Given::Fixnum(FIXNUM_MAX + 1) },
        Call::Put { to: NONE, value: Given::Character(256) },
        Call::Symbol { to: NONE, name: NULL },
        Call::Symbol { to: TO, name: LIST },
        Call::Symbol { to: TO, name: WORDS },
        Call::Vector { to: NONE, count: OVER, fill: NULL },
        Call::Vector { to: TO, count: OVER, fill: NONE },
        Call::Vector { to: NONE, count: 512, fill: NULL },
        Call::String { to: NONE, count: OVER },
        Call::String { to: NONE, count: 2_041 },
        Call::Words { to: NONE, count: OVER, access: 0 },
        Call::Words { to: TO, count: OVER, access: ACCESS_MAX + 1 },
        Call::Words { to: TO, count: 16_384, access: ACCESS_MAX + 1 },
        Call::Read { to: NONE, from: NULL, at: 0 },
        Call::Read { to: NONE, from: LIST, at: 2 },
        Call::Read { to: NONE, from: SYMBOL, at: 0 },
        Call::Read { to: TO, from: NULL, at: 999_999_999 },
        Call::Write { into: NULL, at: 0, value: NONE },
        Call::Write { into: LIST, at: 2, value: NONE },
        Call::Write { into: NULL, at: 999_999_999, value: NULL },
        Call::Write { into: STRING, at: STRING_ENTRIES, value: NULL },
        Call::Write { into: WORDS, at: 5, value: NULL },
        Call::Write { into: SYMBOL, at: 6, value: NULL },
    ]
    .map(|call| vec![call])
    .to_vec();
    cases.push([full_of_lists.clone(), vec![Call::List { to: TO, car: TO, cdr: TO }]].concat());
    cases.push([full_of_lists, vec![Call::List { to: TO, car: NONE, cdr: TO }]].concat());
    for (to, name) in [(TO, STRING), (NONE, STRING), (TO, NULL)] {
        cases.push([full_of_symbols.clone(), vec![Call::Symbol { to, name }]].concat());
    }
    cases
}

/// Writes of each sort of value into each cell that does not take all, read back if they are granted.
fn choosy_cells() -> Vec<Vec<Call>> {
    let mut cases = Vec::new();
    for access in 0..=ACCESS_MAX {
        let make = vec![Call::Words { to: WORDS, count: 3, access }];
        let greatest = (1 << (1 << access)) - 1;
        for number in [greatest, greatest + 1] {
            cases.push([make.clone(), written(WORDS, 1, Given::Fixnum(number))].concat());
        }
        cases.extend(all_sorts(WORDS, 1).into_iter().map(|case| [make.clone(), case].concat()));
    }
    for (into, at) in [(STRING, 1), (SYMBOL, 2), (SYMBOL, 3)] {
        cases.extend(all_sorts(into, at));
    }
    cases
}

/// Writes of each sort of value into one cell.
fn all_sorts(into: u32, at: u32) -> Vec<Vec<Call>> {
    let numbers = [-1, 0, FIXNUM_MIN, FIXNUM_MIN + 1, FIXNUM_MAX].map(Given::Fixnum);
    let characters = [0, 1].map(Given::Character);
    let values = [numbers.as_slice(), &characters, &[Given::Null]].concat();
    let objects = [STRING, SYMBOL, LIST, VECTOR, WORDS]
        .map(|value| vec![Call::Write { into, at, value }, Call::Read { to: TO, from: into, at }]);
    values.into_iter().map(|value| written(into, at, value)).chain(objects).collect()
}

/// The calls that put a value, write it into a cell and read it back.
fn written(into: u32, at: u32, value: Given) -> Vec<Call> {
    let put = Call::Put { to: TO, value };
    vec![put, Call::Write { into, at, value: TO }, Call::Read { to: LAST, from: into, at }]
}
