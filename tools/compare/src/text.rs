//! The eight forms that a line of a part text can have.

use crate::call::{Call, Given};

/// The most bytes that a text may have.
pub const TEXT_LIMIT: usize = 16_384;

/// The lines of a text in order, each with its end; only the last can lack one.
pub fn lines(text: &[u8]) -> impl Iterator<Item = &[u8]> {
    text.split_inclusive(|byte| *byte == b'\n')
}

/// The call that a line asks for, if the line has one of the eight forms.
pub fn call(line: &[u8]) -> Option<Call> {
    let line = line.strip_suffix(b"\n")?;
    let fields: Vec<&[u8]> = line.split(|byte| *byte == b' ').collect();
    Some(match fields.as_slice() {
        [b"op=put", to, value] => Call::Put { to: keyed(to, b"to=")?, value: given(value.strip_prefix(b"value=")?)? },
        [b"op=list", to, car, cdr] => {
            Call::List { to: keyed(to, b"to=")?, car: keyed(car, b"car=")?, cdr: keyed(cdr, b"cdr=")? }
        }
        [b"op=symbol", to, name] => Call::Symbol { to: keyed(to, b"to=")?, name: keyed(name, b"name=")? },
        [b"op=vector", to, count, fill] => {
            Call::Vector { to: keyed(to, b"to=")?, count: keyed(count, b"count=")?, fill: keyed(fill, b"fill=")? }
        }
        [b"op=string", to, count] => Call::String { to: keyed(to, b"to=")?, count: keyed(count, b"count=")? },
        [b"op=words", to, count, access] => {
            Call::Words { to: keyed(to, b"to=")?, count: keyed(count, b"count=")?, access: keyed(access, b"access=")? }
        }
        [b"op=read", to, from, at] => {
            Call::Read { to: keyed(to, b"to=")?, from: keyed(from, b"from=")?, at: keyed(at, b"at=")? }
        }
        [b"op=write", into, at, value] => {
            Call::Write { into: keyed(into, b"into=")?, at: keyed(at, b"at=")?, value: keyed(value, b"value=")? }
        }
        _ => return None,
    })
}

/// The number of a field that has this key.
fn keyed(field: &[u8], key: &[u8]) -> Option<u32> {
    number(field.strip_prefix(key)?)
}

/// The value that `f` and a fixnum, `c` and a character code, or `n` alone stand for.
fn given(value: &[u8]) -> Option<Given> {
    match value {
        [b'f', b'-', digits @ ..] => match number(digits)? {
            0 => None,
            size => Some(Given::Fixnum(-(size as i32))),
        },
        [b'f', digits @ ..] => Some(Given::Fixnum(number(digits)? as i32)),
        [b'c', digits @ ..] => Some(Given::Character(number(digits)?)),
        [b'n'] => Some(Given::Null),
        _ => None,
    }
}

/// The number that 1 to 9 digits without a leading zero stand for.
fn number(digits: &[u8]) -> Option<u32> {
    let well_formed = match digits {
        [b'0'] => true,
        [b'1'..=b'9', rest @ ..] => rest.len() <= 8 && rest.iter().all(u8::is_ascii_digit),
        _ => false,
    };
    well_formed.then(|| digits.iter().fold(0, |sum, digit| 10 * sum + u32::from(digit - b'0')))
}
