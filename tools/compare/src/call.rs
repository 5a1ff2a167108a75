//! The eight calls that a line of a part text can ask for, and how each is written.

use std::fmt;

/// The value that a line asks to put, whether or not it is in range.
#[derive(Clone, Copy, Debug, PartialEq, Eq)]
pub enum Given {
    Fixnum(i32),
    Character(u32),
    Null,
}

/// One call with its numbers as the line has them, whether or not they are in range.
#[derive(Clone, Copy, Debug, PartialEq, Eq)]
pub enum Call {
    Put { to: u32, value: Given },
    List { to: u32, car: u32, cdr: u32 },
    Symbol { to: u32, name: u32 },
    Vector { to: u32, count: u32, fill: u32 },
    String { to: u32, count: u32 },
    Words { to: u32, count: u32, access: u32 },
    Read { to: u32, from: u32, at: u32 },
    Write { into: u32, at: u32, value: u32 },
}

impl fmt::Display for Given {
    fn fmt(&self, out: &mut fmt::Formatter) -> fmt::Result {
        match self {
            Given::Fixnum(number) => write!(out, "f{number}"),
            Given::Character(code) => write!(out, "c{code}"),
            Given::Null => write!(out, "n"),
        }
    }
}

impl fmt::Display for Call {
    fn fmt(&self, out: &mut fmt::Formatter) -> fmt::Result {
        match self {
            Call::Put { to, value } => write!(out, "op=put to={to} value={value}"),
            Call::List { to, car, cdr } => write!(out, "op=list to={to} car={car} cdr={cdr}"),
            Call::Symbol { to, name } => write!(out, "op=symbol to={to} name={name}"),
            Call::Vector { to, count, fill } => write!(out, "op=vector to={to} count={count} fill={fill}"),
            Call::String { to, count } => write!(out, "op=string to={to} count={count}"),
            Call::Words { to, count, access } => write!(out, "op=words to={to} count={count} access={access}"),
            Call::Read { to, from, at } => write!(out, "op=read to={to} from={from} at={at}"),
            Call::Write { into, at, value } => write!(out, "op=write into={into} at={at} value={value}"),
        }
    }
}
