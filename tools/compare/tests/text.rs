//! Which lines have a form, and which call they ask for.

use compare::call::{Call, Given};
use compare::text::{call, lines};

#[test]
fn each_form_asks_for_its_call() {
    let forms = [
        ("op=put to=3 value=f-12", Call::Put { to: 3, value: Given::Fixnum(-12) }),
        ("op=put to=3 value=c65", Call::Put { to: 3, value: Given::Character(65) }),
        ("op=put to=3 value=n", Call::Put { to: 3, value: Given::Null }),
        ("op=list to=1 car=2 cdr=3", Call::List { to: 1, car: 2, cdr: 3 }),
        ("op=symbol to=1 name=2", Call::Symbol { to: 1, name: 2 }),
        ("op=vector to=1 count=20 fill=3", Call::Vector { to: 1, count: 20, fill: 3 }),
        ("op=string to=1 count=20", Call::String { to: 1, count: 20 }),
        ("op=words to=1 count=20 access=4", Call::Words { to: 1, count: 20, access: 4 }),
        ("op=read to=1 from=2 at=30", Call::Read { to: 1, from: 2, at: 30 }),
        ("op=write into=1 at=20 value=3", Call::Write { into: 1, at: 20, value: 3 }),
    ];
    for (line, asked) in forms {
        assert_eq!(call(format!("{line}\n").as_bytes()), Some(asked));
        assert_eq!(asked.to_string(), line);
        assert_eq!(call(line.as_bytes()), None, "{line} without its end");
    }
}

#[test]
fn numbers_have_one_to_nine_digits_and_no_leading_zero() {
    let asked = |count: &str| call(format!("op=string to=0 count={count}\n").as_bytes());
    assert_eq!(asked("0"), Some(Call::String { to: 0, count: 0 }));
    assert_eq!(asked("999999999"), Some(Call::String { to: 0, count: 999_999_999 }));
    for number in ["", "00", "01", "1000000000", "-1", "-0", "+1", "1.0", " 1", "1 ", "0x1", "\u{661}"] {
        assert_eq!(asked(number), None, "{number:?}");
    }
}

#[test]
fn only_a_fixnum_other_than_0_has_a_minus() {
    let asked = |value: &str| call(format!("op=put to=0 value={value}\n").as_bytes());
    assert_eq!(asked("f-999999999"), Some(Call::Put { to: 0, value: Given::Fixnum(-999_999_999) }));
    assert_eq!(asked("f0"), Some(Call::Put { to: 0, value: Given::Fixnum(0) }));
    for value in ["f-0", "f-01", "f-", "f--1", "f+1", "f", "c-1", "c", "c01", "n0", "-n", "N", "F1", "7", ""] {
        assert_eq!(asked(value), None, "{value:?}");
    }
}

#[test]
fn spaces_are_single_and_keys_keep_their_order() {
    let spellings = [
        "op=put  to=0 value=n\n",
        " op=put to=0 value=n\n",
        "op=put to=0 value=n \n",
        "op=put\tto=0 value=n\n",
        "op=put to=0 value=n\r\n",
        "op=put value=n to=0\n",
        "to=0 op=put value=n\n",
        "op=put to=0\n",
        "op=put\n",
        "\n",
        "op=put to=0 value=n value=n\n",
        "op=put into=0 value=n\n",
        "OP=put to=0 value=n\n",
        "op=put to = 0 value=n\n",
        "op=puts to=0 value=n\n",
        "op=write to=0 at=0 value=0\n",
        "op=list to=0 cdr=0 car=0\n",
    ];
    for line in spellings {
        assert_eq!(call(line.as_bytes()), None, "{line:?}");
    }
}

#[test]
fn every_line_keeps_its_end_and_only_the_last_can_lack_it() {
    assert_eq!(lines(b"").count(), 0);
    assert_eq!(lines(b"a\n\nb").collect::<Vec<_>>(), [b"a\n".as_slice(), b"\n", b"b"]);
    assert_eq!(lines(b"a\nb\n").collect::<Vec<_>>(), [b"a\n", b"b\n"]);
}
