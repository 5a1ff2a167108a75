//! What is printed for worked texts.

use compare::partsheet::{SentBack, sheet};
use compare::refusal::Refusal;
use compare::text::TEXT_LIMIT;

/// What is printed for these lines.
fn printed(lines: &[&str]) -> String {
    sheet(lines.iter().map(|line| format!("{line}\n")).collect::<String>().as_bytes()).0
}

/// A good text of exactly this many bytes, a multiple of 20 and perhaps a few more.
fn text_of(bytes: usize) -> String {
    let mut text = "op=put to=0 value=n\n".repeat(bytes / 20 - 1);
    text += &format!("op=put to=0 value=f{}\n", "1".repeat(bytes - text.len() - 20));
    text
}

#[test]
fn a_number_and_a_list_are_printed_and_null_is_not() {
    let text = ["op=put to=0 value=f7", "op=put to=1 value=n", "op=list to=2 car=0 cdr=1"];
    assert_eq!(printed(&text), "reg=0 value=f7\nreg=2 value=o11\n");
}

#[test]
fn every_sort_of_value_is_printed_in_its_own_way() {
    let text = [
        "op=words to=15 count=3 access=0",
        "op=string to=14 count=3",
        "op=vector to=13 count=3 fill=0",
        "op=symbol to=12 name=14",
        "op=list to=11 car=0 cdr=0",
        "op=put to=10 value=c65",
        "op=put to=9 value=f-134217728",
    ];
    let sheet = "reg=9 value=f-134217728\nreg=10 value=c65\nreg=11 value=o11\nreg=12 value=o10\n\
                 reg=13 value=o7\nreg=14 value=o4\nreg=15 value=o3\n";
    assert_eq!(printed(&text), sheet);
}

#[test]
fn a_refused_line_prints_its_number_and_nothing_else() {
    let text = ["op=put to=0 value=f7", "op=read to=1 from=0 at=0", "op=put to=16 value=n"];
    assert_eq!(printed(&text), "line=2 refusal=2\n");
}

#[test]
fn an_empty_text_prints_nothing() {
    assert_eq!(sheet(b""), (String::new(), None));
}

#[test]
fn a_last_line_without_its_end_is_of_no_form() {
    assert_eq!(sheet(b"op=put to=0 value=f7\nop=put to=1 value=f8").0, "line=2 refusal=16\n");
}

#[test]
fn an_empty_line_is_of_no_form() {
    assert_eq!(sheet(b"\n").0, "line=1 refusal=16\n");
}

#[test]
fn a_text_may_have_16384_bytes_and_no_more() {
    let (longest, longer) = (text_of(TEXT_LIMIT), text_of(TEXT_LIMIT + 1));
    assert_eq!((longest.len(), longer.len()), (16_384, 16_385));
    assert_eq!(sheet(longest.as_bytes()).0, "reg=0 value=f1111\n");
    let sent_back = SentBack { line: 0, refusal: Refusal::TooLong };
    assert_eq!(sheet(longer.as_bytes()), ("line=0 refusal=18\n".to_string(), Some(sent_back)));
}

#[test]
fn the_window_of_lists_takes_256() {
    let lists = |count| sheet("op=list to=0 car=1 cdr=0\n".repeat(count).as_bytes()).0;
    assert_eq!(lists(256), "reg=0 value=o11\n");
    assert_eq!(lists(257), "line=257 refusal=8\n");
}

#[test]
fn the_greatest_count_is_in_range_but_finds_no_room() {
    assert_eq!(printed(&["op=words to=0 count=65534 access=0"]), "line=1 refusal=8\n");
    assert_eq!(printed(&["op=words to=0 count=65535 access=0"]), "line=1 refusal=3\n");
    assert_eq!(printed(&["op=words to=0 count=65535 access=5"]), "line=1 refusal=1\n");
}
