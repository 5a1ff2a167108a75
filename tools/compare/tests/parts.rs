//! What the sample parts hold once they are opened.

use compare::graph::Graph;
use compare::object::Value;
use compare::partsheet::{empty_heap, open};
use compare::text::TEXT_LIMIT;
use compare::windows::Space;

/// The heap after a sample part was opened.
fn opened(part: &str) -> Graph {
    let file = format!("{}/../../parts/{part}.part", env!("CARGO_MANIFEST_DIR"));
    let text = std::fs::read(&file).unwrap_or_else(|error| panic!("{file}: {error}"));
    assert!(text.len() <= TEXT_LIMIT);
    let mut graph = empty_heap();
    assert_eq!(open(&mut graph, &text, Space::Dynamic), Ok(()));
    graph
}

/// What a cell holds.
fn cell(graph: &Graph, object: Value, at: usize) -> Value {
    graph.object(object).and_then(|object| object.cells[at]).expect("a cell that is set")
}

/// What all cells of an object hold.
fn cells(graph: &Graph, object: Value) -> Vec<Value> {
    graph.object(object).expect("an object").cells.iter().map(|cell| cell.expect("a cell that is set")).collect()
}

/// The numbers in an object.
fn numbers(graph: &Graph, object: Value) -> Vec<i32> {
    let number = |value: Value| match value {
        Value::Fixnum(number) => number,
        other => panic!("{other:?} is no number"),
    };
    cells(graph, object).into_iter().map(number).collect()
}

/// The numbers in each object of a vector.
fn rows(graph: &Graph, vector: Value) -> Vec<Vec<i32>> {
    cells(graph, vector).into_iter().map(|row| numbers(graph, row)).collect()
}

/// The characters of a string.
fn spelt(graph: &Graph, string: Value) -> String {
    let character = |value: Value| match value {
        Value::Character(code) => char::from(code),
        other => panic!("{other:?} is no character"),
    };
    cells(graph, string).into_iter().map(character).collect()
}

/// The value that a property list has for a key of this name.
fn property(graph: &Graph, mut list: Value, key: &str) -> Value {
    while list != Value::Null {
        let (symbol, rest) = (cell(graph, list, 0), cell(graph, list, 1));
        if spelt(graph, cell(graph, symbol, 3)) == key {
            return cell(graph, rest, 0);
        }
        list = cell(graph, rest, 1);
    }
    panic!("no property {key}");
}

/// The name of the part in register 0, and a way to its properties.
fn part(graph: &Graph) -> (String, impl Fn(&str) -> Value) {
    let symbol = graph.registers()[0];
    let properties = cell(graph, symbol, 2);
    (spelt(graph, cell(graph, symbol, 3)), move |key: &str| property(graph, properties, key))
}

#[test]
fn the_plain_bracket_has_one_bend_and_four_holes() {
    let graph = opened("l-bracket");
    let (name, of) = part(&graph);
    assert_eq!((name.as_str(), spelt(&graph, of("MATERIAL")).as_str()), ("L-BRACKET", "DC01"));
    assert_eq!([of("THICKNESS"), of("BEND-ALLOWANCE")], [200, 452].map(Value::Fixnum));
    assert_eq!(numbers(&graph, of("BLANK")), [9_652, 3_000]);
    assert_eq!(rows(&graph, of("BENDS")), [[3_826, 9_000, 200]]);
    let holes = [[1_200, 800, 550], [1_200, 2_200, 550], [8_152, 800, 660], [8_152, 2_200, 660]];
    assert_eq!(rows(&graph, of("HOLES")), holes);
    assert_eq!(cell(&graph, graph.registers()[0], 0), of("HOLES"));
}

#[test]
fn the_slotted_bracket_has_two_holes_and_three_slots() {
    let graph = opened("slotted-bracket");
    let (name, of) = part(&graph);
    assert_eq!((name.as_str(), spelt(&graph, of("MATERIAL")).as_str()), ("SLOTTED-BRACKET", "S235JR"));
    assert_eq!([of("THICKNESS"), of("BEND-ALLOWANCE")], [300, 679].map(Value::Fixnum));
    assert_eq!(numbers(&graph, of("BLANK")), [12_479, 6_000]);
    assert_eq!(rows(&graph, of("BENDS")), [[4_739, 9_000, 300]]);
    assert_eq!(rows(&graph, of("HOLES")), [[2_000, 1_200, 900], [2_000, 4_800, 900]]);
    let slots = [[9_900, 1_500, 2_000, 900, 0], [9_900, 4_500, 2_000, 900, 0], [7_200, 3_000, 1_600, 700, 9_000]];
    assert_eq!(rows(&graph, of("SLOTS")), slots);
    assert_eq!(cell(&graph, graph.registers()[0], 0), of("SLOTS"));
}

#[test]
fn the_cover_has_an_open_hem_on_its_front_edge() {
    let graph = opened("hemmed-cover");
    let (name, of) = part(&graph);
    assert_eq!((name.as_str(), spelt(&graph, of("MATERIAL")).as_str()), ("HEMMED-COVER", "DX51D"));
    assert_eq!([of("THICKNESS"), of("BEND-ALLOWANCE")], [80, 210].map(Value::Fixnum));
    assert_eq!(numbers(&graph, of("BLANK")), [33_700, 20_591]);
    assert_eq!(rows(&graph, of("BENDS")), [[1_925, 9_000, 100], [31_775, 9_000, 100]]);
    let hem = |key: &str| property(&graph, of("HEM"), key);
    assert_eq!(spelt(&graph, cell(&graph, hem("STYLE"), 3)), "OPEN");
    assert_eq!(["LINE", "RETURN", "GAP", "ALLOWANCE"].map(hem), [596, 600, 80, 231].map(Value::Fixnum));
    assert_eq!(numbers(&graph, of("HEMMED-EDGES")), [1, 0, 0, 0]);
    assert_eq!(spelt(&graph, of("NOTE")), "FOLD HEM FIRST");
    assert_eq!(rows(&graph, of("HOLES")).len(), 4);
}
