//! What the calls do to the graph, told with the figures of a bracket.

use compare::call::{Call, Given};
use compare::graph::Graph;
use compare::object::Value;
use compare::partsheet::{SentBack, empty_heap, open};
use compare::refusal::Refusal::{self, *};
use compare::windows::{Kind, Space, Windows};

/// The answer to the last of these lines; the others are granted.
fn answer(graph: &mut Graph, lines: &[&str]) -> Result<(), Refusal> {
    let mut answered = Ok(());
    for line in lines {
        assert_eq!(answered, Ok(()), "before {line}");
        answered = graph.run(compare::text::call(format!("{line}\n").as_bytes()).expect(line));
    }
    answered
}

/// A heap with room for a bracket in each of the three spaces.
fn three_spaces() -> Graph {
    let spaces = [Space::Dynamic, Space::Static, Space::ReadOnly];
    let all = Kind::ALL.into_iter().flat_map(|kind| spaces.map(|space| (kind, space)));
    Graph::new(all.fold(Windows::default(), |windows, (kind, space)| windows.with(kind, space, 64)))
}

#[test]
fn three_lists_fit_in_six_words_and_a_fourth_finds_no_room() {
    let mut graph = Graph::new(Windows::default().with(Kind::List, Space::Dynamic, 6));
    let list = Call::List { to: 0, car: 1, cdr: 0 };
    assert_eq!([(); 4].map(|()| graph.run(list)), [Ok(()), Ok(()), Ok(()), Err(NoRoom)]);
    assert_eq!(graph.run(Call::String { to: 0, count: 0 }), Err(NoRoom));
}

#[test]
fn objects_take_the_words_of_their_kind() {
    let mut graph = empty_heap();
    let lines = ["op=string to=0 count=2", "op=words to=1 count=33 access=0", "op=symbol to=2 name=0"];
    assert_eq!(answer(&mut graph, &lines), Ok(()));
    assert_eq!(answer(&mut graph, &["op=list to=3 car=2 cdr=1", "op=vector to=4 count=0 fill=0"]), Ok(()));
    let words = |register: usize| graph.object(graph.registers()[register]).map(|object| object.words());
    assert_eq!([0, 1, 2, 3, 4].map(words), [3, 4, 6, 2, 1].map(Some));
}

#[test]
fn a_packed_entry_takes_what_its_bits_hold() {
    for (access, greatest) in [(0, 1), (1, 3), (2, 15), (3, 255), (4, 65_535)] {
        let mut graph = empty_heap();
        let words = format!("op=words to=0 count=40 access={access}");
        let put = |number: i32| format!("op=put to=1 value=f{number}");
        let write = "op=write into=0 at=39 value=1";
        let read = ["op=read to=2 from=0 at=39", "op=read to=3 from=0 at=38"];
        assert_eq!(answer(&mut graph, &[&words, &put(greatest), write, read[0], read[1]]), Ok(()));
        assert_eq!(graph.registers()[2..4], [Value::Fixnum(greatest), Value::Fixnum(0)]);
        assert_eq!(answer(&mut graph, &[&put(greatest + 1), write]), Err(Unfit));
        assert_eq!(answer(&mut graph, &[&put(-1), write]), Err(Unfit));
    }
}

#[test]
fn a_fresh_symbol_has_a_name_and_neither_value_nor_definition() {
    let mut graph = empty_heap();
    assert_eq!(answer(&mut graph, &["op=string to=0 count=4", "op=symbol to=1 name=0"]), Ok(()));
    let read = |at| graph.clone().run(Call::Read { to: 2, from: 1, at });
    assert_eq!(
        [0, 1, 2, 3, 4, 5, 6].map(read),
        [Err(Unset), Err(Unset), Ok(()), Ok(()), Ok(()), Ok(()), Err(OutOfRange)]
    );
    assert_eq!(answer(&mut graph, &["op=read to=2 from=1 at=3"]), Ok(()));
    assert_eq!(graph.registers()[2], graph.registers()[0]);
    assert_eq!(answer(&mut graph, &["op=write into=1 at=0 value=1", "op=read to=3 from=1 at=0"]), Ok(()));
    assert_eq!(graph.registers()[3], graph.registers()[1]);
}

#[test]
fn a_property_list_is_null_or_a_list_and_a_name_is_a_string() {
    let mut graph = empty_heap();
    assert_eq!(
        answer(&mut graph, &["op=string to=0 count=4", "op=symbol to=1 name=0", "op=list to=2 car=0 cdr=3"]),
        Ok(())
    );
    let mut write = |at, value| graph.run(Call::Write { into: 1, at, value });
    assert_eq!([0, 1, 2, 3].map(|value| write(2, value)), [Err(Unfit), Err(Unfit), Ok(()), Ok(())]);
    assert_eq!([0, 1, 2, 3].map(|value| write(3, value)), [Ok(()), Err(Unfit), Err(Unfit), Err(Unfit)]);
    assert_eq!([0, 1, 4, 5].map(|at| write(at, 3)), [Ok(()); 4]);
}

#[test]
fn the_smallest_of_several_refusals_comes_back() {
    let mut graph = empty_heap();
    assert_eq!(answer(&mut graph, &["op=string to=0 count=2", "op=words to=1 count=2 access=0"]), Ok(()));
    let refused = [
        ("op=put to=16 value=f134217728", Unknown),
        ("op=words to=2 count=65535 access=5", Unknown),
        ("op=write into=5 at=9 value=16", Unknown),
        ("op=read to=2 from=5 at=9", NoObject),
        ("op=symbol to=2 name=1", NoObject),
        ("op=write into=0 at=2 value=5", OutOfRange),
        ("op=vector to=2 count=65535 fill=0", OutOfRange),
        ("op=put to=2 value=c256", OutOfRange),
        ("op=write into=0 at=1 value=5", Unfit),
        ("op=vector to=2 count=512 fill=0", NoRoom),
    ];
    for (line, refusal) in refused {
        assert_eq!(answer(&mut graph.clone(), &[line]), Err(refusal), "{line}");
    }
}

#[test]
fn a_refused_making_changes_nothing() {
    let mut graph = empty_heap();
    assert_eq!(answer(&mut graph, &["op=vector to=0 count=510 fill=1", "op=vector to=0 count=1 fill=1"]), Err(NoRoom));
    assert_eq!(graph.room(Kind::BVector, Space::Dynamic), 1);
    assert_eq!(graph.object(graph.registers()[0]).map(|object| object.cells.len()), Some(510));
    assert_eq!(answer(&mut graph, &["op=vector to=0 count=0 fill=1"]), Ok(()));
}

#[test]
fn a_read_only_bracket_holds_nothing_dynamic_and_once_frozen_stays_as_it_is() {
    let mut graph = three_spaces();
    assert_eq!(answer(&mut graph, &["op=string to=0 count=4"]), Ok(()));
    graph.set_space(Space::ReadOnly);
    assert_eq!(graph.run(Call::Symbol { to: 1, name: 0 }), Err(HoldsDynamic));
    assert_eq!(graph.run(Call::Vector { to: 1, count: 1, fill: 0 }), Err(HoldsDynamic));
    assert_eq!(graph.run(Call::Vector { to: 1, count: 0, fill: 0 }), Ok(()));
    assert_eq!(answer(&mut graph, &["op=list to=2 car=1 cdr=3", "op=write into=2 at=0 value=0"]), Err(HoldsDynamic));
    graph.freeze();
    assert_eq!(answer(&mut graph, &["op=write into=2 at=0 value=0"]), Err(Frozen));
    assert_eq!(answer(&mut graph, &["op=write into=2 at=2 value=0"]), Err(OutOfRange));
    assert_eq!(answer(&mut graph, &["op=list to=4 car=1 cdr=3", "op=write into=4 at=1 value=4"]), Ok(()));
}

#[test]
fn a_static_bracket_may_hold_a_dynamic_name() {
    let mut graph = three_spaces();
    assert_eq!(answer(&mut graph, &["op=string to=0 count=4"]), Ok(()));
    graph.set_space(Space::Static);
    assert_eq!(answer(&mut graph, &["op=symbol to=1 name=0"]), Ok(()));
    assert_eq!([Space::Dynamic, Space::Static].map(|space| graph.room(Kind::Symbol, space)), [64, 58]);
}

#[test]
fn a_refused_line_leaves_the_earlier_work_and_the_former_space() {
    let mut graph = three_spaces();
    let text = b"op=string to=0 count=4\nop=list to=1 car=0 cdr=9\nop=read to=2 from=3 at=0\nop=put to=0 value=n\n";
    assert_eq!(open(&mut graph, text, Space::Static), Err(SentBack { line: 3, refusal: NoObject }));
    assert_eq!(graph.space(), Space::Dynamic);
    assert_eq!(graph.object(graph.registers()[1]).map(|object| object.space), Some(Space::Static));
    assert_eq!(graph.run(Call::Put { to: 0, value: Given::Null }), Ok(()));
}
