//! What the random texts of a seed are like.

use compare::generate::random::Random;
use compare::generate::{ROUND, deep, focused, limits, refused, text};
use compare::partsheet::sheet;
use compare::refusal::Refusal;
use compare::tally::Tally;
use compare::text::{TEXT_LIMIT, lines};

/// The refusal that a text gets, if it gets one.
fn refusal(text: &[u8]) -> Option<Refusal> {
    sheet(text).1.map(|sent_back| sent_back.refusal)
}

/// The streams of a few seeds.
fn streams() -> impl Iterator<Item = Random> {
    (0..60).map(|seed| Random::new(seed, 0))
}

#[test]
fn a_seed_gives_the_same_texts_again_and_another_seed_others() {
    for number in 0..2 * ROUND {
        assert_eq!(text(5, number), text(5, number));
    }
    assert_ne!(text(5, 0), text(6, 0));
    assert_ne!(text(5, 0), text(5, 1));
}

#[test]
fn two_thousand_texts_leave_no_gap() {
    let mut tally = Tally::default();
    (0..2_000).for_each(|number| tally.count(refusal(&text(1, number))));
    assert_eq!(tally.texts(), 2_000);
    assert_eq!(tally.gaps(), Vec::<String>::new());
}

#[test]
fn good_texts_are_accepted_and_some_have_hundreds_of_lines() {
    let mut longest = 0;
    for mut random in streams() {
        let (deep, focused) = (deep::deep(&mut random), focused::focused(&mut random));
        assert_eq!((refusal(&deep), refusal(&focused)), (None, None));
        longest = longest.max(lines(&deep).count());
    }
    assert!(longest > 400, "{longest} lines");
}

#[test]
fn a_text_meant_for_a_refusal_gets_it() {
    for mut random in streams() {
        for wanted in refused::OF_A_CALL {
            assert_eq!(refusal(&refused::refused(&mut random, wanted)), Some(wanted));
        }
    }
}

#[test]
fn texts_at_the_greatest_length_are_accepted_and_longer_ones_are_not() {
    for mut random in streams() {
        let (exact, over) = (limits::exact_length(&mut random), limits::over_length(&mut random));
        assert_eq!((exact.len(), refusal(&exact)), (TEXT_LIMIT, None));
        assert!(over.len() > TEXT_LIMIT);
        assert_eq!(refusal(&over), Some(Refusal::TooLong));
    }
}

#[test]
fn full_windows_are_accepted_or_find_no_room() {
    let answers: Vec<Option<Refusal>> =
        streams().map(|mut random| refusal(&limits::full_window(&mut random))).collect();
    assert!(answers.iter().all(|answer| matches!(answer, None | Some(Refusal::NoRoom))));
    assert!(answers.contains(&None) && answers.contains(&Some(Refusal::NoRoom)));
}
