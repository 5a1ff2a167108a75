//! The random texts of a seed, in a fixed mixture of good, refused, damaged and limit texts.

pub mod cases;
pub mod damaged;
pub mod deep;
pub mod draft;
pub mod focused;
pub mod limits;
pub mod misspelt;
pub mod random;
pub mod refused;

use random::Random;
use refused::OF_A_CALL;

/// The texts after which the mixture starts again.
pub const ROUND: u64 = 20;

/// The text of this number for a seed: in each round ten are good, and of the others some.
pub fn text(seed: u64, number: u64) -> Vec<u8> {
    let random = &mut Random::new(seed, number);
    let (round, place) = ((number / ROUND) as usize, (number % ROUND) as usize);
    match place {
        0..7 => deep::deep(random),
        7..10 => focused::focused(random),
        10 => limits::full_window(random),
        11 => match round % 4 {
            0 => limits::exact_length(random),
            1 => limits::over_length(random),
            2 => limits::one_object(random),
            _ => limits::tiny(random),
        },
        12 | 13 => refused::refused(random, OF_A_CALL[(2 * round + place - 12) % OF_A_CALL.len()]),
        14 => damaged::damaged(random),
        15 | 16 => misspelt::misspelt(random, 2 * round + place - 15),
        _ => cases::case(3 * round + place - 17),
    }
}
