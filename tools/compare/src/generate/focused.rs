//! Good texts about a few neighbouring objects of one kind, whose entries all the registers then show.

use crate::call::Call;
use crate::ranges::ACCESS_MAX;
use crate::windows::Kind;

use super::deep::value;
use super::draft::{Draft, index};
use super::random::Random;

/// The register through which values pass, and the one that has the string for symbols' names.
const PASSING: u32 = 15;
const NAME: u32 = 14;

/// A good text that writes all over a few neighbours of one kind and reads them back.
pub fn focused(random: &mut Random) -> Vec<u8> {
    let mut draft = Draft::empty();
    let kind = random.pick(&[Kind::UVector, Kind::UVector, Kind::String, Kind::BVector, Kind::Symbol, Kind::List]);
    draft.add(Call::String { to: NAME, count: random.below(6) as u32 });
    let neighbours: Vec<u32> = (0..random.between(1, 4) as u32).collect();
    for to in &neighbours {
        make(random, &mut draft, kind, *to);
    }
    for _ in 0..random.between(10, 150) {
        let into = random.pick(&neighbours);
        write(random, &mut draft, into);
    }
    for to in neighbours.len() as u32..=PASSING {
        let from = random.pick(&neighbours);
        read(random, &mut draft, from, to);
    }
    for from in neighbours {
        read(random, &mut draft, from, from);
    }
    draft.text
}

/// Makes an object of the kind, its size often one at which a word is just full.
fn make(random: &mut Random, draft: &mut Draft, kind: Kind, to: u32) {
    let access = random.between(0, ACCESS_MAX as usize) as u32;
    let words = random.pick(&[1, 1, 2, 3, 8, 40]);
    let about = |in_word: usize, random: &mut Random| (words * in_word + random.below(3) - 1) as u32;
    draft.put(PASSING, -7);
    draft.add(match kind {
        Kind::UVector => Call::Words { to, count: about(32 >> access, random), access },
        Kind::String => Call::String { to, count: about(4, random) },
        Kind::BVector => Call::Vector { to, count: about(1, random), fill: PASSING },
        Kind::Symbol => Call::Symbol { to, name: NAME },
        Kind::List => Call::List { to, car: PASSING, cdr: to.saturating_sub(1) },
    });
}

/// Writes a value that the entry takes, often the least or the greatest.
fn write(random: &mut Random, draft: &mut Draft, into: u32) {
    let Some(object) = draft.held(into) else { return };
    let (kind, bits, at) = (object.kind, object.bits, index(random, object));
    match kind {
        Kind::UVector => {
            let greatest = (1 << bits) - 1;
            let any = random.below(greatest as usize + 1) as i32;
            draft.put(PASSING, random.pick(&[0, greatest, greatest, any, any]))
        }
        Kind::String => {
            let any = random.below(256) as u8;
            draft.put_character(PASSING, random.pick(&[0, 255, any, any]))
        }
        Kind::BVector | Kind::Symbol | Kind::List => draft.add(Call::Put { to: PASSING, value: value(random) }),
    };
    let object = if random.once_in(4) { random.below(4) as u32 } else { PASSING };
    if !draft.add(Call::Write { into, at, value: object }) {
        draft.add(Call::Write { into, at, value: PASSING });
    }
}

/// Reads some entry, if it is set.
fn read(random: &mut Random, draft: &mut Draft, from: u32, to: u32) {
    if let Some(at) = draft.held(from).map(|object| index(random, object)) {
        draft.add(Call::Read { to, from, at });
    }
}
