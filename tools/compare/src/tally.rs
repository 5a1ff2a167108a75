//! How many texts were accepted, and how many got each refusal.

use std::collections::BTreeMap;
use std::fmt;

use crate::refusal::Refusal;

/// The texts counted so far.
#[derive(Default)]
pub struct Tally {
    accepted: usize,
    refused: BTreeMap<Refusal, usize>,
}

impl Tally {
    /// Counts one text, by the refusal that it got if it got one.
    pub fn count(&mut self, refusal: Option<Refusal>) {
        match refusal {
            None => self.accepted += 1,
            Some(refusal) => *self.refused.entry(refusal).or_default() += 1,
        }
    }

    /// The texts that got this refusal.
    pub fn refused(&self, refusal: Refusal) -> usize {
        self.refused.get(&refusal).copied().unwrap_or(0)
    }

    /// All texts counted.
    pub fn texts(&self) -> usize {
        self.accepted + self.refused.values().sum::<usize>()
    }

    /// What the texts failed to try: a refusal never seen, or too few texts accepted.
    pub fn gaps(&self) -> Vec<String> {
        let unseen = Refusal::IN_DYNAMIC_SPACE.into_iter().filter(|refusal| self.refused(*refusal) == 0);
        let mut gaps: Vec<String> = unseen.map(|refusal| format!("no text got refusal {}", refusal.number())).collect();
        if 100 * self.accepted < 40 * self.texts() {
            gaps.push("fewer than 40 in 100 texts were accepted".to_string());
        }
        gaps
    }
}

impl fmt::Display for Tally {
    fn fmt(&self, out: &mut fmt::Formatter) -> fmt::Result {
        write!(out, "accepted={}", self.accepted)?;
        for refusal in Refusal::IN_DYNAMIC_SPACE {
            write!(out, " refusal{}={}", refusal.number(), self.refused(refusal))?;
        }
        Ok(())
    }
}
