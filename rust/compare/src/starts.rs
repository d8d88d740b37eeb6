//! Long messages that start empty, followed from their RTM to their end.

use std::collections::BTreeSet;

use crate::coverage::Coverage;
use crate::packets;

/// First words of answers in the packed form.
const REFUSED: u64 = 0;
const GRANTED: u64 = 4;
const DONE: u64 = 5;
const TRUNCATED: u64 = 6;

/// The refusal of a message without a length.
const LENGTH: u64 = 11;

/// Follows those of one case.
pub struct Starts {
    place: &'static str,
    /// Peer and id of those that were granted and are not done. A cancelled one stays, which does
    /// no harm: no case is long enough for its id to come round.
    granted: BTreeSet<(u64, u64)>,
}

impl Starts {
    pub fn in_place(place: &'static str) -> Starts {
        Starts {
            place,
            granted: BTreeSet::new(),
        }
    }

    /// Counts the answer to a packet, given by its words, if it is one to a message that starts
    /// empty or ends a message that did.
    pub fn packet(&mut self, peer: u64, bytes: &[u8], answer: &[u64], coverage: &mut Coverage) {
        let start = || packets::empty_start(bytes);
        let counts = match answer[0] {
            REFUSED => answer[1] == LENGTH && start().is_some(),
            GRANTED => start().is_some_and(|id| self.granted.insert((peer, id))),
            TRUNCATED => start().is_some(),
            DONE => self.granted.remove(&(peer, answer[2])),
            _ => false,
        };
        if counts {
            coverage.started_empty(self.place, answer[0], answer[1]);
        }
    }
}
