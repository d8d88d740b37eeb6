//! Runs in the packed form, from any state.

use std::fmt::Write;
use std::ops::Range;

use reference::engine::Engine;
use reference::packed::{self, ANSWER_WORDS, CALL_WORDS, PEER_WORDS, SLOT_WORDS, STATE_WORDS};

use crate::calls::{Call, Guide, Kinds};
use crate::case::{differences, hex, Case};
use crate::coverage::{Coverage, EMPTY_IN_RUN};
use crate::random::Random;
use crate::starts::Starts;
use crate::states;

#[derive(Clone)]
pub struct Run {
    calls: Vec<[u64; CALL_WORDS]>,
    /// Words behind the calls, too few for one more.
    rest: Vec<u64>,
    bytes: Vec<u8>,
    lent: Lent,
}

/// What a run is lent to be written; its contents afterwards are the outcome.
#[derive(Clone, PartialEq)]
pub struct Lent {
    state: Vec<u64>,
    arena: Vec<u8>,
    map: Vec<u64>,
    replies: Vec<u8>,
    answers: Vec<u64>,
    /// How many calls were run.
    ran: usize,
}

/// Set-up numbers within the limits.
pub fn numbers(random: &mut Random) -> (u64, u64, u64) {
    let n = random.pick(&[1, 2, 2, 3, 8]);
    let area = 64 * random.pick(&[1, 2, 4, 4, 8, 16, 128]);
    let limit = random.pick(&[64, 65, 96, 96, 200, 1_000, 8_192]);
    (n, area, limit)
}

/// A long run from a fresh state; in one of four the next ids were moved to where their circle closes.
pub fn fresh(random: &mut Random) -> Run {
    let (n, area, limit) = numbers(random);
    let mut lent = lent(random, n * area);
    packed::set_up(n, area, limit, &lent.arena, &mut lent.map, &mut lent.state)
        .expect("numbers and lengths are right");
    if random.chance(25) {
        for peer in 0..8 {
            lent.state[3 + peer * PEER_WORDS] = u64::from(states::next_id(random));
        }
    }
    let calls = random.pick(&[20, 100, 300, 512]);
    guided(random, lent, calls)
}

/// A run from a state that can be, but that no run need reach.
pub fn any_state(random: &mut Random) -> Run {
    let (n, area, limit) = numbers(random);
    let mut lent = lent(random, n * area);
    lent.state = states::any(random, n, area, limit);
    let calls = random.within(1, 60) as usize;
    guided(random, lent, calls)
}

/// A short run from a state that can't be, or with the wrong memory lent.
pub fn spoilt(random: &mut Random) -> Run {
    let (n, area, limit) = numbers(random);
    let mut lent = lent(random, n * area);
    lent.state = states::any(random, n, area, limit);
    if random.chance(20) {
        match random.below(3) {
            0 => lent.arena.push(0),
            1 => lent.map.push(0),
            _ => {
                lent.arena.truncate(random.below(n * area) as usize);
                lent.map.truncate(lent.arena.len() / 64);
            }
        }
    } else {
        states::spoil(random, &mut lent.state);
    }
    let calls = random.within(1, 6) as usize;
    guided(random, lent, calls)
}

/// Memory of any content for this many arena bytes, without answers.
fn lent(random: &mut Random, arena: u64) -> Lent {
    let arena = random.bytes(arena as usize);
    let replies = random.within(40, 200) as usize;
    Lent {
        state: vec![random.next(); STATE_WORDS],
        map: random.map(arena.len() / 64),
        arena,
        replies: random.bytes(replies),
        answers: Vec::new(),
        ran: 0,
    }
}

/// A run with these many calls, each guided by the state that those before it leave.
fn guided(random: &mut Random, mut lent: Lent, count: usize) -> Run {
    let engine = packed::read_state(&lent.state).unwrap_or(Engine::IMPOSSIBLE);
    let (arena, map) = (lent.arena.clone(), lent.map.clone());
    let mut guide = Guide::new(random, engine, arena, map, Kinds::Run);
    let list: Vec<Call> = (0..count).map(|_| guide.next()).collect();
    let mut bytes = random.bytes(3);
    let mut calls: Vec<[u64; CALL_WORDS]> = list
        .iter()
        .map(|call| words_of(random, call, &mut bytes, lent.replies.len()))
        .collect();
    if random.chance(5) {
        let place = count - 1 - random.below(count as u64) as usize / 4;
        calls[place] = no_call(random, calls[place], bytes.len() as u64);
    }
    let extra = random.below(CALL_WORDS as u64) as usize;
    let answers = match random.below(20) {
        0 => random.below(8 * count as u64) as usize,
        1 => 8 * count + 9,
        _ => 8 * count,
    };
    lent.answers = (0..answers).map(|_| random.next()).collect();
    Run {
        calls,
        rest: vec![1; extra],
        bytes,
        lent,
    }
}

/// A call's words. Its bytes are put behind those of the calls before it, its reply buffer anywhere.
fn words_of(
    random: &mut Random,
    call: &Call,
    bytes: &mut Vec<u8>,
    replies: usize,
) -> [u64; CALL_WORDS] {
    let mut words = match call {
        Call::Post { peer, receive } => packed::post_words(*peer, receive),
        Call::Packet {
            peer,
            bytes: packet,
            reply,
        } => {
            let place = (bytes.len() as u64, packet.len() as u64);
            bytes.extend_from_slice(packet);
            let free = (replies - reply) as u64;
            packed::packet_words(*peer, place, (random.below(free + 1), *reply as u64))
        }
        Call::Cancel { peer, slot } => packed::cancel_words(*peer, *slot),
        Call::Report { peer, slot } => packed::report_words(*peer, *slot),
    };
    // what is in an unused word means nothing
    let used = [0, 7, 6, 3, 3][words[0] as usize];
    if random.chance(10) {
        words[used..].fill(random.next());
    }
    words
}

/// A call's words changed so that they are none.
fn no_call(random: &mut Random, call: [u64; CALL_WORDS], bytes: u64) -> [u64; CALL_WORDS] {
    let mut words = call;
    match call[0] {
        1 => words[2] = random.pick(&[2, u64::MAX]),
        2 => {
            let outside = random.pick(&[bytes + 1, u64::MAX, 1 << 32]);
            words[2 + random.below(4) as usize] = outside;
        }
        _ => words[0] = random.pick(&[0, 5, u64::MAX]),
    }
    words
}

impl Run {
    fn call_words(&self) -> Vec<u64> {
        let mut words = self.calls.concat();
        words.extend_from_slice(&self.rest);
        words
    }

    /// The bytes that a call lends, if it is a packet and they are there.
    fn packet_of(&self, call: &[u64; CALL_WORDS]) -> Option<&[u8]> {
        let place = call[2] as usize;
        let end = place.checked_add(call[3] as usize)?;
        self.bytes.get(place..end).filter(|_| call[0] == 2)
    }

    fn ended_by(&self, run: RunFunction) -> Lent {
        let mut lent = self.lent.clone();
        lent.ran = run(
            &mut lent.state,
            &mut lent.arena,
            &mut lent.map,
            &self.call_words(),
            &self.bytes,
            &mut lent.replies,
            &mut lent.answers,
        );
        lent
    }

    /// The run from where its first call leaves the independent receiver, if it has one.
    fn after_first_call(&self) -> Option<Run> {
        let mut first = self.clone();
        first.calls.truncate(1);
        let left = first.reference();
        (left.ran == 1).then(|| Run {
            lent: Lent {
                answers: self.lent.answers.clone(),
                ran: 0,
                ..left
            },
            ..self.without(0..1)
        })
    }

    fn with_state(&self, change: impl FnOnce(&mut [u64])) -> Run {
        let mut run = self.clone();
        change(&mut run.lent.state);
        run
    }
}

type RunFunction =
    fn(&mut [u64], &mut [u8], &mut [u64], &[u64], &[u8], &mut [u8], &mut [u64]) -> usize;

impl Case for Run {
    type Outcome = Lent;

    fn reference(&self) -> Lent {
        self.ended_by(packed::run)
    }

    fn verified(&self) -> Lent {
        self.ended_by(quagfeather::run)
    }

    fn count(&self, outcome: &Lent, coverage: &mut Coverage) {
        let mut starts = Starts::in_place(EMPTY_IN_RUN);
        let answers = outcome.answers.chunks_exact(ANSWER_WORDS);
        for (call, answer) in self.calls.iter().zip(answers).take(outcome.ran) {
            coverage.answer(answer[0], answer[1]);
            if let Some(packet) = self.packet_of(call) {
                starts.packet(call[1], packet, answer, coverage);
            }
        }
        if outcome.ran < self.calls.len().min(outcome.answers.len() / ANSWER_WORDS) {
            coverage.ended_early();
        }
    }

    fn calls(&self) -> usize {
        self.calls.len()
    }

    fn without(&self, calls: Range<usize>) -> Run {
        let mut run = self.clone();
        run.calls.drain(calls);
        run
    }

    /// The first call made already, fresh slots and next ids, an empty map, an arena of zeros.
    fn simpler(&self) -> Vec<Run> {
        let mut runs: Vec<Run> = self.after_first_call().into_iter().collect();
        let state = &self.lent.state;
        let mut places: Vec<Range<usize>> = Vec::new();
        if state.len() == STATE_WORDS {
            for peer in (3..STATE_WORDS).step_by(PEER_WORDS) {
                places.push(peer..peer + 1);
                let slots = (peer + 1..peer + PEER_WORDS).step_by(SLOT_WORDS);
                places.extend(slots.map(|slot| slot..slot + SLOT_WORDS));
            }
        }
        places.retain(|words| state[words.clone()].iter().any(|word| *word != 0));
        runs.extend(
            places
                .into_iter()
                .map(|words| self.with_state(|state| state[words].fill(0))),
        );
        if self.lent.map.iter().any(|word| *word != 0) {
            let mut run = self.clone();
            run.lent.map.fill(0);
            runs.push(run);
        }
        if self.lent.arena.iter().any(|byte| *byte != 0) {
            let mut run = self.clone();
            run.lent.arena.fill(0);
            runs.push(run);
        }
        runs
    }

    fn describe(&self, reference: &Lent, verified: &Lent) -> String {
        let mut text = self.described();
        let answers = reference.answers.chunks(ANSWER_WORDS);
        let answers = answers.zip(verified.answers.chunks(ANSWER_WORDS));
        for (number, (answer, other)) in answers.take(self.calls.len()).enumerate() {
            let _ = writeln!(
                text,
                "answer {number}: reference {answer:?}, verified {other:?}"
            );
        }
        let _ = writeln!(
            text,
            "run: reference {}, verified {}",
            reference.ran, verified.ran
        );
        text + &differences("state word", &reference.state, &verified.state)
            + &differences("arena byte", &reference.arena, &verified.arena)
            + &differences("map word", &reference.map, &verified.map)
            + &differences("replies byte", &reference.replies, &verified.replies)
    }
}

impl Run {
    fn described(&self) -> String {
        let mut text = String::new();
        let state = &self.lent.state;
        let numbers = &state[..state.len().min(3)];
        let _ = writeln!(text, "state of {} words, numbers {numbers:?}", state.len());
        let places = (3..state.len()).filter(|place| state[*place] != 0);
        for place in places {
            let _ = writeln!(text, "state word {place}: {}", state[place]);
        }
        let (arena, map) = (self.lent.arena.len(), &self.lent.map);
        let _ = writeln!(text, "arena of {arena} bytes, map of {} words", map.len());
        for (place, word) in map.iter().enumerate().filter(|(_, word)| **word != 0) {
            let _ = writeln!(text, "map word {place}: {word:#018x}");
        }
        for (number, call) in self.calls.iter().enumerate() {
            let _ = writeln!(text, "call {number}: {call:?}");
            if let Some(packet) = self.packet_of(call) {
                let _ = writeln!(text, "        {}", hex(packet));
            }
        }
        text
    }
}
