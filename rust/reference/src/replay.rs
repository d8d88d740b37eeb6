//! Replays a recorded run and writes one line for each answer.

use std::io::Write;

use crate::engine::{self, Answer, Engine, CTS_LENGTH};
use crate::trace::{self, Entry};

/// The entries that the program takes at most.
pub const MAX_ENTRIES: usize = 4_096;

/// What a replay gives.
#[derive(Clone, PartialEq, Eq, Debug)]
pub struct Replay {
    /// The lines, each ended by a line feed.
    pub text: Vec<u8>,
    /// The number of entries taken, refused ones too.
    pub taken: usize,
}

/// Replays a trace, taking at most `budget` entries.
pub fn replay(trace: &[u8], budget: usize) -> Replay {
    let mut text = Vec::new();
    let taken = replay_into(trace, budget, &mut text);
    Replay { text, taken }
}

fn replay_into(trace: &[u8], budget: usize, text: &mut Vec<u8>) -> usize {
    let Some(((n, area, limit), mut place)) = trace::read_set_up(trace) else {
        line(text, format_args!("bad trace at 0"));
        return 0;
    };
    // Numbers outside the limits get no memory; set-up refuses them whatever is lent.
    let bytes = engine::arena_length(n, area, limit).unwrap_or(0);
    let mut arena = vec![0; bytes];
    let mut map = vec![0; bytes / 64];
    let mut engine = match engine::set_up(n, area, limit, arena.len(), &mut map) {
        Ok(engine) => engine,
        Err(number) => {
            line(text, format_args!("setup {number}"));
            return 0;
        }
    };
    line(text, format_args!("setup ok"));

    let mut taken = 0;
    loop {
        if place == trace.len() {
            line(text, format_args!("end {taken}"));
            return taken;
        }
        if taken == budget {
            line(text, format_args!("stopped {taken}"));
            return taken;
        }
        let Some((entry, after)) = trace::read_entry(trace, place) else {
            line(text, format_args!("bad trace at {place}"));
            return taken;
        };
        let answer;
        (engine, answer) = run(engine, &entry, &mut arena, &mut map);
        answer_line(text, answer);
        place = after;
        taken += 1;
    }
}

fn run(engine: Engine, entry: &Entry, arena: &mut [u8], map: &mut [u64]) -> (Engine, Answer) {
    match *entry {
        Entry::Post { peer, receive } => engine.post(peer, receive, arena, map),
        Entry::Packet { peer, bytes } => {
            engine.packet(peer, bytes, &mut [0; CTS_LENGTH], arena, map)
        }
        Entry::Cancel { peer, slot } => engine.cancel(peer, slot, arena, map),
    }
}

fn answer_line(text: &mut Vec<u8>, answer: Answer) {
    match answer {
        Answer::Refused(number) => line(text, format_args!("refused {number}")),
        Answer::Posted(slot) => line(text, format_args!("posted {slot}")),
        Answer::Cancelled(slot) => line(text, format_args!("cancelled {slot}")),
        Answer::Stored => line(text, format_args!("stored")),
        Answer::Granted(length) => line(text, format_args!("granted {length}")),
        Answer::Done {
            slot, id, length, ..
        } => line(text, format_args!("done {slot} {id} {length}")),
        Answer::Truncated { slot, id, length } => {
            line(text, format_args!("truncated {slot} {id} {length}"))
        }
        // No entry asks for a report.
        Answer::Missing { .. } => unreachable!("a trace has no reports"),
    }
}

fn line(text: &mut Vec<u8>, words: std::fmt::Arguments) {
    writeln!(text, "{words}").expect("a vector takes every write");
}
