//! Which answers, refusals and lines were reached, and how often.

use std::collections::BTreeMap;

/// Where an outcome was seen, the word for it, and a refusal's number (0 for other words).
type Key = (&'static str, &'static str, u64);

/// The words of answers, by their first word in the packed form.
const ANSWERS: [&str; 8] = [
    "refused",
    "posted",
    "cancelled",
    "stored",
    "granted",
    "done",
    "truncated",
    "missing",
];

/// The lines of a replay that are no answers.
const LINES: [&str; 5] = ["setup ok", "setup 1", "end", "stopped", "bad trace at"];

/// Where answers to long messages that start empty are counted once more.
pub const EMPTY_IN_RUN: &str = "run of an empty start";
pub const EMPTY_IN_REPLAY: &str = "replay of an empty start";

#[derive(Default)]
pub struct Coverage {
    counts: BTreeMap<Key, u64>,
    calls: u64,
}

impl Coverage {
    /// Counts a call's answer, given by its first two words.
    pub fn answer(&mut self, word: u64, number: u64) {
        self.add(key_of("run", word, number));
        self.calls += 1;
    }

    /// Counts an answer once more that was one to a long message that started empty.
    pub fn started_empty(&mut self, place: &'static str, word: u64, number: u64) {
        self.add(key_of(place, word, number));
    }

    /// Counts what a function other than run and replay answered: 0 or a refusal.
    pub fn result(&mut self, function: &'static str, number: u64) {
        let word = if number == 0 { "taken" } else { "refused" };
        self.add((function, word, number));
    }

    pub fn ended_early(&mut self) {
        self.add(("run", "ended before what is no call", 0));
    }

    /// Counts the lines of a replay.
    pub fn text(&mut self, text: &[u8]) {
        for line in String::from_utf8_lossy(text).lines() {
            let words = ANSWERS.iter().chain(&LINES);
            let word = words.copied().find(|word| line.starts_with(word));
            let number = line
                .strip_prefix("refused ")
                .and_then(|number| number.parse().ok());
            self.add(("replay", word.unwrap_or("unknown"), number.unwrap_or(0)));
            self.calls += u64::from(word.is_some_and(|word| ANSWERS.contains(&word)));
        }
    }

    fn add(&mut self, key: Key) {
        *self.counts.entry(key).or_default() += 1;
    }

    fn of(&self, key: &Key) -> u64 {
        self.counts.get(key).copied().unwrap_or(0)
    }

    /// The posts, packets, cancels and reports made, in runs and in replays.
    pub fn calls(&self) -> u64 {
        self.calls
    }

    /// Prints how often each was reached, and gives those that never were.
    pub fn print(&self) -> Vec<String> {
        let mut missing = Vec::new();
        for key in wanted() {
            let (place, word, number) = key;
            let name = match number {
                0 => format!("{place}: {word}"),
                _ => format!("{place}: {word} {number}"),
            };
            println!("{:>10}  {name}", self.of(&key));
            if self.of(&key) == 0 {
                missing.push(name);
            }
        }
        missing
    }
}

/// The key of an answer, given by its first two words.
fn key_of(place: &'static str, word: u64, number: u64) -> Key {
    let word = ANSWERS[word as usize];
    let number = if word == "refused" { number } else { 0 };
    (place, word, number)
}

/// The words of the answer that a line of a replay gives, none if it gives no answer.
pub fn answer_in(line: &str) -> Option<Vec<u64>> {
    let mut parts = line.split(' ');
    let word = parts.next()?;
    let first = ANSWERS.iter().position(|answer| *answer == word)? as u64;
    let rest = parts.map(|part| part.parse().ok());
    std::iter::once(Some(first)).chain(rest).collect()
}

/// Everything that can be reached. A replay's state and lent lengths are always right, its reply
/// buffer has 24 bytes and it has no reports, so some of a run's outcomes are none of its.
fn wanted() -> Vec<Key> {
    let answers = &ANSWERS[1..];
    let run = answers.iter().map(|word| ("run", *word, 0));
    let run = run.chain([("run", "ended before what is no call", 0)]);
    let replay = answers.iter().filter(|word| **word != "missing");
    let replay = replay.chain(&LINES).map(|word| ("replay", *word, 0));
    run.chain(refused("run", &(2..=20).collect::<Vec<_>>()))
        .chain(result("set-up", &[1]))
        .chain(result("read", &[6, 7, 8, 9, 10, 11, 21]))
        .chain(result("read of an empty start", &[11]))
        .chain(result("write", &[6, 9, 10, 11, 21]))
        .chain(result("write of an empty start", &[11]))
        .chain(result("write of a wide field", &[6, 9, 10, 11, 21]))
        .chain(result("write of a wide connid", &[9, 10, 11, 21]))
        .chain(result("overlap test", &[3, 16]))
        .chain(result("mark untested", &[3]))
        .chain(result("mark", &[3, 16]))
        .chain(replay)
        .chain(refused(
            "replay",
            &[4, 6, 7, 8, 9, 10, 11, 12, 13, 14, 15, 16, 17, 18, 19, 20],
        ))
        .chain(started_empty(EMPTY_IN_RUN))
        .chain(started_empty(EMPTY_IN_REPLAY))
        .collect()
}

/// What comes of long messages that start empty; refused is one without a length.
fn started_empty(place: &'static str) -> Vec<Key> {
    let answers = ["granted", "truncated", "done"];
    let answers = answers.iter().map(|word| (place, *word, 0));
    answers.chain(refused(place, &[11])).collect()
}

fn refused(place: &'static str, numbers: &[u64]) -> Vec<Key> {
    numbers
        .iter()
        .map(|number| (place, "refused", *number))
        .collect()
}

fn result(function: &'static str, numbers: &[u64]) -> Vec<Key> {
    let mut keys = vec![(function, "taken", 0)];
    keys.extend(refused(function, numbers));
    keys
}
