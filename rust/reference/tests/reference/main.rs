//! The tests of the receiver, one module for each subject.

mod support;

mod cases;
mod grants;
mod matching;
mod packed;
mod packets;
mod refusals;
mod replays;
mod runs;
mod states;
mod traces;
