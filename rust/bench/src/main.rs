//! Measures the verified library and the independent receiver in one process, on the same input.
//!
//!     make bench
//!
//! Each workload is prepared once and run by both in turn, and what they answer and write is compared.
//! The result is a text in markdown, with a table for each kind of workload. The exit status is 1 if
//! marking by whole words is not eight times as fast as bit by bit.

mod machine;
mod marks;
mod measure;
mod parts;
mod runs;
mod workload;

use std::process::ExitCode;

fn main() -> ExitCode {
    machine::print();
    runs::print();
    parts::print();
    if marks::print() {
        ExitCode::SUCCESS
    } else {
        ExitCode::FAILURE
    }
}
