//! A receiver for two-sided messages of EFA RDM protocol v4, written from the specification alone.
//!
//! It exists to be compared, call by call, with another implementation. So it is written plainly,
//! its state is open to the tests, and every result is one of the specification's numbers.

pub mod bits;
pub mod engine;
pub mod packed;
pub mod packet;
pub mod refusal;
pub mod replay;
pub mod trace;
