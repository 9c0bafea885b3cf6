//! Document 01 a second time, in plain Rust, to hold the product against.
//!
//! Written from the paper alone. It has no proof; what speaks for it is that it is short, that it is another hand's
//! reading of the same sentences, and that it agrees with the product over many logs (`host/differential`).
//!
//! * [`probe`]: the calls (opening, packet, clock), the refusals and lateness; beside it, not public, the five steps
//!   (`judging`, of which only the cases of step 4 are told, for reports) and what sections and lists do (`building`)
//! * [`sections`]: section memory and how far a section in it has come
//! * [`crc`]: CRC_32, one bit after the other
//! * [`severity`]: the classes of A/78
//! * [`testdata`]: the sections of DVB A046
//! * [`text`]: what the program `tsevents` prints
//! * [`streams`]: packets and sections as a multiplexer makes them, for tests
#![forbid(unsafe_code)]

mod building;
pub mod crc;
mod judging;
pub mod probe;
pub mod sections;
pub mod severity;
pub mod streams;
pub mod testdata;
pub mod text;

pub use judging::{case_met, Case};
pub use probe::{clock, open, packet, Entry, Event, Memory, Opening, State};
