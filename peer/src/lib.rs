//! A second reading of document 01, with orders 1, 2 and 4 of document 02, without proofs.
//!
//! It shares no code with the proved gate. The two are fed the same lines and the same
//! words, and their answers and their memory are compared; it also serves as the other
//! side of the benchmark.
//!
//! - [`line`]: the day's lines, read and written.
//! - [`gate`]: the judging of one day, kept in its own structures.
//! - [`memory`]: the same day kept in lent words, with the state rules.
//! - [`message`]: an order as the exchange's own message, written and read.
//! - [`loads`]: the days and the states that are timed.

#![forbid(unsafe_code)]
#![warn(missing_docs)]

mod books;
mod checks;
pub mod days;
pub mod gate;
pub mod line;
pub mod loads;
pub mod memory;
pub mod message;
mod table;
