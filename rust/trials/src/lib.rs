//! Trials of the plain version: made-up schemes, records, payoffs and books,
//! exact arithmetic over picked matrices, and a fixed family of answers.

#![forbid(unsafe_code)]

pub mod exact;
pub mod family;
pub mod labels;
pub mod made;
pub mod picks;
pub mod rng;
