//! The exact rules of document 01, and of the requests that changed it, written a second time, from the paper alone, and seeded
//! cases to compare the library with.
//! docs/PROBE.md has the format of requests and lines, and how to run.

#![allow(clippy::manual_is_multiple_of)] // `% 4` is how the paper says it

pub mod generate;
pub mod odd;
pub mod own;
pub mod reference;
pub mod request;
pub mod rng;
pub mod size;
pub mod table;
