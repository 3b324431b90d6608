//! 01's rules, one module a section. Nothing here is tuned: each function does what its sentence says, in that order.

pub mod aspect;
pub mod book;
pub mod header;
pub mod listing;
pub mod locator;
pub mod map;
pub mod media;
pub mod mpeg;
pub mod name;
pub mod plate;
pub mod stream;
pub mod walker;
pub mod write;
