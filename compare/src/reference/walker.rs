//! 01, Header: a walker that remembers the stream and its place. A refused step leaves the place.

use super::header::{header, Header};
use super::plate::Answer;

pub struct Walker<'a> {
    pub stream: &'a [u8],
    pub place: u64,
}

impl<'a> Walker<'a> {
    pub fn new(stream: &'a [u8]) -> Self {
        Walker { stream, place: 0 }
    }

    /// Judges the header at its place, by 1 to 5, and nothing else (D3).
    pub fn step(&mut self) -> Answer<Header> {
        let found = header(self.stream, self.place)?;
        self.place += found.length;
        Ok(found)
    }
}
