//! 01, Map, "A name is handed out as the part of the packet that holds it, without the 00".

use super::map::{map, Map, Part};
use super::plate::{refuse, Answer};

/// The name's part without its 00, if the map lists the track with a name, null included.
fn name_in(map: &Map, id: u64) -> Option<Part> {
    let track = map.tracks.iter().find(|track| u64::from(track.id) == id)?;
    track.name.map(|part| Part {
        place: part.place,
        length: part.length - 1,
    })
}

/// The map's own refusals first, then 16 at 0 (D18).
pub fn name(bytes: &[u8], at: u64, id: u64) -> Answer<Part> {
    match name_in(&map(bytes, at)?, id) {
        Some(part) => Ok(part),
        None => refuse(16, 0),
    }
}

#[derive(Clone, Copy, PartialEq, Eq, Debug)]
pub enum Of {
    Opening(Part),
    Closing(Part),
}

/// Of two maps, each at position 0: opening's refusal, closing's, then 16 (D19).
pub fn name_of_two(opening: &[u8], closing: &[u8], id: u64) -> Answer<Of> {
    let opening = map(opening, 0)?;
    let closing = map(closing, 0)?;
    if let Some(part) = name_in(&closing, id) {
        return Ok(Of::Closing(part));
    }
    match name_in(&opening, id) {
        Some(part) => Ok(Of::Opening(part)),
        None => refuse(16, 0),
    }
}
