//! How large a written map is, counted from its bytes, and the bounds of F22.

use crate::reference::plate::most_first;

/// What is counted of a written map, in tracks and in bytes.
#[derive(Clone, Copy, PartialEq, Eq, Debug, Default)]
pub struct Size {
    pub tracks: usize,
    /// The longest track, with its header.
    pub track: usize,
    pub track_section: usize,
    pub material_section: usize,
    pub packet: usize,
}

/// No written map is over any of these; the largest meets them all.
pub const MOST: Size = Size {
    tracks: 64,
    track: 542,
    track_section: 34_688,
    material_section: 287,
    packet: 35_000,
};

/// The bytes behind a 16-bit length, and the place where they end.
fn counted(bytes: &[u8], at: usize) -> Option<(&[u8], usize)> {
    let length = most_first(bytes.get(at..at + 2)?) as usize;
    let end = at + 2 + length;
    Some((bytes.get(at + 2..end)?, end))
}

/// The lengths of the tracks in a section, each with its header.
fn track_lengths(section: &[u8]) -> Option<Vec<usize>> {
    let mut lengths = Vec::new();
    let mut at = 0;
    while at < section.len() {
        let (_, end) = counted(section, at + 2)?; // behind type and ID
        lengths.push(end - at);
        at = end;
    }
    Some(lengths)
}

impl Size {
    /// The size of a packet; none where it is not a header that states its length, two sections and the fewest zeros.
    pub fn of(packet: &[u8]) -> Option<Size> {
        let stated = most_first(packet.get(6..10)?);
        let (material, at) = counted(packet, 18)?;
        let (section, end) = counted(packet, at)?;
        let zeros = &packet[end..];
        let whole = stated == packet.len() as u64 && stated % 4 == 0;
        if !whole || zeros.len() > 3 || zeros.iter().any(|b| *b != 0) {
            return None;
        }
        let lengths = track_lengths(section)?;
        Some(Size {
            tracks: lengths.len(),
            track: lengths.into_iter().max().unwrap_or(0),
            track_section: section.len(),
            material_section: material.len(),
            packet: packet.len(),
        })
    }

    /// The larger of two, each figure by itself.
    pub fn or_more(self, other: Size) -> Size {
        Size {
            tracks: self.tracks.max(other.tracks),
            track: self.track.max(other.track),
            track_section: self.track_section.max(other.track_section),
            material_section: self.material_section.max(other.material_section),
            packet: self.packet.max(other.packet),
        }
    }

    /// Whether no figure is over its bound.
    pub fn keeps_bounds(self) -> bool {
        self.or_more(MOST) == MOST
    }
}
