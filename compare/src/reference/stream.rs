//! 01, Stream, seek, book: the check of a whole stream, and seek.

use super::header::{header, EOS, FLT, MAP, MEDIA, UMF};
use super::locator::table_of;
use super::map::{map_of, Track};
use super::media::{preamble_of, Preamble};
use super::plate::{known_type, refuse, Answer, Refusal};

/// What a media packet of known type states of its track and field. It is doubled where it carries the next field too (02, §2).
#[derive(Clone, Copy, PartialEq, Eq, Debug)]
pub struct Carried {
    pub id: u8,
    pub kind: u8,
    pub field: u64,
    pub doubled: bool,
}

impl Carried {
    /// By the packet's listed track in the latest map before it: an even number is doubled where that has fields per frame 1.
    fn new(media: &Preamble, track: &Track) -> Self {
        Carried {
            id: media.id,
            kind: media.kind,
            field: media.field,
            doubled: track.fields == Some(1) && media.field % 2 == 0,
        }
    }

    /// Its own field of its track, and the next one where it is doubled; of 64 bits, so that none comes round to 0.
    pub fn carries(&self, track: u64, field: u64) -> bool {
        let above = self.doubled && field == self.field + 1;
        u64::from(self.id) == track && (field == self.field || above)
    }
}

/// One packet of a checked stream.
#[derive(Clone, Copy, PartialEq, Eq, Debug)]
pub struct Piece {
    pub offset: u64,
    pub kind: u8,
    pub length: u64,
    /// Of a media packet of known type.
    pub carried: Option<Carried>,
}

/// A check adds the packet's offset to places inside a packet. 5 is no such place, and comes from the header as it is.
fn inside<T>(answer: Answer<T>, offset: u64) -> Answer<T> {
    answer.map_err(|r| Refusal {
        place: r.place + offset,
        ..r
    })
}

/// The packets of a stream, if the check passes. Order at one packet:
/// header faults, 17, content faults, 19, 20, 22, 18, 21.
pub fn packets(bytes: &[u8]) -> Answer<Vec<Piece>> {
    let total = bytes.len() as u64;
    let mut pieces: Vec<Piece> = Vec::new();
    let mut listed: Vec<Track> = Vec::new(); // of the latest map
    let mut without_map = 0;
    let mut flt_seen = false;
    let mut flt_late = false; // the packet before was an FLT that did not directly follow the first map
    let mut umf_seen = false;
    let mut at = 0;
    loop {
        if at == total {
            // with no bytes left: 17 at the start, 18 later, never 1
            return refuse(if pieces.is_empty() { 17 } else { 18 }, at);
        }
        let head = header(bytes, at)?;
        if pieces.is_empty() && head.kind != MAP {
            return refuse(17, at);
        }
        let packet = &bytes[at as usize..(at + head.length) as usize];
        let mut media = None;
        match head.kind {
            MAP => listed = inside(map_of(packet), at)?.tracks,
            FLT => {
                inside(table_of(packet), at)?;
            }
            // 8 lies inside the packet; 12 in media is the packet's offset already, added once (F8)
            MEDIA => media = Some(inside(preamble_of(packet, 0), at)?),
            _ => {}
        }
        if (head.kind == FLT && flt_seen) || (flt_late && head.kind != EOS) {
            return refuse(19, at);
        }
        without_map = if head.kind == MAP { 0 } else { without_map + 1 };
        if without_map == 100 {
            return refuse(20, at);
        }
        let mut carried = None;
        if let Some(media) = media.filter(|media| known_type(u64::from(media.kind))) {
            let own = |track: &&Track| (track.id, track.kind) == (media.id, media.kind);
            match listed.iter().find(own) {
                Some(track) => carried = Some(Carried::new(&media, track)),
                None => return refuse(22, at),
            }
        }
        if head.kind == EOS && at + head.length < total {
            return refuse(18, at);
        }
        if head.kind == EOS && !umf_seen {
            return refuse(21, at);
        }
        flt_late = head.kind == FLT && pieces.len() != 1;
        flt_seen |= head.kind == FLT;
        umf_seen |= head.kind == UMF;
        pieces.push(Piece {
            offset: at,
            kind: head.kind,
            length: head.length,
            carried,
        });
        if head.kind == EOS {
            return Ok(pieces);
        }
        at += head.length;
    }
}

/// An accepted check answers with the number of packets, EOS included (D34).
pub fn check(bytes: &[u8]) -> Answer<u64> {
    Ok(packets(bytes)?.len() as u64)
}

/// The first packet in stream order that carries the field, by its own number or by the number below (D35).
pub fn seek(bytes: &[u8], track: u64, field: u64) -> Answer<u64> {
    for piece in packets(bytes)? {
        if piece.carried.is_some_and(|c| c.carries(track, field)) {
            return Ok(piece.offset);
        }
    }
    refuse(16, 0)
}
