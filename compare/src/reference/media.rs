//! 01, media preamble (clause 7.4.2.1, Table 21): most significant byte first, type and ID bare.

use super::header::{packet_bytes, MEDIA};
use super::plate::{most_first, refuse, Answer};

#[derive(Clone, Copy, PartialEq, Eq, Debug)]
pub struct Preamble {
    pub kind: u8,
    pub id: u8,
    pub field: u64,
    pub information: u64,
    pub time_line: u64,
    pub flags: u8,
}

/// The preamble in one packet's bytes. 8 at 16, then 12 at `start`, the packet's first byte in the lent bytes.
pub fn preamble_of(packet: &[u8], start: u64) -> Answer<Preamble> {
    let payload = &packet[16..];
    if payload.len() < 16 {
        return refuse(8, 16);
    }
    if payload[1] > 63 {
        return refuse(12, start);
    }
    Ok(Preamble {
        kind: payload[0],
        id: payload[1],
        field: most_first(&payload[2..6]),
        information: most_first(&payload[6..10]),
        time_line: most_first(&payload[10..14]),
        flags: payload[14],
    })
}

pub fn media(bytes: &[u8], at: u64) -> Answer<Preamble> {
    preamble_of(packet_bytes(bytes, at, MEDIA)?, at)
}
