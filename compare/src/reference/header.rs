//! 01, Header (clause 6, Table 2).

use super::plate::{most_first, refuse, torn, Answer};

pub const MAP: u8 = 0xBC;
pub const MEDIA: u8 = 0xBF;
pub const EOS: u8 = 0xFB;
pub const FLT: u8 = 0xFC;
pub const UMF: u8 = 0xFD;

#[derive(Clone, Copy, PartialEq, Eq, Debug)]
pub struct Header {
    pub kind: u8,
    pub length: u64,
}

/// Order 1 to 5; every one of them lies at the asked position, past the end too (D1). 5 gives the packet's length less the bytes
/// left, counted from its first byte; of 1 no length is known.
pub fn header(bytes: &[u8], at: u64) -> Answer<Header> {
    let left = (bytes.len() as u64).saturating_sub(at);
    if left < 16 {
        return refuse(1, at);
    }
    let head = &bytes[at as usize..at as usize + 16];
    if head[..5] != [0, 0, 0, 0, 1] {
        return refuse(2, at);
    }
    if head[14..] != [0xE1, 0xE2] {
        return refuse(3, at);
    }
    let length = most_first(&head[6..10]);
    if length < 16 || length % 4 != 0 {
        return refuse(4, at);
    }
    if length > left {
        return torn(at, length - left);
    }
    Ok(Header {
        kind: head[5],
        length,
    })
}

/// A packet of an asked type: 6 after 1 to 5 (D2).
pub fn packet(bytes: &[u8], at: u64, kind: u8) -> Answer<Header> {
    let found = header(bytes, at)?;
    if found.kind != kind {
        return refuse(6, at);
    }
    Ok(found)
}

/// The bytes of that packet and no others (D4).
pub fn packet_bytes(bytes: &[u8], at: u64, kind: u8) -> Answer<&[u8]> {
    let found = packet(bytes, at, kind)?;
    Ok(&bytes[at as usize..(at + found.length) as usize])
}
