//! 01, seek book: mark 47 58, ID, type, field number (32), packet offset (64), least significant first; 16 bytes a record. The type
//! byte of a packet that carries two fields has 64 added (02, §2).

use super::plate::{known_type, least_first, refuse, Answer};
use super::stream::{packets, Carried};

/// What is added to the type of a packet that carries two fields.
const TWO_FIELDS: u8 = 64;

/// One record's bytes.
fn bytes_of(carried: &Carried, offset: u64) -> Vec<u8> {
    let more = if carried.doubled { TWO_FIELDS } else { 0 };
    let mut record = vec![0x47, 0x58, carried.id, carried.kind + more];
    record.extend((carried.field as u32).to_le_bytes());
    record.extend(offset.to_le_bytes());
    record
}

/// The check's refusal first; then 13 exactly when the room is under 16 times the records; bytes beyond stay.
pub fn build(stream: &[u8], room: &mut [u8]) -> Answer<u64> {
    let mut book = Vec::new();
    for piece in packets(stream)? {
        if let Some(carried) = piece.carried {
            book.extend(bytes_of(&carried, piece.offset));
        }
    }
    if room.len() < book.len() {
        return refuse(13, 0);
    }
    room[..book.len()].copy_from_slice(&book);
    Ok(book.len() as u64 / 16)
}

/// What a record says, and its offset; none where it is not whole, or its marks, ID or type are wrong, or it has 64 added to a type
/// beside an odd field.
fn record_of(bytes: &[u8]) -> Option<(Carried, u64)> {
    if bytes.len() != 16 || bytes[..2] != [0x47, 0x58] {
        return None;
    }
    let doubled = bytes[3] >= TWO_FIELDS; // over every known type
    let carried = Carried {
        id: bytes[2],
        kind: bytes[3] - if doubled { TWO_FIELDS } else { 0 },
        field: least_first(&bytes[4..8]),
        doubled,
    };
    let good = carried.id <= 63
        && known_type(u64::from(carried.kind))
        && !(doubled && carried.field % 2 == 1);
    good.then_some((carried, least_first(&bytes[8..])))
}

/// The records of a lent book. 23 at the lowest record number at fault; a broken tail takes the number of whole records before it.
pub fn records(book: &[u8]) -> Answer<Vec<(Carried, u64)>> {
    let mut list: Vec<(Carried, u64)> = Vec::new();
    for (number, bytes) in book.chunks(16).enumerate() {
        match record_of(bytes) {
            Some(record) if list.last().is_none_or(|before| before.1 < record.1) => {
                list.push(record);
            }
            _ => return refuse(23, number as u64),
        }
    }
    Ok(list)
}

/// 23 first, then 16; the offset in the first record that says that its packet carries the field (F16).
pub fn lookup(book: &[u8], track: u64, field: u64) -> Answer<u64> {
    for (carried, offset) in records(book)? {
        if carried.carries(track, field) {
            return Ok(offset);
        }
    }
    refuse(16, 0)
}
