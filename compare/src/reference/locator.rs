//! 01, FLT (clause 7.2): least significant byte first.

use super::header::{packet_bytes, FLT};
use super::plate::{least_first, refuse, Answer};

/// Fields per entry and the offsets, of one packet's bytes. Order: 8, 14, 15, 8, all at 16.
pub fn table_of(packet: &[u8]) -> Answer<(u64, Vec<u64>)> {
    let payload = &packet[16..];
    if payload.len() < 8 {
        return refuse(8, 16);
    }
    let step = least_first(&payload[..4]);
    let count = least_first(&payload[4..8]);
    if count > 1_000 {
        return refuse(14, 16);
    }
    if step == 0 {
        return refuse(15, 16);
    }
    let stored = &payload[8..];
    if (stored.len() as u64) < 4 * count {
        return refuse(8, 16);
    }
    let offsets = stored
        .chunks_exact(4)
        .take(count as usize)
        .map(least_first)
        .collect();
    Ok((step, offsets))
}

/// 1,024 times entry d ÷ fields, rounded down; 16 at or past the count (D28).
pub fn position(bytes: &[u8], at: u64, distance: u64) -> Answer<u64> {
    let (step, offsets) = table_of(packet_bytes(bytes, at, FLT)?)?;
    let entry = distance / step;
    if entry >= offsets.len() as u64 {
        return refuse(16, 0);
    }
    Ok(1_024 * offsets[entry as usize])
}
