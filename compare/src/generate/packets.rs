//! Headers, packets, FLT and media packets; and what all generators share.

use super::Made;
use crate::request::{Request, HEADER, MEDIA, PACKET, POSITION};
use crate::rng::Rng;

pub const KNOWN_TYPES: [u8; 21] = [
    3, 4, 7, 8, 9, 10, 11, 12, 13, 14, 15, 16, 17, 18, 20, 21, 22, 23, 24, 25, 26,
];
/// Of these the types of MPEG video, whose auxiliary form is 4F, and all others, whose form is 4D (clause 7.1.3).
pub const MPEG_TYPES: [u8; 5] = [11, 12, 20, 22, 23];
pub const OTHER_TYPES: [u8; 16] = [3, 4, 7, 8, 9, 10, 13, 14, 15, 16, 17, 18, 21, 24, 25, 26];
/// The types of DV whose 4D has an aspect (Tables 8 and 9).
pub const DV_TYPES: [u8; 4] = [13, 14, 15, 16];
pub const RESERVED_TYPES: [u8; 14] = [0, 1, 2, 5, 6, 19, 27, 28, 63, 64, 100, 126, 127, 50];

/// A known type, one time in three of MPEG video.
pub fn known_type(rng: &mut Rng) -> u8 {
    if rng.chance(1, 3) {
        rng.pick(&MPEG_TYPES)
    } else {
        rng.pick(&OTHER_TYPES)
    }
}

/// A packet of a payload, padded with the fewest zeros.
pub fn packet(kind: u8, payload: &[u8]) -> Vec<u8> {
    let mut bytes = vec![0, 0, 0, 0, 1, kind, 0, 0, 0, 0, 0, 0, 0, 0, 0xE1, 0xE2];
    bytes.extend(payload);
    true_length(&mut bytes);
    bytes
}

/// Pads to a multiple of 4 and states the true length in the header.
pub fn true_length(bytes: &mut Vec<u8>) {
    while bytes.len() < 16 || bytes.len() % 4 != 0 {
        bytes.push(0);
    }
    let length = bytes.len() as u32;
    state_length(bytes, length);
}

pub fn state_length(bytes: &mut [u8], length: u32) {
    bytes[6..10].copy_from_slice(&length.to_be_bytes());
}

/// Sets the reserved header bytes to anything, at times.
pub fn stir_reserved(rng: &mut Rng, bytes: &mut [u8]) {
    if rng.chance(1, 3) {
        for byte in &mut bytes[10..14] {
            *byte = rng.byte();
        }
    }
}

/// Lends a packet: at times with bytes before and after it. Gives its position and the lent bytes.
pub fn lend(rng: &mut Rng, packet: &[u8]) -> (u64, Vec<u8>) {
    let before = if rng.chance(1, 3) { rng.below(41) } else { 0 };
    let after = if rng.chance(1, 3) { rng.below(41) } else { 0 };
    let mut lent = rng.bytes(before);
    lent.extend(packet);
    lent.extend(rng.bytes(after));
    (before as u64, lent)
}

/// One change of the bytes, blind to what they mean.
pub fn damage(rng: &mut Rng, bytes: &mut Vec<u8>) {
    if bytes.is_empty() {
        let n = rng.below(4);
        bytes.extend(rng.bytes(n));
        return;
    }
    let i = rng.below(bytes.len());
    match rng.below(9) {
        0 => bytes[i] ^= 1 << rng.below(8),
        1 => bytes[i] = rng.byte(),
        2 => {
            bytes[i] = rng.pick(&[
                0x00, 0x01, 0x02, 0x04, 0x0A, 0x20, 0x3F, 0x40, 0x41, 0x4C, 0x4D, 0x4F, 0x50, 0x7F,
                0x80, 0xBC, 0xBF, 0xC0, 0xE0, 0xFB, 0xFC, 0xFD, 0xFF,
            ])
        }
        3 => bytes[i] = bytes[i].wrapping_add(1),
        4 => bytes[i] = bytes[i].wrapping_sub(1),
        5 => {
            bytes.remove(i);
        }
        6 => bytes.insert(i, rng.byte()),
        7 => bytes.truncate(i),
        _ => {
            let n = rng.below(9);
            bytes.extend(rng.bytes(n));
        }
    }
}

pub fn refused(number: u8, place: u64) -> Option<String> {
    assert_ne!(number, 5, "5 has a third figure");
    Some(format!("refused {number} {place}"))
}

/// 5 at a place, with so many bytes lacking.
pub fn torn(place: u64, lacking: usize) -> Option<String> {
    Some(format!("refused 5 {place} {lacking}"))
}

/// The most that a header can state.
const MOST_STATED: usize = 0xFFFF_FFFC;

/// Tears a whole packet: cuts bytes off its end, or states more in its header than it has, or both. Its type is no matter then.
/// Gives how many bytes it lacks: those that were cut off and those that were never there.
pub fn tear(rng: &mut Rng, packet: &mut Vec<u8>) -> usize {
    let whole = packet.len();
    let payload = whole - 16;
    let cut = match rng.below(4) {
        0 => 0,
        1 => payload.min(1),
        2 => payload,
        _ => rng.below(payload + 1),
    };
    let more = match rng.below(8) {
        0..=3 if cut > 0 => 0,
        0..=3 => 4 * (1 + rng.below(4)),
        4 => 4 * (1 + rng.below(4_000)),
        5 => 65_536,
        6 => rng.pick(&[0x100_0000, 0x7FFF_FFF0, 0x8000_0000]),
        _ => MOST_STATED - whole,
    };
    packet.truncate(whole - cut);
    state_length(packet, (whole + more) as u32);
    if rng.chance(1, 6) {
        packet[5] = rng.byte();
    }
    cut + more
}

/// Lends a packet that is torn: at times with bytes before it, and with fewer behind it than it lacks. Gives its position, the lent
/// bytes and how many are still lacking.
pub fn lend_torn(rng: &mut Rng, mut packet: Vec<u8>) -> (u64, Vec<u8>, usize) {
    let lacking = tear(rng, &mut packet);
    let before = if rng.chance(1, 2) { rng.below(41) } else { 0 };
    let behind = if rng.chance(1, 3) {
        rng.below(lacking.min(41))
    } else {
        0
    };
    let mut lent = rng.bytes(before);
    lent.extend(packet);
    lent.extend(rng.bytes(behind));
    (before as u64, lent, lacking - behind)
}

pub fn header_plain(rng: &mut Rng) -> Made {
    let kind = if rng.chance(1, 2) {
        rng.pick(&[0xBC, 0xBF, 0xFB, 0xFC, 0xFD, 0xFA, 0xFE, 0xFF])
    } else {
        rng.byte()
    };
    let n = rng.below(20) * 4;
    let mut bytes = packet(kind, &rng.bytes(n));
    stir_reserved(rng, &mut bytes);
    let (at, lent) = lend(rng, &bytes);
    let claim = format!("packet {} {}", kind, bytes.len());
    (Request::new(HEADER, &[at], &[&lent]), Some(claim))
}

/// Any set of header faults at once; the lowest number counts.
pub fn header_faults(rng: &mut Rng) -> Made {
    let n = rng.below(8) * 4;
    let kind = rng.byte();
    let mut bytes = packet(kind, &rng.bytes(n));
    let before = rng.below(9);
    let mut lowest = 99;
    let mut more = 0;
    if rng.chance(1, 3) {
        bytes[rng.below(5)] ^= 1 << rng.below(8);
        lowest = lowest.min(2);
    }
    if rng.chance(1, 3) {
        bytes[14 + rng.below(2)] ^= 1 << rng.below(8);
        lowest = lowest.min(3);
    }
    match rng.below(4) {
        0 => {
            let short = rng.pick(&[
                0,
                1,
                4,
                8,
                12,
                15,
                17,
                18,
                19,
                21,
                22,
                0x8000_0001,
                u32::MAX,
            ]);
            state_length(&mut bytes, short);
            lowest = lowest.min(4);
        }
        1 => {
            let few = 4 * (1 + rng.below(3));
            let most = MOST_STATED - bytes.len();
            more = rng.pick(&[few, few, 0x100_0000, 0x8000_0000, most]);
            let long = (bytes.len() + more) as u32;
            state_length(&mut bytes, long);
            lowest = lowest.min(5);
        }
        _ => {}
    }
    if rng.chance(1, 5) {
        bytes.truncate(rng.below(16));
        lowest = 1;
    }
    let mut lent = rng.bytes(before);
    lent.extend(&bytes);
    let claim = match lowest {
        99 => Some(format!("packet {} {}", kind, bytes.len())),
        5 => torn(before as u64, more),
        _ => refused(lowest, before as u64),
    };
    (Request::new(HEADER, &[before as u64], &[&lent]), claim)
}

pub fn header_torn(rng: &mut Rng) -> Made {
    let n = rng.below(20) * 4;
    let bytes = packet(rng.byte(), &rng.bytes(n));
    let (at, lent, lacking) = lend_torn(rng, bytes);
    (Request::new(HEADER, &[at], &[&lent]), torn(at, lacking))
}

pub fn header_noise(rng: &mut Rng) -> Made {
    let n = rng.below(40);
    let mut bytes = rng.bytes(n);
    let mut at = rng.below(4) as u64;
    if rng.chance(1, 2) {
        bytes = packet(rng.byte(), &bytes);
        damage(rng, &mut bytes);
    }
    if rng.chance(1, 2) {
        at = rng.edge();
    }
    let beyond = at > bytes.len() as u64 || bytes.len() as u64 - at < 16;
    let claim = if beyond { refused(1, at) } else { None };
    (Request::new(HEADER, &[at], &[&bytes]), claim)
}

pub fn packet_of_type(rng: &mut Rng) -> Made {
    let kind = rng.pick(&[0xBC, 0xBF, 0xFB, 0xFC, 0xFD, 0xFF, 0x00]);
    let asked = if rng.chance(1, 2) {
        kind
    } else {
        rng.pick(&[0xBC, 0xBF, 0xFB, 0xFC, 0xFD, 0xFF, 0x00])
    };
    let n = rng.below(6) * 4;
    let mut bytes = packet(kind, &rng.bytes(n));
    let (mut at, mut lent) = lend(rng, &bytes);
    let mut claim = if asked == kind {
        Some(format!("packet {} {}", kind, bytes.len()))
    } else {
        refused(6, at)
    };
    if rng.chance(1, 3) {
        damage(rng, &mut bytes);
        (at, lent) = (0, bytes);
        claim = None;
    }
    let request = Request::new(PACKET, &[at, u64::from(asked)], &[&lent]);
    (request, claim)
}

/// A torn packet of the asked type or another: 5 comes before 6.
pub fn packet_torn(rng: &mut Rng) -> Made {
    let kind = rng.pick(&[0xBC, 0xBF, 0xFB, 0xFC, 0xFD, 0xFF, 0x00]);
    let asked = rng.pick(&[kind, kind, 0xBC, 0xFB]);
    let n = rng.below(6) * 4;
    let bytes = packet(kind, &rng.bytes(n));
    let (at, lent, lacking) = lend_torn(rng, bytes);
    let request = Request::new(PACKET, &[at, u64::from(asked)], &[&lent]);
    (request, torn(at, lacking))
}

/// An FLT payload.
pub fn flt_payload(step: u32, count: u32, stored: &[u32]) -> Vec<u8> {
    let mut payload = Vec::new();
    payload.extend(step.to_le_bytes());
    payload.extend(count.to_le_bytes());
    for entry in stored {
        payload.extend(entry.to_le_bytes());
    }
    payload
}

fn step(rng: &mut Rng) -> u32 {
    rng.pick(&[1, 1, 2, 3, 40, 255, 256, 0x8000_0000, u32::MAX])
}

fn entries(rng: &mut Rng) -> Vec<u32> {
    let n = match rng.below(40) {
        0 => 1_000,
        1 => 999,
        2 => 256,
        _ => rng.below(8),
    };
    (0..n).map(|_| rng.edge32()).collect()
}

/// A distance near the entries' edges, or far beyond.
fn distance(rng: &mut Rng, step: u32, count: u64) -> u64 {
    let step = u64::from(step);
    match rng.below(4) {
        0 => rng.edge(),
        1 => (rng.below(count as usize + 2) as u64 * step).wrapping_sub(rng.below(2) as u64),
        2 => (count * step).wrapping_sub(1),
        _ => rng.below(count as usize + 1) as u64 * step + rng.draw() % step,
    }
}

pub fn locator_valid(rng: &mut Rng) -> Made {
    let step = step(rng);
    let stored = entries(rng);
    let mut payload = flt_payload(step, stored.len() as u32, &stored);
    if rng.chance(1, 3) {
        let n = rng.below(20);
        payload.extend(rng.bytes(n)); // the rest is ignored
    }
    let bytes = packet(0xFC, &payload);
    let distance = distance(rng, step, stored.len() as u64);
    let (at, lent) = lend(rng, &bytes);
    let claim = match stored.get((distance / u64::from(step)) as usize) {
        Some(entry) => Some(format!("position {}", 1_024 * u64::from(*entry))),
        None => refused(16, 0),
    };
    (Request::new(POSITION, &[at, distance], &[&lent]), claim)
}

/// Each content fault of a table, alone and together.
pub fn locator_faults(rng: &mut Rng) -> Made {
    let stored = (0..rng.below(6)).map(|_| rng.edge32()).collect::<Vec<_>>();
    let have = stored.len() as u32;
    let mut step = step(rng);
    let mut count = have;
    let mut number = match rng.below(6) {
        0 => {
            step = 0;
            15
        }
        1 => {
            count = rng.pick(&[1_001, 1_002, 65_536 + 1, 0x8000_0000, u32::MAX]);
            14
        }
        2 => {
            step = 0;
            count = rng.pick(&[1_001, u32::MAX]);
            14
        }
        3 => {
            step = 0;
            count = rng.pick(&[have + 1, 1_000]);
            15 // before the second 8
        }
        _ => {
            count = rng.pick(&[have + 1, have + 2, 1_000]);
            8
        }
    };
    let mut payload = flt_payload(step, count, &stored);
    if rng.chance(1, 6) {
        payload.truncate(rng.below(2) * 4);
        number = 8;
    }
    let bytes = packet(0xFC, &payload);
    let distance = distance(rng, step.max(1), u64::from(have));
    let (at, lent) = lend(rng, &bytes);
    let request = Request::new(POSITION, &[at, distance], &[&lent]);
    (request, refused(number, 16))
}

pub fn locator_damage(rng: &mut Rng) -> Made {
    let step = step(rng);
    let stored = entries(rng);
    let kind = if rng.chance(1, 8) { rng.byte() } else { 0xFC };
    let mut bytes = packet(kind, &flt_payload(step, stored.len() as u32, &stored));
    for _ in 0..rng.below(3) {
        damage(rng, &mut bytes);
    }
    if rng.chance(1, 2) && bytes.len() >= 16 {
        true_length(&mut bytes);
    }
    let distance = distance(rng, step, stored.len() as u64);
    let (mut at, lent) = lend(rng, &bytes);
    if rng.chance(1, 10) {
        at = rng.edge();
    }
    (Request::new(POSITION, &[at, distance], &[&lent]), None)
}

/// A torn table, good or not: 5 comes before its content.
pub fn locator_torn(rng: &mut Rng) -> Made {
    let step = rng.pick(&[0, 1, 2, 40, u32::MAX]);
    let stored = entries(rng);
    let count = rng.pick(&[stored.len() as u32, 1_001]);
    let bytes = packet(0xFC, &flt_payload(step, count, &stored));
    let distance = distance(rng, step.max(1), stored.len() as u64);
    let (at, lent, lacking) = lend_torn(rng, bytes);
    let request = Request::new(POSITION, &[at, distance], &[&lent]);
    (request, torn(at, lacking))
}

/// A media payload: preamble and some data.
pub fn media_payload(
    kind: u8,
    id: u8,
    field: u32,
    rest: [u32; 2],
    flags: u8,
    data: &[u8],
) -> Vec<u8> {
    let mut payload = vec![kind, id];
    payload.extend(field.to_be_bytes());
    payload.extend(rest[0].to_be_bytes());
    payload.extend(rest[1].to_be_bytes());
    payload.push(flags);
    payload.push(0);
    payload.extend(data);
    payload
}

pub fn media_valid(rng: &mut Rng) -> Made {
    let kind = if rng.chance(1, 2) {
        rng.pick(&KNOWN_TYPES)
    } else {
        rng.byte()
    };
    let id = rng.below(64) as u8;
    let (field, rest, flags) = (rng.edge32(), [rng.edge32(), rng.edge32()], rng.byte());
    let n = rng.below(20);
    let mut payload = media_payload(kind, id, field, rest, flags, &rng.bytes(n));
    payload[15] = rng.byte(); // reserved
    let (at, lent) = lend(rng, &packet(0xBF, &payload));
    let claim = format!("media {kind} {id} {field} {} {} {flags}", rest[0], rest[1]);
    (Request::new(MEDIA, &[at], &[&lent]), Some(claim))
}

/// An ID byte around 63, or any.
pub fn edge_id(rng: &mut Rng) -> u8 {
    let any = rng.byte();
    rng.pick(&[63, 64, 65, 127, 128, 0xC1, 255, any, any])
}

pub fn media_faults(rng: &mut Rng) -> Made {
    let (kind, id) = (rng.byte(), edge_id(rng));
    let (field, rest, flags) = (rng.edge32(), [rng.edge32(), rng.edge32()], rng.byte());
    let mut payload = media_payload(kind, id, field, rest, flags, &[]);
    let short = rng.chance(1, 3);
    if short {
        payload.truncate(rng.below(4) * 4);
    }
    let mut bytes = packet(0xBF, &payload);
    let (mut at, mut lent) = lend(rng, &bytes);
    let mut claim = if short {
        refused(8, 16)
    } else if id > 63 {
        refused(12, at)
    } else {
        Some(format!(
            "media {kind} {id} {field} {} {} {flags}",
            rest[0], rest[1]
        ))
    };
    if rng.chance(1, 3) {
        damage(rng, &mut bytes);
        at = if rng.chance(1, 10) { rng.edge() } else { 0 };
        lent = bytes;
        claim = None;
    }
    (Request::new(MEDIA, &[at], &[&lent]), claim)
}

/// A torn media packet, its preamble good or not: 5 comes before its content.
pub fn media_torn(rng: &mut Rng) -> Made {
    let rest = [rng.edge32(), rng.edge32()];
    let n = rng.below(20);
    let data = rng.bytes(n);
    let mut payload = media_payload(rng.byte(), edge_id(rng), 0, rest, 0, &data);
    if rng.chance(1, 4) {
        payload.truncate(rng.below(4) * 4);
    }
    let (at, lent, lacking) = lend_torn(rng, packet(0xBF, &payload));
    (Request::new(MEDIA, &[at], &[&lent]), torn(at, lacking))
}
