//! Seek books, built and lent.

use super::packets::{damage, edge_id, refused, torn, KNOWN_TYPES};
use super::streams::{
    ask_odd, ask_of, carries, damaged_bytes, field, good, null_name_stream, odd_stream, question,
    torn_stream, wrong_form_stream, Stream,
};
use super::Made;
use crate::request::{hex, lent_room, Request, BUILD, LOOKUP};
use crate::rng::Rng;

pub fn record(id: u8, kind: u8, field: u32, offset: u64) -> Vec<u8> {
    let mut bytes = vec![0x47, 0x58, id, kind];
    bytes.extend(field.to_le_bytes());
    bytes.extend(offset.to_le_bytes());
    bytes
}

/// What a record says; a doubled one has 64 added to its type.
struct Entry {
    id: u8,
    kind: u8,
    field: u32,
    offset: u64,
    doubled: bool,
}

impl Entry {
    fn stated(&self) -> (u8, u32) {
        (self.id, self.field)
    }

    fn type_byte(&self) -> u8 {
        self.kind + 64 * u8::from(self.doubled)
    }
}

fn bytes(list: &[Entry]) -> Vec<u8> {
    list.iter()
        .flat_map(|e| record(e.id, e.type_byte(), e.field, e.offset))
        .collect()
}

/// The records of a good stream, told from its pieces.
fn entries_of(stream: &Stream) -> Vec<Entry> {
    let mut list = Vec::new();
    for (i, piece) in stream.pieces.iter().enumerate() {
        if let Some((id, field)) = piece.carries {
            list.push(Entry {
                id,
                kind: piece.media_type,
                field,
                offset: stream.offset(i),
                doubled: stream.doubled(i),
            });
        }
    }
    list
}

/// The book of a good stream.
pub fn book_of(stream: &Stream) -> Vec<u8> {
    bytes(&entries_of(stream))
}

/// Rooms at, under and over the size, and zero.
fn build_of(rng: &mut Rng, stream: &Stream) -> Made {
    let book = book_of(stream);
    let room = match rng.below(6) {
        0 => 0,
        1 => book.len().saturating_sub(1),
        2 => book.len() + 1 + rng.below(20),
        3 => rng.below(book.len() + 1),
        _ => book.len(),
    };
    let mut lent = lent_room(room as u64);
    let claim = if room < book.len() {
        format!("refused 13 0 {}", hex(&lent))
    } else {
        lent[..book.len()].copy_from_slice(&book);
        format!("records {} {}", book.len() / 16, hex(&lent))
    };
    (
        Request::new(BUILD, &[room as u64], &[&stream.bytes()]),
        Some(claim),
    )
}

pub fn build(rng: &mut Rng) -> Made {
    let stream = good(rng);
    build_of(rng, &stream)
}

pub fn build_odd(rng: &mut Rng) -> Made {
    let stream = odd_stream(rng);
    build_of(rng, &stream)
}

pub fn build_damage(rng: &mut Rng) -> Made {
    let bytes = damaged_bytes(rng);
    let room = rng.below(200) as u64;
    (Request::new(BUILD, &[room], &[&bytes]), None)
}

/// A torn stream, with room for the book of the whole one or without.
pub fn build_torn(rng: &mut Rng) -> Made {
    let (stream, bytes, i, lacking) = torn_stream(rng);
    let room = rng.pick(&[0, 1, 15, book_of(&stream).len()]) as u64;
    let lent = hex(&lent_room(room));
    let claim = torn(stream.offset(i), lacking).map(|claim| format!("{claim} {lent}"));
    (Request::new(BUILD, &[room], &[&bytes]), claim)
}

/// A map of the stream has a wrong form, with room for the book or without.
pub fn build_form(rng: &mut Rng) -> Made {
    if rng.chance(1, 4) {
        let stream = null_name_stream(rng);
        return build_of(rng, &stream);
    }
    let (stream, bytes, place) = wrong_form_stream(rng);
    let room = rng.pick(&[0, 1, 15, book_of(&stream).len()]) as u64;
    let claim = format!("refused 29 {place} {}", hex(&lent_room(room)));
    (Request::new(BUILD, &[room], &[&bytes]), Some(claim))
}

/// A good book that no stream needs to have.
fn entries(rng: &mut Rng) -> Vec<Entry> {
    let n = if rng.chance(1, 60) {
        rng.below(400)
    } else {
        rng.below(6)
    };
    let mut offset = rng.pick(&[0, 0, 44, 1 << 31, (1 << 32) - 8, 1 << 62, (1 << 63) - 4]);
    let mut list = Vec::new();
    for _ in 0..n {
        let field = field(rng);
        list.push(Entry {
            id: rng.pick(&[0, 1, 2, 62, 63]),
            kind: rng.pick(&KNOWN_TYPES),
            field,
            offset,
            doubled: field % 2 == 0 && rng.chance(1, 2),
        });
        offset += 1 + rng.pick(&[0, 1, 255, 256, 65_536, 1 << 32]);
    }
    if rng.chance(1, 30) {
        let field = rng.pick(&[4, 5]);
        list.push(Entry {
            id: 5,
            kind: 10,
            field,
            offset: u64::MAX,
            doubled: field == 4,
        });
    }
    list
}

/// The records of a stream that turns the fields per frame back and forth; at times some 64 are missing, or stand where the
/// stream has none, beside an even number still.
fn odd_entries(rng: &mut Rng) -> Vec<Entry> {
    let mut list = entries_of(&odd_stream(rng));
    let other = rng.chance(1, 2);
    for entry in list.iter_mut().filter(|e| e.field % 2 == 0) {
        entry.doubled ^= other && rng.chance(1, 3);
    }
    list
}

/// A track and a field of some record, or near it.
fn asked(rng: &mut Rng, list: &[Entry], near: bool) -> (u64, u64) {
    if list.is_empty() {
        return (rng.below(65) as u64, rng.edge());
    }
    let entry = &list[rng.below(list.len())];
    ask_of(rng, entry.stated(), entry.doubled, near)
}

fn lookup(list: &[Entry], (track, field): (u64, u64)) -> Made {
    let found = list
        .iter()
        .find(|e| carries(e.stated(), e.doubled, track, field));
    let claim = match found {
        Some(entry) => Some(format!("at {}", entry.offset)),
        None => refused(16, 0),
    };
    (
        Request::new(LOOKUP, &[track, field], &[&bytes(list)]),
        claim,
    )
}

pub fn lookup_found(rng: &mut Rng) -> Made {
    let list = entries(rng);
    let asked = asked(rng, &list, false);
    lookup(&list, asked)
}

pub fn lookup_asked(rng: &mut Rng) -> Made {
    let list = entries(rng);
    let asked = asked(rng, &list, true);
    lookup(&list, asked)
}

pub fn lookup_odd(rng: &mut Rng) -> Made {
    let list = odd_entries(rng);
    let stated = list[rng.below(list.len())].stated();
    let asked = ask_odd(rng, stated);
    lookup(&list, asked)
}

/// A 64 where none may stand: beside an odd number, or added to a type that is reserved; or 128, which is never added.
fn set_wrong_64(rng: &mut Rng, record: &mut [u8]) {
    let known = rng.pick(&KNOWN_TYPES);
    match rng.below(4) {
        0 | 1 => {
            record[3] = known + 64;
            record[4] |= 1;
        }
        2 => record[3] = 64 + rng.pick(&[0, 1, 2, 5, 6, 19, 27, 28, 63]),
        _ => record[3] = known + rng.pick(&[128, 192]),
    }
}

/// Good but for one 64 or two; the lowest record number counts, and comes before an answer.
pub fn lookup_wrong_64(rng: &mut Rng) -> Made {
    let list = odd_entries(rng);
    let (track, field) = asked(rng, &list, false);
    let mut book = bytes(&list);
    let mut lowest = list.len();
    for _ in 0..1 + rng.below(2) {
        let i = rng.below(list.len());
        set_wrong_64(rng, &mut book[16 * i..16 * i + 16]);
        lowest = lowest.min(i);
    }
    let request = Request::new(LOOKUP, &[track, field], &[&book]);
    (request, refused(23, lowest as u64))
}

/// Faults in a good book; the lowest record number counts.
pub fn lookup_broken(rng: &mut Rng) -> Made {
    let mut list = entries(rng);
    list.push(Entry {
        id: 9,
        kind: 9,
        field: 9,
        offset: u64::MAX,
        doubled: false,
    });
    if list.len() > 1 && list[list.len() - 2].offset == u64::MAX {
        list.pop();
    }
    let mut book = bytes(&list);
    let mut lowest = usize::MAX;
    for _ in 0..1 + rng.below(2) {
        let i = rng.below(list.len());
        let at = 16 * i;
        match rng.below(8) {
            0 => book[at] ^= 1 << rng.below(8),
            1 => book[at + 1] ^= 1 << rng.below(8),
            2 => book[at + 2] = edge_id(rng).max(64),
            3 => book[at + 3] = rng.pick(&[0, 1, 2, 5, 6, 19, 27, 0x8A, 255]),
            4 => set_wrong_64(rng, &mut book[at..at + 16]),
            5 | 6 if i > 0 => {
                // an offset that does not rise: the later record is at fault
                let before = list[i - 1].offset;
                let wrong = if rng.chance(1, 2) {
                    before
                } else {
                    before - (before & rng.draw())
                };
                book[at + 8..at + 16].copy_from_slice(&wrong.to_le_bytes());
            }
            _ => {
                let n = 1 + rng.below(15);
                let tail = book.len() / 16;
                book.truncate(16 * tail);
                let more = rng.pick(&[0x47, 0x58, 0x00]);
                book.extend(vec![more; n]);
                lowest = lowest.min(tail);
                continue;
            }
        }
        lowest = lowest.min(i);
    }
    // a mark struck twice may be good again: no claim then
    let again = book[..16 * list.len()] == bytes(&list)[..] && book.len() == 16 * list.len();
    let twice = list.len() > lowest
        && book[16 * lowest..16 * lowest + 16] == bytes(&list)[16 * lowest..16 * lowest + 16];
    let claim = if again || twice {
        None
    } else {
        refused(23, lowest as u64)
    };
    let (track, field) = (u64::from(list[0].id), u64::from(list[0].field));
    (Request::new(LOOKUP, &[track, field], &[&book]), claim)
}

pub fn lookup_damage(rng: &mut Rng) -> Made {
    let stream = good(rng);
    let (track, field) = question(rng, &stream, false);
    let mut book = book_of(&stream);
    for _ in 0..rng.below(3) {
        damage(rng, &mut book);
    }
    if rng.chance(1, 4) && book.len() >= 16 {
        // the 64 of a record, or the lowest bit of its number
        let at = 16 * rng.below(book.len() / 16);
        let (byte, bit) = rng.pick(&[(3, 64), (4, 1)]);
        book[at + byte] ^= bit;
    }
    (Request::new(LOOKUP, &[track, field], &[&book]), None)
}
