//! 02, §2: what packets carry, held against a list of all fields that is made from the bytes by other means, and against streams and
//! books in which one thing was changed.

use super::Tally;
use crate::generate::packets::KNOWN_TYPES;
use crate::generate::streams;
use crate::reference::plate::Answer;
use crate::reference::walker::Walker;
use crate::reference::{book, stream};
use crate::request::hex;
use crate::rng::Rng;
use std::collections::{BTreeMap, BTreeSet};

/// Item 52 as it stands in a track that has fields per frame 1, and as it stands in one that has 2.
const PROGRESSIVE: [u8; 6] = [0x52, 4, 0, 0, 0, 1];
const INTERLACED: [u8; 6] = [0x52, 4, 0, 0, 0, 2];

fn word(bytes: &[u8], at: usize) -> usize {
    usize::from(bytes[at]) * 256 + usize::from(bytes[at + 1])
}

/// The type and ID bytes of the tracks of a good map that have this very item, by a walk along its bytes.
fn tracks_with(packet: &[u8], wanted: &[u8]) -> Vec<(u8, u8)> {
    let section = 20 + word(packet, 18);
    let end = section + 2 + word(packet, section);
    let mut with = Vec::new();
    let mut at = section + 2;
    while at < end {
        let next = at + 4 + word(packet, at + 2);
        let mut item = at + 4;
        while item < next {
            if packet[item..].starts_with(wanted) {
                with.push((packet[at], packet[at + 1]));
            }
            item += 2 + usize::from(packet[item + 1]);
        }
        at = next;
    }
    with
}

/// A media packet of known type as its bytes say it, and how many fields it carries.
struct Told {
    id: u8,
    kind: u8,
    field: u32,
    offset: u64,
    fields: u8,
}

/// The media packets of known type of a stream that passes.
fn told(stream: &[u8]) -> Vec<Told> {
    let mut latest = Vec::new();
    let mut all = Vec::new();
    let mut walker = Walker::new(stream);
    let mut from = 0;
    while walker.step().is_ok() {
        let packet = &stream[from..walker.place as usize];
        match packet[5] {
            0xBC => latest = tracks_with(packet, &PROGRESSIVE),
            0xBF if KNOWN_TYPES.contains(&packet[16]) => {
                let (kind, id) = (packet[16], packet[17]);
                let two = packet[21] & 1 == 0 && latest.contains(&(kind | 0x80, id | 0xC0));
                all.push(Told {
                    id,
                    kind,
                    field: u32::from_be_bytes([packet[18], packet[19], packet[20], packet[21]]),
                    offset: from as u64,
                    fields: 1 + u8::from(two),
                });
            }
            _ => {}
        }
        from = walker.place as usize;
    }
    all
}

/// Every field of every track that is carried, with the offset of the first packet that does.
fn carried(all: &[Told]) -> BTreeMap<(u64, u64), u64> {
    let mut first = BTreeMap::new();
    for packet in all {
        for i in 0..packet.fields {
            let key = (packet.id.into(), u64::from(packet.field) + u64::from(i));
            first.entry(key).or_insert(packet.offset);
        }
    }
    first
}

/// The book of these packets; a packet of two fields has its type and 64.
fn book_of(all: &[Told]) -> Vec<u8> {
    let record = |t: &Told| {
        let head = [0x47, 0x58, t.id, t.kind + 64 * (t.fields - 1)];
        let (field, offset) = (t.field.to_le_bytes(), t.offset.to_le_bytes());
        [&head[..], &field, &offset].concat()
    };
    all.iter().flat_map(record).collect()
}

/// Tracks and fields that are stated, and those beside them.
fn questions(all: &[Told]) -> BTreeSet<(u64, u64)> {
    let mut asked = BTreeSet::from([(0, 0), (1, 1), (64, 0)]);
    for packet in all {
        let (id, field) = (u64::from(packet.id), u64::from(packet.field));
        for near in [0, 1, 2, u64::MAX, u64::MAX - 1, 1 << 32] {
            asked.insert((id, field.wrapping_add(near)));
            asked.insert((id + 64, field.wrapping_add(near)));
        }
        asked.insert((id, 0));
    }
    asked
}

fn answer(at: Option<&u64>) -> Result<u64, u8> {
    at.copied().ok_or(16)
}

fn number(told: Answer<u64>) -> Result<u64, u8> {
    told.map_err(|refusal| refusal.number)
}

fn built(stream: &[u8]) -> Answer<Vec<u8>> {
    let mut room = vec![0; stream.len()];
    let records = book::build(stream, &mut room)?;
    room.truncate(16 * records as usize);
    Ok(room)
}

/// The stream with 1 for 2 and 2 for 1 in every item that has the form of fields per frame.
fn turned(stream: &[u8]) -> Vec<u8> {
    let mut other = stream.to_vec();
    for at in 0..stream.len().saturating_sub(5) {
        let item = &stream[at..at + 6];
        if item == PROGRESSIVE || item == INTERLACED {
            other[at + 5] ^= 3;
        }
    }
    other
}

struct Tallies {
    seeks: Tally,
    books: Tally,
    lookups: Tally,
    verdicts: Tally,
    turned: Tally,
    even: Tally,
    stripped: Tally,
    flipped: Tally,
}

impl Tallies {
    fn new() -> Self {
        Tallies {
            seeks: Tally::new("odd fields: seek is the first in a list of all fields"),
            books: Tally::new("odd fields: 64 where a packet has two in that list"),
            lookups: Tally::new("odd fields: look-up in the book is that list too"),
            verdicts: Tally::new("odd fields: codes turned, the check says the same"),
            turned: Tally::new("odd fields: codes turned, the book but for its 64"),
            even: Tally::new("odd fields: codes turned, even fields as before"),
            stripped: Tally::new("odd fields: a book without 64 says what is stated"),
            flipped: Tally::new("odd fields: one 64 more or less, 23 where it is odd"),
        }
    }

    fn all(self) -> Vec<Tally> {
        vec![
            self.seeks,
            self.books,
            self.lookups,
            self.verdicts,
            self.turned,
            self.even,
            self.stripped,
            self.flipped,
        ]
    }

    /// The stream, its book and every question beside what it states.
    fn listed(&mut self, bytes: &[u8], all: &[Told], book: &[u8]) {
        let list = carried(all);
        self.books.check(book_of(all) == book, || hex(bytes));
        for (track, field) in questions(all) {
            let wanted = answer(list.get(&(track, field)));
            let what = || format!("{track} {field}: {}", hex(bytes));
            let found = number(stream::seek(bytes, track, field));
            self.seeks.check(found == wanted, what);
            let found = number(book::lookup(book, track, field));
            self.lookups.check(found == wanted, what);
        }
    }

    /// The same stream with its codes turned.
    fn other(&mut self, bytes: &[u8], all: &[Told], book: &[u8]) {
        let other = turned(bytes);
        let again = built(&other).unwrap_or_default();
        let plain = |book: &[u8]| -> Vec<u8> {
            let masks = [255, 255, 255, 63].into_iter().chain([255; 12]).cycle();
            book.iter().zip(masks).map(|(b, mask)| b & mask).collect()
        };
        let same = plain(&again) == plain(book);
        self.turned.check(same, || hex(bytes));
        for (track, field) in questions(all).into_iter().filter(|(_, f)| f % 2 == 0) {
            let (one, two) = (
                stream::seek(bytes, track, field),
                stream::seek(&other, track, field),
            );
            self.even.check(one == two, || hex(bytes));
        }
    }

    /// The book with all its 64 taken out, and with each changed alone.
    fn books(&mut self, all: &[Told], book: &[u8]) {
        let mut plain = book.to_vec();
        for record in plain.chunks_mut(16) {
            record[3] &= 63;
        }
        for (track, field) in questions(all) {
            let stated = |t: &&Told| (u64::from(t.id), u64::from(t.field)) == (track, field);
            let wanted = answer(all.iter().find(stated).map(|t| &t.offset));
            let found = number(book::lookup(&plain, track, field));
            self.stripped.check(found == wanted, || hex(&plain));
        }
        for (i, packet) in all.iter().enumerate() {
            let mut other = book.to_vec();
            other[16 * i + 3] ^= 64;
            let (track, field) = (u64::from(packet.id), u64::from(packet.field));
            let good = match book::lookup(&other, track, field) {
                Ok(_) => packet.field % 2 == 0,
                Err(r) => packet.field % 2 == 1 && (r.number, r.place) == (23, i as u64),
            };
            self.flipped.check(good, || hex(&other));
        }
    }
}

pub fn agree(seed: u64, cases: u64) -> Vec<Tally> {
    let mut tallies = Tallies::new();
    for index in 0..cases {
        let mut rng = Rng::new(seed ^ 0x0DD5, index);
        let bytes = match rng.below(8) {
            0 => streams::damaged_bytes(&mut rng),
            1 => streams::torn_stream(&mut rng).1,
            2 => streams::wrong_form_stream(&mut rng).1,
            3 => streams::null_name_stream(&mut rng).bytes(),
            4 => streams::good(&mut rng).bytes(),
            _ => streams::odd_stream(&mut rng).bytes(),
        };
        let (one, two) = (stream::check(&bytes), stream::check(&turned(&bytes)));
        tallies.verdicts.check(one == two, || hex(&bytes));
        if let Ok(book) = built(&bytes) {
            let all = told(&bytes);
            tallies.listed(&bytes, &all, &book);
            tallies.other(&bytes, &all, &book);
            tallies.books(&all, &book);
        }
    }
    tallies.all()
}
