//! 02, §11: the aspect of a record, held against how the maps were made and against other ways to it.

use super::{alike, with_unknown, Tally};
use crate::generate::maps::{self, Model, Track};
use crate::generate::packets::{DV_TYPES, MPEG_TYPES, OTHER_TYPES, RESERVED_TYPES};
use crate::generate::{case, writers, Case};
use crate::reference::map::{self, map, Map};
use crate::reference::write::write_map;
use crate::request::{answer, hex, lent_room, Request, MAP, PARAMETERS};
use crate::rng::Rng;
use crate::table::{records, Record};

/// What function 06 says of a text: `ar`, the last of its values, or nothing where it refuses.
fn by_06(text: &[u8]) -> Option<u8> {
    let line = answer(&Request::new(PARAMETERS, &[], &[text]));
    let values = line.strip_prefix("parameters ")?;
    values.split(' ').next_back()?.parse().ok()
}

/// Byte 3 has the validity in its sixty-fours; byte 0 the aspect in its sixteens on types 13 and 14, in its ones on 15 and 16.
fn by_bytes(kind: u8, binary: &[u8]) -> Option<u8> {
    let unit = if kind < 15 { 16 } else { 1 };
    (binary[3] / 64 == 1).then_some(binary[0] / unit % 2)
}

/// The aspect of a track of this type that shows these bytes for its 4D and 4F.
fn by_bytes_shown(kind: u8, binary: Option<&[u8]>, text: Option<&[u8]>) -> Option<u8> {
    match kind {
        13..=16 => by_bytes(kind, binary?),
        11 | 12 | 20 | 22 | 23 => by_06(text?),
        _ => None,
    }
}

/// The aspect of a record in a line, by the bytes at its places.
fn by_places(packet: &[u8], record: &Record) -> Option<u8> {
    let at = |part: Option<(usize, usize)>| part.map(|(place, n)| &packet[place..place + n]);
    by_bytes_shown(record.kind, at(record.binary), at(record.text))
}

/// Every record of every case: the aspect is what the bytes at its places say.
fn places(seed: u64, cases: u64) -> Vec<Tally> {
    let mut dv = Tally::new("aspect of DV: bits of the bytes at the 4D's place");
    let mut mpeg = Tally::new("aspect of MPEG: 06 asked of the bytes at the 4F's place");
    let mut others = Tally::new("aspect of other types: unknown");
    for index in 0..cases {
        let Case { kind, request, .. } = case(seed, index);
        if request.function != MAP {
            continue;
        }
        let line = answer(&request);
        for record in records(&line) {
            let packet = &request.strings[0][request.numbers[0] as usize..];
            let good = record.aspect == by_places(packet, &record);
            let tally = match record.kind {
                kind if DV_TYPES.contains(&kind) => &mut dv,
                kind if MPEG_TYPES.contains(&kind) => &mut mpeg,
                _ => &mut others,
            };
            tally.check(good, || format!("{kind}, case {index}: {line}"));
        }
    }
    vec![dv, mpeg, others]
}

fn read(model: &Model) -> Map {
    map(&model.bytes(), 0).expect("the map is good")
}

fn number(track: &map::Track) -> Option<u8> {
    track.aspect.map(|aspect| aspect.number())
}

fn numbers(read: &Map) -> Vec<Option<u8>> {
    read.tracks.iter().map(number).collect()
}

/// The listed tracks of a model, each with its place among all.
fn listed(model: &Model) -> Vec<usize> {
    let all = model.tracks.iter().enumerate();
    all.filter(|(_, t)| t.listed()).map(|(i, _)| i).collect()
}

/// Where the 4D or 4F of a track stands, if its name is not null.
fn shown(track: &Track, tag: u8) -> Option<usize> {
    let place = |tag: u8| track.items.iter().position(|item| item.tag == tag);
    let null = place(0x4C).is_some_and(|i| track.items[i].value == [0]);
    place(tag).filter(|_| !null)
}

/// Two maps that are the same but for the aspect of one record, which is told for the second.
fn only(before: &Map, after: &Map, i: usize, aspect: Option<u8>) -> bool {
    let mut tracks = before.tracks.clone();
    tracks[i].aspect = after.tracks[i].aspect;
    let changed = Map {
        tracks,
        ..before.clone()
    };
    changed == *after && number(&after.tracks[i]) == aspect
}

/// The tallies of the checks on one map.
struct One {
    made: Tally,
    bit: Tally,
    validity: Tally,
    rest: Tally,
    null: Tally,
    text: Tally,
    table: Tally,
    struck: Tally,
    set_in: Tally,
}

impl One {
    fn new() -> Self {
        One {
            made: Tally::new("aspects: as the map was made"),
            bit: Tally::new("aspect: its bit alone turns it, and nothing else"),
            validity: Tally::new("aspect: known where bits 30 and 31 are 1, else not"),
            rest: Tally::new("aspect: no other bit of the 4D is looked at"),
            null: Tally::new("aspect: unknown with a null name"),
            text: Tally::new("aspect: unknown with a text that is refused"),
            table: Tally::new("aspect: by the type's table"),
            struck: Tally::new("aspects: as before where what is reserved is struck out"),
            set_in: Tally::new("aspects: as before where an unknown item is set in"),
        }
    }

    fn all(self) -> Vec<Tally> {
        vec![
            self.made,
            self.bit,
            self.validity,
            self.rest,
            self.null,
            self.text,
            self.table,
            self.struck,
            self.set_in,
        ]
    }

    /// Each of the 64 bits of a DV track's 4D, changed alone.
    fn bits(&mut self, model: &Model, i: usize, record: usize) {
        let before = read(model);
        let Some(item) = shown(&model.tracks[i], 0x4D) else {
            return;
        };
        let old = model.tracks[i].items[item].value.clone();
        let own = if model.tracks[i].kind() < 15 { 4 } else { 0 };
        let was = number(&before.tracks[record]);
        for bit in 0..64 {
            let mut model = model.clone();
            model.tracks[i].items[item].value[bit / 8] ^= 1 << (bit % 8);
            let validity = model.tracks[i].items[item].value[3] / 64;
            let (tally, wanted) = match bit {
                _ if bit == own => (&mut self.bit, was.map(|aspect| 1 - aspect)),
                30 | 31 if validity == 1 => (&mut self.validity, Some(old[0] >> own & 1)),
                30 | 31 => (&mut self.validity, None),
                _ => (&mut self.rest, was),
            };
            let good = only(&before, &read(&model), record, wanted);
            tally.check(good, || format!("bit {bit}: {}", hex(&model.bytes())));
        }
    }

    /// The same track under every type that takes its form: all of MPEG video alike; others by bits of the 4D, or unknown.
    fn types(&mut self, model: &Model, i: usize, record: usize) {
        let (track, was) = (&model.tracks[i], number(&read(model).tracks[record]));
        let of_mpeg = MPEG_TYPES.contains(&track.kind());
        let binary = shown(track, 0x4D).map(|item| &track.items[item].value[..]);
        let kinds: &[u8] = if of_mpeg { &MPEG_TYPES } else { &OTHER_TYPES };
        for kind in kinds {
            let wanted = match kind {
                _ if of_mpeg => was,
                _ => by_bytes_shown(*kind, binary, None),
            };
            let mut other = model.clone();
            other.tracks[i].type_byte = 0x80 + kind;
            let good = number(&read(&other).tracks[record]) == wanted;
            let what = || format!("type {kind}: {}", hex(&model.bytes()));
            self.table.check(good, what);
        }
    }

    /// A null name, which hides 4D, 4E and 4F too.
    fn null_name(&mut self, rng: &mut Rng, model: &Model, i: usize, record: usize) {
        let mut null = model.clone();
        maps::set_null_name(rng, &mut null.tracks[i]);
        let mut wanted = numbers(&read(model));
        wanted[record] = None;
        let good = numbers(&read(&null)) == wanted;
        self.null.check(good, || hex(&model.bytes()));
    }

    /// One byte of an MPEG text changed so that it is refused, a text still: nothing else of the map changes.
    fn spoilt_text(&mut self, rng: &mut Rng, model: &Model, i: usize, record: usize) {
        let Some(item) = shown(&model.tracks[i], 0x4F) else {
            return;
        };
        let mut spoilt = model.clone();
        let value = &mut spoilt.tracks[i].items[item].value;
        if value.len() == 1 {
            return; // nothing but its 00
        }
        // the first line begins with a space, or the last one has no 0A
        let end = value.len() - 2;
        let (at, byte) = rng.pick(&[(0, b' '), (end, b'1')]);
        value[at] = byte;
        let good = only(&read(model), &read(&spoilt), record, None);
        self.text.check(good, || hex(&model.bytes()));
    }

    fn check(&mut self, rng: &mut Rng, model: &Model) {
        let bytes = model.bytes();
        let before = map(&bytes, 0);
        let aspects = numbers(before.as_ref().expect("the map is good"));
        let what = || hex(&bytes);
        let places = listed(model);
        let made = places.iter().map(|i| model.tracks[*i].aspect());
        self.made.check(made.collect::<Vec<_>>() == aspects, what);
        for (record, i) in places.into_iter().enumerate() {
            let kind = model.tracks[i].kind();
            if DV_TYPES.contains(&kind) {
                self.bits(model, i, record);
            }
            if MPEG_TYPES.contains(&kind) {
                self.spoilt_text(rng, model, i, record);
            }
            self.types(model, i, record);
            self.null_name(rng, model, i, record);
        }
        let twin = |model: &Model| {
            let (less, read) = (model.bytes(), read(model));
            numbers(&read) == aspects && alike((&bytes, &before), (&less, &Ok(read)))
        };
        self.struck.check(twin(&model.struck()), what);
        self.set_in.check(twin(&with_unknown(rng, model)), what);
    }
}

/// Maps that were made for it, their tracks no more than eight.
fn of_maps(seed: u64, cases: u64) -> Vec<Tally> {
    let mut one = One::new();
    for index in 0..cases {
        let mut rng = Rng::new(seed ^ 0x0A59, index);
        let mut model = maps::aspects(&mut rng);
        model.tracks.truncate(8);
        one.check(&mut rng, &model);
    }
    one.all()
}

/// The aspects of a written map follow from the type, the 4D and the 4F that the writer was given.
fn of_writers(seed: u64, cases: u64) -> Vec<Tally> {
    let mut given = Tally::new("aspects of a written map: from type, 4D and 4F given");
    for index in 0..cases {
        let mut rng = Rng::new(seed ^ 0x0A5E, index);
        let (input, _) = writers::good(&mut rng);
        let (material, tracks) = input.words();
        let mut room = lent_room(60_000);
        let done = write_map(&mut room, 0, &input.text, &material, &tracks);
        let back = map(&room, 0).expect("a good input is written");
        let wanted = input.tracks.iter().map(|(kind, _, slots)| {
            let part = |slot: &[u64; 3]| {
                let (from, n) = (slot[1] as usize, slot[2] as usize);
                (slot[0] == 1).then(|| input.text[from..from + n].to_vec())
            };
            let text = part(&slots[3]).map(|text| [&text[..], &[0]].concat());
            by_bytes_shown(*kind as u8, part(&slots[1]).as_deref(), text.as_deref())
        });
        let good = wanted.collect::<Vec<_>>() == numbers(&back);
        given.check(done.is_ok() && good, || format!("map {index}: {back:?}"));
    }
    vec![given]
}

/// Unlisted tracks have no record, whatever their forms say.
fn of_reserved(seed: u64, cases: u64) -> Vec<Tally> {
    let mut gone = Tally::new("aspects: none of tracks that are not listed");
    for index in 0..cases {
        let mut rng = Rng::new(seed ^ 0x0A5F, index);
        let mut model = maps::aspects(&mut rng);
        for track in &mut model.tracks {
            track.type_byte = 0x80 + rng.pick(&RESERVED_TYPES);
        }
        let good = numbers(&read(&model)).is_empty();
        gone.check(good, || hex(&model.bytes()));
    }
    vec![gone]
}

pub fn agree(seed: u64, cases: u64) -> Vec<Tally> {
    let part = cases / 10 + 1;
    let mut all = places(seed, cases);
    all.extend(of_maps(seed, part / 2 + 1));
    all.extend(of_writers(seed, part));
    all.extend(of_reserved(seed, part / 10 + 1));
    all
}
