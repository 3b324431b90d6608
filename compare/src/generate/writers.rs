//! Inputs of the writers, with numbers at every edge, short rooms and places beyond.

use super::packets::{flt_payload, known_type, packet, KNOWN_TYPES, MPEG_TYPES, OTHER_TYPES};
use super::{maps, texts, Made};
use crate::request::{hex, lent_room, word_bytes, Request, WRITE_FLT, WRITE_MAP};
use crate::rng::{Rng, EDGES};
use crate::size::MOST;

/// A place and a room for a packet of this length; `fits` says whether they do.
fn room_for(rng: &mut Rng, length: usize) -> (u64, u64, bool) {
    let before = if rng.chance(1, 2) { 0 } else { rng.below(20) };
    let after = if rng.chance(1, 2) { 0 } else { rng.below(20) };
    let room = (before + length + after) as u64;
    match rng.below(12) {
        0 => (before as u64 + after as u64 + 1, room, false), // one byte short
        1 => (room, room, false),
        2 => (room + 1, room, false),
        3 => (rng.edge().max(70_000), room, false),
        4 => (0, rng.below(length) as u64, false),
        _ => (before as u64, room, true),
    }
}

/// The room as it must be: the packet at its place, all else as it was.
fn written(at: u64, room: u64, packet: &[u8]) -> Option<String> {
    let mut lent = lent_room(room);
    lent[at as usize..at as usize + packet.len()].copy_from_slice(packet);
    Some(format!("length {} {}", packet.len(), hex(&lent)))
}

/// Refused: the room is as it was.
fn unwritten(number: u8, room: u64) -> Option<String> {
    Some(format!("refused {number} 0 {}", hex(&lent_room(room))))
}

fn ask_flt(at: u64, room: u64, step: u64, offsets: &[u64]) -> Request {
    Request::new(WRITE_FLT, &[at, room, step], &[&word_bytes(offsets)])
}

pub fn flt_valid(rng: &mut Rng) -> Made {
    let n = match rng.below(40) {
        0 => 1_000,
        1 => 999,
        2 => 256,
        _ => rng.below(8),
    };
    let offsets: Vec<u32> = (0..n).map(|_| rng.edge32()).collect();
    let step = rng.edge32().max(1);
    let bytes = packet(0xFC, &flt_payload(step, n as u32, &offsets));
    let (at, room, fits) = room_for(rng, bytes.len());
    let claim = if fits {
        written(at, room, &bytes)
    } else {
        unwritten(13, room)
    };
    let wide: Vec<u64> = offsets.iter().map(|offset| u64::from(*offset)).collect();
    (ask_flt(at, room, u64::from(step), &wide), claim)
}

/// Step, offsets and count at every edge, mostly one at a time; 24 also with a room too small.
pub fn flt_edges(rng: &mut Rng) -> Made {
    let which = rng.below(4);
    let n = match rng.below(4) {
        0 if which == 0 => 1_002 + rng.below(200),
        1 if which == 0 => 1_000,
        _ if which == 0 => 1_001,
        _ => rng.below(4),
    };
    let mut offsets: Vec<u64> = (0..n).map(|_| u64::from(rng.edge32())).collect();
    if which & 1 != 0 {
        offsets.push(rng.edge());
        let at = rng.below(offsets.len());
        offsets[at] = if rng.chance(1, 3) {
            1 << 32
        } else {
            rng.edge()
        };
    }
    let step = if which & 2 != 0 {
        rng.edge()
    } else {
        u64::from(rng.edge32().max(1))
    };
    let n = offsets.len();
    let (at, room, _) = room_for(rng, 24 + 4 * n);
    let barred = step == 0 || step >> 32 != 0 || n > 1_000 || offsets.iter().any(|o| o >> 32 != 0);
    let claim = if barred { unwritten(24, room) } else { None };
    (ask_flt(at, room, step, &offsets), claim)
}

/// The three words of a slot.
type Slot = [u64; 3];

/// A track: type, ID, slots.
type Row = (u64, u64, [Slot; 7]);

/// The writer's input, before it is made words.
#[derive(Clone)]
pub struct Input {
    pub text: Vec<u8>,
    pub material: [Slot; 6],
    pub tracks: Vec<Row>,
}

/// An absent slot, whose a and b are not looked at.
fn absent(rng: &mut Rng) -> Slot {
    if rng.chance(1, 2) {
        [0, 0, 0]
    } else {
        [0, rng.edge(), rng.edge()]
    }
}

/// A good text in the lent text: an old part of it or a new one.
fn text_slot(rng: &mut Rng, text: &mut Vec<u8>, empty: bool) -> Slot {
    if empty {
        return [1, rng.below(text.len() + 1) as u64, 0];
    }
    let n = match rng.below(25) {
        0 => 254,
        1 => 253,
        _ => 1 + rng.below(9),
    };
    own_text(rng, text, n)
}

/// A good text of so many bytes, behind all that stands in the lent text.
fn own_text(rng: &mut Rng, text: &mut Vec<u8>, n: usize) -> Slot {
    let place = text.len();
    text.extend((0..n).map(|_| {
        if rng.chance(1, 10) {
            rng.pick(&[0x01, 0x7F, 0x0A])
        } else {
            0x20 + rng.below(0x5F) as u8
        }
    }));
    [1, place as u64, n as u64]
}

/// A text of Table 7, or near it, behind all that stands in the lent text; it is given without its 00.
fn aux_slot(text: &mut Vec<u8>, aux: &[u8]) -> Slot {
    let (place, n) = (text.len() as u64, aux.len() - 1);
    text.extend(&aux[..n]);
    [1, place, n as u64]
}

/// A 4D of its own: 00 and bytes over 7F are fine in it.
fn binary_slot(rng: &mut Rng, text: &mut Vec<u8>) -> Slot {
    let place = text.len() as u64;
    text.extend(maps::binary(rng));
    [1, place, 8]
}

fn number_slot(rng: &mut Rng) -> Slot {
    [1, u64::from(rng.edge32()), rng.edge()]
}

/// The slots of codes and their listed values.
const CODES: [(usize, &[u64]); 3] = [
    (4, &[1, 2, 3, 4, 5, 6, 7, 8]),
    (5, &[1, 2, 4, 6]),
    (6, &[1, 2]),
];
const MINUS: [u64; 2] = [u64::MAX, u64::MAX - 1];

fn code_slot(rng: &mut Rng, listed: &[u64]) -> Slot {
    let code = if rng.chance(1, 4) {
        rng.pick(&MINUS)
    } else {
        rng.pick(listed)
    };
    [1, code, rng.edge()]
}

/// Any of the material items.
fn some_material(rng: &mut Rng, text: &mut Vec<u8>) -> [Slot; 6] {
    let mut material: [Slot; 6] = [[0; 3]; 6];
    let null = rng.chance(1, 5);
    for (i, slot) in material.iter_mut().enumerate() {
        *slot = if rng.chance(1, 2) {
            absent(rng)
        } else if i == 0 {
            text_slot(rng, text, null)
        } else {
            number_slot(rng)
        };
    }
    material
}

/// A track of this ID without items.
fn bare_row(rng: &mut Rng, id: u64) -> Row {
    let kind = known_type(rng);
    let mut slots: [Slot; 7] = [[0; 3]; 7];
    for slot in &mut slots {
        *slot = absent(rng);
    }
    (u64::from(kind), id, slots)
}

fn of_mpeg(kind: u64) -> bool {
    MPEG_TYPES.iter().any(|mpeg| u64::from(*mpeg) == kind)
}

/// Gives a track auxiliary information, as a text or as eight bytes.
fn set_form(rng: &mut Rng, text: &mut Vec<u8>, slots: &mut [Slot; 7], as_text: bool) {
    if as_text {
        slots[3] = match rng.below(8) {
            0 => text_slot(rng, text, true),
            1 => text_slot(rng, text, false),
            _ => aux_slot(text, &texts::for_item(rng).0),
        };
        slots[1] = absent(rng);
    } else {
        slots[1] = binary_slot(rng, text);
        slots[3] = absent(rng);
    }
}

/// A track of this ID with any of the items that may stand together.
fn some_row(rng: &mut Rng, text: &mut Vec<u8>, id: u64) -> Row {
    let (kind, id, mut slots) = bare_row(rng, id);
    let null = rng.chance(1, 5);
    if rng.chance(2, 3) || null {
        slots[0] = text_slot(rng, text, null);
    }
    if !null {
        if rng.chance(2, 3) {
            set_form(rng, text, &mut slots, of_mpeg(kind));
        }
        if rng.chance(1, 2) {
            slots[2] = number_slot(rng);
        }
    }
    for (i, listed) in CODES {
        if rng.chance(1, 2) {
            slots[i] = code_slot(rng, listed);
        }
    }
    (kind, id, slots)
}

/// The IDs 0 to 63 in any order.
fn all_ids(rng: &mut Rng) -> Vec<u64> {
    let mut ids: Vec<u64> = (0..64).collect();
    rng.shuffle(&mut ids);
    ids
}

/// An input that is accepted, and the packet that it gives.
pub fn good(rng: &mut Rng) -> (Input, Vec<u8>) {
    let mut text = Vec::new();
    let material = some_material(rng, &mut text);
    let ids = all_ids(rng);
    let n = if rng.chance(1, 40) { 64 } else { rng.below(5) };
    let mut tracks = Vec::new();
    for id in ids.into_iter().take(n) {
        tracks.push(some_row(rng, &mut text, id));
    }
    if rng.chance(1, 3) {
        text.push(0x41);
    }
    let input = Input {
        text,
        material,
        tracks,
    };
    let bytes = input.packet();
    (input, bytes)
}

/// A 16-bit length and its bytes.
fn counted(bytes: Vec<u8>) -> Vec<u8> {
    [&(bytes.len() as u16).to_be_bytes(), &bytes[..]].concat()
}

impl Input {
    /// The item of a slot, put together by its tag.
    fn item(&self, tag: u8, slot: &Slot) -> Vec<u8> {
        let (a, b) = (slot[1] as usize, slot[2] as usize);
        match tag {
            _ if slot[0] == 0 => vec![],
            0x40 | 0x4C | 0x4F => [&[tag, b as u8 + 1], &self.text[a..a + b], &[0]].concat(),
            0x4D => [&[tag, 8], &self.text[a..a + 8]].concat(),
            _ => [&[tag, 4], &(slot[1] as u32).to_be_bytes()[..]].concat(),
        }
    }

    /// A length and the items of slots whose tags rise from the first.
    fn items(&self, first: u8, slots: &[Slot]) -> Vec<u8> {
        let items = (first..).zip(slots).map(|(tag, slot)| self.item(tag, slot));
        counted(items.flatten().collect())
    }

    /// The packet that the writer must give, where it gives one.
    pub fn packet(&self) -> Vec<u8> {
        let mut section = Vec::new();
        for (kind, id, slots) in &self.tracks {
            section.extend([0x80 + *kind as u8, 0xC0 + *id as u8]);
            section.extend(self.items(0x4C, slots));
        }
        let mut payload = vec![0xE0, 0xFF];
        payload.extend(self.items(0x40, &self.material));
        payload.extend(counted(section));
        packet(0xBC, &payload)
    }

    pub fn words(&self) -> (Vec<u64>, Vec<u64>) {
        let material = self.material.concat();
        let mut tracks = Vec::new();
        for (kind, id, slots) in &self.tracks {
            tracks.extend([*kind, *id]);
            tracks.extend(slots.concat());
        }
        (material, tracks)
    }

    pub fn ask(&self, at: u64, room: u64) -> Request {
        let (material, tracks) = self.words();
        ask(at, room, &self.text, &material, &tracks)
    }
}

fn ask(at: u64, room: u64, text: &[u8], material: &[u64], tracks: &[u64]) -> Request {
    let words = [word_bytes(material), word_bytes(tracks)];
    Request::new(WRITE_MAP, &[at, room], &[text, &words[0], &words[1]])
}

pub fn map_valid(rng: &mut Rng) -> Made {
    let (input, bytes) = good(rng);
    let before = rng.below(9) as u64;
    let room = before + bytes.len() as u64 + rng.below(9) as u64;
    (input.ask(before, room), written(before, room, &bytes))
}

pub fn map_room(rng: &mut Rng) -> Made {
    let (input, bytes) = good(rng);
    let (at, room, fits) = room_for(rng, bytes.len());
    let claim = if fits {
        written(at, room, &bytes)
    } else {
        unwritten(13, room)
    };
    (input.ask(at, room), claim)
}

/// A track that is there, or a new one.
fn some_track(input: &mut Input) -> &mut Row {
    if input.tracks.is_empty() {
        input.tracks.push((10, 1, [[0; 3]; 7]));
    }
    input.tracks.last_mut().unwrap()
}

/// A number that is none of a list.
fn off(rng: &mut Rng, good: &[u64]) -> u64 {
    loop {
        let number = rng.edge();
        if !good.contains(&number) {
            return number;
        }
    }
}

/// Sets in one reason for 24.
fn bar(rng: &mut Rng, input: &mut Input) {
    let over = EDGES
        .iter()
        .filter(|n| **n > u64::from(u32::MAX))
        .copied()
        .collect::<Vec<_>>();
    let length = input.text.len() as u64;
    match rng.below(14) {
        0 => input.material[1 + rng.below(5)] = [1, rng.pick(&over), 0],
        1 => some_track(input).2[2] = [1, rng.pick(&over), 0],
        2 => {
            let (slot, good) = rng.pick(&CODES);
            let all = [good, &MINUS].concat();
            let code = match rng.below(4) {
                0 => rng.pick(&[
                    0xFFFF_FFFF,
                    0xFFFF_FFFE,
                    0xFFFF_FFFF_FFFF_FFFD,
                    1 << 32 | 1,
                    1 << 63 | 1,
                ]),
                1 => rng.pick(&[0, 9, 10]),
                _ => off(rng, &all),
            };
            some_track(input).2[slot] = [1, code, 0];
        }
        3 => {
            let known: Vec<u64> = KNOWN_TYPES.iter().map(|kind| u64::from(*kind)).collect();
            let kind = match rng.below(3) {
                0 => rng.pick(&[0, 2, 5, 6, 19, 27, 127]),
                1 => rng.pick(&known) + rng.pick(&[128, 256, 65_536, 1 << 32, 1 << 63]),
                _ => off(rng, &known),
            };
            some_track(input).0 = kind;
        }
        4 => {
            some_track(input).1 =
                rng.pick(&[64, 64, 65, 0xC1, 255, 256, 1 << 32, 1 << 63, u64::MAX]);
        }
        // a mark that is neither
        5 => {
            let mark = rng.pick(&[2, 3, 255, 256, 1 << 32, 1 << 32 | 1, u64::MAX]);
            if rng.chance(1, 2) {
                input.material[rng.below(6)][0] = mark;
            } else {
                some_track(input).2[rng.below(7)][0] = mark;
            }
        }
        // a text over 254
        6 => {
            input.text.resize(input.text.len() + 300, 0x41);
            let slot = [1, length, rng.pick(&[255, 256, 257, 300])];
            if rng.chance(1, 2) {
                input.material[0] = slot;
            } else {
                some_track(input).2[rng.pick(&[0, 3])] = slot;
            }
        }
        // a part outside the text
        7 => {
            let (a, b) = rng.pick(&[
                (length, 1),
                (length + 1, 0),
                (length.saturating_sub(3), 4),
                (u64::MAX, 0),
                (u64::MAX, 1),
                (u64::MAX - 1, 2),
                (u64::MAX - 7, 8),
                (1 << 32, 0),
                (1 << 63, 5),
                (0, length + 1),
            ]);
            if rng.chance(1, 2) {
                input.material[0] = [1, a, b];
            } else {
                some_track(input).2[rng.pick(&[0, 3])] = [1, a, b];
            }
        }
        8 => {
            let a = rng.pick(&[
                length.saturating_sub(7),
                length,
                length + 1,
                u64::MAX,
                u64::MAX - 7,
                1 << 32,
            ]);
            some_track(input).2[1] = [1, a, 8];
        }
        9 => {
            input.text.resize(input.text.len() + 20, 0x42);
            some_track(input).2[1] = [1, length, rng.pick(&[0, 1, 4, 7, 9, 16, 256 + 8, u64::MAX])];
        }
        // beside a null name
        _ => {
            let text = input.text.len() as u64;
            input.text.extend([0x43; 8]);
            let track = some_track(input);
            track.2[0] = [1, 0, 0];
            match rng.below(4) {
                0 => track.2[1] = [1, text, 8],
                1 => track.2[2] = [1, 7, 0],
                2 => track.2[3] = [1, text, 3],
                _ => {
                    // 24 comes before 10
                    track.2[1] = [1, text, 8];
                    track.2[3] = [1, text, 0];
                }
            }
        }
    }
}

/// Sets in a bad text: a 00 or a byte over 7F.
fn spoil(rng: &mut Rng, input: &mut Input) {
    let place = input.text.len() as u64;
    let n = 1 + rng.below(6);
    input.text.extend(vec![0x44; n]);
    let i = place as usize + rng.below(n);
    input.text[i] = rng.pick(&[0x00, 0x80, 0xFF]);
    let slot = [1, place, n as u64];
    match rng.below(3) {
        0 => input.material[0] = slot,
        1 => some_track(input).2[0] = slot,
        _ => {
            let track = some_track(input);
            if track.2[0][0] == 1 && track.2[0][2] == 0 {
                track.2[0] = [0, 0, 0]; // no null name beside it
            }
            track.2[3] = slot;
        }
    }
}

/// Sets in 4D with 4F, or an ID twice.
fn double(rng: &mut Rng, input: &mut Input) {
    if rng.chance(1, 2) {
        let place = input.text.len() as u64;
        input.text.extend([0x45; 8]);
        let track = some_track(input);
        track.2[0] = [0, 0, 0];
        track.2[1] = [1, place, 8];
        track.2[3] = [1, place, rng.below(9) as u64];
    } else {
        let first = *some_track(input);
        let again = (rng.pick(&[3, 10, 26]), first.1, [[0; 3]; 7]);
        let at = rng.below(input.tracks.len() + 1);
        input.tracks.insert(at, again);
    }
}

/// Sets the form that its type may not have into a track, whose name is then not null.
pub fn misform(rng: &mut Rng, input: &mut Input) {
    some_track(input);
    let i = rng.below(input.tracks.len());
    let (kind, _, slots) = &mut input.tracks[i];
    if slots[0][0] == 1 && slots[0][2] == 0 {
        slots[0] = absent(rng);
    }
    set_form(rng, &mut input.text, slots, !of_mpeg(*kind));
}

/// One or more reasons to refuse; the order 24, 11, 10, 29, 13 decides.
pub fn map_fault(rng: &mut Rng) -> Made {
    let (mut input, bytes) = good(rng);
    let mut number = 0;
    let which = 1 + rng.below(15);
    if which & 8 != 0 {
        misform(rng, &mut input);
        number = 29;
    }
    if which & 4 != 0 {
        double(rng, &mut input);
        number = 10;
    }
    if which & 2 != 0 {
        spoil(rng, &mut input);
        number = 11;
    }
    if which & 1 != 0 {
        bar(rng, &mut input);
        number = 24;
    }
    let (at, room, _) = room_for(rng, bytes.len());
    let (mut material, mut tracks) = input.words();
    if rng.chance(1, 12) {
        number = 24;
        match rng.below(4) {
            0 => material.truncate(rng.below(18)),
            1 => material.push(0),
            2 => tracks.push(0),
            _ => {
                tracks.extend([10, 60]);
                tracks.extend([0; 20]); // one word short
            }
        }
    }
    (
        ask(at, room, &input.text, &material, &tracks),
        unwritten(number, room),
    )
}

/// Either form on any type, with a text for a name, a null name or none, in a room that fits or not; at times with a fault more.
pub fn map_form(rng: &mut Rng) -> Made {
    let (mut input, _) = good(rng);
    some_track(&mut input);
    let i = rng.below(input.tracks.len());
    let (kind, _, slots) = &mut input.tracks[i];
    *kind = u64::from(rng.pick(&KNOWN_TYPES));
    let as_text = rng.chance(1, 2);
    set_form(rng, &mut input.text, slots, as_text);
    let null = rng.chance(1, 5);
    slots[0] = if null || rng.chance(1, 2) {
        text_slot(rng, &mut input.text, null)
    } else {
        absent(rng)
    };
    let mut number = match as_text == of_mpeg(*kind) {
        _ if null => 24, // beside a null name
        true => 0,
        false => 29,
    };
    let bytes = input.packet();
    let (at, room, fits) = room_for(rng, bytes.len());
    // one fault more, which goes before 29 or is another one
    match rng.below(12) {
        _ if null => {}
        0 => {
            bar(rng, &mut input);
            number = 24;
        }
        1 => {
            spoil(rng, &mut input);
            number = 11;
        }
        2 => {
            double(rng, &mut input);
            number = 10;
        }
        3 => {
            misform(rng, &mut input);
            number = 29;
        }
        _ => {}
    }
    let claim = match number {
        0 if fits => written(at, room, &bytes),
        0 => unwritten(13, room),
        _ => unwritten(number, room),
    };
    (input.ask(at, room), claim)
}

/// The longest text that a writer is given.
const LONGEST: usize = 254;

/// Where texts are shared, they are parts of a beginning of so many bytes, and overlap.
const BEGINNING: usize = 300;

/// A lent text in which none, half or all of the longest texts are shared; the others are parts of their own.
struct Lent {
    text: Vec<u8>,
    shared: usize, // of two
}

impl Lent {
    fn new(rng: &mut Rng) -> Self {
        let mut text = Vec::new();
        own_text(rng, &mut text, BEGINNING);
        let shared = rng.below(3);
        Lent { text, shared }
    }

    fn longest(&mut self, rng: &mut Rng) -> Slot {
        if rng.chance(self.shared, 2) {
            let place = rng.below(BEGINNING - LONGEST + 1);
            return [1, place as u64, LONGEST as u64];
        }
        own_text(rng, &mut self.text, LONGEST)
    }
}

/// All items that may stand in a track, as long as they can be, the 4F at times one of Table 7: 542 bytes with the header (F22).
fn full_row(rng: &mut Rng, lent: &mut Lent, id: u64) -> Row {
    let (_, id, mut slots) = bare_row(rng, id);
    slots[0] = lent.longest(rng);
    slots[2] = number_slot(rng);
    slots[3] = if rng.chance(1, 2) {
        aux_slot(&mut lent.text, &texts::longest(rng).0)
    } else {
        lent.longest(rng)
    };
    for (i, listed) in CODES {
        slots[i] = code_slot(rng, listed);
    }
    (u64::from(rng.pick(&MPEG_TYPES)), id, slots)
}

/// A map of such tracks, and 287 bytes of material.
fn full(rng: &mut Rng, ids: &[u64]) -> Input {
    let mut lent = Lent::new(rng);
    let mut material = [[0; 3]; 6];
    material[0] = lent.longest(rng);
    for slot in &mut material[1..] {
        *slot = number_slot(rng);
    }
    let tracks = ids.iter().map(|id| full_row(rng, &mut lent, *id));
    Input {
        tracks: tracks.collect(),
        text: lent.text,
        material,
    }
}

/// A map of tracks with few items, or with none at all.
fn lean(rng: &mut Rng, ids: &[u64]) -> Input {
    let mut text = Vec::new();
    let material = some_material(rng, &mut text);
    let bare = rng.chance(1, 2);
    let mut tracks = Vec::new();
    for id in ids {
        tracks.push(if bare {
            bare_row(rng, *id)
        } else {
            some_row(rng, &mut text, *id)
        });
    }
    Input {
        text,
        material,
        tracks,
    }
}

/// Takes one byte off one text of a full map, its first or its last.
fn shorten(rng: &mut Rng, input: &mut Input) {
    let track = rng.below(input.tracks.len());
    let slot = match rng.below(3) {
        0 => &mut input.material[0],
        1 => &mut input.tracks[track].2[0],
        _ => &mut input.tracks[track].2[3],
    };
    slot[1] += rng.below(2) as u64;
    slot[2] -= 1;
}

/// Sets a 4D in the place of the 4F in some tracks of a full map; gives how many.
fn swap_forms(rng: &mut Rng, input: &mut Input) -> usize {
    let all = input.tracks.len();
    let n = rng.pick(&[1, 1, 2, all]);
    let from = rng.below(all - n + 1);
    for (kind, _, slots) in &mut input.tracks[from..from + n] {
        *kind = u64::from(rng.pick(&OTHER_TYPES));
        slots[1] = binary_slot(rng, &mut input.text);
        slots[3] = absent(rng);
    }
    n
}

/// A map that is full, or lacks one byte, or has tracks of 295 bytes in the place of 542.
fn nearly_full(rng: &mut Rng, ids: &[u64]) -> Input {
    let mut input = full(rng, ids);
    let mut length = 22 + MOST.material_section + MOST.track * ids.len();
    match rng.below(4) {
        0 => {
            shorten(rng, &mut input);
            length -= 1;
        }
        1 => length -= (MOST.track - 295) * swap_forms(rng, &mut input),
        _ => {}
    }
    assert_eq!(input.packet().len(), length.div_ceil(4) * 4);
    input
}

/// So many IDs in any order; of 65 one is there twice.
fn ids_of(rng: &mut Rng, n: usize) -> Vec<u64> {
    let mut ids = all_ids(rng);
    ids.truncate(n);
    if n > ids.len() {
        let twice = rng.pick(&ids);
        ids.insert(rng.below(n), twice);
    }
    ids
}

/// A place and a room for a packet of this length: exact, one byte too small, enough for every map, or any; `fits` as in `room_for`.
fn long_room(rng: &mut Rng, length: usize) -> (u64, u64, bool) {
    let at = match rng.below(3) {
        0 => 0,
        1 => rng.below(20),
        _ => rng.below(29_000),
    };
    let exact = at + length;
    let ample = at + MOST.packet + rng.pick(&[0, 1, 500]);
    match rng.below(4) {
        0 => (at as u64, exact as u64, true),
        1 => (at as u64, exact as u64 - 1, false),
        2 => (at as u64, ample as u64, true),
        _ => room_for(rng, length),
    }
}

/// Maps of 63, 64 and 65 tracks, full, nearly full and lean: at the bounds of F22. An ID twice is 10, an ID of 64 is 24; at times
/// a form is wrong.
pub fn map_bounds(rng: &mut Rng) -> Made {
    let n = rng.pick(&[63, 64, 64, 64, 65]);
    let ids = ids_of(rng, n);
    let mut input = if rng.chance(1, 5) {
        lean(rng, &ids)
    } else {
        nearly_full(rng, &ids)
    };
    let bytes = input.packet();
    let (at, room, fits) = long_room(rng, bytes.len());
    let wrong = rng.chance(1, 12);
    if wrong {
        misform(rng, &mut input);
    }
    let claim = if n > 64 && rng.chance(1, 2) {
        input.tracks[rng.below(n)].1 = 64;
        unwritten(24, room)
    } else if n > 64 {
        unwritten(10, room)
    } else if wrong {
        unwritten(29, room)
    } else if fits {
        written(at, room, &bytes)
    } else {
        unwritten(13, room)
    };
    (input.ask(at, room), claim)
}

/// Words at every edge anywhere, and at times another known type.
pub fn map_edges(rng: &mut Rng) -> Made {
    let (input, bytes) = good(rng);
    let (at, room, _) = room_for(rng, bytes.len());
    let (mut material, mut tracks) = input.words();
    for _ in 0..1 + rng.below(3) {
        let i = rng.below(material.len() + tracks.len());
        let word = rng.edge();
        if i < material.len() {
            material[i] = word;
        } else {
            tracks[i - material.len()] = word;
        }
    }
    if !tracks.is_empty() && rng.chance(1, 4) {
        let row = rng.below(tracks.len() / 23);
        tracks[23 * row] = u64::from(rng.pick(&KNOWN_TYPES));
    }
    (ask(at, room, &input.text, &material, &tracks), None)
}
