//! 01, Map (clause 7.1): one walk along the bytes, the first fault met is the refusal (D8).

use super::aspect::{aspect, Aspect};
use super::header::{packet_bytes, MAP};
use super::plate::{known_type, most_first, refuse, text_ok, wrong_form, Answer};

/// Where bytes lie, from the packet's first byte, and how many, a closing 00 counted (D16).
#[derive(Clone, Copy, PartialEq, Eq, Debug)]
pub struct Part {
    pub place: u64,
    pub length: u64,
}

/// One record for each listed track; `None` is absent (D17).
#[derive(Clone, Copy, PartialEq, Eq, Debug)]
pub struct Track {
    pub id: u8,
    pub kind: u8,
    pub rate: Option<i32>,
    pub lines: Option<i32>,
    pub fields: Option<i32>,
    pub version: Option<u32>,
    pub name: Option<Part>,
    pub binary: Option<Part>,
    pub text: Option<Part>,
    /// `None` is unknown (02, §11).
    pub aspect: Option<Aspect>,
}

#[derive(Clone, PartialEq, Eq, Debug)]
pub struct Map {
    pub name: Option<Part>,
    /// First field, last field, mark in, mark out, size.
    pub numbers: [Option<u32>; 5],
    pub tracks: Vec<Track>,
}

/// How the bytes of a known tag are judged.
#[derive(Clone, Copy)]
enum Form {
    Text,
    Bytes(usize),
}

/// Table 4 as far as 01 knows it.
fn material_form(tag: u8) -> Option<Form> {
    match tag {
        0x40 => Some(Form::Text),
        0x41..=0x45 => Some(Form::Bytes(4)),
        _ => None,
    }
}

/// Table 6.
fn track_form(tag: u8) -> Option<Form> {
    match tag {
        0x4C | 0x4F => Some(Form::Text),
        0x4D => Some(Form::Bytes(8)),
        0x4E | 0x50..=0x52 => Some(Form::Bytes(4)),
        _ => None,
    }
}

/// A known item: its tag and where its value lies.
struct Item {
    tag: u8,
    part: Part,
}

/// 10 at an item: the tag again, or 4D and 4F together (D10).
fn clash(old: u8, new: u8) -> bool {
    old == new || (old == 0x4D && new == 0x4F) || (old == 0x4F && new == 0x4D)
}

/// The known items from `from` up to `to`; at each item 8, 9, 11, 10 at its tag byte.
fn items(packet: &[u8], from: usize, to: usize, form: fn(u8) -> Option<Form>) -> Answer<Vec<Item>> {
    let mut known: Vec<Item> = Vec::new();
    let mut at = from;
    while at < to {
        let place = at as u64;
        if to - at < 2 || to - at - 2 < usize::from(packet[at + 1]) {
            return refuse(8, place);
        }
        let tag = packet[at];
        let value = &packet[at + 2..at + 2 + usize::from(packet[at + 1])];
        if let Some(form) = form(tag) {
            match form {
                Form::Bytes(size) if value.len() != size => return refuse(9, place),
                Form::Text if !text_ok(value) => return refuse(11, place),
                _ => {}
            }
            if known.iter().any(|old| clash(old.tag, tag)) {
                return refuse(10, place);
            }
            let part = Part {
                place: place + 2,
                length: value.len() as u64,
            };
            known.push(Item { tag, part });
        }
        at += 2 + value.len();
    }
    Ok(known)
}

fn find(known: &[Item], tag: u8) -> Option<Part> {
    known
        .iter()
        .find(|item| item.tag == tag)
        .map(|item| item.part)
}

/// The bytes that lie there.
fn bytes(packet: &[u8], part: Part) -> &[u8] {
    &packet[part.place as usize..(part.place + part.length) as usize]
}

fn number(packet: &[u8], part: Part) -> u32 {
    most_first(bytes(packet, part)) as u32
}

/// Codes: those listed, −1 and −2; any other value counts as absent.
fn code(packet: &[u8], part: Option<Part>, listed: &[i32]) -> Option<i32> {
    let value = number(packet, part?) as i32;
    (value == -1 || value == -2 || listed.contains(&value)).then_some(value)
}

pub const RATES: [i32; 8] = [1, 2, 3, 4, 5, 6, 7, 8];
pub const LINES: [i32; 4] = [1, 2, 4, 6];
pub const FIELDS: [i32; 2] = [1, 2];

/// A name is null if it is a lone 00; no name is no null name.
fn null_name(known: &[Item]) -> bool {
    matches!(find(known, 0x4C), Some(Part { length: 1, .. }))
}

/// 29 at the end of a listed track, at the item of the form that its type may not have; a null name lifts it (02, §12).
fn form_ok(kind: u8, known: &[Item]) -> Answer<()> {
    match find(known, wrong_form(kind)) {
        Some(part) if !null_name(known) => refuse(29, part.place - 2), // at its tag
        _ => Ok(()),
    }
}

/// The record of a listed track. A null name hides 4D, 4E and 4F, wherever they stand (D14), and so leaves the aspect unknown.
fn record(packet: &[u8], kind: u8, id: u8, known: &[Item]) -> Track {
    let null = null_name(known);
    let shown = |part: Option<Part>| if null { None } else { part };
    let (binary, text) = (shown(find(known, 0x4D)), shown(find(known, 0x4F)));
    let at = |part: Option<Part>| part.map(|part| bytes(packet, part));
    Track {
        id,
        kind,
        rate: code(packet, find(known, 0x50), &RATES),
        lines: code(packet, find(known, 0x51), &LINES),
        fields: code(packet, find(known, 0x52), &FIELDS),
        version: shown(find(known, 0x4E)).map(|part| number(packet, part)),
        name: find(known, 0x4C),
        binary,
        text,
        aspect: aspect(kind, at(binary), at(text)),
    }
}

/// A length word at `at` and what it spans: 8 for missing bytes, 8 for overhang, both at the word.
fn section(packet: &[u8], at: usize) -> Answer<(usize, usize)> {
    if packet.len() < at + 2 {
        return refuse(8, at as u64);
    }
    let end = at + 2 + most_first(&packet[at..at + 2]) as usize;
    if end > packet.len() {
        return refuse(8, at as u64);
    }
    Ok((at + 2, end))
}

/// The map in the bytes of one packet.
pub fn map_of(packet: &[u8]) -> Answer<Map> {
    if packet.len() < 18 {
        return refuse(8, 16); // payload under 2 bytes, before 7
    }
    if packet[16] != 0xE0 {
        return refuse(7, 16);
    }
    let (from, to) = section(packet, 18)?;
    let material = items(packet, from, to, material_form)?;
    let (mut at, end) = section(packet, to)?;
    let mut ids = Vec::new();
    let mut tracks = Vec::new();
    while at < end {
        let place = at as u64;
        if end - at < 4 {
            return refuse(8, place);
        }
        let (kind, id) = (packet[at], packet[at + 1]);
        if kind < 0x80 || id < 0xC0 {
            return refuse(12, place);
        }
        let next = at + 4 + most_first(&packet[at + 2..at + 4]) as usize;
        if next > end {
            return refuse(8, place);
        }
        if ids.contains(&id) {
            return refuse(10, place); // unlisted tracks count too (D9)
        }
        ids.push(id);
        let known = items(packet, at + 4, next, track_form)?;
        if known_type(u64::from(kind - 0x80)) {
            form_ok(kind - 0x80, &known)?;
            tracks.push(record(packet, kind - 0x80, id - 0xC0, &known));
        }
        at = next;
    }
    let mut numbers = [None; 5];
    for (slot, tag) in numbers.iter_mut().zip(0x41..=0x45) {
        *slot = find(&material, tag).map(|part| number(packet, part));
    }
    Ok(Map {
        name: find(&material, 0x40),
        numbers,
        tracks,
    })
}

/// The map at a position; 13 left out.
pub fn map(bytes: &[u8], at: u64) -> Answer<Map> {
    map_of(packet_bytes(bytes, at, MAP)?)
}

/// Fills the lent records; `None` is what stood there before. 13 after all other faults.
pub fn fill(bytes: &[u8], at: u64, lent: &mut [Option<Track>]) -> Answer<Map> {
    let map = map(bytes, at)?;
    if lent.len() < map.tracks.len() {
        return refuse(13, 0);
    }
    for (record, track) in lent.iter_mut().zip(&map.tracks) {
        *record = Some(*track);
    }
    Ok(map)
}
