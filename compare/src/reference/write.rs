//! 01, Writers. Order: 24, 11, 10, 29, 13, each over the whole input; every place is 0 (D38; 02, §12).

use super::header::{FLT, MAP};
use super::map::{FIELDS, LINES, RATES};
use super::plate::{known_type, refuse, wrong_form, Answer};

/// A packet of a payload: reserved bytes 0, padding the fewest zeros.
fn packet_of(kind: u8, payload: &[u8]) -> Vec<u8> {
    let length = (16 + payload.len()).div_ceil(4) * 4;
    let mut packet = vec![0, 0, 0, 0, 1, kind];
    packet.extend((length as u32).to_be_bytes());
    packet.extend([0, 0, 0, 0, 0xE1, 0xE2]);
    packet.extend(payload);
    packet.resize(length, 0);
    packet
}

/// Puts a packet at a place of the room, or 13; a place beyond the room is 13 too.
fn put(room: &mut [u8], at: u64, packet: &[u8]) -> Answer<u64> {
    let end = u128::from(at) + packet.len() as u128;
    if end > room.len() as u128 {
        return refuse(13, 0);
    }
    room[at as usize..end as usize].copy_from_slice(packet);
    Ok(packet.len() as u64)
}

const MOST_32: u64 = u32::MAX as u64;

/// The FLT writer: 24 for a step of 0, over 1,000 entries, or a number over 32 bits.
pub fn write_flt(room: &mut [u8], at: u64, step: u64, offsets: &[u64]) -> Answer<u64> {
    let wide = offsets.iter().any(|offset| *offset > MOST_32);
    if step == 0 || step > MOST_32 || offsets.len() > 1_000 || wide {
        return refuse(24, 0);
    }
    let mut payload = Vec::new();
    payload.extend((step as u32).to_le_bytes());
    payload.extend((offsets.len() as u32).to_le_bytes());
    for offset in offsets {
        payload.extend((*offset as u32).to_le_bytes());
    }
    put(room, at, &packet_of(FLT, &payload))
}

/// What a slot of three words holds, by its tag.
#[derive(Clone, Copy)]
enum Form {
    Text,
    Binary,
    Number,
    Code(&'static [i32]),
}

const MATERIAL: [(u8, Form); 6] = [
    (0x40, Form::Text),
    (0x41, Form::Number),
    (0x42, Form::Number),
    (0x43, Form::Number),
    (0x44, Form::Number),
    (0x45, Form::Number),
];

const TRACK: [(u8, Form); 7] = [
    (0x4C, Form::Text),
    (0x4D, Form::Binary),
    (0x4E, Form::Number),
    (0x4F, Form::Text),
    (0x50, Form::Code(&RATES)),
    (0x51, Form::Code(&LINES)),
    (0x52, Form::Code(&FIELDS)),
];

/// An item to be written: its tag and the bytes as given, a text without its 00.
struct Given<'a> {
    tag: u8,
    is_text: bool,
    value: std::borrow::Cow<'a, [u8]>,
}

/// The part of the lent text, if it lies in it (a + b in unbounded arithmetic).
fn part(text: &[u8], a: u64, b: u64) -> Option<&[u8]> {
    if u128::from(a) + u128::from(b) > text.len() as u128 {
        return None;
    }
    Some(&text[a as usize..(a + b) as usize])
}

/// The present items of a row of slots, or nothing where 24 is due.
fn given<'a>(text: &'a [u8], forms: &[(u8, Form)], words: &[u64]) -> Option<Vec<Given<'a>>> {
    let mut items = Vec::new();
    for ((tag, form), slot) in forms.iter().zip(words.chunks_exact(3)) {
        let (mark, a, b) = (slot[0], slot[1], slot[2]);
        if mark == 0 {
            continue; // absent: a and b are not looked at
        }
        if mark != 1 {
            return None;
        }
        let value = match form {
            Form::Text if b <= 254 => part(text, a, b)?.into(),
            Form::Binary if b == 8 => part(text, a, b)?.into(),
            Form::Number if a <= MOST_32 => (a as u32).to_be_bytes().to_vec().into(),
            Form::Code(listed) if code_ok(a as i64, listed) => {
                (a as i64 as i32).to_be_bytes().to_vec().into()
            }
            _ => return None,
        };
        items.push(Given {
            tag: *tag,
            is_text: matches!(form, Form::Text),
            value,
        });
    }
    Some(items)
}

/// A code is a signed 64-bit number: a listed one, −1 or −2 (D37).
fn code_ok(code: i64, listed: &[i32]) -> bool {
    code == -1 || code == -2 || listed.iter().any(|known| i64::from(*known) == code)
}

/// A text to be written has no 00 and no byte over 7F.
fn texts_ok(items: &[Given]) -> bool {
    items
        .iter()
        .filter(|item| item.is_text)
        .all(|item| item.value.iter().all(|b| (0x01..=0x7F).contains(b)))
}

fn has(items: &[Given], tag: u8) -> bool {
    items.iter().any(|item| item.tag == tag)
}

/// Tag, length and value of each item; a text gets its 00.
fn item_bytes(items: &[Given]) -> Vec<u8> {
    let mut bytes = Vec::new();
    for item in items {
        bytes.push(item.tag);
        bytes.push(item.value.len() as u8 + u8::from(item.is_text));
        bytes.extend(item.value.iter());
        if item.is_text {
            bytes.push(0);
        }
    }
    bytes
}

/// A 16-bit length and its bytes. It always fits: 64 tracks of at most 542 bytes, and 287 of material (F22).
fn counted(bytes: Vec<u8>) -> Vec<u8> {
    let length = u16::try_from(bytes.len()).expect("a section has at most 34,688 bytes");
    [&length.to_be_bytes(), &bytes[..]].concat()
}

/// The map writer. `material` is six slots of three words (40 to 45); `tracks` is rows of 23 words: bare type,
/// bare ID, seven slots (4C, 4D, 4E, 4F, 50, 51, 52). A slot is a mark, a and b.
pub fn write_map(
    room: &mut [u8],
    at: u64,
    text: &[u8],
    material: &[u64],
    tracks: &[u64],
) -> Answer<u64> {
    // 24 over the whole input
    if material.len() != 18 || tracks.len() % 23 != 0 {
        return refuse(24, 0);
    }
    let Some(head) = given(text, &MATERIAL, material) else {
        return refuse(24, 0);
    };
    let mut rows = Vec::new();
    for row in tracks.chunks_exact(23) {
        let (kind, id) = (row[0], row[1]);
        let Some(items) = given(text, &TRACK, &row[2..]) else {
            return refuse(24, 0);
        };
        let null = items.iter().any(|i| i.tag == 0x4C && i.value.is_empty());
        let barred = has(&items, 0x4D) || has(&items, 0x4E) || has(&items, 0x4F);
        if !known_type(kind) || id > 63 || (null && barred) {
            return refuse(24, 0);
        }
        rows.push((kind as u8, id as u8, items));
    }
    // 11
    if !texts_ok(&head) || !rows.iter().all(|(_, _, items)| texts_ok(items)) {
        return refuse(11, 0);
    }
    // 10
    let both = |items: &[Given]| has(items, 0x4D) && has(items, 0x4F);
    for (i, (_, id, items)) in rows.iter().enumerate() {
        if both(items) || rows[..i].iter().any(|(_, earlier, _)| earlier == id) {
            return refuse(10, 0);
        }
    }
    // 29; beside a null name either form is 24 already
    if rows
        .iter()
        .any(|(kind, _, items)| has(items, wrong_form(*kind)))
    {
        return refuse(29, 0);
    }
    // 13, or the packet
    let mut section = Vec::new();
    for (kind, id, items) in &rows {
        section.extend([0x80 + kind, 0xC0 + id]);
        section.extend(counted(item_bytes(items)));
    }
    let mut payload = vec![0xE0, 0xFF];
    payload.extend(counted(item_bytes(&head)));
    payload.extend(counted(section));
    put(room, at, &packet_of(MAP, &payload))
}
