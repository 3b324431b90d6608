//! Inputs at the limit of the format, 65,536 bytes: lengths with their highest bit set, and long lines.

use super::books::record;
use super::maps::{form, Item, Model, Track, M};
use super::packets::{media_payload, packet, refused, state_length, DV_TYPES, MPEG_TYPES};
use super::Made;
use crate::request::*;
use crate::rng::Rng;

const MOST: usize = MOST_BYTES as usize;

/// Unknown items that fill exactly so many bytes (at least 2).
fn filling(mut n: usize) -> Vec<Item> {
    let mut items = Vec::new();
    while n > 0 {
        let value = if n == 258 || n == 259 {
            250
        } else {
            (n - 2).min(255)
        };
        items.push(Item::new(0x7E, &vec![0x55; value]));
        n -= 2 + value;
    }
    items
}

/// A track's type and its last item: a name, the wrong form, or one that an aspect comes from.
fn last_item(rng: &mut Rng) -> (u8, Item) {
    match rng.below(6) {
        0 | 1 => (10, Item::new(0x4C, b"A1\0")),
        2 => (10, Item::new(0x4F, b"A1\0")),
        3 => (rng.pick(&DV_TYPES), form(rng, 0x4D)),
        _ => (rng.pick(&MPEG_TYPES), form(rng, 0x4F)),
    }
}

/// A map packet of 65,536 bytes, most of it in one section or one track.
fn map(rng: &mut Rng) -> Made {
    let mut model = Model::empty();
    let (kind, last) = last_item(rng);
    let spare = MOST - (16 + 2 + 2 + 2 + 4 + 2 + last.value.len());
    model.tracks.push(Track {
        type_byte: 0x80 + kind,
        id_byte: 0xC1,
        items: vec![last],
        overhang: 0,
    });
    if rng.chance(1, 2) {
        model.material = filling(spare);
    } else {
        let mut items = filling(spare);
        items.append(&mut model.tracks[0].items);
        model.tracks[0].items = items;
    }
    let bytes = model.bytes();
    assert_eq!(bytes.len(), MOST);
    let n = rng.below(3);
    let request = Request::new(MAP, &[0, n as u64], &[&bytes]);
    (request, Some(model.line_or_29(n)))
}

fn stream(rng: &mut Rng) -> Vec<u8> {
    stream_of(rng, MOST)
}

/// A stream of so many bytes, some 65,536, whose last packets lie far behind.
pub fn stream_of(rng: &mut Rng, most: usize) -> Vec<u8> {
    let media = |data: usize| packet(0xBF, &media_payload(10, 1, 7, [0, 0], 1, &vec![0; data]));
    let mut bytes = M.to_vec();
    bytes.extend(packet(0xFD, &[]));
    let tail = [media(0), packet(0xFB, &[])].concat();
    let left = most - bytes.len() - tail.len();
    if rng.chance(1, 2) {
        let mut one = packet(0xBF, &media_payload(10, 1, 6, [0, 0], 1, &[]));
        one.resize(left, 0);
        state_length(&mut one, left as u32);
        bytes.extend(one);
    } else {
        let each = 32 + 4 * rng.below(3);
        let mut many = 0;
        while most - bytes.len() - tail.len() >= 2 * (each + M.len()) + 32 {
            bytes.extend(packet(
                0xBF,
                &media_payload(10, 1, 6, [0, 0], 1, &vec![0; each - 32]),
            ));
            many += 1;
            if many % 90 == 0 {
                bytes.extend(M);
            }
        }
        let rest = most - bytes.len() - tail.len();
        bytes.extend(packet(0xFE, &vec![0; rest - 16]));
    }
    bytes.extend(tail);
    assert_eq!(bytes.len(), most);
    bytes
}

fn aux() -> Made {
    let mut text =
        b"Ver 1\nBr 0.5\nIpg 1\nPpi 2\nBpiop 3\nPix 0\nCf 1\nCg 0\nSl 1\nnl16 30\nVi 1\n".to_vec();
    while text.len() < MOST - 200 {
        text.extend(b"x 1\n");
    }
    text.extend(b"y ");
    while text.len() < MOST - 7 {
        text.push(b'z');
    }
    text.extend(b"\nf1 1\n\0");
    assert_eq!(text.len(), MOST);
    let claim = "parameters 1 3fe0000000000000 1 2 3 0 1 0 1 30 1 1 0 0".to_string();
    (Request::new(PARAMETERS, &[], &[&text]), Some(claim))
}

pub fn large(rng: &mut Rng) -> Made {
    match rng.below(10) {
        0 => map(rng),
        1 => (
            Request::new(CHECK, &[], &[&stream(rng)]),
            Some("ok".to_string()),
        ),
        2 => {
            let at = MOST - 48;
            let request = Request::new(SEEK, &[1, 7], &[&stream(rng)]);
            (request, Some(format!("at {at}")))
        }
        3 => {
            let room = rng.pick(&[MOST_BYTES, 65_535, 40_000]);
            (Request::new(BUILD, &[room], &[&stream(rng)]), None)
        }
        4 => {
            // a record for each field, or for each two with 64 in its type byte
            let (fields, kind) = rng.pick(&[(1, 10), (2, 10 + 64)]);
            let book: Vec<u8> = (0..4_096)
                .flat_map(|i| record(1, kind, (fields * i) as u32, 3 * i))
                .collect();
            let end = 4_096 * fields;
            let field = rng.pick(&[0, end - 1, end, end / 2 - 1]);
            let claim = if field < end {
                Some(format!("at {}", 3 * (field / fields)))
            } else {
                refused(16, 0)
            };
            (Request::new(LOOKUP, &[1, field], &[&book]), claim)
        }
        5 => {
            let claim = refused(24, 0);
            let offsets = vec![0; MOST];
            (
                Request::new(WRITE_FLT, &[0, MOST_BYTES, 1], &[&offsets]),
                claim,
            )
        }
        6 => {
            // a place at the very end of the largest room, fitting or one byte on
            let at = MOST_BYTES - 24 + rng.below(2) as u64;
            let claim = if at == MOST_BYTES - 24 {
                Some("length 24".to_string())
            } else {
                refused(13, 0)
            };
            if rng.chance(1, 2) {
                (Request::new(WRITE_FLT, &[at, MOST_BYTES, 1], &[&[]]), claim)
            } else {
                let material = vec![0; 144];
                (
                    Request::new(WRITE_MAP, &[at, MOST_BYTES], &[&[], &material, &[]]),
                    claim,
                )
            }
        }
        7 => {
            // 356 tracks; or 64 tracks as long as they can be, all of MPEG video or the last one not
            let text = vec![0x41; 254];
            let (n, last, claim) = match rng.below(4) {
                0 | 1 => (356, 10, refused(10, 0)),
                2 => (64, 10, refused(29, 0)),
                _ => (64, 23, Some("length 35000".to_string())),
            };
            let mut tracks = Vec::new();
            for id in 0..n {
                let kind = if id + 1 == n { last } else { 11 };
                tracks.extend([kind, id % 64, 1, 0, 254, 0, 0, 0, 1, 7, 0, 1, 0, 254]);
                tracks.extend([1, 8, 0, 1, 6, 0, 1, 2, 0]);
            }
            let mut material = vec![1, 0, 254];
            material.extend([1, 9, 0].repeat(5));
            let strings = [word_bytes(&material), word_bytes(&tracks)];
            let request = Request::new(
                WRITE_MAP,
                &[5, MOST_BYTES],
                &[&text, &strings[0], &strings[1]],
            );
            (request, claim)
        }
        8 => {
            let bytes = packet(0xFE, &[]).repeat(4_096);
            (Request::new(WALK, &[4_100], &[&bytes]), None)
        }
        _ => aux(),
    }
}
