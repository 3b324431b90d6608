//! 02, §12: 29 for a 4D on a listed track of MPEG video, and for a 4F on any other listed track.

use compare::generate::maps::{m_with, M};
use compare::generate::packets::{flt_payload, media_payload, packet, state_length, KNOWN_TYPES};
use compare::generate::{case, kind_of};
use compare::reference::listing::listing;
use compare::reference::map::{fill, map, Part};
use compare::reference::name::{name, name_of_two, Of};
use compare::reference::plate::{refuse, torn, Answer};
use compare::reference::walker::Walker;
use compare::reference::{book, stream, write};
use compare::request::*;
use compare::table::{refusals, Table};
use std::collections::BTreeMap;

/// The items: both forms, and names.
const BINARY: [u8; 10] = [0x4D, 8, 1, 2, 3, 4, 5, 6, 7, 8];
const TEXT: [u8; 4] = [0x4F, 2, 0x41, 0];
const EMPTY_TEXT: [u8; 3] = [0x4F, 1, 0];
const NULL: [u8; 3] = [0x4C, 1, 0];
const NAME_A: [u8; 4] = [0x4C, 2, 0x41, 0];
const RATE: [u8; 6] = [0x50, 4, 0, 0, 0, 5];

/// The media types of MPEG video.
const MPEG: [u8; 5] = [11, 12, 20, 22, 23];

fn track(kind: u8, id: u8, items: &[&[u8]]) -> Vec<u8> {
    let items = items.concat();
    let length = (items.len() as u16).to_be_bytes();
    [&[0x80 + kind, 0xC0 + id], &length[..], &items].concat()
}

/// A map packet of these sections: the first track's header is at 22 where there is no material.
fn map_packet(material: &[u8], tracks: &[Vec<u8>]) -> Vec<u8> {
    let tracks = tracks.concat();
    let word = |section: &[u8]| (section.len() as u16).to_be_bytes();
    let parts = [
        &[0xE0, 0xFF],
        &word(material)[..],
        material,
        &word(&tracks),
        &tracks,
    ];
    packet(0xBC, &parts.concat())
}

/// What a map of these tracks is refused with: number and place, or 0 and 0.
fn told(tracks: &[Vec<u8>]) -> (u8, u64) {
    verdict(map(&map_packet(&[], tracks), 0))
}

fn verdict<T>(answer: Answer<T>) -> (u8, u64) {
    answer.map_or_else(|r| (r.number, r.place), |_| (0, 0))
}

/// M with a 4F on its track of type 10: 29 at 43.
fn wrong_m() -> Vec<u8> {
    m_with(0x8A, &TEXT)
}

#[test]
fn the_readings() {
    let text = wrong_m();
    assert_eq!(text.len(), 48);
    assert_eq!(map(&text, 0), refuse(29, 43));
    let mut unlisted = text;
    unlisted[28] = 0x93;
    assert_eq!(map(&unlisted, 0).map(|map| map.tracks.len()), Ok(0));
    assert_eq!(map(&m_with(0x8B, &BINARY), 0), refuse(29, 43));
    // the name `4C 01 00`
    let read = map(&map_packet(&[], &[track(10, 1, &[&NULL, &RATE, &TEXT])]), 0).unwrap();
    assert_eq!((read.tracks.len(), read.tracks[0].text), (1, None));
    // the right forms
    let read = map(&m_with(0x8B, &TEXT), 0).unwrap().tracks[0];
    assert_eq!(
        read.text.map(|text| (text.place, text.length)),
        Some((45, 2))
    );
    let read = map(&m_with(0x8A, &BINARY), 0).unwrap().tracks[0];
    assert_eq!(
        read.binary.map(|form| (form.place, form.length)),
        Some((45, 8))
    );
}

/// All 128 types, both forms, and no name, a null name and a text, before the form and behind it.
#[test]
fn every_type_form_and_name() {
    for kind in 0..128 {
        for form in [&BINARY[..], &TEXT, &EMPTY_TEXT] {
            let right = (form[0] == 0x4F) == MPEG.contains(&kind);
            let wrong = KNOWN_TYPES.contains(&kind) && !right;
            let one = |items: &[&[u8]]| told(&[track(kind, 1, items)]);
            let at = |place| if wrong { (29, place) } else { (0, 0) };
            assert_eq!(one(&[form]), at(26), "type {kind}");
            assert_eq!(one(&[&RATE, form]), at(32));
            assert_eq!(one(&[&NAME_A, form]), at(30));
            assert_eq!(one(&[form, &NAME_A, &RATE]), at(26));
            assert_eq!(one(&[&NULL, form]), (0, 0));
            assert_eq!(one(&[form, &NULL]), (0, 0));
            assert_eq!(one(&[&RATE, form, &[0x4E, 4, 0, 0, 0, 1], &NULL]), (0, 0));
        }
        // 4E and the codes are no matter of it
        let others = [0x4E, 0x50, 0x51, 0x52].map(|tag| vec![tag, 4, 0, 0, 0, 1]);
        assert_eq!(told(&[track(kind, 1, &[&others.concat()])]), (0, 0));
    }
}

/// The types around the rule's edges, one by one.
#[test]
fn the_types_around_the_rule() {
    for (kind, wrong) in [
        (10, Some(0x4F)),
        (11, Some(0x4D)),
        (12, Some(0x4D)),
        (13, Some(0x4F)),
        (19, None),
        (20, Some(0x4D)),
        (21, Some(0x4F)),
        (22, Some(0x4D)),
        (23, Some(0x4D)),
        (24, Some(0x4F)),
        (26, Some(0x4F)),
        (27, None),
    ] {
        for form in [&BINARY[..], &TEXT] {
            let number = if wrong == Some(form[0]) { 29 } else { 0 };
            assert_eq!(told(&[track(kind, 63, &[form])]).0, number, "type {kind}");
        }
    }
}

#[test]
fn only_the_tracks_own_null_name_lifts_it() {
    let wrong = || track(10, 1, &[&TEXT]);
    // of another track, before it or behind, listed or not
    for kind in [10, 11, 19] {
        let null = track(kind, 2, &[&NULL]);
        assert_eq!(told(&[null.clone(), wrong()]), (29, 33));
        assert_eq!(told(&[wrong(), null]), (29, 26));
    }
    // of the material, and its tag there
    for null in [[0x40, 1, 0], NULL] {
        let read = map(&map_packet(&null, &[wrong()]), 0);
        assert_eq!(read, refuse(29, 29));
    }
    // a 4F with a lone 00 is no null name
    assert_eq!(told(&[track(10, 1, &[&EMPTY_TEXT, &NAME_A])]), (29, 26));
    // a name of no bytes is 11, and lifts nothing
    assert_eq!(told(&[track(10, 1, &[&TEXT, &[0x4C, 0]])]), (11, 30));
}

/// 8, 9, 11 and 10 of the track's items come first, wherever they stand.
#[test]
fn faults_of_its_own_items_come_first() {
    let bad: [(u8, &[u8]); 8] = [
        (9, &[0x50, 3, 0, 0, 0]),
        (9, &[0x4D, 7, 0, 0, 0, 0, 0, 0, 0]),
        (9, &[0x4E, 0]),
        (11, &[0x4C, 2, 0x41, 0x41]),
        (11, &[0x4C, 0]),
        (11, &[0x4F, 2, 0x80, 0]),
        (11, &[0x4C, 2, 0, 0]),
        (8, &[0x7E, 0xFF]), // passes the track from wherever it stands
    ];
    for (number, item) in bad {
        assert_eq!(told(&[track(10, 1, &[&TEXT, item])]), (number, 30));
        assert_eq!(told(&[track(10, 1, &[&TEXT, &RATE, item])]), (number, 36));
        assert_eq!(told(&[track(10, 1, &[item, &TEXT])]), (number, 26));
        assert_eq!(told(&[track(11, 1, &[&BINARY, item])]), (number, 36));
        assert_eq!(told(&[track(11, 1, &[item, &BINARY])]), (number, 26));
    }
    // cut to its tag, or one byte too long, at the track's end
    for last in [&[0x4C][..], &[0x7E], &[0x7E, 1], &[0x4C, 2, 0]] {
        assert_eq!(told(&[track(10, 1, &[&TEXT, last])]), (8, 30));
        // though bytes of a next track stand behind it
        let next = track(10, 2, &[]);
        assert_eq!(told(&[track(10, 1, &[&TEXT, last]), next]), (8, 30));
    }
}

/// So a track has one wrong item at most.
#[test]
fn both_forms_and_either_twice_are_10() {
    for kind in [10, 11, 19] {
        for (first, second) in [(&BINARY[..], &TEXT[..]), (&TEXT, &BINARY)] {
            for again in [first, second] {
                let place = 26 + first.len() as u64;
                assert_eq!(told(&[track(kind, 1, &[first, again])]), (10, place));
            }
        }
    }
    // other tags twice, a null name among them
    for twice in [&RATE[..], &NAME_A, &NULL] {
        let place = 26 + 4 + twice.len() as u64;
        assert_eq!(told(&[track(10, 1, &[&TEXT, twice, twice])]), (10, place));
    }
}

/// At the track's end: before all that stands behind it.
#[test]
fn it_comes_before_the_next_header() {
    for (wrong, place) in [
        (track(10, 1, &[&NAME_A, &TEXT, &RATE]), 30),
        (track(23, 1, &[&RATE, &BINARY]), 32),
    ] {
        let mut bad_size = track(10, 2, &[&RATE]);
        bad_size[5] = 5;
        for next in [
            vec![0x8A],             // 8: no whole header
            vec![0x8A, 0xC2, 0],    // 8
            vec![0, 0, 0, 0],       // 12
            vec![0x0A, 0xC2, 0, 0], // 12
            vec![0x8A, 0xBF, 0, 0], // 12
            vec![0x8A, 0xC2, 0, 1], // 8: passes the section
            vec![0x8A, 0xC1, 0, 0], // 10: the ID once more
            vec![0x8A, 0xC2, 0, 1, 0x4C],
            bad_size,
            track(10, 2, &[&[0x4C, 0]]),
            track(10, 2, &[&RATE, &RATE]),
            track(10, 2, &[&TEXT]),
            track(11, 2, &[&BINARY]),
            track(10, 2, &[&BINARY]),
        ] {
            assert_eq!(told(&[wrong.clone(), next]), (29, place));
        }
    }
}

#[test]
fn what_stands_before_it_comes_first() {
    let wrong = || track(10, 1, &[&TEXT]);
    assert_eq!(told(&[track(10, 2, &[&[0x50, 0]]), wrong()]), (9, 26));
    assert_eq!(told(&[track(19, 2, &[&[0x4C, 0]]), wrong()]), (11, 26));
    assert_eq!(told(&[track(19, 2, &[&RATE, &RATE]), wrong()]), (10, 32));
    assert_eq!(told(&[track(10, 1, &[]), wrong()]), (10, 26));
    assert_eq!(told(&[vec![0x0A, 0xC2, 0, 0], wrong()]), (12, 22));
    let mut version = wrong_m();
    version[16] = 0xE1;
    assert_eq!(map(&version, 0), refuse(7, 16));
    let mut section = wrong_m();
    section[27] = 0x20;
    assert_eq!(map(&section, 0), refuse(8, 26));
    let mut material = wrong_m();
    material[20] = 0x40;
    assert_eq!(map(&material, 0), refuse(11, 20));
    let mut length = wrong_m();
    length[31] += 1;
    assert_eq!(map(&length, 0), refuse(8, 28));
}

#[test]
fn of_several_tracks_the_first() {
    let (text, binary) = (track(10, 1, &[&TEXT]), track(11, 2, &[&BINARY]));
    assert_eq!(told(&[text.clone(), binary.clone()]), (29, 26));
    assert_eq!(told(&[binary.clone(), text.clone()]), (29, 26));
    // behind tracks that are right, unlisted or have a null name
    let right = [
        track(11, 3, &[&TEXT]),
        track(10, 4, &[&BINARY]),
        track(19, 5, &[&TEXT]),
        track(12, 6, &[&BINARY, &NULL]),
        track(9, 7, &[&NULL, &TEXT]),
    ];
    let before = right.concat().len() as u64;
    assert_eq!(told(&right), (0, 0));
    let all = [&right[..], &[text, binary], &right[..0]].concat();
    assert_eq!(told(&all), (29, 26 + before));
}

/// Their 9, 10 and 11 stand.
#[test]
fn unlisted_tracks_are_exempt() {
    for kind in (0..128).filter(|kind| !KNOWN_TYPES.contains(kind)) {
        for form in [&BINARY[..], &TEXT] {
            let place = 26 + form.len() as u64;
            assert_eq!(told(&[track(kind, 1, &[form])]), (0, 0));
            assert_eq!(told(&[track(kind, 1, &[form, &[0x50, 0]])]), (9, place));
            assert_eq!(told(&[track(kind, 1, &[form, &[0x4C, 0]])]), (11, place));
            assert_eq!(told(&[track(kind, 1, &[form, form])]), (10, place));
        }
    }
}

/// A place that needs all its 16 bits.
#[test]
fn far_items() {
    let unknown = [&[0x7E, 255][..], &[0x55; 255]].concat().repeat(250);
    assert_eq!(told(&[track(10, 1, &[&unknown, &TEXT])]), (29, 64_276));
    assert_eq!(told(&[track(12, 1, &[&unknown, &BINARY])]), (29, 64_276));
    let behind = [&unknown[..], &NULL].concat();
    assert_eq!(told(&[track(10, 1, &[&TEXT, &behind])]), (0, 0));
}

// ---- whoever reads a map ----

#[test]
fn lent_records_and_positions() {
    let wrong = wrong_m();
    let mut lent = vec![7; 5];
    lent.extend(&wrong);
    for n in 0..3 {
        let mut records = vec![None; n];
        assert_eq!(fill(&wrong, 0, &mut records), refuse(29, 43), "before 13");
        assert_eq!(fill(&lent, 5, &mut records), refuse(29, 43));
        assert_eq!(records, vec![None; n]);
    }
    // in a map of two tracks the first one's record is not written either
    let two = map_packet(&[], &[track(10, 1, &[]), track(10, 2, &[&TEXT])]);
    let mut records = [None; 2];
    assert_eq!(fill(&two, 0, &mut records), refuse(29, 30));
    assert_eq!(records, [None; 2]);
    assert_eq!(map(&wrong[..47], 0), torn(0, 1));
}

#[test]
fn names() {
    let wrong = wrong_m();
    for id in [0, 1, 64] {
        assert_eq!(name(&wrong, 0, id), refuse(29, 43));
        assert_eq!(name_of_two(&wrong, &M, id), refuse(29, 43));
        assert_eq!(name_of_two(&M, &wrong, id), refuse(29, 43));
        let other = map_packet(&[], &[track(11, 1, &[&BINARY])]);
        assert_eq!(name_of_two(&wrong, &other, id), refuse(29, 43));
        assert_eq!(name_of_two(&other, &wrong, id), refuse(29, 26));
        assert_eq!(name_of_two(&wrong, &M[..15], id), refuse(29, 43));
    }
    let lifted = map_packet(&[], &[track(10, 1, &[&TEXT, &NULL])]);
    let null = Part {
        place: 32,
        length: 0,
    };
    assert_eq!(name(&lifted, 0, 1), Ok(null));
    assert_eq!(name_of_two(&M, &lifted, 1), Ok(Of::Closing(null)));
}

fn umf() -> Vec<u8> {
    packet(0xFD, &[])
}

fn eos() -> Vec<u8> {
    packet(0xFB, &[])
}

fn media(kind: u8, id: u8) -> Vec<u8> {
    packet(0xBF, &media_payload(kind, id, 7, [0, 0], 0, &[]))
}

/// Check, seek, builder and listing refuse a stream with 29 at this place; lent rooms stay.
fn assert_29(parts: &[Vec<u8>], place: u64) {
    let bytes = parts.concat();
    assert_eq!(stream::check(&bytes), refuse(29, place));
    for (track, field) in [(1, 7), (1, 8), (64, 7)] {
        assert_eq!(stream::seek(&bytes, track, field), refuse(29, place));
    }
    for room in [0, 16, 100] {
        let mut lent = lent_room(room);
        assert_eq!(book::build(&bytes, &mut lent), refuse(29, place));
        assert_eq!(lent, lent_room(room));
    }
    assert_eq!(listing(&bytes), format!("refused 29 {place}\n"));
}

#[test]
fn streams() {
    let m = || M.to_vec();
    assert_29(&[wrong_m(), umf(), eos()], 43);
    assert_29(&[m(), wrong_m(), umf(), eos()], 44 + 43);
    assert_29(&[m(), umf(), media(10, 1), wrong_m(), eos()], 92 + 43);
    assert_29(&[m(), wrong_m(), wrong_m()], 44 + 43);
    // the MPEG side, and a track that no packet is of
    assert_29(&[m(), m_with(0x94, &BINARY), umf(), eos()], 44 + 43);
    let unused = map_packet(&[], &[track(10, 1, &[]), track(21, 2, &[&TEXT])]);
    assert_29(&[m(), unused, umf(), media(10, 1), eos()], 44 + 30);
    // lifted: a null name, or a type that is not listed
    let lifted = map_packet(
        &[],
        &[track(10, 1, &[&TEXT, &NULL]), track(19, 2, &[&TEXT])],
    );
    let bytes = [lifted, umf(), media(10, 1), eos()].concat();
    assert_eq!(stream::check(&bytes), Ok(4));
    assert_eq!(stream::seek(&bytes, 1, 7), Ok(60));
}

/// Content comes behind the header's faults and 17, before 19, 20 and all of later packets.
#[test]
fn its_place_in_a_stream() {
    let m = || M.to_vec();
    let flt = || packet(0xFC, &flt_payload(1, 0, &[]));
    // the follower of a late FLT
    assert_29(&[m(), umf(), flt(), wrong_m(), eos()], 84 + 43);
    // no UMF, no EOS, bytes after it, a header that is none
    assert_29(&[m(), wrong_m()], 44 + 43);
    assert_29(&[m(), wrong_m(), eos()], 44 + 43);
    assert_29(&[m(), wrong_m(), vec![0; 7]], 44 + 43);
    // torn, it is 5
    let mut torn_map = wrong_m();
    torn_map.pop();
    assert_eq!(stream::check(&[m(), torn_map].concat()), torn(44, 1));
    let mut long = wrong_m();
    state_length(&mut long, 52);
    assert_eq!(stream::check(&[m(), long].concat()), torn(44, 4));
    // a packet before it that is refused
    let other = [m(), media(10, 2), wrong_m()].concat();
    assert_eq!(stream::check(&other), refuse(22, 44));
    assert_eq!(stream::check(&[umf(), wrong_m()].concat()), refuse(17, 0));
    // a walker opens no map
    let bytes = [wrong_m(), eos()].concat();
    let mut walker = Walker::new(&bytes);
    assert!(walker.step().is_ok() && walker.step().is_ok());
}

// ---- the writer ----

/// Words of one track: type, ID, and slots set by their number: 0 name, 1 4D, 3 4F.
fn row(kind: u64, id: u64, slots: &[(usize, [u64; 3])]) -> Vec<u64> {
    let mut words = vec![0; 23];
    words[..2].copy_from_slice(&[kind, id]);
    for (i, slot) in slots {
        words[2 + 3 * i..5 + 3 * i].copy_from_slice(slot);
    }
    words
}

const LENT: [u8; 10] = [0x41, 0x80, 0, 0x41, 0x41, 0x41, 0x41, 0x41, 0x41, 0x41];
const SET_BINARY: (usize, [u64; 3]) = (1, [1, 0, 8]);
const SET_TEXT: (usize, [u64; 3]) = (3, [1, 0, 1]);
const SET_EMPTY: (usize, [u64; 3]) = (3, [1, 0, 0]);
const SET_NAME: (usize, [u64; 3]) = (0, [1, 0, 1]);
const SET_NULL: (usize, [u64; 3]) = (0, [1, 0, 0]);
const BAD_NAME: (usize, [u64; 3]) = (0, [1, 1, 1]);

/// The number that the writer refuses these tracks with, or 0, in a room of so many bytes at a place; a refused room stays.
fn tried_at(at: u64, room: u64, tracks: &[Vec<u64>]) -> u8 {
    let mut lent = lent_room(room);
    match write::write_map(&mut lent, at, &LENT, &[0; 18], &tracks.concat()) {
        Ok(_) => 0,
        Err(refusal) => {
            assert_eq!((refusal.place, refusal.lacking), (0, 0));
            assert_eq!(lent, lent_room(room));
            refusal.number
        }
    }
}

fn tried(tracks: &[Vec<u64>]) -> u8 {
    tried_at(0, 500, tracks)
}

#[test]
fn the_writer_by_type_form_and_name() {
    for kind in 0..300u64 {
        let mpeg = MPEG.iter().any(|mpeg| u64::from(*mpeg) == kind);
        let known = KNOWN_TYPES.iter().any(|known| u64::from(*known) == kind);
        for form in [SET_BINARY, SET_TEXT, SET_EMPTY] {
            let number = match (form.0 == 3) == mpeg {
                _ if !known => 24, // the writer writes no reserved type
                true => 0,
                false => 29,
            };
            assert_eq!(tried(&[row(kind, 1, &[form])]), number, "type {kind}");
            assert_eq!(tried(&[row(kind, 1, &[SET_NAME, form])]), number);
            // beside a null name either form is 24
            assert_eq!(tried(&[row(kind, 1, &[SET_NULL, form])]), 24);
        }
        let none = if known { 0 } else { 24 };
        assert_eq!(tried(&[row(kind, 1, &[SET_NAME, (2, [1, 7, 0])])]), none);
        // absent forms, whatever stands beside the mark
        let absent = [(1, [0, 0, 8]), (3, [0, 0, 1])];
        assert_eq!(tried(&[row(kind, 1, &absent)]), none);
    }
}

#[test]
fn the_writer_looks_at_every_track() {
    for wrong in [row(10, 9, &[SET_TEXT]), row(11, 9, &[SET_BINARY])] {
        for i in 0..5 {
            let mut tracks: Vec<Vec<u64>> = (0..5).map(|id| row(12, id, &[SET_TEXT])).collect();
            assert_eq!(tried(&tracks), 0);
            tracks[i] = wrong.clone();
            assert_eq!(tried(&tracks), 29);
        }
    }
}

/// Each over the whole input: a later track's 24, 11 or 10 goes before an earlier one's 29.
#[test]
fn the_writers_order() {
    let wrong = || row(10, 1, &[SET_TEXT]);
    let other_wrong = || row(11, 2, &[SET_BINARY]);
    assert_eq!(tried(&[wrong(), other_wrong()]), 29);
    for (number, bad) in [
        (24, row(10, 64, &[])),
        (24, row(19, 3, &[])),
        (24, row(10, 3, &[SET_NULL, SET_TEXT])),
        (24, row(10, 3, &[(4, [1, 9, 0])])),
        (11, row(10, 3, &[BAD_NAME])),
        (11, row(10, 3, &[(3, [1, 2, 1])])),
        (10, row(10, 1, &[])),
        (10, row(10, 3, &[SET_BINARY, SET_TEXT])),
        (10, row(11, 3, &[SET_BINARY, SET_EMPTY])),
    ] {
        for (at, room) in [(0, 500), (0, 0), (0, 24), (501, 500), (u64::MAX, 500)] {
            assert_eq!(tried_at(at, room, &[wrong(), bad.clone()]), number);
            assert_eq!(tried_at(at, room, &[bad.clone(), wrong()]), number);
            let all = [other_wrong(), bad.clone(), wrong()];
            assert_eq!(tried_at(at, room, &all), number);
        }
    }
    // before 13
    for (at, room) in [(0, 500), (0, 0), (0, 31), (501, 500), (u64::MAX, 500)] {
        assert_eq!(tried_at(at, room, &[wrong()]), 29);
        assert_eq!(tried_at(at, room, &[other_wrong()]), 29);
    }
    let right = || row(11, 1, &[SET_TEXT]);
    assert_eq!(tried_at(0, 32, &[right()]), 0);
    assert_eq!(tried_at(0, 31, &[right()]), 13);
    assert_eq!(tried_at(1, 32, &[right()]), 13);
}

/// What it writes in the right form is read back, 542 bytes a track.
#[test]
fn the_largest_map_is_of_mpeg_video() {
    let text = [0x41; 254];
    let long = [1, 0, 254];
    let slots = [
        (0, long),
        (2, [1, 7, 0]),
        (3, long),
        (4, [1, 8, 0]),
        (5, [1, 6, 0]),
        (6, [1, 2, 0]),
    ];
    let material = [&long[..], &[1, 9, 0].repeat(5)].concat();
    let mut room = vec![7; 35_000];
    for kind in KNOWN_TYPES {
        let tracks: Vec<u64> = (0..64)
            .flat_map(|id| row(u64::from(kind), id, &slots))
            .collect();
        let done = write::write_map(&mut room, 0, &text, &material, &tracks);
        if MPEG.contains(&kind) {
            assert_eq!(done, Ok(35_000));
            let read = map(&room, 0).unwrap();
            assert_eq!(read.tracks.len(), 64);
            assert!(read.tracks.iter().all(|t| t.text.is_some()));
            room.fill(7);
        } else {
            assert_eq!(done, refuse(29, 0));
            assert!(room.iter().all(|byte| *byte == 7));
        }
    }
}

// ---- a run ----

/// By function how many cases of a run were refused with 29, and how many were accepted.
fn met(seed: u64) -> BTreeMap<u8, (u64, u64)> {
    let mut met: BTreeMap<u8, (u64, u64)> = BTreeMap::new();
    for index in 0..10_000 {
        let request = case(seed, index).request;
        let line = answer(&request);
        let first = refusals(&line).next().map(|refusal| refusal.number);
        let seen = met.entry(request.function).or_default();
        seen.0 += u64::from(first == Some(29));
        seen.1 += u64::from(first.is_none());
    }
    met
}

#[test]
fn a_run_meets_it_wherever_a_map_is_judged() {
    let judging = [MAP, NAME, NAME_OF_TWO, CHECK, SEEK, BUILD, WRITE_MAP];
    for seed in 1..=8 {
        for (function, (wrong, accepted)) in met(seed) {
            if judging.contains(&function) {
                assert!(wrong >= 20 && accepted >= 20, "function {function}");
            } else {
                assert_eq!(wrong, 0, "function {function}");
            }
        }
    }
}

/// Of the cases that are made for it some are accepted, and of those that are made for something else most are as they were.
#[test]
fn a_run_mostly_obeys() {
    let mut table = BTreeMap::new();
    let mut all = Table::default();
    for index in 0..20_000 {
        let (kind, line) = (kind_of(index).0, answer(&case(1, index).request));
        all.count(kind, &line);
        let (cases, wrong) = table.entry(kind).or_insert((0, 0));
        *cases += 1;
        *wrong += u64::from(refusals(&line).any(|refusal| refusal.number == 29));
    }
    assert_eq!((all.missed(), all.strange()), (vec![], vec![]));
    for (kind, (cases, wrong)) in table {
        if kind.ends_with("wrong form") {
            assert!(
                5 * wrong > cases && wrong < cases,
                "{kind}: {wrong} of {cases}"
            );
        } else {
            assert!(5 * wrong < cases, "{kind}: {wrong} of {cases}");
        }
    }
}
