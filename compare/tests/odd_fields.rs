//! 02, §2: a packet with an even number carries the next field too, where the latest map before it gives its track fields per frame 1.

use compare::generate::books::{book_of, record};
use compare::generate::packets::{media_payload, packet, KNOWN_TYPES};
use compare::generate::{case, streams};
use compare::odd;
use compare::reference::plate::{refuse, torn, Answer};
use compare::reference::{book, stream};
use compare::request::*;
use compare::rng::Rng;
use compare::table::Table;
use std::collections::BTreeSet;

const NAME_A: [u8; 4] = [0x4C, 2, 0x41, 0];
const NULL: [u8; 3] = [0x4C, 1, 0];
const LINES: [u8; 6] = [0x51, 4, 0, 0, 0, 6];

/// The last number of all, and the even one below it.
const LAST: u32 = u32::MAX;
const EVEN: u32 = LAST - 1;

/// Item 52 with this value.
fn fields(value: i32) -> Vec<u8> {
    [&[0x52, 4], &value.to_be_bytes()[..]].concat()
}

fn track(kind: u8, id: u8, items: &[&[u8]]) -> Vec<u8> {
    let items = items.concat();
    let length = (items.len() as u16).to_be_bytes();
    [&[0x80 + kind, 0xC0 + id], &length[..], &items].concat()
}

/// A map packet of these sections.
fn map_of(material: &[u8], tracks: &[Vec<u8>]) -> Vec<u8> {
    let tracks = tracks.concat();
    let word = |section: &[u8]| (section.len() as u16).to_be_bytes();
    let parts = [
        &[0xE0, 0xFF],
        &word(material)[..],
        material,
        &word(&tracks),
        &tracks,
    ];
    packet(0xBC, &parts.concat())
}

/// The map of the readings, of 44 bytes: track 0 of type 20, name A, lines 6, and these fields per frame.
fn map(value: i32) -> Vec<u8> {
    map_of(&[], &[track(20, 0, &[&NAME_A, &LINES, &fields(value)])])
}

fn media(kind: u8, id: u8, field: u32) -> Vec<u8> {
    packet(0xBF, &media_payload(kind, id, field, [0, 0], 0, &[]))
}

/// A media packet of that map's track, of 32 bytes.
fn picture(field: u32) -> Vec<u8> {
    media(20, 0, field)
}

/// A stream of these packets, a UMF packet of 24 bytes behind the first, and an EOS at the end.
fn stream_of(packets: &[Vec<u8>]) -> Vec<u8> {
    let (umf, eos) = (packet(0xFD, &[0; 8]), packet(0xFB, &[]));
    [&packets[0][..], &umf, &packets[1..].concat(), &eos].concat()
}

/// A stream of one map, whose track is progressive or not, and of packets with these numbers: the first at 68, each of 32 bytes.
fn numbers(value: i32, numbers: &[u32]) -> Vec<u8> {
    let pictures = numbers.iter().map(|n| picture(*n));
    stream_of(&[map(value)].into_iter().chain(pictures).collect::<Vec<_>>())
}

fn built(stream: &[u8]) -> Vec<u8> {
    let mut room = vec![0; stream.len()];
    let records = book::build(stream, &mut room).expect("the stream is accepted");
    room.truncate(16 * records as usize);
    room
}

/// What seek says of a field, and look-up in the built book with it.
fn found(stream: &[u8], track: u64, field: u64) -> Answer<u64> {
    let told = stream::seek(stream, track, field);
    assert_eq!(book::lookup(&built(stream), track, field), told);
    told
}

/// The place of a field of track 0; 0 where it is not there, which no packet's place is.
fn at(stream: &[u8], field: u32) -> u64 {
    let told = found(stream, 0, field.into());
    assert!(told.is_ok() || told == refuse(16, 0));
    told.unwrap_or(0)
}

/// The type bytes of the built book.
fn type_bytes(stream: &[u8]) -> Vec<u8> {
    built(stream).chunks(16).map(|record| record[3]).collect()
}

// ---- the readings ----

#[test]
fn the_readings() {
    let bytes = numbers(1, &[300, 302]);
    assert_eq!(map(1).len(), 44);
    assert_eq!(stream::check(&bytes), Ok(5));
    assert_eq!(found(&bytes, 0, 300), Ok(68));
    assert_eq!(found(&bytes, 0, 301), Ok(68));
    assert_eq!(found(&bytes, 0, 302), Ok(100));
    assert_eq!(found(&bytes, 0, 303), Ok(100));
    assert_eq!(found(&bytes, 0, 299), refuse(16, 0));
    assert_eq!(found(&bytes, 0, 304), refuse(16, 0));
    assert_eq!(type_bytes(&bytes), [0x54, 0x54]);
    let records = [record(0, 0x54, 300, 68), record(0, 0x54, 302, 100)];
    assert_eq!(built(&bytes), records.concat());

    let interlaced = numbers(2, &[300, 302]);
    assert_eq!(stream::check(&interlaced), Ok(5));
    assert_eq!(found(&interlaced, 0, 300), Ok(68));
    assert_eq!(found(&interlaced, 0, 301), refuse(16, 0));
    assert_eq!(type_bytes(&interlaced), [0x14, 0x14]);
}

/// The same as requests and lines.
#[test]
fn lines() {
    let bytes = numbers(1, &[300, 302]);
    let seek = |field| answer(&Request::new(SEEK, &[0, field], &[&bytes]));
    assert_eq!(seek(301), "at 68");
    assert_eq!(seek(303), "at 100");
    assert_eq!(seek(299), "refused 16 0");
    assert_eq!(seek(304), "refused 16 0");
    let line = answer(&Request::new(BUILD, &[32], &[&bytes]));
    let first = "475800542c0100004400000000000000";
    let second = "475800542e0100006400000000000000";
    assert_eq!(line, format!("records 2 x{first}{second}"));
    let lent = built(&bytes);
    let look = |field| answer(&Request::new(LOOKUP, &[0, field], &[&lent]));
    assert_eq!(look(301), "at 68");
    assert_eq!(look(304), "refused 16 0");
}

// ---- which packets are doubled ----

#[test]
fn every_value_of_the_code() {
    for value in [
        2,
        -1,
        -2,
        0,
        3,
        4,
        255,
        256,
        257,
        65_537,
        1 << 24,
        -255,
        -127,
        i32::MAX,
        i32::MIN,
        i32::MIN + 1,
    ] {
        let bytes = numbers(value, &[300]);
        assert_eq!((at(&bytes, 300), at(&bytes, 301)), (68, 0), "{value}");
        assert_eq!(type_bytes(&bytes), [20]);
    }
    assert_eq!(at(&numbers(1, &[300]), 301), 68);
}

/// Items that hold a 1, of a stream with the one packet 300.
fn with_items(items: &[&[u8]]) -> Vec<u8> {
    stream_of(&[map_of(&[], &[track(20, 0, items)]), picture(300)])
}

#[test]
fn no_other_item_says_it() {
    for tag in [0x4E, 0x50, 0x51, 0x53, 0x45, 0x7E] {
        let one = [tag, 4, 0, 0, 0, 1];
        assert_eq!(at(&with_items(&[&one]), 301), 0);
        assert_eq!(at(&with_items(&[&one, &fields(2)]), 301), 0);
        assert_ne!(at(&with_items(&[&one, &fields(1)]), 301), 0);
    }
    assert_eq!(at(&with_items(&[]), 301), 0);
    // 720 lines do not say it either
    assert_eq!(at(&with_items(&[&LINES]), 301), 0);
    // in the material section the tag is unknown
    let unknown = map_of(&fields(1), &[track(20, 0, &[])]);
    assert_eq!(at(&stream_of(&[unknown, picture(300)]), 301), 0);
    // a one inside another item's bytes
    let around = [&[0x7E, 6][..], &fields(1)].concat();
    assert_eq!(at(&with_items(&[&around]), 301), 0);
}

#[test]
fn a_null_name_does_not_hide_it() {
    for items in [
        [&NULL[..], &fields(1)],
        [&fields(1), &NULL[..]],
        [&NAME_A[..], &fields(1)],
    ] {
        let bytes = with_items(&items);
        assert_ne!(at(&bytes, 301), 0);
        assert_eq!(at(&bytes, 300), at(&bytes, 301));
        assert_eq!(type_bytes(&bytes), [0x54]);
    }
    assert_eq!(at(&with_items(&[&NULL, &fields(2)]), 301), 0);
    // beside what it does hide
    let bytes = with_items(&[&[0x4E, 4, 0, 0, 0, 1], &fields(1), &NULL]);
    assert_ne!(at(&bytes, 301), 0);
}

/// Pictures, sound, time code and data: no type is named.
#[test]
fn every_type() {
    for kind in KNOWN_TYPES {
        for (value, byte) in [(1, kind + 64), (2, kind)] {
            let first = map_of(&[], &[track(kind, 9, &[&fields(value)])]);
            let bytes = stream_of(&[first, media(kind, 9, 6), media(kind, 9, 9)]);
            let place = stream::seek(&bytes, 9, 6);
            let above = if value == 1 { place } else { refuse(16, 0) };
            assert_eq!(found(&bytes, 9, 7), above, "type {kind}");
            assert_eq!(type_bytes(&bytes), [byte, kind]);
        }
    }
}

/// Each track by itself, whatever its place in the map.
#[test]
fn by_the_packets_own_track() {
    let one = |id| track(20, id, &[&fields(1)]);
    let two = |id| track(20, id, &[&fields(2)]);
    let unlisted = |id| track(19, id, &[&fields(1)]);
    for tracks in [
        [one(5), two(6), two(7)],
        [two(6), one(5), two(7)],
        [two(7), two(6), one(5)],
        [unlisted(1), two(6), one(5)],
        [two(6), unlisted(1), one(5)],
        [one(5), one(63), two(6)],
    ] {
        let packets = [map_of(&[], &tracks), media(20, 5, 0), media(20, 6, 0)];
        let bytes = stream_of(&packets);
        let place = packets[0].len() as u64 + 24;
        assert_eq!(found(&bytes, 5, 1), Ok(place));
        assert_eq!(found(&bytes, 6, 1), refuse(16, 0));
        assert_eq!(found(&bytes, 6, 0), Ok(place + 32));
        for id in [1, 7, 63, 64, 69, 5 + 256, 5 + (1 << 32)] {
            assert_eq!(found(&bytes, id, 1), refuse(16, 0));
        }
    }
}

/// Media packets of reserved type carry nothing, on a progressive track neither, and have no record.
#[test]
fn media_of_reserved_type() {
    for kind in [0, 19, 27, 84, 20 + 128, 255] {
        let bytes = stream_of(&[map(1), media(kind, 0, 300), picture(302)]);
        assert_eq!((at(&bytes, 300), at(&bytes, 301)), (0, 0), "type {kind}");
        assert_eq!(at(&bytes, 303), 100);
        assert_eq!(type_bytes(&bytes), [0x54]);
    }
}

/// The time line field number is not looked at.
#[test]
fn the_media_field_number_alone() {
    let other = media_payload(20, 0, 301, [0, 300], 1, &[]);
    let bytes = stream_of(&[map(1), packet(0xBF, &other)]);
    assert_eq!((at(&bytes, 300), at(&bytes, 301)), (0, 68));
    assert_eq!(at(&bytes, 302), 0);
    assert_eq!(type_bytes(&bytes), [20]);
}

// ---- the latest map ----

/// Fields per frame 1, then 2, then 1 again.
#[test]
fn each_packet_by_its_own_map() {
    let parts = [
        map(1),
        picture(10),
        picture(20),
        map(2),
        picture(10),
        picture(30),
        map(1),
        picture(30),
        picture(40),
    ];
    let bytes = stream_of(&parts);
    // packets at 68, 100, 176, 208, 284, 316
    assert_eq!(type_bytes(&bytes), [84, 84, 20, 20, 84, 84]);
    assert_eq!((at(&bytes, 10), at(&bytes, 11)), (68, 68));
    assert_eq!((at(&bytes, 20), at(&bytes, 21)), (100, 100));
    assert_eq!((at(&bytes, 30), at(&bytes, 31)), (208, 284));
    assert_eq!((at(&bytes, 40), at(&bytes, 41)), (316, 316));
    assert_eq!(at(&bytes, 12), 0);
}

/// A map counts for the packets behind it and for no other; one that says nothing takes it away.
#[test]
fn a_map_between() {
    let one = || track(20, 0, &[&fields(1)]);
    for (between, doubled) in [
        (map(1), true),
        (map(2), false),
        (map(-1), false),
        (map(9), false),
        (map_of(&[], &[track(20, 0, &[])]), false),
        (map_of(&[], &[track(3, 1, &[&fields(1)]), one()]), true),
        (map_of(&fields(1), &[track(20, 0, &[&NULL])]), false),
    ] {
        let bytes = stream_of(&[map(1), picture(0), between.clone(), picture(2)]);
        let place = 68 + 32 + between.len() as u64;
        assert_eq!((at(&bytes, 0), at(&bytes, 1)), (68, 68));
        let above = if doubled { place } else { 0 };
        assert_eq!((at(&bytes, 2), at(&bytes, 3)), (place, above));
        // and the other way about: what was said before is no more than that
        let bytes = stream_of(&[between.clone(), picture(2), map(1)]);
        assert_eq!(at(&bytes, 3) != 0, doubled);
        let bytes = stream_of(&[map(2), picture(2), between]);
        assert_eq!(at(&bytes, 3), 0);
    }
}

/// Of two maps in a row the second counts, and the ID's type may change with it.
#[test]
fn maps_in_a_row() {
    for (one, two) in [(1, 2), (2, 1)] {
        let bytes = stream_of(&[map(one), map(two), picture(4)]);
        assert_eq!(at(&bytes, 5), if two == 1 { 112 } else { 0 });
    }
    let sound = map_of(&[], &[track(9, 0, &[&fields(1)])]);
    let bytes = stream_of(&[map(2), picture(4), sound.clone(), media(9, 0, 4)]);
    let place = 100 + sound.len() as u64;
    assert_eq!((at(&bytes, 4), at(&bytes, 5)), (68, place));
    assert_eq!(type_bytes(&bytes), [20, 9 + 64]);
}

// ---- which packet answers ----

/// By its own number or by the number below, whichever stands first.
#[test]
fn odd_packets_before_and_behind() {
    let before = numbers(1, &[301, 300]);
    assert_eq!((at(&before, 300), at(&before, 301)), (100, 68));
    assert_eq!(type_bytes(&before), [20, 84]);
    let behind = numbers(1, &[300, 301]);
    assert_eq!((at(&behind, 300), at(&behind, 301)), (68, 68));
    assert_eq!(type_bytes(&behind), [84, 20]);
    // an odd number carries itself alone
    assert_eq!((at(&before, 302), at(&behind, 302)), (0, 0));
    assert_eq!((at(&before, 299), at(&behind, 299)), (0, 0));
    // on an interlaced track each has its own
    for list in [[301, 300], [300, 301]] {
        let bytes = numbers(2, &list);
        assert_eq!((at(&bytes, list[0]), at(&bytes, list[1])), (68, 100));
    }
    // the first of several
    let bytes = numbers(1, &[299, 302, 300, 300, 301, 302]);
    let told: Vec<u64> = (298..305).map(|n| at(&bytes, n)).collect();
    assert_eq!(told, [0, 68, 132, 132, 100, 100, 0]);
}

/// The last number is carried by the one below; none is carried round or past it.
#[test]
fn the_last_numbers() {
    let bytes = numbers(1, &[EVEN]);
    assert_eq!((at(&bytes, EVEN), at(&bytes, LAST)), (68, 68));
    assert_eq!(type_bytes(&bytes), [84]);
    let bytes = numbers(1, &[LAST]);
    assert_eq!((at(&bytes, EVEN), at(&bytes, LAST)), (0, 68));
    assert_eq!(type_bytes(&bytes), [20]);
    let bytes = numbers(1, &[LAST, EVEN]);
    assert_eq!((at(&bytes, EVEN), at(&bytes, LAST)), (100, 68));
    for list in [[LAST, EVEN], [EVEN, LAST]] {
        let bytes = numbers(1, &list);
        assert_eq!((at(&bytes, 0), at(&bytes, 1)), (0, 0));
        for field in [1 << 32, (1 << 32) + 1, u64::MAX, u64::MAX - 1, 1 << 63] {
            assert_eq!(found(&bytes, 0, field), refuse(16, 0));
        }
    }
}

#[test]
fn the_first_numbers() {
    let bytes = numbers(1, &[0]);
    assert_eq!((at(&bytes, 0), at(&bytes, 1), at(&bytes, 2)), (68, 68, 0));
    let bytes = numbers(1, &[1]);
    assert_eq!((at(&bytes, 0), at(&bytes, 1), at(&bytes, 2)), (0, 68, 0));
    for field in [(1 << 32) + 1, u64::MAX, 1 << 63 | 1] {
        assert_eq!(found(&numbers(1, &[0]), 0, field), refuse(16, 0));
    }
}

// ---- the check ----

/// Its verdicts, numbers and places stay, whatever the code says; seek and builder give them first.
#[test]
fn verdicts_stay() {
    for value in [1, 2] {
        let whole = numbers(value, &[300, 301, 302]);
        assert_eq!(stream::check(&whole), Ok(6));
        let end = whole.len() as u64;
        let told = |bytes: &[u8]| {
            let told = stream::check(bytes).map(|_| ());
            assert_eq!(stream::seek(bytes, 0, 301).map(|_| ()), told);
            assert_eq!(book::build(bytes, &mut [0; 99]).map(|_| ()), told);
            told
        };
        assert_eq!(told(&whole[..whole.len() - 16]), refuse(18, end - 16));
        assert_eq!(told(&whole[..whole.len() - 17]), torn(132, 1));
        assert_eq!(told(&[&whole[..], &[0]].concat()), refuse(18, end - 16));
        let other = stream_of(&[map(value), picture(300), media(3, 0, 301)]);
        assert_eq!(told(&other), refuse(22, 100));
        let other = stream_of(&[map(value), picture(300), media(84, 64, 301)]);
        assert_eq!(told(&other), refuse(12, 100));
    }
    // the item's own faults
    let short = map_of(&[], &[track(20, 0, &[&[0x52, 3, 0, 0, 1]])]);
    assert_eq!(stream::check(&stream_of(&[short])), refuse(9, 26));
    let twice = map_of(&[], &[track(20, 0, &[&fields(1), &fields(1)])]);
    assert_eq!(stream::check(&stream_of(&[twice])), refuse(10, 32));
}

// ---- books ----

/// Every type byte with an even and an odd number.
#[test]
fn every_type_byte() {
    for byte in 0..=255u8 {
        let known = |kind: u8| KNOWN_TYPES.contains(&kind);
        let added = (64..128).contains(&byte) && known(byte - 64);
        for field in [0, 1, 2, 255, 256, 257, 300, 301, EVEN, LAST] {
            let good = known(byte) || added && field % 2 == 0;
            let told = book::lookup(&record(0, byte, field, 7), 0, field.into());
            let wanted = if good { Ok(7) } else { refuse(23, 0) };
            assert_eq!(told, wanted, "{byte} {field}");
            // and behind a record that answers
            let two = [record(0, 20, field, 6), record(0, byte, field, 7)].concat();
            let wanted = if good { Ok(6) } else { refuse(23, 1) };
            assert_eq!(book::lookup(&two, 0, field.into()), wanted);
            if good {
                let above = book::lookup(&record(0, byte, field, 7), 0, u64::from(field) + 1);
                assert_eq!(above, if added { Ok(7) } else { refuse(16, 0) });
            }
        }
    }
}

/// The parity is of the number's lowest byte, which stands first.
#[test]
fn the_numbers_lowest_byte() {
    for byte in 4..8 {
        let mut one = record(0, 84, 0, 0);
        one[byte] = 1;
        let told = book::lookup(&one, 0, 1 << (8 * (byte - 4)));
        let wanted = if byte == 4 { refuse(23, 0) } else { Ok(0) };
        assert_eq!(told, wanted);
    }
}

#[test]
fn the_other_faults_stay() {
    let good = |offset| record(0, 84, 0, offset);
    let ask = |records: &[Vec<u8>]| book::lookup(&records.concat(), 0, 1);
    assert_eq!(ask(&[]), refuse(16, 0));
    assert_eq!(ask(&[good(5), good(6)]), Ok(5));
    assert_eq!(ask(&[good(5), good(5)]), refuse(23, 1));
    assert_eq!(ask(&[good(5), good(4), record(0, 84, 1, 9)]), refuse(23, 1));
    assert_eq!(ask(&[good(5), record(0, 84, 1, 9), good(4)]), refuse(23, 1));
    assert_eq!(ask(&[good(5), good(6)[..15].to_vec()]), refuse(23, 1));
    assert_eq!(ask(&[record(64, 84, 0, 0)]), refuse(23, 0));
    assert_eq!(ask(&[record(0, 83, 0, 0), good(1)]), refuse(23, 0));
    for byte in 0..2 {
        let mut one = good(0);
        one[byte] ^= 1;
        assert_eq!(ask(&[one]), refuse(23, 0));
    }
    assert_eq!(ask(&[good(u64::MAX)]), Ok(u64::MAX));
}

/// The first record of the ID that has the field, or the number below and the 64.
#[test]
fn look_ups() {
    let book = |records: &[(u8, u8, u32)]| {
        let numbered = records.iter().enumerate();
        numbered
            .flat_map(|(i, (id, byte, field))| record(*id, *byte, *field, 10 + i as u64))
            .collect::<Vec<u8>>()
    };
    let ask = |records: &[(u8, u8, u32)], field: u64| book::lookup(&book(records), 1, field);
    let no = || refuse(16, 0);
    assert_eq!(ask(&[(1, 84, 300), (1, 20, 301)], 301), Ok(10));
    assert_eq!(ask(&[(1, 20, 301), (1, 84, 300)], 301), Ok(10));
    assert_eq!(ask(&[(1, 20, 301), (1, 84, 300)], 300), Ok(11));
    // without 64, or of another ID, it says nothing of the number above
    assert_eq!(ask(&[(1, 20, 300), (1, 84, 300)], 301), Ok(11));
    assert_eq!(ask(&[(2, 84, 300), (1, 84, 300)], 301), Ok(11));
    assert_eq!(ask(&[(1, 20, 300), (2, 84, 300)], 301), no());
    assert_eq!(ask(&[(1, 84, 300)], 299), no());
    assert_eq!(ask(&[(1, 84, 300)], 302), no());
    // the type without the 64 may be any other
    assert_eq!(ask(&[(1, 67, 300), (1, 10, 301)], 301), Ok(10));
    assert_eq!(ask(&[(1, 10, 301), (1, 90, 300)], 301), Ok(10));
    // round the last number and the first
    assert_eq!(ask(&[(1, 84, EVEN)], LAST.into()), Ok(10));
    assert_eq!(ask(&[(1, 84, EVEN), (1, 20, LAST)], 0), no());
    assert_eq!(ask(&[(1, 84, EVEN), (1, 20, LAST)], 1 << 32), no());
    assert_eq!(ask(&[(1, 84, 0)], 1), Ok(10));
    assert_eq!(ask(&[(1, 84, 0)], 0), Ok(10));
    for field in [(1 << 32) + 1, u64::MAX, u64::MAX - 1] {
        assert_eq!(ask(&[(1, 84, 0), (1, 84, EVEN)], field), no());
    }
    for track in [65, 129, 257, 1 << 32 | 1, u64::MAX] {
        assert_eq!(book::lookup(&book(&[(1, 84, 0)]), track, 1), no());
    }
}

/// A book from before, and one of which some 64 are missing, answer by what they say.
#[test]
fn books_without_64() {
    let bytes = numbers(1, &[300, 302]);
    let whole = built(&bytes);
    for missing in 0..4 {
        let mut book = whole.clone();
        for i in 0..2 {
            if missing >> i & 1 == 1 {
                book[16 * i + 3] -= 64;
            }
        }
        let ask = |field| book::lookup(&book, 0, field);
        let or_16 = |lacks: bool, place| if lacks { refuse(16, 0) } else { Ok(place) };
        assert_eq!((ask(300), ask(302)), (Ok(68), Ok(100)));
        assert_eq!(ask(301), or_16(missing & 1 != 0, 68));
        assert_eq!(ask(303), or_16(missing & 2 != 0, 100));
    }
}

/// 13 is of the same size, and bytes beyond stay.
#[test]
fn rooms() {
    let bytes = numbers(1, &[300, 301]);
    let mut room = lent_room(31);
    assert_eq!(book::build(&bytes, &mut room), refuse(13, 0));
    assert_eq!(room, lent_room(31));
    let mut room = lent_room(40);
    assert_eq!(book::build(&bytes, &mut room), Ok(2));
    let records = [record(0, 84, 300, 68), record(0, 20, 301, 100)].concat();
    assert_eq!(room, [&records[..], &lent_room(40)[32..]].concat());
}

// ---- the generators and a run ----

/// Streams that turn the code pass, and their books are as their makers know.
#[test]
fn streams_made_for_it() {
    let (mut changed, mut pairs) = (0, 0);
    for index in 0..2_000 {
        let made = streams::odd_stream(&mut Rng::new(21, index));
        let bytes = made.bytes();
        assert_eq!(stream::check(&bytes), Ok(made.pieces.len() as u64));
        assert_eq!(built(&bytes), book_of(&made));
        let maps = made.pieces.iter().filter(|piece| piece.kind == 0xBC);
        let codes: BTreeSet<&Vec<u8>> = maps.map(|map| &map.progressive).collect();
        changed += u64::from(codes.len() > 1);
        let stated: BTreeSet<(u8, u32)> = made.pieces.iter().filter_map(|p| p.carries).collect();
        let paired = |(id, field): &(u8, u32)| stated.contains(&(*id, field ^ 1));
        pairs += u64::from(stated.iter().any(paired));
    }
    assert!(changed > 800 && pairs > 800, "{changed} {pairs}");
}

/// What a request met, by its words.
fn met(function: u8, numbers: &[u64], bytes: &[u8]) -> Vec<&'static str> {
    let all = odd::met(&Request::new(function, numbers, &[bytes]));
    all.into_iter().map(|(_, what)| what).collect()
}

#[test]
fn what_a_seek_and_a_look_up_met() {
    let tell = |value: i32, list: &[u32], field: u64| {
        let bytes = numbers(value, list);
        let told = met(SEEK, &[0, field], &bytes);
        assert_eq!(met(LOOKUP, &[0, field], &built(&bytes)), told);
        told
    };
    let below = "answered by the number below";
    assert_eq!(tell(1, &[300], 301), [below]);
    assert!(tell(1, &[300], 300).is_empty());
    assert!(tell(1, &[300], 302).is_empty());
    let behind = "by the number below, its own number behind it";
    assert_eq!(tell(1, &[300, 301], 301), [below, behind]);
    let before = "by its own number, the number below behind it";
    assert_eq!(tell(1, &[301, 300], 301), [before]);
    let last = "4294967295 answered by 4294967294";
    assert_eq!(tell(1, &[EVEN], LAST.into()), [below, last]);
    let alone = "16, the number below carries itself alone";
    assert_eq!(tell(2, &[300], 301), [alone]);
    assert_eq!(tell(1, &[301], 302), ["16, the number below is odd"]);
    let round = "16, 0 is no number above 4294967295";
    assert_eq!(tell(1, &[LAST], 0), [round]);
    assert!(tell(1, &[LAST, 0], 0).is_empty());
    let past = "16, 4294967296 is no number above 4294967295";
    let odd = "16, the number below is odd";
    assert_eq!(tell(1, &[LAST], 1 << 32), [odd, past]);

    let turned = |one, two| stream_of(&[map(one), picture(4), map(two), picture(4)]);
    let first = "by the number below, one before it carries that alone";
    assert_eq!(met(SEEK, &[0, 5], &turned(2, 1)), [below, first]);
    let second = "by the number below, one behind it carries that alone";
    assert_eq!(met(SEEK, &[0, 5], &turned(1, 2)), [below, second]);
    let null = "by the number below, beside a null name";
    let bytes = with_items(&[&fields(1), &NULL]);
    assert_eq!(met(SEEK, &[0, 301], &bytes), [below, null]);
    // a refused stream meets nothing
    assert!(met(SEEK, &[0, 301], &bytes[..bytes.len() - 1]).is_empty());
}

#[test]
fn what_a_book_met() {
    let some = "64 in a record";
    let not_all = "64 in a record and not in another of an even number";
    assert_eq!(met(BUILD, &[99], &numbers(1, &[300, 301])), [some]);
    let turned = stream_of(&[map(1), picture(4), map(2), picture(4)]);
    assert_eq!(met(BUILD, &[99], &turned), [some, not_all]);
    assert!(met(BUILD, &[99], &numbers(1, &[301])).is_empty());
    assert!(met(BUILD, &[99], &numbers(2, &[300])).is_empty());
    let refused = |book: &[u8]| met(LOOKUP, &[0, 0], book);
    let odd = "23 for 64 beside an odd number";
    assert_eq!(refused(&record(0, 84, 1, 0)), [odd]);
    let reserved = "23 for 64 added to a reserved type";
    assert_eq!(refused(&record(0, 83, 1, 0)), [reserved]);
    assert_eq!(refused(&record(0, 83, 2, 0)), [reserved]);
    // other faults are none of it
    for bad in [
        record(0, 19, 1, 0),
        record(0, 20 + 128, 1, 0),
        record(64, 84, 1, 0),
        record(0, 84, 1, 0)[..15].to_vec(),
        record(0, 84, 1, 0)[1..].to_vec(),
        record(0, 84, 0, 5).repeat(2),
        vec![0x47],
    ] {
        assert!(refused(&bad).is_empty());
    }
}

#[test]
fn a_table_knows_what_was_missed() {
    let mut table = Table::default();
    let all = odd::all();
    assert_eq!(table.odd_missed().len(), all.len());
    assert_eq!(all.iter().collect::<BTreeSet<_>>().len(), all.len());
    let request = Request::new(SEEK, &[0, 301], &[&numbers(1, &[300])]);
    for _ in 0..3 {
        table.count_odd(&request);
    }
    let first = ("seek: answered by the number below".to_string(), 3);
    assert_eq!(table.odd()[0], first);
    assert_eq!(table.odd_missed().len(), all.len() - 1);
    assert!(!table.odd_missed().contains(&first.0));
}

#[test]
fn a_run_reaches_all_of_it() {
    for seed in 1..=4 {
        let mut table = Table::default();
        for index in 0..30_000 {
            table.count_odd(&case(seed, index).request);
        }
        assert!(table.odd_missed().is_empty(), "{:?}", table.odd_missed());
        let cases = |what: &str| table.odd().iter().find(|(w, _)| w == what).unwrap().1;
        for what in [
            "seek: answered by the number below",
            "look-up: answered by the number below",
            "book: 64 in a record",
            "look-up: 23 for 64 beside an odd number",
            "look-up: 23 for 64 added to a reserved type",
        ] {
            assert!(cases(what) >= 60, "{what}: {}", cases(what));
        }
    }
}
