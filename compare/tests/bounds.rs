//! F22: a written map has at most 35,000 bytes, so that no section is too long, and 35,000 bytes are room for every map.

use compare::generate::{case, kind_of};
use compare::own;
use compare::reference::plate::{refuse, Answer};
use compare::reference::write::write_map;
use compare::size::{Size, MOST};

/// 254 good bytes, and one that is in no text.
const TEXT: [u8; 255] = {
    let mut text = [0x41; 255];
    text[254] = 0x80;
    text
};

/// The longest text, and the 4D that may stand in the place of a 4F.
const LONG: [u64; 3] = [1, 0, 254];
const BINARY: [u64; 3] = [1, 0, 8];
const ABSENT: [u64; 3] = [0; 3];

/// Material with all six items.
fn material() -> Vec<u64> {
    [&LONG[..], &[1, u64::from(u32::MAX), 0].repeat(5)].concat()
}

/// A track with a name, one auxiliary form, version and codes.
fn row(kind: u64, id: u64, name: [u64; 3], binary: [u64; 3], text: [u64; 3]) -> Vec<u64> {
    let (version, rate, lines, fields) = ([1, 7, 0], [1, 8, 0], [1, 6, 0], [1, 2, 0]);
    let slots = [name, binary, version, text, rate, lines, fields].concat();
    [&[kind, id], &slots[..]].concat()
}

fn full(id: u64) -> Vec<u64> {
    row(11, id, LONG, ABSENT, LONG)
}

/// The tracks of the largest map.
fn all_full() -> Vec<u64> {
    (0..64).flat_map(full).collect()
}

/// Writes at a place of a room of 7s and gives the answer and the room.
fn write(at: u64, room: u64, material: &[u64], tracks: &[u64]) -> (Answer<u64>, Vec<u8>) {
    let mut room = vec![7; room as usize];
    let done = write_map(&mut room, at, &TEXT, material, tracks);
    (done, room)
}

/// Refused with this number at 0, and nothing written.
fn assert_refused(number: u8, (done, room): (Answer<u64>, Vec<u8>)) {
    assert_eq!(done, refuse(number, 0));
    assert!(room.iter().all(|byte| *byte == 7));
}

/// The size of a map that is written into a room with no byte to spare, and refused in one with a byte less.
fn exact_size(material: &[u64], tracks: &[u64]) -> Size {
    let length = write(0, 35_000, material, tracks).0.unwrap();
    assert_refused(13, write(0, length - 1, material, tracks));
    let (done, room) = write(0, length, material, tracks);
    assert_eq!(done, Ok(length));
    Size::of(&room).unwrap()
}

#[test]
fn the_largest_map_fills_35_000_bytes() {
    for at in [0, 1, 99, 30_536] {
        let (done, room) = write(at, at + 35_000, &material(), &all_full());
        assert_eq!(done, Ok(35_000));
        let (before, packet) = room.split_at(at as usize);
        assert!(before.iter().all(|byte| *byte == 7));
        // 35,000, 287 and 34,688 where they stand, and three zeros
        assert_eq!(packet[6..10], [0, 0, 0x88, 0xB8]);
        assert_eq!(packet[18..20], [0x01, 0x1F]);
        assert_eq!(packet[307..309], [0x87, 0x80]);
        assert_eq!(packet[34_996..], [2, 0, 0, 0]);
        assert_eq!(Size::of(packet), Some(MOST));
    }
}

#[test]
fn a_byte_less_of_room_is_13() {
    for at in [0, 1, 99, 30_536] {
        assert_refused(13, write(at, at + 34_999, &material(), &all_full()));
    }
    assert_refused(13, write(35_000, 35_000, &material(), &all_full()));
    assert_refused(13, write(35_001, 35_000, &material(), &all_full()));
    assert_refused(13, write(u64::MAX, 35_000, &material(), &all_full()));
}

#[test]
fn a_byte_less_of_text_needs_no_padding() {
    let less = [1, 1, 253];
    let mut short_material = material();
    short_material[..3].copy_from_slice(&less);
    let size = exact_size(&short_material, &all_full());
    let one_less = Size {
        material_section: 286,
        packet: 34_996,
        ..MOST
    };
    assert_eq!(size, one_less);
    for (name, text) in [(less, LONG), (LONG, less)] {
        let short = row(23, 63, name, ABSENT, text);
        let tracks = [&all_full()[..23 * 63], &short].concat();
        let one_less = Size {
            track_section: 34_687,
            packet: 34_996,
            ..MOST
        };
        assert_eq!(exact_size(&material(), &tracks), one_less);
    }
}

#[test]
fn a_track_has_542_bytes_or_295() {
    for (track, bytes) in [
        (full(63), 4 + 257 + 6 + 257 + 18),
        (row(13, 63, LONG, BINARY, ABSENT), 4 + 257 + 10 + 6 + 18),
    ] {
        let size = exact_size(&[0; 18], &track);
        assert_eq!((size.tracks, size.track), (1, bytes));
        assert_eq!((size.track_section, size.material_section), (bytes, 0));
        assert_eq!(size.packet, (22 + bytes).div_ceil(4) * 4);
    }
    assert_eq!(4 + 257 + 6 + 257 + 18, MOST.track);
    // 4D and 4F in one track would be longer, and are 10
    let both = row(11, 63, LONG, BINARY, LONG);
    assert_refused(10, write(0, 65_536, &material(), &both));
}

#[test]
fn maps_of_63_and_64_tracks() {
    let tracks = all_full();
    let size = exact_size(&material(), &tracks[..23 * 63]);
    assert_eq!((size.tracks, size.track_section), (63, 63 * 542));
    assert_eq!(size.packet, 34_456);
    let bare: Vec<u64> = (0..64)
        .flat_map(|id| [&[10, id], &[0; 21][..]].concat())
        .collect();
    let size = exact_size(&[0; 18], &bare);
    assert_eq!((size.tracks, size.track, size.packet), (64, 4, 280));
}

#[test]
fn a_65th_track_is_10_or_24() {
    for room in [0, 34_999, 35_000, 65_536] {
        for id in 0..64 {
            let tracks = [all_full(), full(id)].concat();
            assert_refused(10, write(0, room, &material(), &tracks));
        }
        for id in [64, 65, 255, 256, 1 << 32, u64::MAX] {
            let tracks = [all_full(), full(id)].concat();
            assert_refused(24, write(0, room, &material(), &tracks));
        }
    }
}

/// Faults of all five kinds at once, and one after the other taken away.
#[test]
fn the_order_is_24_11_10_29_13() {
    let mut tracks = [all_full(), full(0), full(64)].concat();
    tracks[23 * 40] = 10; // no MPEG video, and a 4F
    let mut head = material();
    head[..3].copy_from_slice(&[1, 254, 1]);
    assert_refused(24, write(0, 34_999, &head, &tracks));
    tracks.truncate(23 * 65);
    assert_refused(11, write(0, 34_999, &head, &tracks));
    head = material();
    assert_refused(10, write(0, 34_999, &head, &tracks));
    tracks.truncate(23 * 64);
    assert_refused(29, write(0, 34_999, &head, &tracks));
    tracks[23 * 40] = 12;
    assert_refused(13, write(0, 34_999, &head, &tracks));
    assert_eq!(write(0, 35_000, &head, &tracks).0, Ok(35_000));
}

#[test]
fn a_size_is_counted_from_the_bytes() {
    let (_, packet) = write(0, 35_000, &material(), &all_full());
    // a section, a track or the packet that states another length; a byte of padding that is no zero; bytes too many or too few
    for i in [9, 19, 308, 312, 34_999] {
        let mut other = packet.clone();
        other[i] ^= 1;
        assert_eq!(Size::of(&other), None, "byte {i}");
    }
    assert_eq!(Size::of(&packet[..34_996]), None);
    assert_eq!(Size::of(&[&packet[..], &[0; 4]].concat()), None);
    for i in 0..5 {
        let mut over = MOST;
        let figures = [
            &mut over.tracks,
            &mut over.track,
            &mut over.track_section,
            &mut over.material_section,
            &mut over.packet,
        ];
        *figures.into_iter().nth(i).unwrap() += 1;
        assert!(!over.keeps_bounds() && MOST.keeps_bounds());
    }
}

/// Cases of a run that are made to be at the bounds: the room from the place on, and the size of what was written.
fn at_bounds(seed: u64) -> Vec<(Option<u64>, Option<Size>)> {
    let numbers = (0..24_000).filter(|index| kind_of(*index).0 == "map writer bounds");
    let requests = numbers.map(|index| case(seed, index).request);
    let seen = requests.map(|request| {
        let left = request.numbers[1].checked_sub(request.numbers[0]);
        let packet = own::written(&request);
        (left, packet.map(|packet| Size::of(&packet).unwrap()))
    });
    seen.collect()
}

#[test]
fn a_run_meets_every_bound_and_passes_none() {
    for seed in 1..=8 {
        let seen = at_bounds(seed);
        let sizes = seen.iter().filter_map(|(_, size)| *size);
        assert_eq!(sizes.fold(Size::default(), Size::or_more), MOST);
        // one map meets them all, with no byte of room to spare; one lacks a byte
        assert!(seen.contains(&(Some(35_000), Some(MOST))));
        assert!(seen.contains(&(Some(34_999), None)));
    }
}

#[test]
fn a_run_holds_against_itself() {
    for tally in own::run(1, 3_000) {
        assert!(tally.made > 0, "{}", tally.name);
        assert!(tally.wrong.is_empty(), "{}: {}", tally.name, tally.wrong[0]);
    }
}
