//! 02, §4: 5 says how many bytes the packet lacks, to every caller alike; no other refusal does.

use compare::generate::books::record;
use compare::generate::case;
use compare::generate::maps::M;
use compare::generate::packets::{flt_payload, media_payload, packet, state_length};
use compare::reference::header::{header, packet as packet_of};
use compare::reference::listing::listing;
use compare::reference::map::{fill, map};
use compare::reference::mpeg::parameters;
use compare::reference::name::{name, name_of_two};
use compare::reference::plate::{refuse, torn, Refusal, PLATE};
use compare::reference::walker::Walker;
use compare::reference::{book, locator, media, stream, write};
use compare::request::*;
use compare::table::{refusals, Table};
use std::collections::BTreeMap;

/// The largest figure: the largest length that a header can state, with the header alone lent.
const MOST: u64 = 4_294_967_276;

/// A bare header that states this length.
fn stating(kind: u8, length: u32) -> Vec<u8> {
    let mut bytes = packet(kind, &[]);
    state_length(&mut bytes, length);
    bytes
}

/// M and a UMF packet of 32 bytes, of which 20 are there.
fn torn_stream() -> Vec<u8> {
    [&M[..], &packet(0xFD, &[0xFF; 16])[..20]].concat()
}

#[test]
fn the_readings() {
    let nineteen = [&stating(0xFB, 20)[..], &[0; 3]].concat();
    assert_eq!(header(&nineteen, 0), torn(0, 1));
    assert_eq!(listing(&M[..30]), "refused 5 0 14\n");
    assert_eq!(listing(&M[..15]), "refused 1 0\n");
    assert_eq!(header(&stating(0xFD, 0xFFFF_FFFC), 0), torn(0, MOST));
}

/// M cut everywhere: 1 has no figure, 5 goes down to 1.
#[test]
fn every_cut_of_m() {
    for n in 0..=44 {
        let told = map(&M[..n], 0).map(|_| ());
        match n {
            0..=15 => assert_eq!(told, refuse(1, 0)),
            16..=43 => assert_eq!(told, torn(0, 44 - n as u64)),
            _ => assert_eq!(told, Ok(())),
        }
    }
}

/// Bytes before the packet count for nothing, bytes behind its header for what they are.
#[test]
fn positions_above_0() {
    for before in [1, 4, 40, 1_000] {
        for behind in 0..28 {
            let lent = [&vec![0xFF; before][..], &M[..16 + behind]].concat();
            let (at, lacking) = (before as u64, 28 - behind as u64);
            assert_eq!(header(&lent, at), torn(at, lacking));
            assert_eq!(packet_of(&lent, at, 0xBC), torn(at, lacking));
            assert_eq!(map(&lent, at), torn(at, lacking));
            assert_eq!(name(&lent, at, 1), torn(at, lacking));
        }
    }
}

/// Lengths at which a narrowing would show.
#[test]
fn small_and_large_figures() {
    for (length, lacking) in [
        (20, 4),
        (0x100, 240),
        (0x1_0000, 65_520),
        (0x100_0000, 16_777_200),
        (0x7FFF_FFFC, 2_147_483_628),
        (0x8000_0000, 2_147_483_632),
        (0xFFFF_FFFC, MOST),
    ] {
        for behind in 0..4 {
            let lent = [&stating(0xBC, length)[..], &vec![0; behind]].concat();
            let lacking = lacking - behind as u64;
            assert_eq!(map(&lent, 0), torn(0, lacking));
            assert_eq!(stream::check(&lent), torn(0, lacking));
            assert_eq!(listing(&lent), format!("refused 5 0 {lacking}\n"));
        }
    }
}

/// Order: after 4, before 6 and 17 and all content.
#[test]
fn its_place_in_the_order() {
    assert_eq!(header(&stating(0xBF, 22), 0), refuse(4, 0));
    assert_eq!(header(&stating(0xBF, 12), 0), refuse(4, 0));
    let other = stating(0xBF, 20);
    assert_eq!(packet_of(&other, 0, 0xBC), torn(0, 4));
    assert_eq!(map(&other, 0), torn(0, 4));
    assert_eq!(stream::check(&other), torn(0, 4));
    assert_eq!(listing(&other), "refused 5 0 4\n");
    let mut bad = M;
    bad[16] = 0;
    assert_eq!(map(&bad[..43], 0), torn(0, 1));
}

#[test]
fn every_reader_passes_it_on() {
    let flt = packet(0xFC, &flt_payload(40, 1, &[7]));
    assert_eq!(locator::position(&flt[..23], 0, 0), torn(0, 5));
    let picture = packet(0xBF, &media_payload(10, 1, 7, [0, 0], 0, &[]));
    assert_eq!(media::media(&picture[..31], 0), torn(0, 1));
    let mut records = [None; 2];
    assert_eq!(fill(&M[..30], 0, &mut records), torn(0, 14));
    assert_eq!(records, [None; 2]);
    // 13 of a room that is too small comes later
    assert_eq!(fill(&M[..30], 0, &mut []), torn(0, 14));
}

#[test]
fn of_two_maps_that_of_the_map_refused() {
    for id in [0, 1, 64] {
        assert_eq!(name_of_two(&M[..30], &M, id), torn(0, 14));
        assert_eq!(name_of_two(&M, &M[..43], id), torn(0, 1));
        assert_eq!(name_of_two(&M[..30], &M[..43], id), torn(0, 14));
        assert_eq!(name_of_two(&M[..43], &M[..30], id), torn(0, 1));
        assert_eq!(name_of_two(&M[..15], &M[..30], id), refuse(1, 0));
        assert_eq!(name_of_two(&M[..30], &M[..15], id), torn(0, 14));
    }
}

#[test]
fn walker() {
    let bytes = [packet(0xFD, &[]), stating(0xFB, 20)].concat();
    let mut walker = Walker::new(&bytes);
    assert!(walker.step().is_ok());
    for _ in 0..3 {
        assert_eq!(walker.step(), torn(16, 4));
        assert_eq!(walker.place, 16);
    }
}

/// The place is the packet's offset already: nothing is added to it, nor to the figure.
#[test]
fn streams() {
    let bytes = torn_stream();
    assert_eq!(stream::check(&bytes), torn(44, 12));
    assert_eq!(stream::seek(&bytes, 1, 0), torn(44, 12));
    for room in [0, 4, 100] {
        let mut lent = lent_room(room);
        assert_eq!(book::build(&bytes, &mut lent), torn(44, 12));
        assert_eq!(lent, lent_room(room));
    }
    assert_eq!(listing(&bytes), "refused 5 44 12\n");
    // a packet that states more than all that follows it
    let mut long = [&M[..], &packet(0xFD, &[]), &packet(0xFB, &[])].concat();
    long[44 + 9] = 36;
    assert_eq!(stream::check(&long), torn(44, 4));
    // 13 of the listing comes first
    let most = [&M[..], &vec![0; 65_493]].concat();
    assert_eq!(listing(&most), "refused 13 0\n");
}

#[test]
fn what_the_figure_means() {
    let bytes = torn_stream();
    for more in [0x00, 0x01, 0xFF, 0xE2] {
        let with = |n: usize| [&bytes[..], &vec![more; n]].concat();
        for n in 0..12 {
            assert_eq!(header(&with(n), 44), torn(44, 12 - n as u64));
            assert_eq!(stream::check(&with(n)), torn(44, 12 - n as u64));
        }
        assert_eq!(header(&with(12), 44).map(|found| found.length), Ok(32));
        assert_eq!(stream::check(&with(12)), refuse(18, 76));
    }
}

/// Before a room, a part or a walker's place.
#[test]
fn the_third_figure_in_lines() {
    let torn_map = &M[..30];
    let bytes = torn_stream();
    let walk = [packet(0xFD, &[]), stating(0xFB, 20)].concat();
    for (request, line) in [
        (Request::new(HEADER, &[0], &[torn_map]), "refused 5 0 14"),
        (
            Request::new(PACKET, &[0, 0xFB], &[torn_map]),
            "refused 5 0 14",
        ),
        (
            Request::new(MAP, &[0, 2], &[torn_map]),
            "refused 5 0 14 kept kept",
        ),
        (
            Request::new(NAME, &[4, 1], &[&[&[7; 4], torn_map].concat()]),
            "refused 5 4 14 x",
        ),
        (
            Request::new(NAME_OF_TWO, &[1], &[torn_map, &M]),
            "refused 5 0 14 x",
        ),
        (
            Request::new(NAME_OF_TWO, &[1], &[&M, torn_map]),
            "refused 5 0 14 x",
        ),
        (
            Request::new(POSITION, &[0, 0], &[torn_map]),
            "refused 5 0 14",
        ),
        (Request::new(MEDIA, &[0], &[torn_map]), "refused 5 0 14"),
        (Request::new(CHECK, &[], &[&bytes]), "refused 5 44 12"),
        (Request::new(SEEK, &[1, 0], &[&bytes]), "refused 5 44 12"),
        (
            Request::new(BUILD, &[3], &[&bytes]),
            "refused 5 44 12 x030a11",
        ),
        (
            Request::new(WALK, &[3], &[&walk]),
            "walk packet 253 16 16 refused 5 16 4 16 refused 5 16 4 16",
        ),
    ] {
        assert_eq!(answer(&request), line);
    }
}

/// One refusal of every other number, through the functions that give it.
#[test]
fn no_other_number_has_a_figure() {
    let m = |at: usize, byte: u8| {
        let mut m = M;
        m[at] = byte;
        map(&m, 0).map(|_| ())
    };
    let flt = |step, count| packet(0xFC, &flt_payload(step, count, &[]));
    let table = |step, count| locator::position(&flt(step, count), 0, 0).map(|_| ());
    let check = |parts: &[Vec<u8>]| stream::check(&parts.concat()).map(|_| ());
    let (umf, eos) = (packet(0xFD, &[]), packet(0xFB, &[]));
    let unlisted = packet(0xBF, &media_payload(10, 2, 0, [0, 0], 0, &[]));
    let others = packet(0xFE, &[]).repeat(100);
    let text = |text: &str| parameters(text.as_bytes()).map(|_| ());
    let met = [
        header(&M[..15], 0).map(|_| ()),
        m(4, 0),
        m(15, 0),
        m(9, 0),
        m(5, 0xFB),
        m(16, 0),
        m(19, 0xFF),
        m(38, 3),
        text("Ver 1\nVer 1\n\0"),
        m(36, 1),
        m(28, 0x0A),
        fill(&M, 0, &mut []).map(|_| ()),
        table(1, 1_001),
        table(0, 0),
        table(1, 0),
        check(&[]),
        check(&[M.to_vec()]),
        check(&[M.to_vec(), flt(1, 0), flt(1, 0)]),
        check(&[M.to_vec(), others]),
        check(&[M.to_vec(), eos.clone()]),
        check(&[M.to_vec(), unlisted, umf, eos]),
        book::lookup(&record(64, 10, 0, 0), 0, 0).map(|_| ()),
        write::write_flt(&mut [], 0, 0, &[]).map(|_| ()),
        text("x\n\0"),
        text("\0"),
        m(32, 0x4F),
    ];
    let mut numbers: Vec<u8> = Vec::new();
    for told in met {
        let refusal = told.unwrap_err();
        assert_eq!(refusal.lacking, 0, "{refusal}");
        let line = format!("refused {} {}", refusal.number, refusal.place);
        assert_eq!(refusal.to_string(), line);
        numbers.push(refusal.number);
    }
    numbers.push(5);
    numbers.sort_unstable();
    numbers.dedup();
    assert_eq!(numbers, PLATE);
}

#[test]
fn refusals_are_read_from_lines() {
    let read = |line: &str| refusals(line).collect::<Vec<_>>();
    let told = |number, place, lacking| Refusal {
        number,
        place,
        lacking,
    };
    assert_eq!(read("refused 5 4 14 x"), [told(5, 4, 14)]);
    assert_eq!(read("refused 13 0 x030a11"), [told(13, 0, 0)]);
    assert_eq!(
        read("walk refused 1 32 32 refused 5 16 4 16 refused 1 32 32"),
        [told(1, 32, 0), told(5, 16, 4), told(1, 32, 0)]
    );
    assert_eq!(read("ok 5"), []);
}

/// The functions that give 5, each with all that a run met of it: by case the place and the figure.
fn met(seed: u64) -> BTreeMap<u8, Vec<(u64, u64)>> {
    let mut met: BTreeMap<u8, Vec<(u64, u64)>> = BTreeMap::new();
    for index in 0..10_000 {
        let request = case(seed, index).request;
        for refusal in refusals(&answer(&request)).filter(|r| r.number == 5) {
            let seen = met.entry(request.function).or_default();
            seen.push((refusal.place, refusal.lacking));
        }
    }
    met
}

#[test]
fn a_run_meets_small_and_large_figures_everywhere() {
    let readers = [HEADER, PACKET, MAP, NAME, NAME_OF_TWO, POSITION, MEDIA];
    let of_streams = [CHECK, SEEK, BUILD, WALK];
    for seed in 1..=8 {
        let met = met(seed);
        let functions: Vec<u8> = met.keys().copied().collect();
        assert_eq!(functions, [&readers[..], &of_streams].concat());
        for (function, seen) in met {
            let has = |test: fn(u64, u64) -> bool| seen.iter().any(|(p, k)| test(*p, *k));
            assert!(seen.iter().all(|(_, k)| (1..=MOST).contains(k)));
            assert!(has(|_, k| k == 1), "function {function}");
            assert!(has(|_, k| (2..16).contains(&k)), "function {function}");
            assert!(has(|_, k| (16..65_536).contains(&k)), "function {function}");
            assert!(has(|_, k| k > 0x8000_0000), "function {function}");
            assert!(has(|p, _| p == 0), "function {function}");
            // two maps both stand at 0
            assert_eq!(has(|p, _| p > 0), function != NAME_OF_TWO);
        }
    }
}

#[test]
fn a_table_counts_them() {
    let mut table = Table::default();
    for line in ["refused 5 0 1", "refused 5 9 1 x", "refused 5 0 65536"] {
        table.count("one", line);
    }
    table.count("two", "walk packet 253 16 16 refused 5 16 4294967276 16");
    table.count("two", "ok 5");
    let want = "1: 2, 2 to 15: 0, 16 to 65,536: 1, more: 1; most: 4294967276";
    assert_eq!(table.figures(), want);
}
