//! 02, §11: the aspect of a track record, from 4D on DV tracks and from `ar` on MPEG tracks; unknown in all other cases.

use compare::generate::maps::{binary, m_with, M};
use compare::generate::packets::{packet, KNOWN_TYPES, MPEG_TYPES};
use compare::generate::{case, texts};
use compare::own::alike;
use compare::reference::map::{fill, map};
use compare::reference::mpeg::parameters;
use compare::reference::plate::refuse;
use compare::reference::{stream, write};
use compare::request::*;
use compare::rng::Rng;
use compare::table::{records, Record, Table};

const NULL: [u8; 3] = [0x4C, 1, 0];
const NAME_A: [u8; 4] = [0x4C, 2, 0x41, 0];
const RATE: [u8; 6] = [0x50, 4, 0, 0, 0, 5];

/// The aspects by their numbers, and unknown.
const NARROW: Option<u8> = Some(0);
const WIDE: Option<u8> = Some(1);
const UNKNOWN: Option<u8> = None;

fn item(tag: u8, value: &[u8]) -> Vec<u8> {
    [&[tag, value.len() as u8], value].concat()
}

fn track(kind: u8, id: u8, items: &[&[u8]]) -> Vec<u8> {
    let items = items.concat();
    let length = (items.len() as u16).to_be_bytes();
    [&[0x80 + kind, 0xC0 + id], &length[..], &items].concat()
}

fn map_packet(tracks: &[Vec<u8>]) -> Vec<u8> {
    let tracks = tracks.concat();
    let length = (tracks.len() as u16).to_be_bytes();
    packet(0xBC, &[&[0xE0, 0xFF, 0, 0], &length[..], &tracks].concat())
}

/// The aspects of the records of a map that is accepted.
fn aspects(tracks: &[Vec<u8>]) -> Vec<Option<u8>> {
    let read = map(&map_packet(tracks), 0).expect("the map is good");
    let records = read.tracks.iter();
    records.map(|t| t.aspect.map(|a| a.number())).collect()
}

/// The aspect of the one record of a map.
fn one(kind: u8, items: &[&[u8]]) -> Option<u8> {
    let told = aspects(&[track(kind, 1, items)]);
    assert_eq!(told.len(), 1, "type {kind} is listed");
    told[0]
}

/// The aspect with this form alone, with a name and with others around it; with a null name it must be unknown.
fn of_form(kind: u8, form: &[u8]) -> Option<u8> {
    let told = one(kind, &[form]);
    assert_eq!(one(kind, &[&NAME_A, form]), told);
    assert_eq!(one(kind, &[&RATE, form, &NAME_A]), told);
    assert_eq!(one(kind, &[&NULL, form]), UNKNOWN);
    assert_eq!(one(kind, &[form, &RATE, &NULL]), UNKNOWN);
    told
}

/// The aspect of a DV track, or of another one that takes a 4D, with these first four bytes.
fn of_4d(kind: u8, first: [u8; 4]) -> Option<u8> {
    let told = |rest: [u8; 4]| of_form(kind, &item(0x4D, &[first, rest].concat()));
    assert_eq!(told([0; 4]), told([0xFF; 4]));
    told([0; 4])
}

/// The aspect of an MPEG track with this text, to which its 00 is added; the five types must agree.
fn of_4f(text: &str) -> Option<u8> {
    let form = item(0x4F, &[text.as_bytes(), &[0]].concat());
    let told = MPEG_TYPES.map(|kind| of_form(kind, &form));
    assert_eq!(told, [told[0]; 5]);
    told[0]
}

// ---- DV ----

/// The readings of the decisions, in their order.
#[test]
fn the_readings() {
    assert_eq!(of_4d(13, [0x10, 0, 0, 0x40]), WIDE);
    assert_eq!(of_4d(13, [0x00, 0, 0, 0x40]), NARROW);
    assert_eq!(of_4d(13, [0x10, 0, 0, 0x00]), UNKNOWN);
    assert_eq!(of_4d(13, [0x10, 0, 0, 0x80]), UNKNOWN);
    assert_eq!(of_4d(13, [0x10, 0, 0, 0xC0]), UNKNOWN);
    assert_eq!(of_4d(13, [0x10, 0, 0, 0x7F]), WIDE);
    assert_eq!(of_4d(14, [0x01, 0, 0, 0x40]), NARROW, "DVCAM");
    assert_eq!(of_4d(15, [0x01, 0, 0, 0x40]), WIDE);
    assert_eq!(of_4d(15, [0x10, 0, 0, 0x40]), NARROW);
    assert_eq!(of_4d(25, [0x11, 0, 0, 0x40]), UNKNOWN);
}

/// Types 13 to 16, 25 and 26 with validity 0, 1, 2 and 3, either aspect bit set or not.
#[test]
fn every_type_and_validity() {
    for (kind, mask) in [(13, 0x10), (14, 0x10), (15, 0x01), (16, 0x01)] {
        for low in [0x00, 0x01, 0x10, 0x11] {
            let told = [0x00, 0x40, 0x80, 0xC0].map(|top| of_4d(kind, [low, 0, 0, top]));
            let known = Some(u8::from(low & mask != 0));
            assert_eq!(told, [UNKNOWN, known, UNKNOWN, UNKNOWN], "type {kind}");
        }
    }
    for kind in [25, 26] {
        for low in [0x00, 0x01, 0x10, 0x11, 0x31, 0xFF] {
            for top in [0x00, 0x40, 0x7F, 0x80, 0xC0] {
                assert_eq!(of_4d(kind, [low, 0, 0, top]), UNKNOWN);
            }
        }
    }
}

/// Every byte 0 and every byte 3, all else set or not: no other bit is looked at, the DV format neither.
#[test]
fn every_byte_0_and_3() {
    for byte in 0..=255u8 {
        for others in [0x00, 0xFF] {
            for (kind, place) in [(13, 4), (14, 4), (15, 0), (16, 0)] {
                let told = of_4d(kind, [byte, others, others, 0x40 | others & 0x3F]);
                assert_eq!(told, Some(byte >> place & 1), "byte 0 is {byte}");
                let told = of_4d(kind, [others, others, others, byte]);
                let known = (0x40..=0x7F).contains(&byte);
                assert_eq!(told, known.then_some(others & 1), "byte 3 is {byte}");
            }
        }
    }
}

/// Bytes the other way about would be read elsewhere.
#[test]
fn bytes_stand_in_their_order() {
    for kind in 13..=16 {
        let turned = [0, 0, 0, 0, 0x40, 0, 0, 0x11];
        assert_eq!(one(kind, &[&item(0x4D, &turned)]), UNKNOWN);
        let first = [0x40, 0, 0, 0x11, 0, 0, 0, 0];
        assert_eq!(one(kind, &[&item(0x4D, &first)]), UNKNOWN);
    }
}

#[test]
fn without_a_form() {
    for kind in KNOWN_TYPES {
        assert_eq!(one(kind, &[]), UNKNOWN);
        assert_eq!(one(kind, &[&NAME_A]), UNKNOWN);
        assert_eq!(one(kind, &[&NULL]), UNKNOWN);
        assert_eq!(one(kind, &[&RATE, &NAME_A]), UNKNOWN);
        // under another tag the bytes are an unknown item
        let other = item(0x53, &[0x11, 0, 0, 0x40, 0, 0, 0, 0]);
        assert_eq!(one(kind, &[&other]), UNKNOWN);
    }
}

// ---- MPEG ----

/// All that is required, without `ar`.
const TEXT: &str =
    "Ver 1\nBr 0.5\nIpg 1\nPpi 4\nBpiop 2\nPix 0\nCf 1\nCg 0\nSl 7\nnl16 36\nVi 1\nf1 1\n";

fn with(lines: &str) -> String {
    TEXT.to_string() + lines
}

#[test]
fn ar_says_it() {
    for (ar, told) in [
        ("ar 1\n", WIDE),
        ("ar 01\n", WIDE),
        ("ar 000000001\n", WIDE),
        ("ar 0\n", NARROW),
        ("ar 000000000\n", NARROW),
        ("", NARROW),
        ("ar 7\n", NARROW),
        ("ar 2\n", NARROW),
        ("ar 257\n", NARROW),
        ("ar 999999999\n", NARROW),
        // other identifiers
        ("AR 1\n", NARROW),
        ("Ar 1\n", NARROW),
        ("ar1 1\n", NARROW),
        ("a 1\n", NARROW),
        ("x ar 1\n", NARROW),
        ("cbpg 1\n", NARROW),
        ("cbpg 1\nar 1\n", WIDE),
        ("x 1\nar 1\nx \n", WIDE),
    ] {
        assert_eq!(of_4f(&with(ar)), told, "{ar:?}");
        // any order
        assert_eq!(of_4f(&(ar.to_string() + TEXT)), told, "{ar:?}");
    }
}

#[test]
fn a_text_that_is_refused_says_nothing() {
    let whole = with("ar 1\n");
    assert_eq!(of_4f(&whole), WIDE);
    // 26: without its last 0A, `ar` of another form, a line that is none
    assert_eq!(of_4f(&whole[..whole.len() - 1]), UNKNOWN);
    assert_eq!(of_4f(&TEXT[..TEXT.len() - 1]), UNKNOWN);
    for bad in [
        "ar\n",
        "ar \n",
        "ar -1\n",
        "ar 1 \n",
        "ar  1\n",
        "ar 1.0\n",
        "ar 0000000001\n",
        "ar 1\n\n",
        "ar 1\nx\n",
        "ar 1\n x\n",
        "ar 1\nx-y 1\n",
        "ar 1\ncbpg x\n",
    ] {
        assert_eq!(of_4f(&with(bad)), UNKNOWN, "{bad:?}");
    }
    assert_eq!(of_4f(&whole.replace("0.5", "9007199254.740993")), UNKNOWN);
    // 10: `ar` twice, in its list or not, or another parameter
    for twice in [
        "ar 1\nar 1\n",
        "ar 0\nar 1\n",
        "ar 7\nar 1\n",
        "ar 1\nVi 1\n",
    ] {
        assert_eq!(of_4f(&with(twice)), UNKNOWN, "{twice:?}");
    }
    // 27: a required parameter missing, or outside its list; no line at all
    for line in TEXT.split_inclusive('\n') {
        assert_eq!(of_4f(&whole.replacen(line, "", 1)), UNKNOWN, "{line:?}");
    }
    for (good, outside) in [("Ver 1", "Ver 2"), ("Sl 7", "Sl 32"), ("Cf 1", "Cf 0")] {
        assert_eq!(of_4f(&whole.replace(good, outside)), UNKNOWN);
    }
    for text in ["", "A", "ar 1\n", "\n"] {
        assert_eq!(of_4f(text), UNKNOWN, "{text:?}");
    }
}

/// A malformed 4F is no refusal; the text rule is the map reader's still.
#[test]
fn no_refusal_is_new() {
    let told = |kind, items: &[&[u8]]| map(&map_packet(&[track(kind, 1, items)]), 0).map(|_| ());
    let text = item(0x4F, &[with("ar 1\n").as_bytes(), &[0]].concat());
    let eight = item(0x4D, &[0x11, 0, 0, 0x40, 0, 0, 0, 0]);
    for kind in MPEG_TYPES {
        assert_eq!(told(kind, &[&item(0x4F, b"ar\0")]), Ok(()));
        assert_eq!(told(kind, &[&item(0x4F, b"ar 1\n")]), refuse(11, 26));
        assert_eq!(told(kind, &[&item(0x4F, b"\x80\0")]), refuse(11, 26));
        assert_eq!(told(kind, &[&eight]), refuse(29, 26));
        assert_eq!(told(kind, &[&text, &text]), refuse(10, 106));
        // the wrong form is accepted beside a null name, and says nothing
        assert_eq!(one(kind, &[&eight, &NULL]), UNKNOWN);
    }
    for kind in 13..=16 {
        assert_eq!(told(kind, &[&item(0x4D, &[0x10; 7])]), refuse(9, 26));
        assert_eq!(told(kind, &[&text]), refuse(29, 26));
        assert_eq!(one(kind, &[&NULL, &text]), UNKNOWN);
    }
}

/// The longest text that an item takes, and `ar` at its very end.
#[test]
fn the_longest_text() {
    for (ar, told) in [("ar 1\n", WIDE), ("ar 0\n", NARROW), ("ar x\n", UNKNOWN)] {
        let rest = with(ar);
        let fill = "z".repeat(254 - rest.len() - 3);
        let text = format!("y {fill}\n{rest}");
        assert_eq!(text.len(), 254);
        assert_eq!(of_4f(&text), told);
    }
}

// ---- other types ----

#[test]
fn other_types() {
    let eight = |low| item(0x4D, &[low, 0, 0, 0x40, 0, 0, 0, 0]);
    let others = KNOWN_TYPES
        .into_iter()
        .filter(|kind| !MPEG_TYPES.contains(kind) && !(13..=16).contains(kind));
    for kind in others {
        for low in [0x00, 0x01, 0x10, 0x11, 0xFF] {
            assert_eq!(of_form(kind, &eight(low)), UNKNOWN, "type {kind}");
        }
    }
    // not listed: no record at all
    let text = item(0x4F, &[with("ar 1\n").as_bytes(), &[0]].concat());
    for kind in (0..128).filter(|kind| !KNOWN_TYPES.contains(kind)) {
        for form in [&eight(0x11), &text] {
            assert_eq!(aspects(&[track(kind, 1, &[form])]), []);
        }
    }
}

/// Each record has its own, in the order of the map.
#[test]
fn several_tracks() {
    let wide = item(0x4F, &[with("ar 1\n").as_bytes(), &[0]].concat());
    let narrow = item(0x4F, &[TEXT.as_bytes(), &[0]].concat());
    let both = item(0x4D, &[0x11, 0, 0, 0x40, 0, 0, 0, 0]);
    let low = item(0x4D, &[0x01, 0, 0, 0x40, 0, 0, 0, 0]);
    let tracks = [
        track(11, 1, &[&wide]),
        track(13, 2, &[&low]),
        track(19, 3, &[&wide]), // not listed
        track(15, 4, &[&low]),
        track(23, 5, &[&narrow]),
        track(16, 6, &[&both, &NULL]),
        track(14, 7, &[&both]),
        track(10, 8, &[&both]),
        track(12, 9, &[]),
    ];
    let told = [WIDE, NARROW, WIDE, NARROW, UNKNOWN, WIDE, UNKNOWN, UNKNOWN];
    assert_eq!(aspects(&tracks), told);
}

// ---- whoever fills, lists or writes records ----

/// The line's last token of a record; records that are not filled are kept.
#[test]
fn lines() {
    let bench = Request::new(MAP, &[0, 2], &[&M]);
    let want = "map 1 - 0 - - - - record 1 10 -2 - - - 34 3 - - - kept";
    assert_eq!(answer(&bench), want);
    let dv = |low| m_with(0x8D, &item(0x4D, &[low, 0, 0, 0x40, 0, 0, 0, 0]));
    for (bytes, told) in [
        (dv(0x10), "record 1 13 -2 - - - 34 3 45 8 - 1"),
        (dv(0x01), "record 1 13 -2 - - - 34 3 45 8 - 0"),
        (m_with(0x8D, &[]), "record 1 13 -2 - - - 34 3 - - -"),
        (
            m_with(0x8B, &item(0x4F, b"A\0")),
            "record 1 11 -2 - - - 34 3 - 45 2 -",
        ),
        (
            m_with(0x8B, &item(0x4F, format!("{TEXT}\0").as_bytes())),
            "record 1 11 -2 - - - 34 3 - 45 73 0",
        ),
        (
            m_with(0x8B, &item(0x4F, format!("{TEXT}ar 1\n\0").as_bytes())),
            "record 1 11 -2 - - - 34 3 - 45 78 1",
        ),
    ] {
        for n in 1..4 {
            let line = answer(&Request::new(MAP, &[0, n], &[&bytes]));
            let kept = " kept".repeat(n as usize - 1);
            assert_eq!(line, format!("map 1 - 0 - - - - {told}{kept}"));
        }
        // refused: nothing is filled
        let line = answer(&Request::new(MAP, &[0, 0], &[&bytes]));
        assert_eq!(line, "refused 13 0");
        let mut other = bytes.clone();
        other[38] = 3;
        let line = answer(&Request::new(MAP, &[0, 1], &[&other]));
        assert!(line.starts_with("refused") && line.ends_with(" kept"));
    }
}

#[test]
fn lent_records() {
    let bytes = m_with(0x8F, &item(0x4D, &[0x01, 0, 0, 0x40, 0, 0, 0, 0]));
    let mut lent = [None; 3];
    let read = fill(&bytes, 0, &mut lent).unwrap();
    assert_eq!(lent, [Some(read.tracks[0]), None, None]);
    assert_eq!(read.tracks[0].aspect.map(|a| a.number()), WIDE);
    // at a position, with bytes around it
    let around = [&[7; 5][..], &bytes, &[9; 9]].concat();
    let mut again = [None; 3];
    assert_eq!(fill(&around, 5, &mut again), Ok(read));
    assert_eq!(again, lent);
}

/// Alike answers have the same aspect, and other bytes in the 4D are not alike even where the aspect is the same.
#[test]
fn alike_answers() {
    let of = |low, rest| m_with(0x8D, &item(0x4D, &[low, 0, 0, 0x40, rest, 0, 0, 0]));
    let same = |a: &[u8], b: &[u8]| alike((a, &map(a, 0)), (b, &map(b, 0)));
    assert!(same(&of(0x10, 0), &of(0x10, 0)));
    assert!(!same(&of(0x10, 0), &of(0x00, 0)));
    assert!(!same(&of(0x10, 0), &of(0x10, 1)));
}

/// The writer takes no aspect: what is read back follows from type, 4D and 4F.
#[test]
fn written_maps() {
    let text = with("ar 1\n");
    let lent = [&[0x11, 0, 0, 0x40, 0, 0, 0, 0], text.as_bytes()].concat();
    let (whole, short) = (text.len() as u64, TEXT.len() as u64);
    for (kind, slot, words, told) in [
        (13, 1, [1, 0, 8], WIDE),
        (16, 1, [1, 0, 8], WIDE),
        (15, 1, [1, 1, 8], UNKNOWN), // one byte on: byte 3 is 00
        (25, 1, [1, 0, 8], UNKNOWN),
        (10, 1, [1, 0, 8], UNKNOWN),
        (13, 1, [0, 0, 8], UNKNOWN), // absent
        (11, 3, [1, 8, whole], WIDE),
        (20, 3, [1, 8, short], NARROW),
        (22, 3, [1, 8, whole - 1], UNKNOWN), // without its last 0A
        (23, 3, [1, 8, 0], UNKNOWN),
        (12, 3, [0, 8, whole], UNKNOWN),
    ] {
        let mut row = vec![0; 23];
        row[..2].copy_from_slice(&[kind, 1]);
        row[2 + 3 * slot..5 + 3 * slot].copy_from_slice(&words);
        let mut room = lent_room(500);
        let done = write::write_map(&mut room, 9, &lent, &[0; 18], &row);
        assert!(done.is_ok());
        let read = map(&room, 9).unwrap().tracks[0];
        assert_eq!(read.aspect.map(|a| a.number()), told, "type {kind}");
    }
}

/// No verdict reads it: a stream is accepted whatever the text says.
#[test]
fn verdicts_stay() {
    let (umf, eos) = (packet(0xFD, &[]), packet(0xFB, &[]));
    for text in ["A\0", "ar 1\n\0", "ar 1\nar 1\n\0", "\n\0", "\0"] {
        let first = m_with(0x8B, &item(0x4F, text.as_bytes()));
        let bytes = [&first[..], &umf, &eos].concat();
        assert_eq!(stream::check(&bytes), Ok(3));
    }
}

// ---- the generators and a run ----

/// Texts for items say what their maker knows, by the reader of 01; and they fit.
#[test]
fn texts_say_what_is_known() {
    let mut met = [0; 3];
    for index in 0..20_000 {
        let mut rng = Rng::new(11, index);
        let full = index % 5 == 0;
        let (text, said) = if full {
            texts::longest(&mut rng)
        } else {
            texts::for_item(&mut rng)
        };
        assert!(text.len() <= 255 && (text.len() == 255 || !full));
        let line = answer(&Request::new(PARAMETERS, &[], &[&text]));
        assert_eq!(parameters(&text).is_ok(), said.is_some(), "{line}");
        match said {
            Some(ar) => assert!(line.ends_with(&format!(" {ar}")), "{line}"),
            None => assert!(["10", "26", "27"].contains(&line.split(' ').nth(1).unwrap())),
        }
        met[said.map_or(2, usize::from)] += 1;
    }
    assert!(met.iter().all(|n| *n > 4_000), "{met:?}");
}

/// Bytes of 4D have every validity with either bit set or not, and others around them.
#[test]
fn binaries_have_every_bit() {
    let mut met = [0; 16];
    let (mut set, mut clear) = ([0; 8], [0xFF; 8]);
    for index in 0..20_000 {
        let bytes = binary(&mut Rng::new(12, index));
        let low = bytes[0] & 1 | bytes[0] >> 3 & 2;
        met[usize::from(bytes[3] >> 6 | low << 2)] += 1;
        for i in 0..8 {
            set[i] |= bytes[i];
            clear[i] &= bytes[i];
        }
    }
    assert!(met.iter().all(|n| *n > 300), "{met:?}");
    assert_eq!((set, clear), ([0xFF; 8], [0; 8]));
}

#[test]
fn records_of_a_line() {
    let line =
        "map 2 - - 1 - - - record 1 13 -2 - - 7 34 3 45 8 - 1 record 63 11 - - - - - - 90 2 - kept";
    let told: Vec<Record> = records(line).collect();
    let record = |kind, binary, text, aspect| Record {
        kind,
        binary,
        text,
        aspect,
    };
    let dv = record(13, Some((45, 8)), None, WIDE);
    assert_eq!(told, [dv, record(11, None, Some((90, 2)), UNKNOWN)]);
    for line in ["refused 13 0 kept", "records 1 x47", "map 0 - - - - - -"] {
        assert_eq!(records(line).count(), 0);
    }
}

#[test]
fn a_table_knows_which_aspects_were_missed() {
    let mut table = Table::default();
    let all = [
        "DV 4x3",
        "DV 16x9",
        "DV unknown",
        "MPEG 4x3",
        "MPEG 16x9",
        "MPEG unknown",
    ];
    assert_eq!(table.aspects_missed(), all);
    let record = |kind: u8, aspect: &str| {
        format!("map 1 - - - - - - record 1 {kind} - - - - - - - {aspect}")
    };
    table.count("map", &record(14, "0"));
    table.count("map", &record(25, "-"));
    table.count("map", &record(16, "-"));
    table.count("map", &record(20, "1"));
    assert_eq!(
        table.aspects_missed(),
        ["DV 16x9", "MPEG 4x3", "MPEG unknown"]
    );
    let told = "DV: 4x3 1, 16x9 0, unknown 1; MPEG: 4x3 0, 16x9 1, unknown 0; other types: 4x3 0, 16x9 0, unknown 1";
    assert_eq!(table.aspects(), told);
}

/// Each aspect of DV and of MPEG often enough, and none of any other type.
#[test]
fn a_run_reaches_every_aspect() {
    for seed in 1..=8 {
        let mut table = Table::default();
        let mut met = [[0; 3]; 3];
        for index in 0..5_000 {
            let case = case(seed, index);
            let line = answer(&case.request);
            table.count(case.kind, &line);
            for record in records(&line) {
                let family = match record.kind {
                    13..=16 => 0,
                    kind if MPEG_TYPES.contains(&kind) => 1,
                    _ => 2,
                };
                met[family][record.aspect.map_or(2, usize::from)] += 1;
            }
        }
        assert!(table.aspects_missed().is_empty(), "{}", table.aspects());
        assert!(met[..2].iter().flatten().all(|n| *n >= 30), "{met:?}");
        assert_eq!(met[2][..2], [0, 0]);
    }
}
