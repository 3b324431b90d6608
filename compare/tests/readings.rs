//! The bench readings of 01, and the readings of docs/DECISIONS.md that have an example (D, R and F numbers are that page's).

use compare::generate::books::record;
use compare::generate::maps::M;
use compare::generate::packets::{flt_payload, media_payload, packet, state_length};
use compare::reference::header::{header, packet as packet_of, Header};
use compare::reference::listing::listing;
use compare::reference::map::{fill, map, Map, Part, Track};
use compare::reference::mpeg::{parameters, Value};
use compare::reference::name::{name, name_of_two, Of};
use compare::reference::plate::{torn, Answer, Refusal};
use compare::reference::walker::Walker;
use compare::reference::{book, locator, media, stream, write};

/// (number, place) of a refusal that says of no bytes lacking, as all but 5 do.
fn no<T: std::fmt::Debug>(answer: Answer<T>) -> (u8, u64) {
    match answer {
        Err(Refusal {
            number,
            place,
            lacking: 0,
        }) => (number, place),
        other => panic!("{other:?}"),
    }
}

fn item(tag: u8, value: &[u8]) -> Vec<u8> {
    let mut bytes = vec![tag, value.len() as u8];
    bytes.extend(value);
    bytes
}

fn track(type_byte: u8, id_byte: u8, items: &[Vec<u8>]) -> Vec<u8> {
    let items = items.concat();
    let mut bytes = vec![type_byte, id_byte];
    bytes.extend((items.len() as u16).to_be_bytes());
    bytes.extend(items);
    bytes
}

fn map_packet(material: &[Vec<u8>], tracks: &[Vec<u8>]) -> Vec<u8> {
    let (material, tracks) = (material.concat(), tracks.concat());
    let mut payload = vec![0xE0, 0xFF];
    payload.extend((material.len() as u16).to_be_bytes());
    payload.extend(material);
    payload.extend((tracks.len() as u16).to_be_bytes());
    payload.extend(tracks);
    packet(0xBC, &payload)
}

/// A map of one track with these items.
fn one(items: &[Vec<u8>]) -> Vec<u8> {
    map_packet(&[], &[track(0x8A, 0xC1, items)])
}

fn part(place: u64, length: u64) -> Option<Part> {
    Some(Part { place, length })
}

fn m_track() -> Track {
    Track {
        id: 1,
        kind: 10,
        rate: Some(-2),
        lines: None,
        fields: None,
        version: None,
        name: part(34, 3),
        binary: None,
        text: None,
        aspect: None,
    }
}

fn eos() -> Vec<u8> {
    packet(0xFB, &[])
}

fn umf() -> Vec<u8> {
    packet(0xFD, &[])
}

fn flt() -> Vec<u8> {
    packet(0xFC, &flt_payload(1, 0, &[]))
}

fn of_type(kind: u8, id: u8, field: u32) -> Vec<u8> {
    packet(0xBF, &media_payload(kind, id, field, [0, 9], 0, &[]))
}

// ---- bench readings ----

#[test]
fn bench_header() {
    let fb = Header {
        kind: 0xFB,
        length: 16,
    };
    assert_eq!(header(&eos(), 0), Ok(fb));
    assert_eq!(no(header(&eos()[..15], 0)), (1, 0));
    let mut twelve = eos();
    state_length(&mut twelve, 12);
    assert_eq!(no(header(&twelve, 0)), (4, 0));
    let mut twenty = eos();
    state_length(&mut twenty, 20);
    twenty.extend([0; 3]);
    assert_eq!(header(&twenty, 0), torn(0, 1));
}

#[test]
fn bench_map() {
    let read = map(&M, 0).unwrap();
    assert_eq!(read.numbers, [Some(0), None, None, None, None]);
    assert_eq!(read.name, None);
    assert_eq!(read.tracks, [m_track()]);
}

#[test]
fn bench_map_with_an_unknown_item() {
    let mut more = M[..43].to_vec();
    more.extend([0x7E, 0x01, 0x55, 0, 0]);
    state_length(&mut more, 0x30);
    more[27] = 0x12;
    more[31] = 0x0E;
    assert_eq!(more.len(), 0x30);
    assert_eq!(map(&more, 0), map(&M, 0));
}

#[test]
fn bench_rate() {
    let mut nine = M;
    nine[39..43].copy_from_slice(&9i32.to_be_bytes());
    assert_eq!(map(&nine, 0).unwrap().tracks[0].rate, None);
    let mut three = M;
    three[38] = 3;
    assert_eq!(no(map(&three, 0)), (9, 37));
}

#[test]
fn bench_flt() {
    let bytes = packet(0xFC, &flt_payload(40, 1, &[4_194_304]));
    assert_eq!(locator::position(&bytes, 0, 39), Ok(4_294_967_296));
    assert_eq!(no(locator::position(&bytes, 0, 40)), (16, 0));
}

/// A full text with some lines changed or left out.
fn text(changes: &[(&str, &str)]) -> Vec<u8> {
    let rows = [
        ("Ver", "1"),
        ("Br", "0.5"),
        ("Ipg", "1"),
        ("Ppi", "2"),
        ("Bpiop", "3"),
        ("Pix", "0"),
        ("Cf", "1"),
        ("Cg", "0"),
        ("Sl", "31"),
        ("nl16", "36"),
        ("Vi", "1"),
        ("f1", "0"),
    ];
    let mut text = String::new();
    for (identifier, value) in rows {
        let value = changes
            .iter()
            .find(|(changed, _)| *changed == identifier)
            .map_or(value, |(_, value)| value);
        text += &format!("{identifier} {value}\n");
    }
    text.push('\0');
    text.into_bytes()
}

/// Lines put before the 00 of a full text.
fn text_and(lines: &str) -> Vec<u8> {
    let mut bytes = text(&[]);
    bytes.pop();
    bytes.extend(lines.as_bytes());
    bytes.push(0);
    bytes
}

fn rate(value: &str) -> Answer<u64> {
    parameters(&text(&[("Br", value)])).map(|values| match values[1] {
        Value::Rate(rate) => rate.to_bits(),
        Value::Whole(_) => panic!("Br is a float"),
    })
}

#[test]
fn bench_br() {
    assert_eq!(rate("0.5"), Ok(0.5f64.to_bits()));
    assert_eq!(no(rate("9007199254.740993")), (26, 6));
}

#[test]
fn bench_writer_number() {
    let mut room = vec![0; 100];
    let mut material = [0; 18];
    material[3..5].copy_from_slice(&[1, 4_294_967_296]);
    assert_eq!(
        no(write::write_map(&mut room, 0, &[], &material, &[])),
        (24, 0)
    );
    material[4] = 4_294_967_295;
    assert_eq!(write::write_map(&mut room, 0, &[], &material, &[]), Ok(28));
}

/// M, a UMF, so many media packets, EOS.
fn run_of(others: usize) -> Vec<u8> {
    let mut bytes = M.to_vec();
    bytes.extend(umf());
    for _ in 0..others - 2 {
        bytes.extend(of_type(10, 1, 0));
    }
    bytes.extend(eos());
    bytes
}

#[test]
fn bench_packets_without_map() {
    assert_eq!(stream::check(&run_of(99)), Ok(100));
    let long = run_of(100);
    assert_eq!(no(stream::check(&long)), (20, long.len() as u64 - 16));
}

#[test]
fn bench_listing() {
    let bytes = [&M[..], &umf(), &eos()].concat();
    let pieces = stream::packets(&bytes).unwrap();
    let lines: Vec<_> = pieces
        .iter()
        .map(|piece| (piece.offset, piece.kind, piece.length))
        .collect();
    assert_eq!(lines, [(0, 0xBC, 44), (44, 0xFD, 16), (60, 0xFB, 16)]);
    let want = "0 map 44\n44 umf 16\n60 eos 16\nok 3\n";
    assert_eq!(listing(&bytes), want);
}

// ---- "Ways it has been got wrong" ----

#[test]
fn got_wrong_before() {
    let bytes = packet(0xFC, &flt_payload(1, 1, &[u32::MAX]));
    assert_eq!(
        locator::position(&bytes, 0, 0),
        Ok(1_024 * 4_294_967_295),
        "1,024 × entry in 32 bits"
    );
    assert_eq!(map(&M, 0).unwrap().tracks[0].rate, Some(-2));
    let unlisted = map_packet(&[], &[track(0x93, 0xC1, &[]), track(0x93, 0xC1, &[])]);
    assert_eq!(no(map(&unlisted, 0)), (10, 26));
    for (code, told) in [(8, Some(8)), (9, None), (0, None), (-3, None)] {
        let bytes = one(&[item(0x50, &i32::to_be_bytes(code))]);
        assert_eq!(map(&bytes, 0).unwrap().tracks[0].rate, told);
    }
}

// ---- header and walker ----

#[test]
fn d1_positions_past_the_end() {
    assert_eq!(no(header(&eos(), 999)), (1, 999));
    assert_eq!(no(header(&eos(), 16)), (1, 16));
    assert_eq!(no(header(&eos(), u64::MAX)), (1, u64::MAX));
    assert_eq!(no(header(&[], 0)), (1, 0));
}

#[test]
fn d2_order_of_header_faults() {
    let mut bad = packet(0xBF, &[]);
    assert_eq!(no(map(&bad, 0)), (6, 0));
    state_length(&mut bad, 20);
    assert_eq!(packet_of(&bad, 0, 0xBC), torn(0, 4));
    state_length(&mut bad, 18);
    assert_eq!(no(packet_of(&bad, 0, 0xBC)), (4, 0));
    bad[15] = 0;
    assert_eq!(no(packet_of(&bad, 0, 0xBC)), (3, 0));
    bad[4] = 0;
    assert_eq!(no(packet_of(&bad, 0, 0xBC)), (2, 0));
    bad.pop();
    assert_eq!(no(packet_of(&bad, 0, 0xBC)), (1, 0));
}

#[test]
fn d3_walker() {
    let mut bytes = [eos(), packet(0xBC, &[])].concat(); // EOS is no end, content is not opened
    bytes.extend([0; 3]);
    let mut walker = Walker::new(&bytes);
    assert_eq!(walker.step().map(|h| h.kind), Ok(0xFB));
    assert_eq!(walker.step().map(|h| h.kind), Ok(0xBC));
    for _ in 0..2 {
        assert_eq!(no(walker.step()), (1, 32));
        assert_eq!(walker.place, 32);
    }
}

#[test]
fn d4_d5_bytes_around_and_positions() {
    let mut lent = vec![7; 5];
    lent.extend(M);
    lent.extend([9; 3]);
    assert_eq!(map(&lent, 5), map(&M, 0));
    lent[5 + 38] = 3;
    assert_eq!(no(map(&lent, 5)), (9, 37));
    lent[5] = 1;
    assert_eq!(no(map(&lent, 5)), (2, 5));
    let mut far = vec![0; 7];
    far.extend(of_type(10, 64, 0));
    assert_eq!(no(media::media(&far, 7)), (12, 7));
    let mut short = vec![0; 7];
    short.extend(packet(0xBF, &[0; 12]));
    assert_eq!(no(media::media(&short, 7)), (8, 16));
}

// ---- map ----

#[test]
fn d6_short_payload() {
    assert_eq!(no(map(&packet(0xBC, &[]), 0)), (8, 16));
    assert_eq!(no(map(&packet(0xBC, &[0xE1]), 0)), (7, 16));
}

#[test]
fn d7_track_length_word() {
    // the material section ends with the packet: the word would begin at its length
    let at_end = packet(0xBC, &[0xE0, 0xFF, 0, 4, 0x7E, 2, 0, 0]);
    assert_eq!(no(map(&at_end, 0)), (8, 24));
    let one_left = packet(0xBC, &[0xE0, 0xFF, 0, 3, 0x7E, 1, 0, 0]);
    assert_eq!(no(map(&one_left, 0)), (8, 23));
    // its items are walked before the word is sought
    let bad_item = packet(0xBC, &[0xE0, 0xFF, 0, 4, 0x41, 2, 0, 0]);
    assert_eq!(no(map(&bad_item, 0)), (9, 20));
    let over = packet(0xBC, &[0xE0, 0xFF, 0, 5, 0x41, 2, 0, 0]);
    assert_eq!(no(map(&over, 0)), (8, 18));
}

#[test]
fn d9_track_headers() {
    let short = map_packet(&[], &[vec![0x0A, 0x01, 0x00]]);
    assert_eq!(no(map(&short, 0)), (8, 22));
    let both = map_packet(&[], &[vec![0x0A, 0xC1, 0xFF, 0xFF]]);
    assert_eq!(no(map(&both, 0)), (12, 22));
    let over = map_packet(&[], &[track(0x8A, 0xC1, &[]), vec![0x8A, 0xC1, 0, 1]]);
    assert_eq!(no(map(&over, 0)), (8, 26));
    for (first, second) in [(0x8A, 0x93), (0x93, 0x8A), (0x93, 0xFF)] {
        let twice = map_packet(&[], &[track(first, 0xC1, &[]), track(second, 0xC1, &[])]);
        assert_eq!(no(map(&twice, 0)), (10, 26));
    }
}

#[test]
fn d10_both_auxiliary_forms() {
    let (d, f) = (item(0x4D, &[0; 8]), item(0x4F, b"x\0"));
    assert_eq!(no(map(&one(&[d.clone(), f.clone()]), 0)), (10, 36));
    assert_eq!(no(map(&one(&[f.clone(), d.clone()]), 0)), (10, 30));
    let null = item(0x4C, &[0]);
    assert_eq!(no(map(&one(&[null, d.clone(), f.clone()]), 0)), (10, 39));
    assert_eq!(
        no(map(&one(&[d.clone(), item(0x4F, b"x")]), 0)),
        (11, 36),
        "its own 11 first"
    );
    let unlisted = map_packet(&[], &[track(0x80, 0xC1, &[d.clone(), f.clone()])]);
    assert_eq!(no(map(&unlisted, 0)), (10, 36));
    assert!(map(&map_packet(&[d, f], &[]), 0).is_ok());
}

#[test]
fn d11_unlisted_tracks_are_checked() {
    let in_type_19 = |items: &[Vec<u8>]| map_packet(&[], &[track(0x93, 0xC0, items)]);
    assert_eq!(no(map(&in_type_19(&[item(0x50, &[0; 3])]), 0)), (9, 26));
    assert_eq!(no(map(&in_type_19(&[item(0x4C, b"a")]), 0)), (11, 26));
    let twice = [item(0x4E, &[0; 4]), item(0x4E, &[0; 4])];
    assert_eq!(no(map(&in_type_19(&twice), 0)), (10, 32));
}

#[test]
fn d12_cut_items_and_bad_texts() {
    assert_eq!(no(map(&one(&[vec![0x7E]]), 0)), (8, 26));
    assert_eq!(no(map(&one(&[item(0x4C, &[])]), 0)), (11, 26));
    assert_eq!(no(map(&one(&[item(0x4C, b"\0A\0")]), 0)), (11, 26));
    assert_eq!(no(map(&one(&[item(0x4C, b"\x80\0")]), 0)), (11, 26));
    assert!(map(&one(&[item(0x4C, b"\x01\x7F\n\0")]), 0).is_ok());
}

#[test]
fn d13_reserved_code_counts_for_10() {
    let code = |n: i32| item(0x50, &n.to_be_bytes());
    assert_eq!(no(map(&one(&[code(9), code(1)]), 0)), (10, 32));
}

#[test]
fn d14_null_names() {
    let rest = [
        item(0x4D, &[0; 8]),
        item(0x4E, &[0, 0, 0, 1]),
        item(0x51, &[0, 0, 0, 6]),
    ];
    let before = one(&[&rest[..], &[item(0x4C, &[0])]].concat());
    let after = one(&[&[item(0x4C, &[0])], &rest[..]].concat());
    for bytes in [before, after] {
        let track = map(&bytes, 0).unwrap().tracks[0];
        assert_eq!(
            (track.binary, track.version, track.text),
            (None, None, None)
        );
        assert_eq!(track.lines, Some(6));
        assert_eq!(track.name.unwrap().length, 1);
    }
    let text = one(&[item(0x4F, &[0]), item(0x4C, &[0])]);
    assert_eq!(map(&text, 0).unwrap().tracks[0].text, None);
    let material = map_packet(&[item(0x40, &[0]), item(0x45, &[0, 0, 0, 2])], &[]);
    let read = map(&material, 0).unwrap();
    assert_eq!(read.name, part(22, 1));
    assert_eq!(read.numbers[4], Some(2));
    // R6: a track without a name hides nothing
    let nameless = map(&one(&rest), 0).unwrap().tracks[0];
    assert_eq!((nameless.version, nameless.binary), (Some(1), part(28, 8)));
}

/// 02, §12: its readings, byte by byte.
#[test]
fn wrong_forms() {
    // M with `4F 02 41 00` behind the rate, 48 bytes
    let mut text = [&M[..43], &[0x4F, 2, 0x41, 0], &[0]].concat();
    assert_eq!(text.len(), 48);
    state_length(&mut text, 48);
    (text[27], text[31]) = (0x13, 0x0F);
    assert_eq!(no(map(&text, 0)), (29, 43));
    // with the name `4C 01 00`: two bytes less of it, and three zeros behind
    let mut null = [&text[..32], &[0x4C, 1, 0], &text[37..47], &[0; 3]].concat();
    (null[27], null[31]) = (0x11, 0x0D);
    let read = map(&null, 0).unwrap().tracks[0];
    assert_eq!(
        (read.text, read.name, read.rate),
        (None, part(34, 1), Some(-2))
    );
    // with type byte 93: accepted, and not listed
    text[28] = 0x93;
    assert_eq!(map(&text, 0).map(|map| map.tracks), Ok(vec![]));
    // an MPEG type and a 4D of eight bytes behind the rate
    let mut binary = [&M[..43], &[0x4D, 8], &[0; 8], &[0; 3]].concat();
    state_length(&mut binary, 56);
    (binary[27], binary[28], binary[31]) = (0x19, 0x8B, 0x15);
    assert_eq!(no(map(&binary, 0)), (29, 43));
    binary[28] = 0x8A;
    assert_eq!(map(&binary, 0).unwrap().tracks[0].binary, part(45, 8));
}

#[test]
fn d15_type_and_id_bytes() {
    let last = map_packet(&[], &[track(0xFF, 0xFF, &[])]);
    assert_eq!(map(&last, 0).unwrap().tracks, []);
    assert_eq!(
        no(map(&map_packet(&[], &[track(0x7F, 0xFF, &[])]), 0)),
        (12, 22)
    );
    assert_eq!(
        no(map(&map_packet(&[], &[track(0x8A, 0xBF, &[])]), 0)),
        (12, 22)
    );
}

#[test]
fn d16_places_and_signs() {
    let bytes = one(&[item(0x4E, &[0xFF; 4]), item(0x50, &[0xFF; 4])]);
    let track = map(&bytes, 0).unwrap().tracks[0];
    assert_eq!((track.version, track.rate), (Some(u32::MAX), Some(-1)));
    assert_eq!((track.id, track.kind), (1, 10));
}

#[test]
fn d17_records() {
    let mut lent = [None; 3];
    assert!(fill(&M, 0, &mut lent).is_ok());
    assert_eq!(lent, [Some(m_track()), None, None]);
    let mut none: [Option<Track>; 0] = [];
    assert_eq!(no(fill(&M, 0, &mut none)), (13, 0));
    let mut bad = M;
    bad[38] = 3;
    assert_eq!(
        no(fill(&bad, 0, &mut none)),
        (9, 37),
        "13 after all other faults"
    );
}

#[test]
fn d18_names() {
    let whole = Part {
        place: 34,
        length: 2,
    };
    assert_eq!(name(&M, 0, 1), Ok(whole));
    for id in [0, 2, 64, 65, 257, 1 << 32 | 1, u64::MAX] {
        assert_eq!(no(name(&M, 0, id)), (16, 0));
    }
    assert_eq!(no(name(&one(&[]), 0, 1)), (16, 0));
    let unlisted = map_packet(&[], &[track(0x80, 0xC1, &[item(0x4C, b"A1\0")])]);
    assert_eq!(no(name(&unlisted, 0, 1)), (16, 0));
    let null = Part {
        place: 28,
        length: 0,
    };
    assert_eq!(name(&one(&[item(0x4C, &[0])]), 0, 1), Ok(null));
    assert_eq!(name(&M[..43], 0, 99), torn(0, 1));
}

#[test]
fn d19_names_of_two_maps() {
    let null = one(&[item(0x4C, &[0])]);
    let unnamed = one(&[]);
    let other_type = map_packet(&[], &[track(0x83, 0xC1, &[item(0x4C, b"Z\0")])]);
    let at = |place, length| Part { place, length };
    assert_eq!(name_of_two(&M, &null, 1), Ok(Of::Closing(at(28, 0))));
    assert_eq!(name_of_two(&M, &unnamed, 1), Ok(Of::Opening(at(34, 2))));
    assert_eq!(name_of_two(&M, &other_type, 1), Ok(Of::Closing(at(28, 1))));
    assert_eq!(no(name_of_two(&unnamed, &unnamed, 1)), (16, 0));
    let mut opening = M;
    opening[16] = 0;
    let closing = packet(0xBC, &[]);
    assert_eq!(no(name_of_two(&opening, &closing, 1)), (7, 16));
    assert_eq!(no(name_of_two(&M, &closing, 9)), (8, 16));
}

// ---- newer maps ----

/// D21: an unknown item before each item and after the last, in every track and in the material section.
#[test]
fn d20_to_d22_newer_maps() {
    let known = [item(0x4C, b"A1\0"), item(0x50, &[0, 0, 0, 3])];
    let plain = map_packet(&[item(0x41, &[0; 4])], &[track(0x8A, 0xC1, &known)]);
    let told = map(&plain, 0).unwrap();
    let alike = |bytes: &[u8]| {
        let read = map(bytes, 0).unwrap();
        read.numbers == told.numbers
            && read.tracks.len() == 1
            && read.tracks[0].rate == Some(3)
            && read.tracks[0]
                .name
                .map(|p| bytes[p.place as usize..][..3].to_vec())
                == Some(b"A1\0".to_vec())
    };
    for at in 0..=2 {
        let mut items = known.to_vec();
        items.insert(at, item(0x7E, &[0x55; 255]));
        let unlisted = track(0x93, 0xC2, &[item(0x53, &[])]);
        let newer = map_packet(
            &[item(0x46, &[1]), item(0x41, &[0; 4]), item(0x4D, &[])],
            &[unlisted, track(0x8A, 0xC1, &items)],
        );
        assert!(alike(&newer));
    }
}

// ---- MPEG auxiliary text ----

fn version(value: &str) -> Answer<Value> {
    parameters(&text(&[("Ver", value)])).map(|values| values[0])
}

#[test]
fn d23_whole_numbers() {
    assert_eq!(version("000000001"), Ok(Value::Whole(1)));
    assert_eq!(no(version("0000000001")), (26, 0));
    assert_eq!(no(version(" 1")), (26, 0));
    assert_eq!(no(version("")), (26, 0));
    assert!(parameters(&text_and("x \nx \nVer2  a b\n")).is_ok());
}

#[test]
fn d24_malformed_lines() {
    let at = text(&[]).len() as u64 - 1;
    for bad in [
        "x\n",
        " 1\n",
        "\n",
        "a-b 1\n",
        "x 1",
        "x",
        "a\x01 1\n",
        "\x7F 1\n",
    ] {
        assert_eq!(no(parameters(&text_and(bad))), (26, at), "{bad:?}");
    }
}

#[test]
fn d25_not_given() {
    assert_eq!(no(parameters(&[0])), (27, 0));
    assert_eq!(no(parameters(&[])), (11, 0));
    assert_eq!(no(parameters(b"Ver 1\n")), (11, 0));
    assert_eq!(no(parameters(b"Ver 2\nVer 1\n\0")), (10, 6));
    assert_eq!(no(version("2")), (27, 0));
    let values = parameters(&text_and("ar 7\n")).unwrap();
    assert_eq!((values[12], values[13]), (Value::Whole(0), Value::Whole(0)));
    let at = text(&[]).len() as u64 - 1;
    assert_eq!(no(parameters(&text_and("ar 7\nar 1\n"))), (10, at + 5));
}

#[test]
fn d26_order_and_case() {
    assert_eq!(no(parameters(b"Ver 1\nVer x\n\0")), (26, 6));
    assert_eq!(no(parameters(b"Ver 1\nVer 1\nx\n\0")), (10, 6));
    assert_eq!(
        rate("9007199254.740992"),
        Ok(9007199254.740992f64.to_bits())
    );
    assert!(parameters(&text_and("ver 1\nVER 1\nBR x\n")).is_ok());
    assert_eq!(no(parameters(b"ver 1\n\0")), (27, 0));
}

#[test]
fn d27_long_texts() {
    assert!(parameters(&text_and(&"x y\n".repeat(10_000))).is_ok());
}

#[test]
fn f14_forms_of_br() {
    assert_eq!(rate("0"), Ok(0));
    assert_eq!(rate("0000000007.100000"), Ok(7.1f64.to_bits()));
    assert_eq!(rate("9007199254"), Ok(9007199254f64.to_bits()));
    for bad in [
        "",
        ".",
        "1.",
        ".5",
        "-1",
        "+1",
        "1e3",
        "00000000001",
        "1.0000000",
        "9007199255",
        "1 ",
        "1.2.3",
    ] {
        assert_eq!(no(rate(bad)), (26, 6), "{bad:?}");
    }
}

#[test]
fn f15_parameters_stand_alone() {
    assert!(parameters(&text(&[("f1", "0"), ("Pix", "0")])).is_ok());
    assert!(parameters(&text_and("x \x01 \x7F  \n")).is_ok());
}

// ---- FLT and media ----

#[test]
fn d28_tables() {
    let table = |step, count, stored: &[u32]| packet(0xFC, &flt_payload(step, count, stored));
    let ask = |bytes: &[u8], distance| locator::position(bytes, 0, distance);
    assert_eq!(no(ask(&table(1, 0, &[]), 0)), (16, 0));
    assert_eq!(no(ask(&table(0, 0, &[]), 0)), (15, 16));
    assert_eq!(no(ask(&table(0, 1_001, &[]), 0)), (14, 16));
    assert_eq!(no(ask(&table(0, 1, &[]), 0)), (15, 16));
    assert_eq!(no(ask(&table(1, 1, &[]), 0)), (8, 16));
    assert_eq!(no(ask(&packet(0xFC, &[0, 0, 0, 0]), 0)), (8, 16));
    assert_eq!(no(ask(&table(1, 1, &[3]), 1 << 32)), (16, 0));
    assert_eq!(ask(&table(u32::MAX, 1, &[3]), (1 << 32) - 2), Ok(3_072));
    assert_eq!(no(ask(&table(u32::MAX, 1, &[3]), u64::MAX)), (16, 0));
    assert_eq!(ask(&table(2, 2, &[5, 1, 99]), 3), Ok(1_024)); // F10: offsets need not rise
}

#[test]
fn d29_media() {
    assert_eq!(no(media::media(&packet(0xBF, &[0, 255, 0, 0]), 0)), (8, 16));
    assert_eq!(no(media::media(&of_type(0, 64, 0), 0)), (12, 0));
    let read = media::media(&of_type(0x8A, 63, 7), 0).unwrap();
    assert_eq!(
        (read.kind, read.id, read.field, read.time_line),
        (0x8A, 63, 7, 9)
    );
    assert_eq!(no(media::media(&of_type(10, 0xC1, 0), 0)), (12, 0)); // F9
}

// ---- stream, seek, book ----

fn checked(parts: &[Vec<u8>]) -> Answer<u64> {
    stream::check(&parts.concat())
}

#[test]
fn d30_first_packets() {
    assert_eq!(no(stream::check(&[])), (17, 0));
    assert_eq!(no(stream::check(&M[..15])), (1, 0));
    assert_eq!(stream::check(&M[..40]), torn(0, 4));
    assert_eq!(no(checked(&[umf()])), (17, 0));
    assert_eq!(no(checked(&[packet(0xFC, &[])])), (17, 0));
    assert_eq!(no(checked(&[M.to_vec(), umf(), vec![0; 15]])), (1, 60));
}

#[test]
fn d31_flt_places() {
    let m = || M.to_vec();
    let other = packet(0xFE, &[]);
    assert_eq!(checked(&[m(), flt(), umf(), eos()]), Ok(4));
    assert_eq!(checked(&[m(), umf(), flt(), eos()]), Ok(4));
    assert_eq!(no(checked(&[m(), umf(), flt(), umf(), eos()])), (19, 84));
    assert_eq!(no(checked(&[m(), other, flt(), umf(), eos()])), (19, 84));
    assert_eq!(no(checked(&[m(), flt(), flt(), umf(), eos()])), (19, 68));
    assert_eq!(no(checked(&[m(), flt(), umf(), flt(), eos()])), (19, 84));
    assert_eq!(no(checked(&[m(), m(), flt(), umf(), eos()])), (19, 112));
    assert_eq!(no(checked(&[m(), umf(), flt()])), (18, 84)); // F12
}

#[test]
fn d32_packets_without_a_map() {
    let run = |n: usize| vec![packet(0xFE, &[]); n].concat();
    let m = || M.to_vec();
    let parts = [m(), umf(), run(98), m(), run(98), eos()];
    assert_eq!(checked(&parts), Ok(1 + 99 + 1 + 99));
    assert_eq!(no(checked(&[m(), umf(), run(99)])), (20, 44 + 99 * 16));
}

#[test]
fn d33_latest_map() {
    let m = || M.to_vec();
    let other = || map_packet(&[], &[track(0x83, 0xC1, &[])]);
    assert_eq!(checked(&[m(), of_type(10, 1, 0), umf(), eos()]), Ok(4));
    assert_eq!(no(checked(&[m(), of_type(3, 1, 0)])), (22, 44));
    assert_eq!(no(checked(&[m(), of_type(10, 2, 0)])), (22, 44));
    assert_eq!(no(checked(&[m(), other(), of_type(10, 1, 0)])), (22, 72));
    assert_eq!(no(checked(&[m(), other(), of_type(3, 1, 0)])), (18, 104));
    // D29: a reserved type is stepped over, but not its 8 and 12
    assert_eq!(checked(&[m(), of_type(19, 50, 0), umf(), eos()]), Ok(4));
    assert_eq!(no(checked(&[m(), of_type(19, 64, 0)])), (12, 44)); // F8
    assert_eq!(no(checked(&[m(), packet(0xBF, &[19; 12])])), (8, 60)); // F7
}

#[test]
fn d34_ends() {
    let m = || M.to_vec();
    let long = packet(0xFB, &[1; 8]);
    assert_eq!(checked(&[m(), umf(), long]), Ok(3));
    assert_eq!(no(checked(&[m(), eos()])), (21, 44));
    assert_eq!(no(checked(&[m(), eos(), vec![0]])), (18, 44)); // F12
    assert_eq!(no(checked(&[m(), umf()])), (18, 60));
}

#[test]
fn check_adds_the_offset() {
    let mut bad = M;
    bad[38] = 3;
    assert_eq!(no(checked(&[M.to_vec(), bad.to_vec()])), (9, 44 + 37));
    assert_eq!(
        no(checked(&[
            M.to_vec(),
            packet(0xFC, &flt_payload(0, 0, &[]))
        ])),
        (15, 60)
    );
}

#[test]
fn d35_seek() {
    let parts = [
        M.to_vec(),
        umf(),
        of_type(19, 1, 7),
        of_type(10, 1, 7),
        of_type(10, 1, 7),
        of_type(10, 1, 8),
        eos(),
    ];
    let bytes = parts.concat();
    assert_eq!(stream::seek(&bytes, 1, 7), Ok(92));
    assert_eq!(stream::seek(&bytes, 1, 8), Ok(156));
    for (track, field) in [
        (1, 9), // 9 is the time line number
        (2, 7),
        (65, 7),
        (257, 7),
        (1, 7 + (1 << 32)),
        (u64::MAX, 7),
        (1, u64::MAX),
    ] {
        assert_eq!(no(stream::seek(&bytes, track, field)), (16, 0));
    }
    assert_eq!(no(stream::seek(&bytes[..60], 99, 7)), (18, 60));

    // the book of this stream, and look-up in it
    let mut room = vec![9; 50];
    assert_eq!(book::build(&bytes, &mut room), Ok(3));
    let records = [
        record(1, 10, 7, 92),
        record(1, 10, 7, 124),
        record(1, 10, 8, 156),
    ];
    assert_eq!(room[..48], records.concat());
    assert_eq!(room[48..], [9, 9]);
    assert_eq!(book::lookup(&room[..48], 1, 7), Ok(92));
    let mut short = vec![9; 47];
    assert_eq!(no(book::build(&bytes, &mut short)), (13, 0));
    assert_eq!(short, [9; 47]);
    assert_eq!(no(book::build(&bytes[..60], &mut short)), (18, 60));
}

#[test]
fn d36_lent_books() {
    let ask = |records: &[Vec<u8>]| book::lookup(&records.concat(), 1, 0);
    let good = |offset| record(1, 10, 0, offset);
    assert_eq!(no(ask(&[])), (16, 0));
    assert_eq!(ask(&[good(0)]), Ok(0));
    assert_eq!(no(ask(&[good(5), good(5)])), (23, 1));
    assert_eq!(no(ask(&[good(5), good(4), vec![0]])), (23, 1));
    assert_eq!(no(ask(&[good(5), good(6), vec![0x47; 15]])), (23, 2));
    assert_eq!(no(ask(&[record(64, 10, 0, 0), good(0)])), (23, 0));
    assert_eq!(no(ask(&[record(1, 19, 0, 0)])), (23, 0));
    assert_eq!(no(ask(&[record(1, 0x8A, 0, 0)])), (23, 0));
    assert_eq!(no(ask(&[good(1), vec![0x58; 16]])), (23, 1));
    assert_eq!(no(book::lookup(&good(0), 65, 0)), (16, 0));
    assert_eq!(no(book::lookup(&good(0), 1, 1 << 32)), (16, 0));
    assert_eq!(book::lookup(&good(u64::MAX), 1, 0), Ok(u64::MAX));
}

// ---- writers ----

/// Words of one track: type, ID, and slots set by their number.
fn row(kind: u64, id: u64, slots: &[(usize, [u64; 3])]) -> Vec<u64> {
    let mut words = vec![0; 23];
    words[..2].copy_from_slice(&[kind, id]);
    for (i, slot) in slots {
        words[2 + 3 * i..5 + 3 * i].copy_from_slice(slot);
    }
    words
}

/// Writes a map of these tracks over the text and gives the number of the refusal, or 0.
fn tried(text: &[u8], tracks: &[u64]) -> u8 {
    let mut room = vec![7; 500];
    match write::write_map(&mut room, 0, text, &[0; 18], tracks) {
        Ok(_) => 0,
        Err(refusal) => {
            assert_eq!((refusal.place, room), (0, vec![7; 500])); // D38
            refusal.number
        }
    }
}

#[test]
fn writer_gives_m() {
    let mut material = [0; 18];
    material[3] = 1;
    let track = row(10, 1, &[(0, [1, 1, 2]), (4, [1, -2i64 as u64, 99])]);
    let mut room = [7; 60];
    let done = write::write_map(&mut room, 9, b"xA1y", &material, &track);
    assert_eq!(done, Ok(44));
    assert_eq!(room[9..53], M);
    assert_eq!((&room[..9], &room[53..]), (&[7; 9][..], &[7; 7][..]));
}

#[test]
fn d37_numbers_of_writers() {
    for (slot, good) in [
        (4, &[1, 2, 3, 4, 5, 6, 7, 8][..]),
        (5, &[1, 2, 4, 6]),
        (6, &[1, 2]),
    ] {
        for code in 0..12 {
            let want = if good.contains(&code) { 0 } else { 24 };
            assert_eq!(tried(&[], &row(10, 1, &[(slot, [1, code, 0])])), want);
        }
        for (code, want) in [
            (-1i64 as u64, 0),
            (-2i64 as u64, 0),
            (-3i64 as u64, 24),
            (4_294_967_295, 24),
            (4_294_967_294, 24),
            (1 << 32 | 1, 24),
        ] {
            assert_eq!(tried(&[], &row(10, 1, &[(slot, [1, code, 0])])), want);
        }
    }
    for (kind, id, want) in [
        (10, 63, 0),
        (10, 64, 24),
        (19, 1, 24),
        (0x8A, 1, 24),
        (10, 0xC1, 24),
        (266, 1, 24),
        (10, 1 << 32, 24),
    ] {
        assert_eq!(tried(&[], &row(kind, id, &[])), want);
    }
    assert_eq!(
        tried(&[], &row(10, 1, &[(2, [1, u64::from(u32::MAX), 0])])),
        0
    );
    assert_eq!(tried(&[], &row(10, 1, &[(2, [1, 1 << 32, 0])])), 24);
}

#[test]
fn d39_texts_of_writers() {
    let text = [0x41; 300];
    let name = |slot: [u64; 3]| row(10, 1, &[(0, slot)]);
    assert_eq!(tried(&text, &name([1, 46, 254])), 0);
    assert_eq!(tried(&text, &name([1, 45, 255])), 24);
    assert_eq!(tried(&text, &name([1, 300, 0])), 0);
    assert_eq!(tried(&text, &name([1, 301, 0])), 24);
    assert_eq!(tried(&text, &name([1, 299, 2])), 24);
    assert_eq!(tried(&text, &name([1, u64::MAX, 1])), 24);
    assert_eq!(tried(&text, &name([2, 0, 1])), 24);
    assert_eq!(tried(&text, &name([0, u64::MAX, u64::MAX])), 0);
    // an empty 4F beside a name that is not null
    assert_eq!(
        tried(&text, &row(11, 1, &[(0, [1, 0, 1]), (3, [1, 0, 0])])),
        0
    );
    for (kind, slot) in [
        (10, (1, [1, 0, 8])),
        (10, (2, [1, 0, 0])),
        (11, (3, [1, 0, 0])),
    ] {
        assert_eq!(tried(&text, &row(kind, 1, &[(0, [1, 0, 0]), slot])), 24);
        assert_eq!(tried(&text, &row(kind, 1, &[slot])), 0); // R6
    }
    let both = [(1, [1, 0, 8]), (3, [1, 0, 0])];
    assert_eq!(tried(&text, &row(10, 1, &both)), 10);
    let both_beside_null = [(0, [1, 0, 0]), both[0], both[1]];
    assert_eq!(tried(&text, &row(10, 1, &both_beside_null)), 24);
    assert_eq!(tried(&text, &row(10, 1, &[(1, [1, 0, 7])])), 24);
    assert_eq!(tried(&text, &row(10, 1, &[(1, [1, 293, 8])])), 24);
    assert_eq!(tried(&text, &row(10, 1, &[])[..22]), 24);
}

#[test]
fn order_of_writers() {
    let text = [0x00, 0x80, 0x41, 0, 0, 0, 0, 0, 0, 0];
    let bad = row(10, 1, &[(0, [1, 0, 1])]);
    let high = row(10, 1, &[(3, [1, 1, 1])]);
    let good = row(10, 1, &[(0, [1, 2, 1])]);
    let barred = row(10, 64, &[]);
    assert_eq!(tried(&text, &bad), 11);
    assert_eq!(tried(&text, &high), 11);
    assert_eq!(tried(&text, &[good.clone(), good.clone()].concat()), 10);
    assert_eq!(
        tried(&text, &[good.clone(), good.clone(), bad.clone()].concat()),
        11
    );
    assert_eq!(
        tried(&text, &[good.clone(), good.clone(), bad, barred].concat()),
        24
    );
    // 00 and bytes over 7F are fine in 4D
    assert_eq!(tried(&text, &row(10, 1, &[(1, [1, 0, 8])])), 0);
    // 10 before 13, 13 last
    let mut none = [];
    let twice = [good.clone(), good.clone()].concat();
    assert_eq!(
        no(write::write_map(&mut none, 5, &text, &[0; 18], &twice)),
        (10, 0)
    );
    assert_eq!(
        no(write::write_map(&mut none, 5, &text, &[0; 18], &good)),
        (13, 0)
    );
    assert_eq!(
        no(write::write_map(&mut none, 0, &text, &[0; 17], &good)),
        (24, 0)
    );
}

#[test]
fn flt_writer() {
    let mut room = [7; 30];
    assert_eq!(write::write_flt(&mut room, 1, 40, &[4_194_304]), Ok(28));
    assert_eq!(room[1..29], packet(0xFC, &flt_payload(40, 1, &[4_194_304])));
    assert_eq!((room[0], room[29]), (7, 7));
    let mut small = [7; 24];
    assert_eq!(write::write_flt(&mut small, 0, 1, &[]), Ok(24)); // zero entries are fine
    let mut small = [7; 24];
    for (at, step, offsets, number) in [
        (0, 0, &[][..], 24),
        (0, 1 << 32, &[], 24),
        (0, 1, &[1 << 32], 24),
        (0, 1, &[0; 1_001], 24),
        (0, 1, &[0], 13),
        (1, 1, &[], 13),
        (25, 1, &[], 13),
        (u64::MAX, 1, &[], 13),
    ] {
        assert_eq!(
            no(write::write_flt(&mut small, at, step, offsets)),
            (number, 0)
        );
        assert_eq!(small, [7; 24]);
    }
    let mut large = vec![0; 4_024];
    assert_eq!(
        write::write_flt(&mut large, 0, 1, &[u64::from(u32::MAX); 1_000]),
        Ok(4_024)
    );
}

#[test]
fn d40_listing() {
    assert_eq!(listing(&[]), "refused 17 0\n");
    assert_eq!(listing(&[0; 65_537]), "refused 13 0\n");
    assert_eq!(listing(&[0; 65_536]), "refused 2 0\n");
    let parts = [
        M.to_vec(),
        flt(),
        of_type(19, 50, 0),
        packet(0x00, &[]),
        umf(),
        eos(),
    ];
    let want = "0 map 44\n44 flt 24\n68 media 32\n100 other 16\n116 umf 16\n132 eos 16\nok 6\n";
    assert_eq!(listing(&parts.concat()), want);
    // a stream of just 65,536 bytes is read
    let left = 65_536 - M.len() - 32;
    let whole = [M.to_vec(), packet(0xFE, &vec![0; left - 16]), umf(), eos()].concat();
    assert_eq!(whole.len(), 65_536);
    assert!(listing(&whole).ends_with("ok 4\n"));
}

// ---- further readings ----

#[test]
fn f1_f3_padding_and_empty_maps() {
    let empty = map_packet(&[], &[]);
    assert_eq!(empty.len(), 24);
    let read = Map {
        name: None,
        numbers: [None; 5],
        tracks: Vec::new(),
    };
    assert_eq!(map(&empty, 0), Ok(read.clone()));
    let mut filled = empty[16..].to_vec();
    filled.extend([0xFF; 9]);
    assert_eq!(map(&packet(0xBC, &filled), 0), Ok(read));
    assert!(map(&one(&[vec![0, 0]]), 0).is_ok(), "an item of tag 00");
    assert_eq!(no(map(&map_packet(&[], &[vec![0; 4]]), 0)), (12, 22));
    assert_eq!(no(map(&map_packet(&[], &[vec![0; 3]]), 0)), (8, 22));
}

#[test]
fn f2_reserved_bytes() {
    let mut stirred = M;
    stirred[10..14].copy_from_slice(&[1, 2, 3, 4]);
    stirred[17] = 0;
    assert_eq!(map(&stirred, 0), map(&M, 0));
}

#[test]
fn r13_reserved_packet_types() {
    for kind in 0..=255 {
        assert_eq!(
            header(&packet(kind, &[]), 0),
            Ok(Header { kind, length: 16 })
        );
    }
    assert_eq!(
        checked(&[M.to_vec(), packet(0x00, &[]), umf(), eos()]),
        Ok(4)
    );
}
