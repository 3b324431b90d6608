//! The examples of docs/PROBE.md: they stand on the page as they are rendered here, and each line is what its request gives.

use compare::generate::books::record;
use compare::generate::maps::M;
use compare::generate::packets::{flt_payload, media_payload, packet, state_length};
use compare::request::*;

const PAGE: &str = include_str!("../../docs/PROBE.md");

fn examples() -> Vec<Request> {
    let eos = packet(0xFB, &[]);
    let umf = packet(0xFD, &[]);
    let empty = packet(0xBC, &[0xE0, 0xFF, 0, 0, 0, 0]);
    let text = "Ver 1\nBr 0.5\nIpg 1\nPpi 4\nBpiop 2\nPix 0\nCf 1\nCg 0\nSl 7\nnl16 36\nVi 1\nf1 1\nar 1\n\0";
    let flt = packet(0xFC, &flt_payload(40, 1, &[4_194_304]));
    let media = packet(0xBF, &media_payload(10, 1, 300, [0x8000, 301], 1, &[]));
    let short = [&M[..], &umf, &eos].concat();
    let stream = [&M[..], &umf, &media, &eos].concat();
    // torn: an EOS that states 20 bytes; M's first 30; M and a UMF of which 20 bytes of 32 are there
    let mut twenty = eos.clone();
    state_length(&mut twenty, 20);
    let nineteen = [&twenty[..], &[0; 3]].concat();
    let torn_map = &M[..30];
    let torn_stream = [&M[..], &packet(0xFD, &[0xFF; 16])[..20]].concat();
    // an opening map that is refused inside comes before a closing one that is torn
    let other_version = packet(0xBC, &[0xE1, 0xFF, 0, 0, 0, 0]);
    // a valid 4D with bit 4 alone, a 4F that reads, and one without its last 0A
    let (name, null): (&[u8], &[u8]) = (b"\x4C\x03A1\0", b"\x4C\x01\0");
    let dv = [0x4D, 8, 0x10, 0, 0, 0x40, 0, 0, 0, 0];
    let mpeg = item(0x4F, text.as_bytes());
    let cut = item(0x4F, &[&text.as_bytes()[..text.len() - 2], &[0]].concat());
    // M's content: first field 0; type 10, ID 1, name A1, rate −2
    let mut material = vec![0; 18];
    material[3] = 1;
    let mut track = vec![0; 23];
    track[..5].copy_from_slice(&[10, 1, 1, 0, 2]);
    track[14..16].copy_from_slice(&[1, -2i64 as u64]);
    vec![
        Request::new(HEADER, &[0], &[&eos]),
        Request::new(HEADER, &[999], &[&eos]),
        Request::new(HEADER, &[0], &[&nineteen]),
        Request::new(PACKET, &[0, 0xFB], &[&eos]),
        Request::new(PACKET, &[0, 0xBC], &[&eos]),
        Request::new(MAP, &[0, 2], &[&M]),
        Request::new(MAP, &[0, 2], &[torn_map]),
        Request::new(MAP, &[0, 0], &[&M]),
        Request::new(MAP, &[0, 1], &[&one_track(13, name, &dv)]),
        Request::new(MAP, &[0, 1], &[&one_track(15, name, &dv)]),
        Request::new(MAP, &[0, 1], &[&one_track(13, null, &dv)]),
        Request::new(MAP, &[0, 1], &[&one_track(11, name, &mpeg)]),
        Request::new(MAP, &[0, 1], &[&one_track(11, name, &cut)]),
        Request::new(NAME, &[0, 1], &[&M]),
        Request::new(NAME, &[0, 2], &[&M]),
        Request::new(NAME, &[4, 1], &[&[&[0xFF; 4], torn_map].concat()]),
        Request::new(NAME_OF_TWO, &[1], &[&M, &empty]),
        Request::new(NAME_OF_TWO, &[1], &[&M, torn_map]),
        Request::new(NAME_OF_TWO, &[1], &[&other_version, torn_map]),
        Request::new(PARAMETERS, &[], &[text.as_bytes()]),
        Request::new(POSITION, &[0, 39], &[&flt]),
        Request::new(POSITION, &[0, 40], &[&flt]),
        Request::new(MEDIA, &[0], &[&media]),
        Request::new(CHECK, &[], &[&short]),
        Request::new(CHECK, &[], &[&torn_stream]),
        Request::new(SEEK, &[1, 300], &[&stream]),
        Request::new(SEEK, &[1, 300], &[&torn_stream]),
        Request::new(BUILD, &[20], &[&stream]),
        Request::new(BUILD, &[15], &[&stream]),
        Request::new(BUILD, &[4], &[&torn_stream]),
        Request::new(LOOKUP, &[1, 300], &[&record(1, 10, 300, 60)]),
        Request::new(WRITE_FLT, &[2, 32, 40], &[&word_bytes(&[4_194_304])]),
        Request::new(WRITE_FLT, &[2, 8, 0], &[&[]]),
        Request::new(
            WRITE_MAP,
            &[0, 48],
            &[b"A1", &word_bytes(&material), &word_bytes(&track)],
        ),
        Request::new(WALK, &[3], &[&[&umf[..], &eos].concat()]),
        Request::new(WALK, &[2], &[&[umf, twenty].concat()]),
    ]
}

fn item(tag: u8, value: &[u8]) -> Vec<u8> {
    [&[tag, value.len() as u8], value].concat()
}

/// A map with M's material and one track of ID 1: a name and an item more.
fn one_track(kind: u8, name: &[u8], more: &[u8]) -> Vec<u8> {
    let n = (name.len() + more.len()) as u8;
    let front = [0xE0, 0xFF, 0, 6, 0x41, 4, 0, 0, 0, 0, 0, n + 4];
    let mut payload = [&front[..], &[0x80 + kind, 0xC1, 0, n], name, more].concat();
    payload.resize(payload.len().next_multiple_of(4), 0);
    packet(0xBC, &payload)
}

/// Bytes in hex, some to a word, some words to a row.
fn rows(bytes: &[u8], word: usize, words: usize) -> String {
    let hexes: Vec<String> = bytes
        .chunks(word)
        .map(|w| hex(w)[1..].to_string())
        .collect();
    hexes
        .chunks(words)
        .map(|row| format!("> {}\n", row.join(" ")))
        .collect()
}

fn render(request: &Request) -> String {
    let mut first = hex(&[request.function])[1..].to_string();
    for number in &request.numbers {
        first += &format!(" {}", &hex(&number.to_le_bytes())[1..]);
    }
    let mut text = format!("> {first}\n");
    for (i, string) in request.strings.iter().enumerate() {
        text += &format!("> {}\n", &hex(&(string.len() as u32).to_le_bytes())[1..]);
        let of_words = request.function == WRITE_FLT || (request.function == WRITE_MAP && i > 0);
        text += &if of_words {
            rows(string, 8, 6)
        } else {
            rows(string, 4, 12)
        };
    }
    text + &answer(request) + "\n"
}

#[test]
fn the_page_has_the_examples() {
    let rendered: Vec<String> = examples().iter().map(render).collect();
    let block = format!("```\n{}```\n", rendered.join("\n"));
    assert!(PAGE.contains(&block), "the examples should read:\n{block}");
}

/// Reads the page as a probe would: rows that begin with `>` are requests, the row behind them is the line.
#[test]
fn the_page_is_right() {
    let mut request = Vec::new();
    let mut seen = Vec::new();
    for row in PAGE.lines() {
        if let Some(digits) = row.strip_prefix("> ") {
            let digits: Vec<u8> = digits.bytes().filter(|b| *b != b' ').collect();
            for pair in digits.chunks(2) {
                let pair = std::str::from_utf8(pair).unwrap();
                request.push(u8::from_str_radix(pair, 16).unwrap());
            }
        } else if !request.is_empty() {
            match read(&request) {
                Read::Whole(asked, length) => {
                    assert_eq!(length, request.len());
                    assert_eq!(answer(&asked), row);
                    seen.push(asked.function);
                }
                Read::Malformed => assert_eq!(row, "malformed"),
                Read::End => unreachable!(),
            }
            request.clear();
        }
    }
    seen.dedup();
    let all: Vec<u8> = SHAPES.iter().map(|shape| shape.0).collect();
    assert_eq!(seen, all, "an example for each function");
}

#[test]
fn malformed_requests() {
    let good = Request::new(HEADER, &[0], &[&[0; 16]]).encode();
    assert!(matches!(read(&[]), Read::End));
    assert!(matches!(read(&[0x10]), Read::Malformed));
    assert!(matches!(read(&[0x00]), Read::Malformed));
    for cut in 1..good.len() {
        assert!(matches!(read(&good[..cut]), Read::Malformed));
    }
    let most = vec![0; 65_536];
    assert!(matches!(
        read(&Request::new(CHECK, &[], &[&most]).encode()),
        Read::Whole(..)
    ));
    let more = vec![0; 65_537];
    assert!(matches!(
        read(&Request::new(CHECK, &[], &[&more]).encode()),
        Read::Malformed
    ));
    let odd = Request::new(WRITE_FLT, &[0, 0, 1], &[&[0; 9]]).encode();
    assert!(matches!(read(&odd), Read::Malformed));
    let kind = Request::new(PACKET, &[0, 256], &[&[]]).encode();
    assert!(matches!(read(&kind), Read::Malformed));
}
