//! Requests and lines, as docs/PROBE.md fixes them.

use crate::reference::aspect::Aspect;
use crate::reference::map::{Part, Track};
use crate::reference::mpeg::Value;
use crate::reference::name::Of;
use crate::reference::plate::{least_first, Answer};
use crate::reference::walker::Walker;
use crate::reference::{book, header, locator, map, media, mpeg, name, stream, write};

pub const HEADER: u8 = 0x01;
pub const PACKET: u8 = 0x02;
pub const MAP: u8 = 0x03;
pub const NAME: u8 = 0x04;
pub const NAME_OF_TWO: u8 = 0x05;
pub const PARAMETERS: u8 = 0x06;
pub const POSITION: u8 = 0x07;
pub const MEDIA: u8 = 0x08;
pub const CHECK: u8 = 0x09;
pub const SEEK: u8 = 0x0A;
pub const BUILD: u8 = 0x0B;
pub const LOOKUP: u8 = 0x0C;
pub const WRITE_FLT: u8 = 0x0D;
pub const WRITE_MAP: u8 = 0x0E;
pub const WALK: u8 = 0x0F;

/// Function byte, how many numbers, how many byte strings.
pub const SHAPES: [(u8, usize, usize); 15] = [
    (HEADER, 1, 1),
    (PACKET, 2, 1),
    (MAP, 2, 1),
    (NAME, 2, 1),
    (NAME_OF_TWO, 1, 2),
    (PARAMETERS, 0, 1),
    (POSITION, 2, 1),
    (MEDIA, 1, 1),
    (CHECK, 0, 1),
    (SEEK, 2, 1),
    (BUILD, 1, 1),
    (LOOKUP, 2, 1),
    (WRITE_FLT, 3, 1),
    (WRITE_MAP, 2, 3),
    (WALK, 1, 1),
];

pub const MOST_BYTES: u64 = 65_536;
pub const MOST_RECORDS: u64 = 80;
pub const MOST_STEPS: u64 = 5_000;

#[derive(Clone, PartialEq, Eq, Debug)]
pub struct Request {
    pub function: u8,
    pub numbers: Vec<u64>,
    pub strings: Vec<Vec<u8>>,
}

impl Request {
    pub fn new(function: u8, numbers: &[u64], strings: &[&[u8]]) -> Self {
        Request {
            function,
            numbers: numbers.to_vec(),
            strings: strings.iter().map(|s| s.to_vec()).collect(),
        }
    }

    pub fn encode(&self) -> Vec<u8> {
        let mut bytes = vec![self.function];
        for number in &self.numbers {
            bytes.extend(number.to_le_bytes());
        }
        for string in &self.strings {
            bytes.extend((string.len() as u32).to_le_bytes());
            bytes.extend(string);
        }
        bytes
    }

    /// A number over its limit, or words that are no whole words.
    pub fn well_formed(&self) -> bool {
        let n = &self.numbers;
        let words = |i: usize| self.strings[i].len() % 8 == 0;
        match self.function {
            PACKET => n[1] <= 255,
            MAP => n[1] <= MOST_RECORDS,
            BUILD => n[0] <= MOST_BYTES,
            WRITE_FLT => n[1] <= MOST_BYTES && words(0),
            WRITE_MAP => n[1] <= MOST_BYTES && words(1) && words(2),
            WALK => n[0] <= MOST_STEPS,
            _ => true,
        }
    }
}

/// What stands next in the input.
pub enum Read {
    End,
    Malformed,
    Whole(Request, usize),
}

/// The request at the front of the input and its length in bytes.
pub fn read(input: &[u8]) -> Read {
    let Some(function) = input.first() else {
        return Read::End;
    };
    let Some((_, numbers, strings)) = SHAPES.iter().find(|shape| shape.0 == *function) else {
        return Read::Malformed;
    };
    let mut request = Request::new(*function, &[], &[]);
    let mut at = 1;
    for _ in 0..*numbers {
        let Some(bytes) = input.get(at..at + 8) else {
            return Read::Malformed;
        };
        request.numbers.push(least_first(bytes));
        at += 8;
    }
    for _ in 0..*strings {
        let Some(bytes) = input.get(at..at + 4) else {
            return Read::Malformed;
        };
        let length = least_first(bytes);
        at += 4;
        if length > MOST_BYTES {
            return Read::Malformed;
        }
        let Some(bytes) = input.get(at..at + length as usize) else {
            return Read::Malformed;
        };
        request.strings.push(bytes.to_vec());
        at += length as usize;
    }
    if !request.well_formed() {
        return Read::Malformed;
    }
    Read::Whole(request, at)
}

/// A lent room before the call: byte i is (i × 7 + 3) mod 256.
pub fn lent_room(length: u64) -> Vec<u8> {
    (0..length).map(|i| (i * 7 + 3) as u8).collect()
}

pub fn words(bytes: &[u8]) -> Vec<u64> {
    bytes.chunks_exact(8).map(least_first).collect()
}

pub fn word_bytes(words: &[u64]) -> Vec<u8> {
    words.iter().flat_map(|word| word.to_le_bytes()).collect()
}

/// `x` and two digits a byte.
pub fn hex(bytes: &[u8]) -> String {
    const DIGITS: &[u8; 16] = b"0123456789abcdef";
    let mut text = String::with_capacity(1 + 2 * bytes.len());
    text.push('x');
    for byte in bytes {
        text.push(DIGITS[usize::from(byte >> 4)] as char);
        text.push(DIGITS[usize::from(byte & 15)] as char);
    }
    text
}

/// An item that may be absent.
fn item<T: ToString>(value: Option<T>) -> String {
    value.map_or("-".to_string(), |value| value.to_string())
}

/// Place and length, or one `-`.
fn part(part: Option<Part>) -> String {
    part.map_or("-".to_string(), |p| format!("{} {}", p.place, p.length))
}

fn record(record: &Option<Track>) -> String {
    match record {
        None => " kept".to_string(),
        Some(t) => format!(
            " record {} {} {} {} {} {} {} {} {} {}",
            t.id,
            t.kind,
            item(t.rate),
            item(t.lines),
            item(t.fields),
            item(t.version),
            part(t.name),
            part(t.binary),
            part(t.text),
            item(t.aspect.map(Aspect::number))
        ),
    }
}

/// The answer's words, or `refused`, number and place, and on 5 the bytes lacking.
fn line<T>(answer: Answer<T>, say: impl Fn(T) -> String) -> String {
    match answer {
        Ok(answer) => say(answer),
        Err(refusal) => refusal.to_string(),
    }
}

fn packet_words(found: header::Header) -> String {
    format!("packet {} {}", found.kind, found.length)
}

/// A part of a lent map in hex.
fn part_hex(bytes: &[u8], at: u64, part: Part) -> String {
    let from = (at + part.place) as usize;
    hex(&bytes[from..from + part.length as usize])
}

/// The line for a well-formed request, without its 0A.
pub fn answer(request: &Request) -> String {
    let n = &request.numbers;
    let s = &request.strings;
    match request.function {
        HEADER => line(header::header(&s[0], n[0]), packet_words),
        PACKET => line(header::packet(&s[0], n[0], n[1] as u8), packet_words),
        MAP => {
            let mut lent = vec![None; n[1] as usize];
            let told = line(map::fill(&s[0], n[0], &mut lent), |m| {
                let numbers: Vec<String> = m.numbers.iter().map(|n| item(*n)).collect();
                let count = m.tracks.len();
                format!("map {} {} {}", count, part(m.name), numbers.join(" "))
            });
            told + &lent.iter().map(record).collect::<String>()
        }
        NAME => {
            let found = name::name(&s[0], n[0], n[1]);
            let told = line(found, |p| format!("name {} {}", p.place, p.length));
            // a refused part is empty
            let bytes = found.map_or(hex(&[]), |p| part_hex(&s[0], n[0], p));
            format!("{told} {bytes}")
        }
        NAME_OF_TWO => {
            let found = name::name_of_two(&s[0], &s[1], n[0]);
            let told = line(found, |of| match of {
                Of::Opening(p) => format!("opening {} {}", p.place, p.length),
                Of::Closing(p) => format!("closing {} {}", p.place, p.length),
            });
            let bytes = found.map_or(hex(&[]), |of| match of {
                Of::Opening(p) => part_hex(&s[0], 0, p),
                Of::Closing(p) => part_hex(&s[1], 0, p),
            });
            format!("{told} {bytes}")
        }
        PARAMETERS => line(mpeg::parameters(&s[0]), |values| {
            let values: Vec<String> = values
                .iter()
                .map(|value| match value {
                    Value::Whole(n) => n.to_string(),
                    Value::Rate(rate) => format!("{:016x}", rate.to_bits()),
                })
                .collect();
            format!("parameters {}", values.join(" "))
        }),
        POSITION => line(locator::position(&s[0], n[0], n[1]), |p| {
            format!("position {p}")
        }),
        MEDIA => line(media::media(&s[0], n[0]), |m| {
            format!(
                "media {} {} {} {} {} {}",
                m.kind, m.id, m.field, m.information, m.time_line, m.flags
            )
        }),
        CHECK => line(stream::check(&s[0]), |count| format!("ok {count}")),
        SEEK => line(stream::seek(&s[0], n[0], n[1]), |at| format!("at {at}")),
        BUILD => {
            let mut room = lent_room(n[0]);
            let told = line(book::build(&s[0], &mut room), |n| format!("records {n}"));
            format!("{told} {}", hex(&room))
        }
        LOOKUP => line(book::lookup(&s[0], n[0], n[1]), |at| format!("at {at}")),
        WRITE_FLT => {
            let mut room = lent_room(n[1]);
            let done = write::write_flt(&mut room, n[0], n[2], &words(&s[0]));
            format!("{} {}", line(done, |n| format!("length {n}")), hex(&room))
        }
        WRITE_MAP => {
            let mut room = lent_room(n[1]);
            let done = write::write_map(&mut room, n[0], &s[0], &words(&s[1]), &words(&s[2]));
            format!("{} {}", line(done, |n| format!("length {n}")), hex(&room))
        }
        WALK => {
            let mut walker = Walker::new(&s[0]);
            let mut told = "walk".to_string();
            for _ in 0..n[0] {
                let step = line(walker.step(), packet_words);
                told += &format!(" {step} {}", walker.place);
            }
            told
        }
        other => unreachable!("function {other} is not in the table"),
    }
}
