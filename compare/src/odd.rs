//! What a case meets of odd fields (02, §2): which packet or record answers, and which 64 is refused.

use crate::reference::book::records;
use crate::reference::header::MAP;
use crate::reference::map::map;
use crate::reference::plate::known_type;
use crate::reference::stream::{packets, Carried, Piece};
use crate::request::{Request, BUILD, LOOKUP, SEEK};

/// A function, and what a case of it met.
pub type Met = (&'static str, &'static str);

/// The packets or records of a track, as they bear on one field: each its place among all of the track.
struct Asked {
    field: u64,
    /// The first that states the field, and the first that carries it by the number below.
    own: Option<usize>,
    below: Option<usize>,
    /// Those that state the even number below and carry that alone.
    alone: Vec<usize>,
    /// Whether one states the number below, which is odd; and whether one states the last number.
    odd_below: bool,
    last: bool,
}

impl Asked {
    fn new(all: impl Iterator<Item = Carried>, track: u64, field: u64) -> Self {
        let of_track: Vec<Carried> = all.filter(|c| u64::from(c.id) == track).collect();
        let places = |test: &dyn Fn(&Carried) -> bool| -> Vec<usize> {
            let all = 0..of_track.len();
            all.filter(|i| test(&of_track[*i])).collect()
        };
        let below = |c: &Carried| c.field + 1 == field;
        let even = |c: &Carried| c.field % 2 == 0;
        Asked {
            field,
            own: places(&|c| c.field == field).first().copied(),
            below: places(&|c| below(c) && c.doubled).first().copied(),
            alone: places(&|c| below(c) && even(c) && !c.doubled),
            odd_below: of_track.iter().any(|c| below(c) && !even(c)),
            last: of_track.iter().any(|c| c.field == u64::from(u32::MAX)),
        }
    }

    /// The place of the one that answers by the number below.
    fn by_below(&self) -> Option<usize> {
        let below = self.below?;
        self.own.is_none_or(|own| below < own).then_some(below)
    }

    fn by_own(&self) -> bool {
        self.own.is_some() && self.by_below().is_none()
    }

    fn is_there(&self) -> bool {
        self.own.is_some() || self.below.is_some()
    }
}

type Test = fn(&Asked) -> bool;

/// What seeks and look-ups can meet.
const ANSWERS: [(&str, Test); 10] = [
    ("answered by the number below", |a| a.by_below().is_some()),
    ("by the number below, its own number behind it", |a| {
        a.by_below().is_some() && a.own.is_some()
    }),
    ("by its own number, the number below behind it", |a| {
        a.by_own() && a.below.is_some()
    }),
    (
        "by the number below, one before it carries that alone",
        |a| a.by_below().is_some_and(|b| a.alone.iter().any(|i| *i < b)),
    ),
    (
        "by the number below, one behind it carries that alone",
        |a| a.by_below().is_some_and(|b| a.alone.iter().any(|i| *i > b)),
    ),
    ("4294967295 answered by 4294967294", |a| {
        a.by_below().is_some() && a.field == u64::from(u32::MAX)
    }),
    ("16, the number below carries itself alone", |a| {
        !a.is_there() && !a.alone.is_empty()
    }),
    ("16, the number below is odd", |a| {
        !a.is_there() && a.odd_below
    }),
    ("16, 0 is no number above 4294967295", |a| {
        !a.is_there() && a.last && a.field == 0
    }),
    ("16, 4294967296 is no number above 4294967295", |a| {
        !a.is_there() && a.last && a.field == 1 << 32
    }),
];

const NULL_NAME: Met = ("seek", "by the number below, beside a null name");
const SOME_64: Met = ("book", "64 in a record");
const NOT_ALL_64: Met = (
    "book",
    "64 in a record and not in another of an even number",
);
const ODD_64: Met = ("look-up", "23 for 64 beside an odd number");
const RESERVED_64: Met = ("look-up", "23 for 64 added to a reserved type");

/// All that can be met, in the order in which a run prints it.
pub fn all() -> Vec<Met> {
    let answers = |function| ANSWERS.map(|(what, _)| (function, what));
    let mut all = answers("seek").to_vec();
    all.extend([NULL_NAME, SOME_64, NOT_ALL_64]);
    all.extend(answers("look-up"));
    all.extend([ODD_64, RESERVED_64]);
    all
}

fn answers(function: &'static str, asked: &Asked) -> Vec<Met> {
    let met = ANSWERS.iter().filter(|(_, test)| test(asked));
    met.map(|(what, _)| (function, *what)).collect()
}

/// Whether the latest map before a packet has a null name on its track.
fn beside_null_name(stream: &[u8], pieces: &[Piece], packet: &Piece) -> bool {
    let mut before = pieces.iter().filter(|piece| piece.offset < packet.offset);
    let latest = before.rfind(|piece| piece.kind == MAP);
    let latest = map(stream, latest.expect("a map stands first").offset);
    let tracks = latest.expect("the stream is accepted").tracks;
    let own = tracks
        .iter()
        .find(|track| Some(track.id) == packet.carried.map(|c| c.id));
    let name = own.and_then(|track| track.name);
    name.is_some_and(|name| name.length == 1)
}

fn seek(stream: &[u8], track: u64, field: u64) -> Vec<Met> {
    let Ok(pieces) = packets(stream) else {
        return Vec::new();
    };
    let asked = Asked::new(pieces.iter().filter_map(|p| p.carried), track, field);
    let mut met = answers("seek", &asked);
    let mut carriers = pieces
        .iter()
        .filter(|p| p.carried.is_some_and(|c| c.carries(track, field)));
    if let (Some(_), Some(packet)) = (asked.by_below(), carriers.next()) {
        if beside_null_name(stream, &pieces, packet) {
            met.push(NULL_NAME);
        }
    }
    met
}

fn build(stream: &[u8]) -> Vec<Met> {
    let pieces = packets(stream).unwrap_or_default();
    let even = |c: &Carried| c.field % 2 == 0;
    let mut met = Vec::new();
    let doubled: Vec<bool> = pieces
        .iter()
        .filter_map(|p| p.carried)
        .filter(even)
        .map(|c| c.doubled)
        .collect();
    if doubled.contains(&true) {
        met.push(SOME_64);
        if doubled.contains(&false) {
            met.push(NOT_ALL_64);
        }
    }
    met
}

/// What is wrong with the 64 of a record that is refused, if its marks and its ID are good.
fn wrong_64(record: &[u8]) -> Option<Met> {
    let (mark, id, kind, low) = (
        record.get(..2)?,
        record.get(2)?,
        *record.get(3)?,
        record.get(4)?,
    );
    let whole = record.len() == 16 && mark == [0x47, 0x58] && *id <= 63;
    match kind.checked_sub(64).filter(|kind| whole && *kind < 64)? {
        kind if !known_type(u64::from(kind)) => Some(RESERVED_64),
        _ => (low % 2 == 1).then_some(ODD_64),
    }
}

fn lookup(book: &[u8], track: u64, field: u64) -> Vec<Met> {
    match records(book) {
        Ok(list) => {
            let asked = Asked::new(list.into_iter().map(|(carried, _)| carried), track, field);
            answers("look-up", &asked)
        }
        Err(refusal) => {
            let mut all = book.chunks(16);
            let record = all.nth(refusal.place as usize);
            record.and_then(wrong_64).into_iter().collect()
        }
    }
}

/// What a request meets; none of other functions, and none of streams that are refused.
pub fn met(request: &Request) -> Vec<Met> {
    let (n, s) = (&request.numbers, &request.strings);
    match request.function {
        SEEK => seek(&s[0], n[0], n[1]),
        BUILD => build(&s[0]),
        LOOKUP => lookup(&s[0], n[0], n[1]),
        _ => Vec::new(),
    }
}
