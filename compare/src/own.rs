//! The second implementation held against itself: against what the generators know of their cases, and against other ways to the
//! same answer.

mod aspects;
mod fields;

use crate::generate::maps::{self, Item, Model, M};
use crate::generate::{case, packets, streams, writers, Case};
use crate::reference::header::header;
use crate::reference::map::{map, Map, Part};
use crate::reference::plate::{Answer, Refusal};
use crate::reference::walker::Walker;
use crate::reference::{book, locator, name, stream, write};
use crate::request::{
    answer, hex, lent_room, read, words, Read, Request, BUILD, MAP, MOST_BYTES, NAME, NAME_OF_TWO,
    WALK, WRITE_FLT, WRITE_MAP,
};
use crate::rng::Rng;
use crate::size::{Size, MOST};
use crate::table::{off_plate, refusals};

/// One kind of check: how often it was made and what went wrong first.
pub struct Tally {
    pub name: &'static str,
    pub made: u64,
    pub wrong: Vec<String>,
}

impl Tally {
    fn new(name: &'static str) -> Self {
        Tally {
            name,
            made: 0,
            wrong: Vec::new(),
        }
    }

    fn check(&mut self, good: bool, what: impl Fn() -> String) {
        self.made += 1;
        if !good {
            self.wrong.push(what());
        }
    }
}

/// A line keeps a claim if it is the claim, or goes on behind it with a new token.
fn keeps(line: &str, claim: &str) -> bool {
    match line.strip_prefix(claim) {
        Some(rest) => rest.is_empty() || rest.starts_with(' '),
        None => false,
    }
}

/// Whether a line has a third figure, 1 at least and 4,294,967,276 at most, where its refusals are 5 and nowhere else: by its
/// tokens, which are `refused`, number and place, the third figure, and what the function was lent.
fn figures_stand(request: &Request, line: &str) -> bool {
    let figures: Vec<u64> = refusals(line)
        .filter(|refusal| refusal.number == 5)
        .map(|refusal| refusal.lacking)
        .collect();
    let others = match request.function {
        WALK => 1 + 4 * request.numbers[0] as usize,
        MAP => 3 + request.numbers[1] as usize,
        NAME | NAME_OF_TWO | BUILD | WRITE_FLT | WRITE_MAP => 4,
        _ => 3,
    };
    let bounds = 1..=4_294_967_276;
    line.split(' ').count() == others + figures.len() && figures.iter().all(|k| bounds.contains(k))
}

/// Claims, the format there and back, rooms that a refusal leaves, its number and its figures.
fn claims(seed: u64, cases: u64) -> Vec<Tally> {
    let mut claims = Tally::new("line is as the case was made");
    let mut format = Tally::new("request read back from its bytes");
    let mut rooms = Tally::new("refused: the room is as it was");
    let mut plate = Tally::new("refusals of the line are on the plate");
    let mut figures = Tally::new("refused: the third figure stands on 5 alone");
    for index in 0..cases {
        let Case {
            kind,
            request,
            claim,
        } = case(seed, index);
        let line = answer(&request);
        if let Some(claim) = claim {
            claims.check(keeps(&line, &claim), || {
                format!("{kind}, case {index}: claimed {claim}, got {line}")
            });
        }
        let bytes = request.encode();
        let same = match read(&bytes) {
            Read::Whole(again, length) => again == request && length == bytes.len(),
            _ => false,
        };
        format.check(same, || format!("{kind}, case {index}"));
        let room = match request.function {
            BUILD => Some(request.numbers[0]),
            WRITE_FLT | WRITE_MAP => Some(request.numbers[1]),
            _ => None,
        };
        if let (Some(room), true) = (room, line.starts_with("refused")) {
            let kept = line.ends_with(&hex(&lent_room(room)));
            rooms.check(kept, || format!("{kind}, case {index}: {line}"));
        }
        let known = off_plate(&line).is_none();
        plate.check(known, || format!("{kind}, case {index}: {line}"));
        if refusals(&line).next().is_some() {
            let stand = figures_stand(&request, &line);
            figures.check(stand, || format!("{kind}, case {index}: {line}"));
        }
    }
    vec![claims, format, rooms, plate, figures]
}

/// The request with so many bytes more, whatever they are, behind its torn packet; and the bytes that hold it.
fn longer(rng: &mut Rng, request: &Request, n: u64) -> (Request, Vec<u8>) {
    let mut request = request.clone();
    let opening_torn = header(&request.strings[0], 0).is_err_and(|r| r.number == 5);
    let of_closing = request.function == NAME_OF_TWO && !opening_torn;
    let torn = &mut request.strings[usize::from(of_closing)];
    torn.extend(rng.bytes(n as usize));
    let bytes = torn.clone();
    (request, bytes)
}

/// What the figure of 5 means: with so many bytes more, whatever they are, the packet there is whole; with fewer it is 5 there, and
/// the line says how many are lacking still.
fn figures_mean(seed: u64, cases: u64) -> Vec<Tally> {
    let mut whole = Tally::new("5: with all bytes that lack the packet is whole");
    let mut one = Tally::new("5: with one fewer the line says 1");
    let mut some = Tally::new("5: with some more it says so many fewer");
    for index in 0..cases {
        let Case { kind, request, .. } = case(seed, index);
        let line = answer(&request);
        let Some(told) = refusals(&line).find(|refusal| refusal.lacking > 0) else {
            continue;
        };
        let mut rng = Rng::new(seed ^ 0x1ACC, index);
        let k = told.lacking;
        let left_at = |left: u64| {
            let still = Refusal {
                lacking: left,
                ..told
            };
            line.replace(&told.to_string(), &still.to_string())
        };
        let n = rng.below(k.min(64) as usize) as u64;
        let got = answer(&longer(&mut rng, &request, n).0);
        let what = |got: &str| format!("{kind}, case {index}: {line}, then {got}");
        some.check(got == left_at(k - n), || what(&got));
        if k > MOST_BYTES {
            continue;
        }
        let got = answer(&longer(&mut rng, &request, k - 1).0);
        one.check(got == left_at(1), || what(&got));
        let (request, bytes) = longer(&mut rng, &request, k);
        let length = bytes.len() as u64 - told.place;
        let found = header(&bytes, told.place);
        let good = found.is_ok_and(|packet| packet.length == length);
        // behind an opening map that is whole now, the closing one may still be torn
        let got = answer(&request);
        let gone = request.function == NAME_OF_TWO || refusals(&got).all(|r| r.number != 5);
        whole.check(good && gone, || what(&got));
    }
    vec![whole, one, some]
}

/// What a request to the map writer gives at this place of a room of this length, and the room behind it.
fn write_at(request: &Request, at: u64, room: u64) -> (Answer<u64>, Vec<u8>) {
    let mut room = lent_room(room);
    let s = &request.strings;
    let done = write::write_map(&mut room, at, &s[0], &words(&s[1]), &words(&s[2]));
    (done, room)
}

/// F22: 35,000 bytes from the place on are room for every map. It is not 13 there, and else what it is in the case's own room.
fn ample_room(request: &Request) -> bool {
    let (at, room) = (request.numbers[0], request.numbers[1]);
    let most = MOST.packet as u64;
    let place = at.min(99);
    let ample = write_at(request, place, place + most).0;
    let own = write_at(request, at, room).0;
    let is_short = u128::from(at) + u128::from(most) > u128::from(room);
    match own {
        Err(refusal) if refusal.number == 13 => is_short && ample.is_ok(),
        _ => own == ample,
    }
}

/// The packet that a request to the map writer leaves in its room; none where it is refused.
pub fn written(request: &Request) -> Option<Vec<u8>> {
    let (at, room) = (request.numbers[0], request.numbers[1]);
    let (done, room) = write_at(request, at, room);
    let length = done.ok()?;
    Some(room[at as usize..(at + length) as usize].to_vec())
}

/// The bounds of F22 in every case of the map writer.
fn sizes(seed: u64, cases: u64) -> Vec<Tally> {
    let mut rooms = Tally::new("map writer: 35,000 bytes are room for every map");
    let mut bounds = Tally::new("map writer: the packet keeps the five bounds");
    for index in 0..cases {
        let Case { kind, request, .. } = case(seed, index);
        if request.function != WRITE_MAP {
            continue;
        }
        rooms.check(ample_room(&request), || format!("{kind}, case {index}"));
        if let Some(packet) = written(&request) {
            let size = Size::of(&packet);
            bounds.check(size.is_some_and(Size::keeps_bounds), || {
                format!("{kind}, case {index}: {size:?}")
            });
        }
    }
    vec![rooms, bounds]
}

fn at(bytes: &[u8], part: Option<Part>) -> Option<&[u8]> {
    part.map(|p| &bytes[p.place as usize..(p.place + p.length) as usize])
}

/// 01, Map: alike, places aside, when all else agrees and the bytes at the places do (D22).
pub fn alike(one: (&[u8], &Answer<Map>), two: (&[u8], &Answer<Map>)) -> bool {
    let (Ok(a), Ok(b)) = (one.1, two.1) else {
        return false;
    };
    a.numbers == b.numbers
        && at(one.0, a.name) == at(two.0, b.name)
        && a.tracks.len() == b.tracks.len()
        && a.tracks.iter().zip(&b.tracks).all(|(s, t)| {
            (s.id, s.kind, s.rate, s.lines, s.fields, s.version, s.aspect)
                == (t.id, t.kind, t.rate, t.lines, t.fields, t.version, t.aspect)
                && at(one.0, s.name) == at(two.0, t.name)
                && at(one.0, s.binary) == at(two.0, t.binary)
                && at(one.0, s.text) == at(two.0, t.text)
        })
}

/// Maps with what is reserved struck out, or with an unknown item set in at each boundary, answer alike.
fn twins(seed: u64, cases: u64) -> Vec<Tally> {
    let mut struck = Tally::new("struck map answers alike");
    let mut set_in = Tally::new("unknown item set in answers alike");
    for index in 0..cases {
        let mut rng = Rng::new(seed ^ 0x7731, index);
        let model = maps::valid(&mut rng, true);
        let (whole, less) = (model.bytes(), model.struck().bytes());
        let same = alike((&whole, &map(&whole, 0)), (&less, &map(&less, 0)));
        struck.check(same, || format!("twin {index}: {}", hex(&whole)));
        let more = with_unknown(&mut rng, &model).bytes();
        let same = alike((&whole, &map(&whole, 0)), (&more, &map(&more, 0)));
        set_in.check(same, || format!("twin {index}: {}", hex(&whole)));
    }
    vec![struck, set_in]
}

/// 02, §12: 29 is of one track's type, name and form. Striking and setting in neither bring it nor take it away, and each map names
/// its own item; a null name takes it away, and so does a type that is not listed. The writer gives it where the reader would.
fn forms_agree(seed: u64, cases: u64) -> Vec<Tally> {
    let mut struck = Tally::new("29: as before where what is reserved is struck out");
    let mut set_in = Tally::new("29: as before where an unknown item is set in");
    let mut lifted = Tally::new("29: gone with null names, and with reserved types");
    let mut writer = Tally::new("29: the writer gives it where the reader would");
    let told = |model: &Model| match map(&model.bytes(), 0) {
        Ok(_) => None,
        Err(refusal) => Some((refusal.number, refusal.place)),
    };
    let as_made = |model: &Model| told(model) == model.wrong_form().map(|p| (29, p as u64));
    for index in 0..cases {
        let mut rng = Rng::new(seed ^ 0x4D4F, index);
        let model = maps::formed(&mut rng).0;
        let is_wrong = told(&model).is_some();
        let what = || format!("form {index}: {}", hex(&model.bytes()));
        let less = model.struck();
        let same = as_made(&less) && told(&less).is_some() == is_wrong;
        struck.check(as_made(&model) && same, what);
        let more = with_unknown(&mut rng, &model);
        let same = as_made(&more) && told(&more).is_some() == is_wrong;
        set_in.check(same, what);
        let (mut null, mut reserved) = (model.clone(), model.clone());
        for track in &mut null.tracks {
            maps::set_null_name(&mut rng, track);
        }
        for track in &mut reserved.tracks {
            track.type_byte = 0x80 + rng.pick(&packets::RESERVED_TYPES);
        }
        let gone = told(&null).is_none() && told(&reserved).is_none();
        lifted.check(gone, what);

        let (mut input, _) = writers::good(&mut rng);
        if rng.chance(1, 2) {
            writers::misform(&mut rng, &mut input);
        }
        let (material, tracks) = input.words();
        let done = write::write_map(&mut lent_room(60_000), 0, &input.text, &material, &tracks);
        let (one, two) = (
            done.err().map(|r| r.number),
            map(&input.packet(), 0).err().map(|r| r.number),
        );
        let same = one == two && matches!(one, None | Some(29));
        writer.check(same, || format!("input {index}: {one:?} {two:?}"));
    }
    vec![struck, set_in, lifted, writer]
}

/// An unknown item at any one boundary.
fn with_unknown(rng: &mut Rng, model: &Model) -> Model {
    let mut model = model.clone();
    let n = rng.below(20);
    let item = Item::new(0x7E, &rng.bytes(n));
    let i = rng.below(model.tracks.len() + 1);
    let into = match model.tracks.get_mut(i) {
        Some(track) => &mut track.items,
        None => &mut model.material,
    };
    let at = rng.below(into.len() + 1);
    into.insert(at, item);
    model
}

/// What a writer wrote is read back as it was given.
fn round_trips(seed: u64, cases: u64) -> Vec<Tally> {
    let mut maps = Tally::new("written map read back");
    let mut flts = Tally::new("written FLT read back");
    for index in 0..cases {
        let mut rng = Rng::new(seed ^ 0x0E0D, index);
        let (input, _) = writers::good(&mut rng);
        let (material, tracks) = input.words();
        let mut room = lent_room(60_000);
        let place = rng.below(100) as u64;
        let length = write::write_map(&mut room, place, &input.text, &material, &tracks);
        let back = map(&room, place);
        let packet = &room[place as usize..];
        let good = length.is_ok()
            && back
                .as_ref()
                .is_ok_and(|back| as_given(&input, packet, back));
        maps.check(good, || format!("map {index}: {length:?} {back:?}"));

        let offsets: Vec<u64> = (0..rng.below(30))
            .map(|_| u64::from(rng.edge32()))
            .collect();
        let step = u64::from(rng.edge32().max(1));
        let length = write::write_flt(&mut room, place, step, &offsets);
        let all = (0..=offsets.len()).all(|i| {
            let found = locator::position(&room, place, i as u64 * step);
            match offsets.get(i) {
                Some(offset) => found == Ok(1_024 * offset),
                None => found.is_err_and(|r| r.number == 16),
            }
        });
        flts.check(length.is_ok() && all, || format!("FLT {index}"));
    }
    vec![maps, flts]
}

/// The map read back against the writer's input.
fn as_given(input: &writers::Input, packet: &[u8], back: &Map) -> bool {
    let text = |slot: &[u64; 3]| {
        (slot[0] == 1).then(|| {
            let mut text = input.text[slot[1] as usize..(slot[1] + slot[2]) as usize].to_vec();
            text.push(0);
            text
        })
    };
    let number = |slot: &[u64; 3]| (slot[0] == 1).then_some(slot[1]);
    let bytes = |part: Option<Part>| at(packet, part).map(<[u8]>::to_vec);
    bytes(back.name) == text(&input.material[0])
        && (0..5).all(|i| back.numbers[i].map(u64::from) == number(&input.material[i + 1]))
        && back.tracks.len() == input.tracks.len()
        && back
            .tracks
            .iter()
            .zip(&input.tracks)
            .all(|(track, (kind, id, slots))| {
                let code = |code: Option<i32>| code.map(|code| i64::from(code) as u64);
                let binary = (slots[1][0] == 1).then(|| {
                    let from = slots[1][1] as usize;
                    input.text[from..from + 8].to_vec()
                });
                u64::from(track.kind) == *kind
                    && u64::from(track.id) == *id
                    && bytes(track.name) == text(&slots[0])
                    && bytes(track.binary) == binary
                    && track.version.map(u64::from) == number(&slots[2])
                    && bytes(track.text) == text(&slots[3])
                    && code(track.rate) == number(&slots[4])
                    && code(track.lines) == number(&slots[5])
                    && code(track.fields) == number(&slots[6])
            })
}

/// Seek, look-up in the built book, the walker and the check tell of the same packets.
fn streams_agree(seed: u64, cases: u64) -> Vec<Tally> {
    let mut seeks = Tally::new("seek is look-up in the built book");
    let mut walks = Tally::new("walker takes as many steps as the check counts");
    let mut refusals = Tally::new("check, seek and builder refuse alike");
    let mut headers = Tally::new("walker ends in the check's 1 to 5");
    for index in 0..cases {
        let mut rng = Rng::new(seed ^ 0x5EEC, index);
        let bytes = match rng.below(8) {
            0 | 1 => streams::damaged_bytes(&mut rng),
            2 => streams::torn_stream(&mut rng).1,
            3 => streams::wrong_form_stream(&mut rng).1,
            4 => streams::null_name_stream(&mut rng).bytes(),
            5 => streams::odd_stream(&mut rng).bytes(),
            _ => streams::good(&mut rng).bytes(),
        };
        let mut room = vec![0; 65_536];
        let built = book::build(&bytes, &mut room);
        let checked = stream::check(&bytes);
        match (checked, built) {
            (Ok(count), Ok(records)) => {
                let lent = &room[..16 * records as usize];
                for track in [0, 1, 2, 3, 17, 62, 63, 64] {
                    for field in [0, 1, 2, 3, 4, 5, 0xFFFF_FFFE, 0xFFFF_FFFF, 0x1_0000_0000] {
                        let one = stream::seek(&bytes, track, field);
                        let two = book::lookup(lent, track, field);
                        seeks.check(one == two, || format!("stream {index}: {one:?} {two:?}"));
                    }
                }
                let mut walker = Walker::new(&bytes);
                let mut steps = 0;
                while walker.step().is_ok() {
                    steps += 1;
                }
                let whole = steps == count && walker.place == bytes.len() as u64;
                walks.check(whole, || format!("stream {index}: {steps} {count}"));
            }
            (Err(one), Err(two)) => {
                let three = stream::seek(&bytes, 0, 0);
                let same = one == two && three == Err(one);
                refusals.check(same, || {
                    format!("stream {index}: {one:?} {two:?} {three:?}")
                });
                if one.number <= 5 {
                    let mut walker = Walker::new(&bytes);
                    let end = std::iter::repeat_with(|| walker.step()).find_map(Result::err);
                    headers.check(end == Some(one), || {
                        format!("stream {index}: {one:?} {end:?}")
                    });
                }
            }
            (one, two) => refusals.check(false, || format!("stream {index}: {one:?} {two:?}")),
        }
    }
    vec![seeks, walks, refusals, headers]
}

/// A name by ID is the record's name; of a map with itself it is the closing one's.
fn names_agree(seed: u64, cases: u64) -> Vec<Tally> {
    let mut names = Tally::new("name is the record's name");
    for index in 0..cases {
        let mut rng = Rng::new(seed ^ 0x4A4E, index);
        let bytes = maps::valid(&mut rng, true).bytes();
        let read = map(&bytes, 0).expect("the model is valid");
        for id in 0..66 {
            let track = read.tracks.iter().find(|track| u64::from(track.id) == id);
            let listed = track.and_then(|track| track.name);
            let found = name::name(&bytes, 0, id);
            let two = name::name_of_two(&M, &bytes, id);
            let good = match (listed, found) {
                (Some(part), Ok(bare)) => {
                    bare.place == part.place
                        && bare.length + 1 == part.length
                        && two == Ok(name::Of::Closing(bare))
                }
                (None, Err(refusal)) => {
                    let in_m = id == 1;
                    (refusal.number, refusal.place) == (16, 0)
                        && matches!(two, Ok(name::Of::Opening(_))) == in_m
                        && two.is_err() != in_m
                }
                _ => false,
            };
            names.check(good, || format!("map {index}, ID {id}"));
        }
    }
    vec![names]
}

/// Each byte of M, and of M as a track of MPEG video with its text, damaged in each way: the packet's reader and the check of a
/// stream that begins with it refuse alike.
fn damaged_bench() -> Vec<Tally> {
    let mut same = Tally::new("check refuses a damaged first map as the reader does");
    let rest = [packets::packet(0xFD, &[]), packets::packet(0xFB, &[])].concat();
    let with_text = maps::m_with(0x8B, &[0x4F, 2, 0x41, 0]);
    for (first, i) in [&M[..], &with_text]
        .into_iter()
        .flat_map(|map| (0..map.len()).map(move |i| (map, i)))
    {
        for value in 0..=255 {
            let mut bytes = first.to_vec();
            bytes[i] = value;
            bytes.extend(&rest);
            let (one, two) = (map(&bytes, 0), stream::check(&bytes));
            let good = match (&one, two) {
                (Ok(_), Ok(count)) => count == 3,
                // a length that takes in the UMF or the EOS leaves the stream without it
                (Ok(_), Err(r)) => i == 9 && matches!(r.number, 1 | 2 | 18 | 21),
                (Err(r), Err(s)) => *r == s || (r.number, s.number) == (6, 17),
                _ => false,
            };
            same.check(good, || format!("byte {i} is {value}: {one:?} {two:?}"));
        }
    }
    vec![same]
}

pub fn run(seed: u64, cases: u64) -> Vec<Tally> {
    let part = cases / 10 + 1;
    let mut all = claims(seed, cases);
    all.extend(figures_mean(seed, cases));
    all.extend(sizes(seed, cases));
    all.extend(twins(seed, part));
    all.extend(forms_agree(seed, part));
    all.extend(aspects::agree(seed, cases));
    all.extend(round_trips(seed, part));
    all.extend(streams_agree(seed, part));
    all.extend(fields::agree(seed, part));
    all.extend(names_agree(seed, part / 10 + 1));
    all.extend(damaged_bench());
    all
}
