//! Streams: packets in any order, with the faults of the stream rules and their places.

use super::maps::{self, Item, Model, Track};
use super::packets::{
    damage, edge_id, flt_payload, media_payload, packet, refused, stir_reserved, tear, torn,
    KNOWN_TYPES, RESERVED_TYPES,
};
use super::Made;
use crate::request::{Request, CHECK, SEEK, WALK};
use crate::rng::Rng;

/// A packet of a stream, as its bytes and what it is.
#[derive(Clone)]
pub struct Piece {
    pub kind: u8,
    pub bytes: Vec<u8>,
    /// ID and field number, if this is a media packet of known type.
    pub carries: Option<(u8, u32)>,
    /// The type of such a packet.
    pub media_type: u8,
    /// Of a map: the IDs of the listed tracks that it gives fields per frame 1.
    pub progressive: Vec<u8>,
}

#[derive(Clone)]
pub struct Stream {
    pub pieces: Vec<Piece>,
    /// ID and type of the tracks of the first map.
    pub tracks: Vec<(u8, u8)>,
}

impl Stream {
    pub fn bytes(&self) -> Vec<u8> {
        self.pieces
            .iter()
            .flat_map(|piece| piece.bytes.clone())
            .collect()
    }

    pub fn offset(&self, i: usize) -> u64 {
        self.pieces[..i]
            .iter()
            .map(|piece| piece.bytes.len() as u64)
            .sum()
    }

    pub fn length(&self) -> u64 {
        self.offset(self.pieces.len())
    }

    /// Whether a packet carries two fields: an even number, on a track to which the latest map before it gives fields per frame 1.
    pub fn doubled(&self, i: usize) -> bool {
        let Some((id, field)) = self.pieces[i].carries else {
            return false;
        };
        let mut before = self.pieces[..i].iter().rev();
        let map = before.find(|piece| piece.kind == 0xBC);
        field % 2 == 0 && map.is_some_and(|map| map.progressive.contains(&id))
    }

    fn eos(&self) -> usize {
        self.pieces.len() - 1
    }

    fn ok(&self) -> Option<String> {
        Some(format!("ok {}", self.pieces.len()))
    }
}

fn piece(kind: u8, payload: &[u8]) -> Piece {
    Piece {
        kind,
        bytes: packet(kind, payload),
        carries: None,
        media_type: 0,
        progressive: Vec::new(),
    }
}

fn media(kind: u8, id: u8, field: u32, rng: &mut Rng) -> Piece {
    let n = rng.below(3) * 4;
    let data = rng.bytes(n);
    let time_line = if rng.chance(1, 2) {
        field
    } else {
        field.wrapping_add(1)
    };
    let rest = [rng.edge32(), time_line];
    let mut made = piece(
        0xBF,
        &media_payload(kind, id, field, rest, rng.byte(), &data),
    );
    if KNOWN_TYPES.contains(&kind) {
        made.carries = Some((id, field));
        made.media_type = kind;
    }
    made
}

fn flt(rng: &mut Rng) -> Piece {
    let stored: Vec<u32> = (0..rng.below(4)).map(|_| rng.edge32()).collect();
    let step = 1 + rng.below(50) as u32;
    piece(0xFC, &flt_payload(step, stored.len() as u32, &stored))
}

fn umf(rng: &mut Rng) -> Piece {
    let n = rng.below(4) * 4;
    piece(0xFD, &rng.bytes(n))
}

fn eos(rng: &mut Rng) -> Piece {
    let n = if rng.chance(1, 8) {
        rng.below(4) * 4
    } else {
        0
    };
    piece(0xFB, &rng.bytes(n))
}

/// A packet of reserved type, empty or not.
fn other(rng: &mut Rng) -> Piece {
    let kind = rng.pick(&[0xFA, 0xFE, 0xFF, 0x00, 0xBD, 0xBE, 0x3C]);
    let n = rng.below(3) * 4;
    piece(kind, &rng.bytes(n))
}

/// Values of item 52 that are not 1, though some have a byte of it.
const NOT_PROGRESSIVE: [i32; 13] = [2, 2, 2, 2, 2, -1, -2, 0, 3, 257, 65_536, 16_777_216, -255];

/// Sets codes into a track that has none: half of the time fields per frame 1, at times beside a null name; and a 1 that says
/// nothing of fields.
fn set_codes(rng: &mut Rng, track: &mut Track) {
    let mut set_in = |tag: u8, value: i32, rng: &mut Rng| {
        let at = rng.below(track.items.len() + 1);
        let item = Item::new(tag, &value.to_be_bytes());
        track.items.insert(at, item);
    };
    match rng.below(8) {
        0..=3 => set_in(0x52, 1, rng),
        4..=6 => set_in(0x52, rng.pick(&NOT_PROGRESSIVE), rng),
        _ => {}
    }
    if rng.chance(1, 4) {
        set_in(rng.pick(&[0x50, 0x51, 0x53]), 1, rng);
    }
    if rng.chance(1, 8) {
        maps::set_null_name(rng, track);
    }
}

/// A track of a map, at times with a name, with auxiliary information and with codes.
fn map_track(id: u8, kind: u8, rng: &mut Rng) -> Track {
    let mut track = Track {
        type_byte: 0x80 + kind,
        id_byte: 0xC0 + id,
        items: maps::name_and_form(rng, kind, 1, 1),
        overhang: 0,
    };
    set_codes(rng, &mut track);
    track
}

/// A map that lists the tracks, and at times one more that it does not list.
fn map_model(tracks: &[(u8, u8)], rng: &mut Rng) -> Model {
    let mut model = Model::empty();
    if rng.chance(1, 3) {
        model
            .material
            .push(Item::new(0x41, &rng.edge32().to_be_bytes()));
    }
    if rng.chance(1, 8) {
        model.material.push(Item::new(0x52, &[0, 0, 0, 1])); // unknown in this section
    }
    for (id, kind) in tracks {
        model.tracks.push(map_track(*id, *kind, rng));
    }
    if rng.chance(1, 3) {
        rng.shuffle(&mut model.tracks);
    }
    if rng.chance(1, 8) {
        let kind = rng.pick(&RESERVED_TYPES);
        let at = rng.below(model.tracks.len() + 1);
        model.tracks.insert(at, map_track(30, kind, rng));
    }
    model
}

fn map_piece(model: &Model) -> Piece {
    let listed = model.tracks.iter().filter(|track| track.listed());
    let progressive = listed.filter(|track| track.progressive());
    Piece {
        progressive: progressive.map(Track::id).collect(),
        ..piece(0xBC, &model.bytes()[16..])
    }
}

fn map(tracks: &[(u8, u8)], rng: &mut Rng) -> Piece {
    map_piece(&map_model(tracks, rng))
}

/// A map that lists the tracks, one or more of them with the wrong form, and the place of the first wrong item.
fn wrong_map(tracks: &[(u8, u8)], rng: &mut Rng) -> (Piece, u64) {
    let mut model = map_model(tracks, rng);
    for _ in 0..1 + rng.below(2) {
        let i = rng.below(model.tracks.len());
        maps::set_wrong_form(rng, &mut model.tracks[i]);
    }
    let place = model.wrong_form().expect("a wrong form was set in");
    (map_piece(&model), place as u64)
}

/// The last even number; one more is the last of all.
const LAST_EVEN: u32 = u32::MAX - 1;

/// Field numbers that a narrowing or a mixed-up byte order would take for others, the last two among them.
pub fn field(rng: &mut Rng) -> u32 {
    match rng.below(16) {
        0 | 1 => rng.edge32(),
        2 => rng.pick(&[LAST_EVEN, LAST_EVEN + 1]),
        _ => rng.below(6) as u32,
    }
}

/// Tracks with different IDs.
fn tracks(rng: &mut Rng) -> Vec<(u8, u8)> {
    let mut ids: Vec<u8> = vec![0, 1, 2, 3, 17, 62, 63];
    rng.shuffle(&mut ids);
    let n = 1 + rng.below(3);
    ids.truncate(n);
    ids.into_iter()
        .map(|id| (id, rng.pick(&KNOWN_TYPES)))
        .collect()
}

fn any_media(tracks: &[(u8, u8)], rng: &mut Rng) -> Piece {
    let field = field(rng);
    if rng.chance(1, 6) {
        // of reserved type: stepped over, whatever its ID up to 63
        let kind = rng.pick(&[0, 1, 2, 5, 6, 19, 27, 0x8A, 255]);
        let id = if rng.chance(1, 2) {
            rng.pick(tracks).0
        } else {
            rng.below(64) as u8
        };
        return media(kind, id, field, rng);
    }
    let (id, kind) = rng.pick(tracks);
    media(kind, id, field, rng)
}

/// A packet of a track that has one already, with its number or with the other one of the pair of an even number and the next.
fn beside(pieces: &[Piece], tracks: &[(u8, u8)], rng: &mut Rng) -> Piece {
    let known: Vec<&Piece> = pieces.iter().filter(|p| p.carries.is_some()).collect();
    if known.is_empty() {
        return any_media(tracks, rng);
    }
    let one = rng.pick(&known);
    let (id, field) = one.carries.expect("it is of known type");
    media(one.media_type, id, field ^ rng.pick(&[0, 1, 1]), rng)
}

/// A stream that passes; without `own_flt` it has no FLT.
fn plain(rng: &mut Rng, own_flt: bool) -> Stream {
    let tracks = tracks(rng);
    let mut pieces = vec![map(&tracks, rng)];
    let n = if rng.chance(1, 12) {
        rng.below(40)
    } else {
        rng.below(8)
    };
    for _ in 0..n {
        let next = match rng.below(12) {
            0 | 1 => map(&tracks, rng),
            2 => umf(rng),
            3 => other(rng),
            4 | 5 => beside(&pieces, &tracks, rng),
            _ => any_media(&tracks, rng),
        };
        pieces.push(next);
    }
    let at = 1 + rng.below(pieces.len());
    pieces.insert(at, umf(rng));
    let end = eos(rng);
    pieces.push(end);
    if own_flt {
        match rng.below(4) {
            0 => pieces.insert(1, flt(rng)),
            1 => {
                let at = pieces.len() - 1;
                pieces.insert(at, flt(rng));
            }
            _ => {}
        }
    }
    for piece in &mut pieces {
        stir_reserved(rng, &mut piece.bytes);
    }
    Stream { pieces, tracks }
}

pub fn good(rng: &mut Rng) -> Stream {
    plain(rng, true)
}

/// A stream that passes, of one track or two: its maps turn the fields per frame back and forth, at times a type with them, and
/// its packets have numbers that stand side by side, at times the last two of all and the first two.
pub fn odd_stream(rng: &mut Rng) -> Stream {
    let mut first = tracks(rng);
    first.truncate(rng.pick(&[1, 1, 1, 2]));
    let mut tracks = first.clone();
    let lowest = rng.pick(&[0, 300, (1 << 31) - 2, LAST_EVEN - 2, LAST_EVEN, LAST_EVEN]);
    let mut pieces = vec![map(&tracks, rng)];
    for i in 0..2 + rng.below(12) {
        let k = rng.below(tracks.len());
        if i > 0 && rng.chance(1, 3) {
            if rng.chance(1, 4) {
                tracks[k].1 = rng.pick(&KNOWN_TYPES);
            }
            pieces.push(map(&tracks, rng));
        } else {
            let (id, kind) = tracks[k];
            let field = lowest.wrapping_add(rng.pick(&[0, 0, 0, 1, 1, 2, 3]));
            pieces.push(media(kind, id, field, rng));
        }
    }
    let at = 1 + rng.below(pieces.len());
    pieces.insert(at, umf(rng));
    pieces.push(eos(rng));
    Stream {
        pieces,
        tracks: first,
    }
}

fn ask(stream: &Stream) -> Request {
    Request::new(CHECK, &[], &[&stream.bytes()])
}

pub fn check_valid(rng: &mut Rng) -> Made {
    let stream = good(rng);
    (ask(&stream), stream.ok())
}

/// One, two or three FLTs anywhere behind the first map; the claim follows 01's sentence on 19.
pub fn check_flt(rng: &mut Rng) -> Made {
    let mut stream = plain(rng, false);
    for _ in 0..rng.pick(&[1, 1, 1, 2, 2, 3]) {
        let at = 1 + rng.below(stream.pieces.len() - 1);
        let packet = flt(rng);
        stream.pieces.insert(at, packet);
    }
    let flts: Vec<usize> = (0..stream.pieces.len())
        .filter(|i| stream.pieces[*i].kind == 0xFC)
        .collect();
    let first = flts[0];
    let claim = if first != 1 && stream.pieces[first + 1].kind != 0xFB {
        refused(19, stream.offset(first + 1))
    } else if flts.len() > 1 {
        refused(19, stream.offset(flts[1]))
    } else {
        stream.ok()
    };
    (ask(&stream), claim)
}

/// 97 to 102 packets that are no map, in the first run or a later one, EOS among them or not.
pub fn check_runs(rng: &mut Rng) -> Made {
    let tracks = tracks(rng);
    let mut pieces = vec![map(&tracks, rng)];
    if rng.chance(1, 3) {
        for _ in 0..rng.below(90) {
            pieces.push(any_media(&tracks, rng));
        }
        pieces.push(map(&tracks, rng));
    }
    let start = pieces.len();
    let run = 97 + rng.below(6);
    let ends = rng.chance(1, 2); // EOS is the last of the run
    for i in 0..run {
        let next = if i == 0 {
            umf(rng)
        } else if ends && i + 1 == run {
            eos(rng)
        } else if rng.chance(1, 20) {
            other(rng)
        } else {
            any_media(&tracks, rng)
        };
        pieces.push(next);
    }
    if !ends {
        pieces.push(map(&tracks, rng));
        pieces.push(eos(rng));
    }
    let stream = Stream { pieces, tracks };
    let claim = if run >= 100 {
        refused(20, stream.offset(start + 99))
    } else {
        stream.ok()
    };
    (ask(&stream), claim)
}

/// Torn tails, bytes after EOS, no EOS, no UMF.
pub fn check_ends(rng: &mut Rng) -> Made {
    let mut stream = good(rng);
    let last = stream.eos();
    match rng.below(6) {
        // cut inside a packet: 1 where under 16 bytes are left, else 5; at a packet's start 18
        0 | 1 => {
            let mut bytes = stream.bytes();
            let cut = rng.below(bytes.len());
            bytes.truncate(cut);
            let i = (0..=last)
                .rev()
                .find(|i| stream.offset(*i) <= cut as u64)
                .unwrap();
            let left = cut as u64 - stream.offset(i);
            // an FLT in the last place but one is not yet at fault; a cut there is the first fault
            let claim = match left {
                0 if cut == 0 => refused(17, 0),
                0 => refused(18, cut as u64),
                1..=15 => refused(1, stream.offset(i)),
                _ => torn(stream.offset(i), stream.offset(i + 1) as usize - cut),
            };
            (Request::new(CHECK, &[], &[&bytes]), claim)
        }
        // bytes after EOS, also with no UMF
        2 | 3 => {
            let mut bytes = stream.bytes();
            let claim = refused(18, stream.offset(last));
            if rng.chance(1, 3) {
                let n = 1 + rng.below(40);
                bytes.extend(rng.bytes(n));
            } else if rng.chance(1, 2) {
                bytes.push(0);
            } else {
                let again = good(rng).bytes();
                bytes.extend(again);
            }
            (Request::new(CHECK, &[], &[&bytes]), claim)
        }
        // no EOS at all
        4 => {
            stream.pieces.pop();
            (ask(&stream), refused(18, stream.length()))
        }
        // no UMF; at times bytes after EOS too, where 18 comes first
        _ => {
            let tracks = stream.tracks.clone();
            for piece in &mut stream.pieces {
                if piece.kind == 0xFD {
                    *piece = any_media(&tracks, rng);
                }
            }
            let place = stream.offset(stream.eos());
            let mut bytes = stream.bytes();
            let more = rng.chance(1, 3);
            if more {
                bytes.push(rng.byte());
            }
            let claim = refused(if more { 18 } else { 21 }, place);
            (Request::new(CHECK, &[], &[&bytes]), claim)
        }
    }
}

/// Media packets that the latest map does not list with ID and type.
pub fn check_tracks(rng: &mut Rng) -> Made {
    let mut stream = plain(rng, false);
    let (id, kind) = stream.tracks[0];
    let mut at = 1 + rng.below(stream.pieces.len() - 1);
    match rng.below(4) {
        // another ID
        0 => {
            let free = (0..64)
                .find(|i| stream.tracks.iter().all(|t| t.0 != *i))
                .unwrap();
            let wrong = media(kind, free, 0, rng);
            stream.pieces.insert(at, wrong);
        }
        // another type
        1 => {
            let wrong = rng.pick(&KNOWN_TYPES);
            if wrong == kind {
                return (ask(&stream), stream.ok());
            }
            let wrong = media(wrong, id, 0, rng);
            stream.pieces.insert(at, wrong);
        }
        // listed by an earlier map only
        2 => {
            let newer: Vec<(u8, u8)> = stream.tracks[1..].to_vec();
            let newer = map(&newer, rng);
            let wrong = media(kind, id, 0, rng);
            stream.pieces.insert(at, newer);
            at += 1;
            stream.pieces.insert(at, wrong);
        }
        // in the map, but as a track of reserved type
        _ => {
            let newer = map(&[(id, rng.pick(&[0, 5, 19, 27, 127]))], rng);
            let wrong = media(kind, id, 0, rng);
            stream.pieces.insert(at, newer);
            at += 1;
            stream.pieces.insert(at, wrong);
        }
    }
    (ask(&stream), refused(22, stream.offset(at)))
}

/// A fault inside a map, an FLT or a media packet; the check adds the packet's offset.
fn bad_content(rng: &mut Rng) -> (Piece, u8, u64) {
    match rng.below(9) {
        0 => (piece(0xBC, &[]), 8, 16),
        1 => (piece(0xBC, &[0xE1, 0xFF, 0, 0, 0, 0]), 7, 16),
        2 => (
            piece(0xBC, &[0xE0, 0xFF, 0, 0, 0, 4, 0x0A, 0xC1, 0, 0]),
            12,
            22,
        ),
        3 => (piece(0xBC, &[0xE0, 0xFF, 0, 3, 0x41, 1, 9, 0, 0]), 9, 20),
        4 => (piece(0xFC, &flt_payload(1, 1_001, &[])), 14, 16),
        5 => (piece(0xFC, &flt_payload(0, 0, &[])), 15, 16),
        6 => {
            let n = rng.below(4) * 4;
            let kind = rng.pick(&[0xBF, 0xFC]);
            let n = if kind == 0xFC { n.min(4) } else { n };
            (piece(kind, &rng.bytes(n)), 8, 16)
        }
        7 => {
            let (wrong, place) = wrong_map(&tracks(rng), rng);
            (wrong, 29, place)
        }
        // ID over 63, in a media packet of any type: the packet's own offset
        _ => {
            let kind = rng.byte();
            let id = edge_id(rng).max(64);
            (
                piece(0xBF, &media_payload(kind, id, 0, [0, 0], 0, &[])),
                12,
                0,
            )
        }
    }
}

pub fn check_content(rng: &mut Rng) -> Made {
    let mut stream = good(rng);
    let (bad, number, inside) = bad_content(rng);
    let at = if bad.kind == 0xBC {
        rng.below(stream.pieces.len())
    } else {
        1 + rng.below(stream.eos())
    };
    // a follower of a late FLT would be 19 only after its content; content comes first
    stream.pieces.insert(at, bad);
    let place = stream.offset(at) + inside;
    (ask(&stream), refused(number, place))
}

/// Puts a map in the first one's place, or anywhere before the EOS; gives its number.
fn put_map(rng: &mut Rng, stream: &mut Stream, map: Piece) -> usize {
    if rng.chance(1, 3) {
        stream.pieces[0] = map;
        return 0;
    }
    let at = 1 + rng.below(stream.eos());
    stream.pieces.insert(at, map);
    at
}

/// A stream whose first map or a later one has a wrong form, and the place of its item; what stands behind that map may have one
/// too, or be cut off.
pub fn wrong_form_stream(rng: &mut Rng) -> (Stream, Vec<u8>, u64) {
    let mut stream = good(rng);
    let (wrong, place) = wrong_map(&stream.tracks, rng);
    let at = put_map(rng, &mut stream, wrong);
    if rng.chance(1, 4) {
        let (again, _) = wrong_map(&stream.tracks, rng);
        let behind = at + 1 + rng.below(stream.pieces.len() - at);
        stream.pieces.insert(behind, again);
    }
    let mut bytes = stream.bytes();
    if rng.chance(1, 4) {
        let end = stream.offset(at + 1) as usize;
        bytes.truncate(end + rng.below(bytes.len() - end + 1));
    }
    let place = stream.offset(at) + place;
    (stream, bytes, place)
}

/// A stream that passes, one map of which has a wrong form beside a null name.
pub fn null_name_stream(rng: &mut Rng) -> Stream {
    let mut stream = plain(rng, false);
    let mut model = map_model(&stream.tracks, rng);
    let i = rng.below(model.tracks.len());
    maps::set_wrong_form(rng, &mut model.tracks[i]);
    maps::set_null_name(rng, &mut model.tracks[i]);
    put_map(rng, &mut stream, map_piece(&model));
    stream
}

pub fn check_form(rng: &mut Rng) -> Made {
    if rng.chance(1, 4) {
        let stream = null_name_stream(rng);
        return (ask(&stream), stream.ok());
    }
    let (_, bytes, place) = wrong_form_stream(rng);
    (Request::new(CHECK, &[], &[&bytes]), refused(29, place))
}

/// Two faults at one packet: content before 19, 19 before 20, 19 and 20 before 22, 20 before 18 and 21.
pub fn check_pair(rng: &mut Rng) -> Made {
    let tracks = tracks(rng);
    let mut pieces = vec![map(&tracks, rng)];
    let unlisted = |rng: &mut Rng| media(tracks[0].1, 40, 0, rng);
    let fill = |pieces: &mut Vec<Piece>, n: usize, rng: &mut Rng| {
        while pieces.len() < n {
            pieces.push(any_media(&tracks, rng));
        }
    };
    let (number, inside) = match rng.below(6) {
        // the content of a second FLT
        0 => {
            pieces.push(flt(rng));
            pieces.push(piece(0xFC, &flt_payload(0, 0, &[])));
            (15, 16)
        }
        // a late FLT's follower is unlisted media
        1 => {
            fill(&mut pieces, 2, rng);
            pieces.push(flt(rng));
            let wrong = unlisted(rng);
            pieces.push(wrong);
            (19, 0)
        }
        // 19 on the hundredth
        2 => {
            fill(&mut pieces, 99, rng);
            pieces.push(flt(rng));
            let wrong = unlisted(rng);
            pieces.push(wrong);
            (19, 0)
        }
        // 20 before 22
        3 => {
            fill(&mut pieces, 100, rng);
            let wrong = unlisted(rng);
            pieces.push(wrong);
            (20, 0)
        }
        // EOS as the hundredth, with bytes after it and no UMF
        4 => {
            fill(&mut pieces, 100, rng);
            let end = eos(rng);
            pieces.push(end);
            (20, 0)
        }
        // EOS behind a late FLT is no 19; then 21
        _ => {
            fill(&mut pieces, 3, rng);
            pieces.push(flt(rng));
            let end = eos(rng);
            pieces.push(end);
            (21, 0)
        }
    };
    let at = pieces.len() - 1;
    let stream = Stream {
        pieces,
        tracks: tracks.clone(),
    };
    let mut bytes = stream.bytes();
    if number != 21 && rng.chance(1, 2) {
        let n = rng.below(20);
        bytes.extend(rng.bytes(n));
    }
    (
        Request::new(CHECK, &[], &[&bytes]),
        refused(number, stream.offset(at) + inside),
    )
}

/// Empty streams, first packets that are no map, torn first packets.
pub fn check_first(rng: &mut Rng) -> Made {
    let mut stream = good(rng);
    match rng.below(4) {
        0 if rng.chance(1, 4) => (Request::new(CHECK, &[], &[&[][..]]), refused(17, 0)),
        // a whole first packet that is no map, its content bad or not
        0 | 1 => {
            let first = match rng.below(4) {
                0 => umf(rng),
                1 => eos(rng),
                2 => other(rng),
                _ => piece(rng.pick(&[0xBF, 0xFC]), &[]),
            };
            stream.pieces.insert(0, first);
            (ask(&stream), refused(17, 0))
        }
        2 => {
            let mut bytes = stream.bytes();
            let cut = 1 + rng.below(15);
            bytes.truncate(cut);
            (Request::new(CHECK, &[], &[&bytes]), refused(1, 0))
        }
        // header faults of the first packet come before 17
        _ => {
            let mut bytes = stream.bytes();
            bytes[5] = rng.byte();
            let claim = match rng.below(4) {
                0 => {
                    bytes[rng.pick(&[0, 1, 2, 3, 4])] ^= 0x10;
                    refused(2, 0)
                }
                1 => {
                    bytes[14 + rng.below(2)] ^= 0x01;
                    refused(3, 0)
                }
                2 => {
                    bytes[9] |= 1;
                    refused(4, 0)
                }
                // 2^31 bytes more, of which those behind the packet are there
                _ => {
                    bytes[6] = 0x80;
                    let behind = bytes.len() - stream.offset(1) as usize;
                    torn(0, 0x8000_0000 - behind)
                }
            };
            (Request::new(CHECK, &[], &[&bytes]), claim)
        }
    }
}

/// A good stream, and its bytes up to a packet that is torn: one of its own, or one that takes in all that stands behind it.
/// Gives which packet it is and how many bytes it lacks.
pub fn torn_stream(rng: &mut Rng) -> (Stream, Vec<u8>, usize, usize) {
    let stream = good(rng);
    let i = rng.below(stream.pieces.len());
    let mut bytes = stream.bytes();
    let mut packet = bytes.split_off(stream.offset(i) as usize);
    if rng.chance(1, 2) {
        packet.truncate(stream.pieces[i].bytes.len());
    }
    let lacking = tear(rng, &mut packet);
    bytes.extend(packet);
    (stream, bytes, i, lacking)
}

pub fn check_torn(rng: &mut Rng) -> Made {
    let (stream, bytes, i, lacking) = torn_stream(rng);
    let claim = torn(stream.offset(i), lacking);
    (Request::new(CHECK, &[], &[&bytes]), claim)
}

/// Packets moved, doubled, dropped, and bytes damaged.
fn stirred(rng: &mut Rng) -> Vec<u8> {
    let mut stream = good(rng);
    for _ in 0..rng.below(4) {
        let n = stream.pieces.len();
        match rng.below(4) {
            0 => {
                stream.pieces.remove(rng.below(n));
            }
            1 => {
                let again = stream.pieces[rng.below(n)].clone();
                stream.pieces.insert(rng.below(n + 1), again);
            }
            2 => stream.pieces.swap(rng.below(n), rng.below(n)),
            _ => {
                let tracks = tracks(rng);
                let more = match rng.below(4) {
                    0 => flt(rng),
                    1 => map(&tracks, rng),
                    2 => any_media(&tracks, rng),
                    _ => other(rng),
                };
                stream.pieces.insert(rng.below(n + 1), more);
            }
        }
        if stream.pieces.is_empty() {
            break;
        }
    }
    let mut bytes = stream.bytes();
    for _ in 0..rng.below(3) {
        damage(rng, &mut bytes);
    }
    bytes
}

pub fn check_damage(rng: &mut Rng) -> Made {
    let bytes = stirred(rng);
    (Request::new(CHECK, &[], &[&bytes]), None)
}

/// Whether a packet or record of this track and number, doubled or not, carries a field: its own, or either of its pair.
pub fn carries((id, stated): (u8, u32), doubled: bool, track: u64, field: u64) -> bool {
    let stated = u64::from(stated);
    let is_in_pair = doubled && field / 2 == stated / 2;
    u64::from(id) == track && (field == stated || is_in_pair)
}

/// The first packet that carries the field, told from the pieces.
pub fn carrier(stream: &Stream, track: u64, field: u64) -> Option<u64> {
    let does = |i: &usize| {
        let stated = stream.pieces[*i].carries;
        stated.is_some_and(|stated| carries(stated, stream.doubled(*i), track, field))
    };
    let i = (0..stream.pieces.len()).find(does)?;
    Some(stream.offset(i))
}

/// A track and a field: carried by a packet or record of this track and number, doubled or not; or near one that is.
pub fn ask_of(rng: &mut Rng, stated: (u8, u32), doubled: bool, near: bool) -> (u64, u64) {
    let (id, field) = (u64::from(stated.0), u64::from(stated.1));
    if !near {
        let above = u64::from(doubled && rng.chance(1, 2));
        return (id, field + above);
    }
    match rng.below(8) {
        0 => (
            id + rng.pick(&[64, 128, 192, 256, 65_536, 1 << 32, 1 << 63]),
            field,
        ),
        1 => (id, field + (1 << 32)),
        2 => (id, field | 1 << 63),
        3 => (id, field + 1),
        4 => (id, field.wrapping_sub(1)),
        5 => (id, (field + rng.pick(&[1, 2])) % (1 << 32)), // the last one is followed by 0 or 1
        6 => (rng.below(65) as u64, field),
        _ => (rng.edge(), rng.edge()),
    }
}

/// A track and a field: the odd number of a pair, or one beside a number that is stated, where 0 is beside the last one.
pub fn ask_odd(rng: &mut Rng, (id, stated): (u8, u32)) -> (u64, u64) {
    let field = u64::from(stated);
    let asked = match rng.below(6) {
        0..=2 => field | 1,
        3 => field + 1,
        4 => u64::from(stated.wrapping_add(1)),
        _ => field.wrapping_sub(1),
    };
    (u64::from(id), asked)
}

/// The media packets of known type.
fn known(stream: &Stream) -> Vec<usize> {
    let all = 0..stream.pieces.len();
    all.filter(|i| stream.pieces[*i].carries.is_some())
        .collect()
}

/// A track and a field: carried by some packet, or near one that is.
pub fn question(rng: &mut Rng, stream: &Stream, near: bool) -> (u64, u64) {
    let carried = known(stream);
    if carried.is_empty() {
        return (rng.below(66) as u64, rng.edge());
    }
    let i = rng.pick(&carried);
    let stated = stream.pieces[i].carries.expect("it is of known type");
    ask_of(rng, stated, stream.doubled(i), near)
}

fn seek(rng: &mut Rng, stream: &Stream, near: bool) -> Made {
    let asked = question(rng, stream, near);
    seek_for(stream, asked)
}

fn seek_for(stream: &Stream, (track, field): (u64, u64)) -> Made {
    let claim = match carrier(stream, track, field) {
        Some(at) => Some(format!("at {at}")),
        None => refused(16, 0),
    };
    (
        Request::new(SEEK, &[track, field], &[&stream.bytes()]),
        claim,
    )
}

pub fn seek_found(rng: &mut Rng) -> Made {
    let stream = good(rng);
    seek(rng, &stream, false)
}

pub fn seek_asked(rng: &mut Rng) -> Made {
    let stream = good(rng);
    seek(rng, &stream, true)
}

pub fn seek_odd(rng: &mut Rng) -> Made {
    let stream = odd_stream(rng);
    let i = rng.pick(&known(&stream));
    let stated = stream.pieces[i].carries.expect("it is of known type");
    let asked = ask_odd(rng, stated);
    seek_for(&stream, asked)
}

pub fn seek_damage(rng: &mut Rng) -> Made {
    let bytes = stirred(rng);
    let track = rng.pick(&[0, 1, 2, 3, 17, 62, 63, 64]);
    let field = u64::from(field(rng));
    (Request::new(SEEK, &[track, field], &[&bytes]), None)
}

/// A field that stands before the map is not given either.
pub fn seek_form(rng: &mut Rng) -> Made {
    if rng.chance(1, 4) {
        let stream = null_name_stream(rng);
        return seek(rng, &stream, false);
    }
    let (stream, bytes, place) = wrong_form_stream(rng);
    let (track, field) = question(rng, &stream, false);
    let request = Request::new(SEEK, &[track, field], &[&bytes]);
    (request, refused(29, place))
}

/// A field that stands before the torn packet is not given either.
pub fn seek_torn(rng: &mut Rng) -> Made {
    let (stream, bytes, i, lacking) = torn_stream(rng);
    let (track, field) = question(rng, &stream, false);
    let claim = torn(stream.offset(i), lacking);
    (Request::new(SEEK, &[track, field], &[&bytes]), claim)
}

pub fn damaged_bytes(rng: &mut Rng) -> Vec<u8> {
    stirred(rng)
}

fn walk(bytes: &[u8], n: u64, claim: Option<String>) -> Made {
    (Request::new(WALK, &[n], &[bytes]), claim)
}

/// A walker over any packets, EOS no end, bad content no fault, and past the last byte.
pub fn walk_stream(rng: &mut Rng) -> Made {
    let mut stream = good(rng);
    for _ in 0..rng.below(3) {
        let bad = bad_content(rng).0;
        let at = rng.below(stream.pieces.len() + 1);
        stream.pieces.insert(at, bad);
    }
    if rng.chance(1, 3) {
        stream.pieces.extend(good(rng).pieces);
    }
    let n = rng.below(stream.pieces.len() + 4);
    let mut claim = "walk".to_string();
    let mut place = 0;
    for i in 0..n {
        if let Some(piece) = stream.pieces.get(i) {
            place += piece.bytes.len();
            claim += &format!(" packet {} {} {place}", piece.kind, piece.bytes.len());
        } else {
            claim += &format!(" refused 1 {place} {place}");
        }
    }
    walk(&stream.bytes(), n as u64, Some(claim))
}

pub fn walk_damage(rng: &mut Rng) -> Made {
    let bytes = if rng.chance(1, 6) {
        let n = rng.below(40);
        rng.bytes(n)
    } else {
        stirred(rng)
    };
    let n = rng.below(14) as u64;
    walk(&bytes, n, None)
}

/// Up to the torn packet, and some steps that do not pass it.
pub fn walk_torn(rng: &mut Rng) -> Made {
    let (stream, bytes, i, lacking) = torn_stream(rng);
    let stays = 1 + rng.below(3);
    let mut claim = "walk".to_string();
    for (k, piece) in stream.pieces[..i].iter().enumerate() {
        let (kind, length) = (piece.kind, piece.bytes.len());
        claim += &format!(" packet {kind} {length} {}", stream.offset(k + 1));
    }
    let place = stream.offset(i);
    claim += &format!(" refused 5 {place} {lacking} {place}").repeat(stays);
    walk(&bytes, (i + stays) as u64, Some(claim))
}
