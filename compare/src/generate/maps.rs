//! Maps: a model that is put together with true lengths, its answer told from the model, and faults with their places.

use super::packets::{
    damage, known_type, lend, lend_torn, packet, refused, state_length, tear, torn, true_length,
    DV_TYPES, KNOWN_TYPES, MPEG_TYPES, RESERVED_TYPES,
};
use super::{texts, Made};
use crate::request::{hex, Request, MAP, NAME, NAME_OF_TWO};
use crate::rng::Rng;

/// An item; `length` is what its length byte says, `lone` leaves all but the tag out.
#[derive(Clone)]
pub struct Item {
    pub tag: u8,
    pub length: u8,
    pub value: Vec<u8>,
    pub lone: bool,
    /// Of a 4F: the aspect that its text was made to say, none where it is no text of Table 7.
    pub said: Option<u8>,
}

impl Item {
    pub fn new(tag: u8, value: &[u8]) -> Self {
        Item {
            tag,
            length: value.len() as u8,
            value: value.to_vec(),
            lone: false,
            said: None,
        }
    }

    /// A 4F that was made to say this aspect.
    fn text(value: &[u8], said: Option<u8>) -> Self {
        let plain = Item::new(0x4F, value);
        Item { said, ..plain }
    }

    fn put(&self, bytes: &mut Vec<u8>) {
        bytes.push(self.tag);
        if !self.lone {
            bytes.push(self.length);
            bytes.extend(&self.value);
        }
    }
}

#[derive(Clone)]
pub struct Track {
    pub type_byte: u8,
    pub id_byte: u8,
    pub items: Vec<Item>,
    /// Added to the true length in the header.
    pub overhang: u16,
}

impl Track {
    pub fn kind(&self) -> u8 {
        self.type_byte.wrapping_sub(0x80)
    }

    pub fn id(&self) -> u8 {
        self.id_byte.wrapping_sub(0xC0)
    }

    pub fn listed(&self) -> bool {
        self.type_byte >= 0x80 && KNOWN_TYPES.contains(&self.kind())
    }

    fn null_name(&self) -> bool {
        let null = |item: &Item| item.tag == 0x4C && item.value == [0];
        self.items.iter().any(null)
    }

    /// Whether its item 52 says fields per frame 1; a null name does not hide it (02, §2).
    pub fn progressive(&self) -> bool {
        let one = |item: &Item| item.tag == 0x52 && item.value == [0, 0, 0, 1];
        self.items.iter().any(one)
    }

    /// Which item has the form that may not stand in this track, its items being good by themselves (02, §12).
    pub fn wrong_item(&self) -> Option<usize> {
        let forms = forms(self.kind(), self.null_name());
        let wrong = |item: &Item| matches!(item.tag, 0x4D | 0x4F) && !forms.contains(&item.tag);
        self.items.iter().position(wrong)
    }

    /// The aspect of a listed track whose items are good, none for unknown: what its 4F was made to say, or bits of its 4D (02, §11).
    pub fn aspect(&self) -> Option<u8> {
        if self.null_name() {
            return None;
        }
        let of = |tag: u8| self.items.iter().find(|item| item.tag == tag);
        match self.kind() {
            13 | 14 => marked(&of(0x4D)?.value, 0x10),
            15 | 16 => marked(&of(0x4D)?.value, 0x01),
            kind if MPEG_TYPES.contains(&kind) => of(0x4F)?.said,
            _ => None,
        }
    }
}

/// Whether this bit of byte 0 is set, if byte 3 says that the 4D is valid.
fn marked(binary: &[u8], mask: u8) -> Option<u8> {
    let valid = (0x40..=0x7F).contains(&binary[3]);
    valid.then_some(u8::from(binary[0] & mask != 0))
}

/// The auxiliary forms of which one may stand in a track of this type; either, where the track is not listed or its name is null.
fn forms(kind: u8, null_name: bool) -> &'static [u8] {
    if null_name || !KNOWN_TYPES.contains(&kind) {
        &[0x4D, 0x4F]
    } else if MPEG_TYPES.contains(&kind) {
        &[0x4F]
    } else {
        &[0x4D]
    }
}

#[derive(Clone)]
pub struct Model {
    pub version: u8,
    pub second: u8,
    pub material: Vec<Item>,
    pub tracks: Vec<Track>,
    /// Bytes inside the track section, behind the last track.
    pub section_tail: Vec<u8>,
    /// Bytes behind the track section.
    pub fill: Vec<u8>,
    pub material_overhang: u16,
    pub tracks_overhang: u16,
}

/// Where the parts of a packet begin.
pub struct Layout {
    pub material: Vec<usize>,
    pub track_word: usize,
    pub tracks: Vec<(usize, Vec<usize>)>,
    pub end: usize,
}

impl Model {
    pub fn empty() -> Self {
        Model {
            version: 0xE0,
            second: 0xFF,
            material: Vec::new(),
            tracks: Vec::new(),
            section_tail: Vec::new(),
            fill: Vec::new(),
            material_overhang: 0,
            tracks_overhang: 0,
        }
    }

    /// The packet, with true lengths but for the overhangs, and where its parts stand.
    pub fn encode(&self) -> (Vec<u8>, Layout) {
        let mut payload = vec![self.version, self.second];
        let mut layout = Layout {
            material: Vec::new(),
            track_word: 0,
            tracks: Vec::new(),
            end: 0,
        };
        let mut section = Vec::new();
        for item in &self.material {
            layout.material.push(20 + section.len());
            item.put(&mut section);
        }
        let length = (section.len() as u16).wrapping_add(self.material_overhang);
        payload.extend(length.to_be_bytes());
        payload.extend(&section);
        layout.track_word = 16 + payload.len();
        let mut section = Vec::new();
        for track in &self.tracks {
            let start = layout.track_word + 2 + section.len();
            let mut items = Vec::new();
            let mut places = Vec::new();
            for item in &track.items {
                places.push(start + 4 + items.len());
                item.put(&mut items);
            }
            section.extend([track.type_byte, track.id_byte]);
            let length = (items.len() as u16).wrapping_add(track.overhang);
            section.extend(length.to_be_bytes());
            section.extend(items);
            layout.tracks.push((start, places));
        }
        layout.end = layout.track_word + 2 + section.len();
        section.extend(&self.section_tail);
        let length = (section.len() as u16).wrapping_add(self.tracks_overhang);
        payload.extend(length.to_be_bytes());
        payload.extend(&section);
        payload.extend(&self.fill);
        (packet(0xBC, &payload), layout)
    }

    pub fn bytes(&self) -> Vec<u8> {
        self.encode().0
    }

    pub fn count(&self) -> usize {
        self.tracks.iter().filter(|track| track.listed()).count()
    }

    /// The place of the first wrong form, of a model that is valid but for those.
    pub fn wrong_form(&self) -> Option<usize> {
        let i = self.tracks.iter().position(|t| t.wrong_item().is_some())?;
        Some(self.encode().1.tracks[i].1[self.tracks[i].wrong_item()?])
    }

    /// The line of a model that is valid, wrong forms aside, with n lent records: 29 comes before 13.
    pub fn line_or_29(&self, n: usize) -> String {
        match self.wrong_form() {
            Some(place) => format!("refused 29 {place}") + &" kept".repeat(n),
            None => self.line(n),
        }
    }

    /// The line of a valid model with n lent records, told from the model alone.
    pub fn line(&self, n: usize) -> String {
        let count = self.count();
        if n < count {
            return "refused 13 0".to_string() + &" kept".repeat(n);
        }
        let (_, layout) = self.encode();
        let place = |items: &[Item], places: &[usize], tag: u8| {
            let i = items.iter().position(|item| item.tag == tag)?;
            Some((places[i] + 2, items[i].value.clone()))
        };
        let span = |found: Option<(usize, Vec<u8>)>| match found {
            None => "-".to_string(),
            Some((place, value)) => format!("{place} {}", value.len()),
        };
        let number = |found: Option<(usize, Vec<u8>)>| match found {
            None => "-".to_string(),
            Some((_, v)) => u32::from_be_bytes([v[0], v[1], v[2], v[3]]).to_string(),
        };
        let code = |found: Option<(usize, Vec<u8>)>, listed: &str| match found {
            None => "-".to_string(),
            Some((_, v)) => {
                let code = i32::from_be_bytes([v[0], v[1], v[2], v[3]]).to_string();
                if listed.split(' ').any(|known| known == code) {
                    code
                } else {
                    "-".to_string()
                }
            }
        };
        let head = |tag: u8| place(&self.material, &layout.material, tag);
        let mut line = format!("map {count} {}", span(head(0x40)));
        for tag in 0x41..=0x45 {
            line += &format!(" {}", number(head(tag)));
        }
        for (track, (_, places)) in self.tracks.iter().zip(&layout.tracks) {
            if !track.listed() {
                continue;
            }
            let of = |tag: u8| place(&track.items, places, tag);
            let null = of(0x4C).is_some_and(|(_, value)| value == [0]);
            let shown = |tag: u8| if null { None } else { of(tag) };
            line += &format!(
                " record {} {} {} {} {} {} {} {} {} {}",
                track.id(),
                track.kind(),
                code(of(0x50), "1 2 3 4 5 6 7 8 -1 -2"),
                code(of(0x51), "1 2 4 6 -1 -2"),
                code(of(0x52), "1 2 -1 -2"),
                number(shown(0x4E)),
                span(of(0x4C)),
                span(shown(0x4D)),
                span(shown(0x4F)),
                track.aspect().map_or("-".to_string(), |n| n.to_string())
            );
        }
        line + &" kept".repeat(n - count)
    }

    /// The model with everything reserved struck out (D20).
    pub fn struck(&self) -> Model {
        let mut model = self.clone();
        model.fill.clear();
        model
            .material
            .retain(|item| (0x40..=0x45).contains(&item.tag));
        model.tracks.retain(Track::listed);
        for track in &mut model.tracks {
            track.items.retain(|item| {
                let v = &item.value;
                let code = || i32::from_be_bytes([v[0], v[1], v[2], v[3]]);
                match item.tag {
                    0x4C..=0x4F => true,
                    0x50 => matches!(code(), 1..=8 | -1 | -2),
                    0x51 => matches!(code(), 1 | 2 | 4 | 6 | -1 | -2),
                    0x52 => matches!(code(), 1 | 2 | -1 | -2),
                    _ => false,
                }
            });
        }
        model
    }
}

/// A good text with its 00.
pub fn text(rng: &mut Rng) -> Vec<u8> {
    let n = match rng.below(30) {
        0 => 254,
        1 => 253,
        2 => 127 + rng.below(3),
        _ => rng.below(10),
    };
    let mut text: Vec<u8> = (0..n)
        .map(|_| {
            if rng.chance(1, 8) {
                rng.pick(&[0x01, 0x7F, 0x0A, 0x20])
            } else {
                0x21 + rng.below(0x5E) as u8
            }
        })
        .collect();
    text.push(0);
    text
}

/// A text that breaks the rule in one way.
fn bad_text(rng: &mut Rng) -> Vec<u8> {
    let mut bad = text(rng);
    if bad.len() == 255 {
        bad.remove(0); // room for one byte more
    }
    let i = rng.below(bad.len());
    let last = bad.len() - 1;
    match rng.below(6) {
        0 => bad.clear(),
        1 => bad[last] = 0x41,
        2 => bad.insert(i, 0x00), // a second 00, before the last byte
        3 => bad.insert(i, rng.pick(&[0x80, 0xFF, 0xC1])),
        4 => bad = b"\0A\0".to_vec(),
        _ => bad[last] = 0x80,
    }
    bad
}

fn code(rng: &mut Rng, listed: &[i32], newer: bool) -> [u8; 4] {
    let value = match rng.below(4) {
        0 => rng.pick(&[-1, -2]),
        1 if newer => rng.pick(&[
            0,
            3,
            5,
            7,
            8,
            9,
            10,
            255,
            -3,
            -128,
            256 + 1,
            i32::MAX,
            i32::MIN,
        ]),
        _ => rng.pick(listed),
    };
    value.to_be_bytes()
}

const UNKNOWN_IN_MATERIAL: [u8; 14] = [
    0x00, 0x3F, 0x46, 0x47, 0x48, 0x4B, 0x4C, 0x4D, 0x4F, 0x50, 0x52, 0x7E, 0xC1, 0xFF,
];
const UNKNOWN_IN_TRACK: [u8; 12] = [
    0x00, 0x3F, 0x40, 0x41, 0x45, 0x46, 0x4B, 0x53, 0x54, 0x7E, 0xC0, 0xFF,
];

fn unknown(rng: &mut Rng, tags: &[u8]) -> Item {
    let n = match rng.below(20) {
        0 => 255,
        1 => 0,
        _ => rng.below(9),
    };
    let tag = rng.pick(tags);
    Item::new(tag, &rng.bytes(n))
}

fn spread_unknown(rng: &mut Rng, items: &mut Vec<Item>, tags: &[u8]) {
    for _ in 0..rng.below(4) {
        let i = rng.below(items.len() + 1);
        let item = unknown(rng, tags);
        items.insert(i, item);
    }
}

/// The eight bytes of a 4D, as DV tracks have them (Tables 8 and 9): any validity, mostly 1; either aspect bit set or not; the
/// others none, all or any.
pub fn binary(rng: &mut Rng) -> Vec<u8> {
    let mut bytes = match rng.below(4) {
        0 => vec![0; 8],
        1 => vec![0xFF; 8],
        _ => rng.bytes(8),
    };
    let validity = rng.pick(&[1, 1, 1, 1, 0, 2, 3]);
    bytes[3] = bytes[3] & 0x3F | validity << 6;
    bytes[0] = bytes[0] & 0xEE | rng.pick(&[0x00, 0x01, 0x10, 0x11]);
    bytes
}

/// Auxiliary information: 4D or 4F; a text is mostly one of Table 7, or near it.
pub fn form(rng: &mut Rng, tag: u8) -> Item {
    if tag == 0x4D {
        Item::new(0x4D, &binary(rng))
    } else if rng.chance(7, 8) {
        let (text, said) = texts::for_item(rng);
        Item::text(&text, said)
    } else {
        Item::new(0x4F, &text(rng))
    }
}

/// At times a name, at times auxiliary information in a form that may stand beside it.
pub fn name_and_form(rng: &mut Rng, kind: u8, named: usize, formed: usize) -> Vec<Item> {
    let mut items = Vec::new();
    let mut null = false;
    if rng.chance(named, 4) {
        let name = if rng.chance(1, 5) { vec![0] } else { text(rng) };
        null = name == [0];
        items.push(Item::new(0x4C, &name));
    }
    if rng.chance(formed, 4) {
        let tag = rng.pick(forms(kind, null));
        items.push(form(rng, tag));
    }
    items
}

/// The items of a track of this type, each known tag at most once, in any order.
fn track_items(rng: &mut Rng, kind: u8, newer: bool) -> Vec<Item> {
    let mut items = name_and_form(rng, kind, 3, 2);
    if rng.chance(1, 2) {
        items.push(Item::new(0x4E, &rng.edge32().to_be_bytes()));
    }
    if rng.chance(1, 2) {
        items.push(Item::new(
            0x50,
            &code(rng, &[1, 2, 3, 4, 5, 6, 7, 8], newer),
        ));
    }
    if rng.chance(1, 2) {
        items.push(Item::new(0x51, &code(rng, &[1, 2, 4, 6], newer)));
    }
    if rng.chance(1, 2) {
        items.push(Item::new(0x52, &code(rng, &[1, 2], newer)));
    }
    if rng.chance(1, 2) {
        rng.shuffle(&mut items);
    }
    if newer {
        spread_unknown(rng, &mut items, &UNKNOWN_IN_TRACK);
    }
    items
}

fn track(rng: &mut Rng, id: u8, newer: bool) -> Track {
    let kind = if newer && rng.chance(1, 4) {
        rng.pick(&RESERVED_TYPES)
    } else {
        known_type(rng)
    };
    Track {
        type_byte: 0x80 + kind,
        id_byte: id.wrapping_add(0xC0),
        items: track_items(rng, kind, newer),
        overhang: 0,
    }
}

/// A map that is accepted; with `newer`, one that holds what this paper reserves.
pub fn valid(rng: &mut Rng, newer: bool) -> Model {
    let mut model = Model::empty();
    if rng.chance(1, 2) {
        model.material.push(Item::new(0x40, &text(rng)));
    }
    for tag in 0x41..=0x45 {
        if rng.chance(1, 2) {
            model
                .material
                .push(Item::new(tag, &rng.edge32().to_be_bytes()));
        }
    }
    if rng.chance(1, 2) {
        rng.shuffle(&mut model.material);
    }
    if newer {
        model.second = rng.byte();
        spread_unknown(rng, &mut model.material, &UNKNOWN_IN_MATERIAL);
        if rng.chance(1, 3) {
            let n = rng.below(12);
            model.fill = rng.bytes(n);
        }
    }
    let mut ids: Vec<u8> = match rng.below(40) {
        0 => (0..64).collect(),
        1 => (20..64).collect(),
        _ => (0..8).chain(60..64).collect(),
    };
    rng.shuffle(&mut ids);
    let most = if ids.len() > 40 {
        ids.len()
    } else {
        rng.below(5)
    };
    for id in ids.into_iter().take(most) {
        let track = track(rng, id, newer);
        model.tracks.push(track);
    }
    if newer && rng.chance(1, 300) {
        // a section near its 16-bit limit
        let big = Item::new(0x7E, &[0x55; 255]);
        let into = if rng.chance(1, 2) || model.tracks.is_empty() {
            &mut model.material
        } else {
            &mut model.tracks[0].items
        };
        for _ in 0..150 {
            into.push(big.clone());
        }
    }
    model
}

fn ask(rng: &mut Rng, packet: &[u8], n: usize) -> Request {
    let (at, lent) = lend(rng, packet);
    Request::new(MAP, &[at, n as u64], &[&lent])
}

fn plain(rng: &mut Rng, newer: bool) -> Made {
    let model = valid(rng, newer);
    let n = (model.count() + rng.below(3)).min(80);
    (ask(rng, &model.bytes(), n), Some(model.line(n)))
}

pub fn map_valid(rng: &mut Rng) -> Made {
    plain(rng, false)
}

pub fn map_newer(rng: &mut Rng) -> Made {
    plain(rng, true)
}

/// Too few records, just enough, more.
pub fn map_records(rng: &mut Rng) -> Made {
    let model = valid(rng, true);
    let n = match rng.below(4) {
        0 => 0,
        1 => model.count().saturating_sub(1),
        2 => model.count(),
        _ => rng.below(81),
    };
    (ask(rng, &model.bytes(), n), Some(model.line(n)))
}

/// A good track of an ID that no track has, if there is one.
fn fresh_track(rng: &mut Rng, model: &Model) -> Track {
    let used: Vec<u8> = model.tracks.iter().map(Track::id).collect();
    let free = (0..64).find(|id| !used.contains(id)).unwrap_or(0);
    track(rng, free, true)
}

/// A track to work on: one that is there, or a new one.
fn some_track(rng: &mut Rng, model: &mut Model) -> usize {
    if model.tracks.is_empty() || (model.tracks.len() < 12 && rng.chance(1, 4)) {
        let fresh = fresh_track(rng, model);
        model.tracks.push(fresh);
        return model.tracks.len() - 1;
    }
    rng.below(model.tracks.len())
}

const FIXED_IN_TRACK: [(u8, usize); 5] = [(0x4D, 8), (0x4E, 4), (0x50, 4), (0x51, 4), (0x52, 4)];

/// A fixed-size item of another size.
fn missized(rng: &mut Rng, tag: u8, size: usize) -> Item {
    let mut n = rng.pick(&[0, 1, 3, 4, 5, 7, 8, 9, 255]);
    if n == size {
        n += 1;
    }
    Item::new(tag, &rng.bytes(n))
}

/// Sets the form that its type may not have into a track, which gets a known type if it has none, and loses a null name; gives
/// the item's number.
pub fn set_wrong_form(rng: &mut Rng, track: &mut Track) -> usize {
    if !track.listed() {
        track.type_byte = 0x80 + known_type(rng);
    }
    if track.null_name() {
        track.items.retain(|item| item.tag != 0x4C);
    }
    track.items.retain(|item| !matches!(item.tag, 0x4D | 0x4F));
    let wrong = match forms(track.kind(), false) {
        [0x4D] => 0x4F,
        _ => 0x4D,
    };
    let at = rng.below(track.items.len() + 1);
    track.items.insert(at, form(rng, wrong));
    at
}

/// Gives a track a null name, anywhere, in the place of its own: either form may stand beside it.
pub fn set_null_name(rng: &mut Rng, track: &mut Track) {
    track.items.retain(|item| item.tag != 0x4C);
    let at = rng.below(track.items.len() + 1);
    track.items.insert(at, Item::new(0x4C, &[0]));
}

/// One fault in a map that is good up to it; the claim is its number and place.
fn one_fault(rng: &mut Rng, model: &mut Model) -> (Vec<u8>, Option<String>) {
    let told =
        |model: &Model, number: u8, place: usize| (model.bytes(), refused(number, place as u64));
    match rng.below(19) {
        // a known tag twice, in the material section
        0 => {
            let tag = 0x40 + rng.below(6) as u8;
            let value = |rng: &mut Rng| if tag == 0x40 { text(rng) } else { rng.bytes(4) };
            model.material.retain(|item| item.tag != tag);
            let first = rng.below(model.material.len() + 1);
            let item = Item::new(tag, &value(rng));
            model.material.insert(first, item);
            let second = first + 1 + rng.below(model.material.len() - first);
            let item = Item::new(tag, &value(rng));
            model.material.insert(second, item);
            let place = model.encode().1.material[second];
            told(model, 10, place)
        }
        // a known tag twice, in a track
        1 => {
            let i = some_track(rng, model);
            let (tag, size) = rng.pick(&[
                (0x4C, 0),
                (0x4D, 8),
                (0x4E, 4),
                (0x4F, 0),
                (0x50, 4),
                (0x51, 4),
                (0x52, 4),
            ]);
            let value = |rng: &mut Rng| {
                if size == 0 {
                    text(rng)
                } else {
                    rng.bytes(size)
                }
            };
            let items = &mut model.tracks[i].items;
            items
                .retain(|item| item.tag != tag && !(tag & 0xFD == 0x4D && item.tag & 0xFD == 0x4D));
            let first = rng.below(items.len() + 1);
            items.insert(first, Item::new(tag, &value(rng)));
            let second = first + 1 + rng.below(items.len() - first);
            items.insert(second, Item::new(tag, &value(rng)));
            let place = model.encode().1.tracks[i].1[second];
            told(model, 10, place)
        }
        // 4D and 4F in one track
        2 => {
            let i = some_track(rng, model);
            let items = &mut model.tracks[i].items;
            items.retain(|item| item.tag != 0x4D && item.tag != 0x4F);
            let mut two = vec![Item::new(0x4D, &rng.bytes(8)), Item::new(0x4F, &text(rng))];
            rng.shuffle(&mut two);
            let first = rng.below(items.len() + 1);
            items.insert(first, two[0].clone());
            let second = first + 1 + rng.below(items.len() - first);
            items.insert(second, two[1].clone());
            let place = model.encode().1.tracks[i].1[second];
            told(model, 10, place)
        }
        // an ID twice, listed or not
        3 => {
            let i = some_track(rng, model);
            let mut again = track(rng, model.tracks[i].id(), true);
            if rng.chance(1, 2) {
                again.items.clear();
            }
            let j = i + 1 + rng.below(model.tracks.len() - i);
            model.tracks.insert(j, again);
            let place = model.encode().1.tracks[j].0;
            told(model, 10, place)
        }
        // bad text
        4 => {
            let i = rng.below(model.material.len() + 1);
            let item = Item::new(0x40, &bad_text(rng));
            model.material.insert(i, item);
            let place = model.encode().1.material[i];
            told(model, 11, place)
        }
        5 => {
            let i = some_track(rng, model);
            let item = Item::new(rng.pick(&[0x4C, 0x4F]), &bad_text(rng));
            let items = &mut model.tracks[i].items;
            let j = rng.below(items.len() + 1);
            items.insert(j, item);
            let place = model.encode().1.tracks[i].1[j];
            told(model, 11, place)
        }
        // another size
        6 => {
            let tag = 0x41 + rng.below(5) as u8;
            let i = rng.below(model.material.len() + 1);
            let item = missized(rng, tag, 4);
            model.material.insert(i, item);
            let place = model.encode().1.material[i];
            told(model, 9, place)
        }
        7 => {
            let i = some_track(rng, model);
            let (tag, size) = rng.pick(&FIXED_IN_TRACK);
            let item = missized(rng, tag, size);
            let items = &mut model.tracks[i].items;
            let j = rng.below(items.len() + 1);
            items.insert(j, item);
            let place = model.encode().1.tracks[i].1[j];
            told(model, 9, place)
        }
        // type under 80 or ID under C0
        8 => {
            let i = some_track(rng, model);
            if rng.chance(1, 2) {
                model.tracks[i].type_byte = rng.pick(&[0x00, 0x0A, 0x7F, 0x03]);
            } else {
                model.tracks[i].id_byte = rng.pick(&[0x00, 0x01, 0x7F, 0x80, 0xBF]);
            }
            let place = model.encode().1.tracks[i].0;
            told(model, 12, place)
        }
        // version
        9 => {
            model.version = rng.pick(&[0x00, 0xE1, 0xFF, 0xE0 ^ 0x80, 0xC0]);
            told(model, 7, 16)
        }
        // payload under 2 bytes
        10 => (packet(0xBC, &[]), refused(8, 16)),
        // the material section passes the packet
        11 => {
            model.fill.clear();
            let over = model.bytes().len() - 20 - model.encode().1.material_length();
            model.material_overhang = over as u16 + 1 + rng.below(9) as u16;
            told(model, 8, 18)
        }
        // no room for the track length word: the section ends 0 or 1 byte before the packet's end
        12 => {
            model.tracks.clear();
            model.fill.clear();
            let spare = rng.below(2);
            model.material.push(Item::new(0x7E, &[]));
            let last = model.material.len() - 1;
            let ends = model.encode().1.track_word + spare;
            let n = (4 - ends % 4) % 4;
            model.material[last] = Item::new(0x7E, &rng.bytes(n));
            let word = model.encode().1.track_word;
            let mut bytes = model.bytes();
            bytes.truncate(word + spare);
            state_length(&mut bytes, (word + spare) as u32);
            (bytes, refused(8, word as u64))
        }
        // the track section passes the packet
        13 => {
            model.fill.clear();
            let (bytes, layout) = model.encode();
            model.tracks_overhang = (bytes.len() - layout.end) as u16 + 1 + rng.below(9) as u16;
            told(model, 8, layout.track_word)
        }
        // fewer than four bytes of a track header
        14 => {
            let n = 1 + rng.below(3);
            model.section_tail = rng.bytes(n);
            let place = model.encode().1.end;
            told(model, 8, place)
        }
        // the last track passes its section
        15 => {
            let _ = some_track(rng, model);
            let last = model.tracks.len() - 1;
            model.tracks[last].overhang = rng.pick(&[1, 2, 4, 255, 0x4000]);
            let place = model.encode().1.tracks[last].0;
            told(model, 8, place)
        }
        // the wrong form
        16 | 17 => {
            let i = some_track(rng, model);
            let j = set_wrong_form(rng, &mut model.tracks[i]);
            let place = model.encode().1.tracks[i].1[j];
            told(model, 29, place)
        }
        // the last item passes its track or section, or is cut to its tag
        _ => {
            let mut item = unknown(rng, &[0x40, 0x41, 0x4C, 0x4D, 0x4E, 0x50, 0x7E]);
            if rng.chance(1, 3) {
                item.lone = true;
            } else {
                item.value.truncate(200);
                item.length = item.value.len() as u8 + 1 + rng.below(50) as u8;
            }
            if rng.chance(1, 3) {
                model.material.push(item);
                let place = *model.encode().1.material.last().unwrap();
                told(model, 8, place)
            } else {
                let i = some_track(rng, model);
                model.tracks[i].items.push(item);
                let place = *model.encode().1.tracks[i].1.last().unwrap();
                told(model, 8, place)
            }
        }
    }
}

impl Layout {
    fn material_length(&self) -> usize {
        self.track_word - 20
    }
}

pub fn map_fault(rng: &mut Rng) -> Made {
    let mut model = valid(rng, true);
    let (bytes, claim) = one_fault(rng, &mut model);
    let n = rng.below(4);
    let claim = claim.map(|claim| claim + &" kept".repeat(n));
    (ask(rng, &bytes, n), claim)
}

/// The known tags of a section with their sizes; 0 for a text.
const MATERIAL_TAGS: [(u8, usize); 6] = [
    (0x40, 0),
    (0x41, 4),
    (0x42, 4),
    (0x43, 4),
    (0x44, 4),
    (0x45, 4),
];
const TRACK_TAGS: [(u8, usize); 7] = [
    (0x4C, 0),
    (0x4D, 8),
    (0x4E, 4),
    (0x4F, 0),
    (0x50, 4),
    (0x51, 4),
    (0x52, 4),
];

/// Sets items in anywhere, in this order; gives where they stand.
fn set_in(rng: &mut Rng, items: &mut Vec<Item>, more: Vec<Item>) -> Vec<usize> {
    let mut at: Vec<usize> = more.iter().map(|_| rng.below(items.len() + 1)).collect();
    at.sort_unstable();
    for (k, item) in more.into_iter().enumerate() {
        at[k] += k;
        items.insert(at[k], item);
    }
    at
}

/// A tag twice (or 4D with 4F) and a wrong size or bad text in one section: at one item, or the one before the other.
/// The first in walk order counts, and at one item 9 and 11 come before 10.
fn beside_a_repeated_tag(rng: &mut Rng, model: &mut Model) -> (u8, usize) {
    let track = if rng.chance(1, 2) {
        Some(some_track(rng, model))
    } else {
        None
    };
    let (items, tags) = match track {
        Some(i) => (&mut model.tracks[i].items, &TRACK_TAGS[..]),
        None => (&mut model.material, &MATERIAL_TAGS[..]),
    };
    let good = |rng: &mut Rng, (tag, size): (u8, usize)| match size {
        0 => Item::new(tag, &text(rng)),
        _ => Item::new(tag, &rng.bytes(size)),
    };
    let bad = |rng: &mut Rng, (tag, size): (u8, usize)| match size {
        0 => (Item::new(tag, &bad_text(rng)), 11),
        _ => (missized(rng, tag, size), 9),
    };
    let first = rng.pick(tags);
    let again = match first.0 {
        0x4D | 0x4F => rng.pick(&[TRACK_TAGS[1], TRACK_TAGS[3]]),
        _ => first,
    };
    let other = rng.pick(tags);
    items.retain(|item| {
        !matches!(item.tag, 0x4D | 0x4F) && item.tag != first.0 && item.tag != other.0
    });
    // the items to be set in, in this order; which of them is refused, and with what
    let (more, which, number) = match rng.below(5) {
        0 => {
            let (item, number) = bad(rng, again);
            (vec![good(rng, first), item], 1, number)
        }
        1 => {
            let (item, number) = bad(rng, first);
            (vec![item, good(rng, again)], 0, number)
        }
        2 => {
            let (item, _) = bad(rng, other);
            (vec![good(rng, first), good(rng, again), item], 1, 10)
        }
        3 => {
            let (item, number) = bad(rng, other);
            (vec![good(rng, first), item, good(rng, again)], 1, number)
        }
        _ => {
            let (item, number) = bad(rng, other);
            (vec![item, good(rng, first), good(rng, again)], 0, number)
        }
    };
    let refused = set_in(rng, items, more)[which];
    let layout = model.encode().1;
    match track {
        Some(i) => (number, layout.tracks[i].1[refused]),
        None => (number, layout.material[refused]),
    }
}

/// Sets one item into a track that is refused: of another size, a bad text, or a tag once more. Gives its number and the fault's.
fn set_bad_item(rng: &mut Rng, items: &mut Vec<Item>) -> (usize, u8) {
    let known: Vec<usize> = (0..items.len())
        .filter(|k| matches!(items[*k].tag, 0x4C..=0x52))
        .collect();
    let (item, number, from) = match rng.below(3) {
        0 => {
            let (tag, size) = rng.pick(&FIXED_IN_TRACK);
            (missized(rng, tag, size), 9, 0)
        }
        1 if !known.is_empty() => {
            let first = rng.pick(&known);
            let again = match items[first].tag {
                0x4D | 0x4F => {
                    let tag = rng.pick(&[0x4D, 0x4F]);
                    form(rng, tag)
                }
                0x4C => Item::new(0x4C, &text(rng)),
                tag => Item::new(tag, &rng.bytes(4)),
            };
            (again, 10, first + 1)
        }
        _ => {
            let tag = rng.pick(&[0x4C, 0x4F]);
            (Item::new(tag, &bad_text(rng)), 11, 0)
        }
    };
    let at = from + rng.below(items.len() - from + 1);
    items.insert(at, item);
    (at, number)
}

/// A wrong form and one fault more. A fault before it or in its own track comes first; what stands behind the track comes later.
fn beside_a_wrong_form(rng: &mut Rng, model: &mut Model) -> (u8, usize) {
    model.tracks.truncate(12);
    let i = some_track(rng, model);
    let wrong = set_wrong_form(rng, &mut model.tracks[i]);
    let at = |model: &Model, i: usize, j: usize| model.encode().1.tracks[i].1[j];
    match rng.below(8) {
        // an item of its own track, before it or behind
        0 | 1 => {
            let (j, number) = set_bad_item(rng, &mut model.tracks[i].items);
            return (number, at(model, i, j));
        }
        // its track's last item passes the track
        2 => {
            let mut last = unknown(rng, &[0x4C, 0x4D, 0x4F, 0x7E]);
            last.value.truncate(200);
            last.length = last.value.len() as u8 + 1;
            last.lone = rng.chance(1, 3);
            let items = &mut model.tracks[i].items;
            items.push(last);
            let j = items.len() - 1;
            return (8, at(model, i, j));
        }
        // an item of a track before it
        3 => {
            let mut first = fresh_track(rng, model);
            let (j, number) = set_bad_item(rng, &mut first.items);
            model.tracks.insert(0, first);
            return (number, at(model, 0, j));
        }
        // a track behind it with a wrong form too, or with a bad item
        4 => {
            let mut next = fresh_track(rng, model);
            if rng.chance(2, 3) {
                set_wrong_form(rng, &mut next);
            } else {
                set_bad_item(rng, &mut next.items);
            }
            model.tracks.insert(i + 1, next);
        }
        // a header behind it: 12, 8 for overhang, 10
        5 | 6 => {
            let mut next = fresh_track(rng, model);
            match rng.below(4) {
                0 => next.type_byte &= 0x7F,
                1 => next.id_byte &= 0xBF,
                2 => next.overhang = 0x8000,
                _ => next.id_byte = model.tracks[i].id_byte,
            }
            model.tracks.insert(i + 1, next);
        }
        // bytes behind it that are no header
        _ => {
            model.tracks.truncate(i + 1);
            let n = 1 + rng.below(3);
            model.section_tail = rng.bytes(n);
        }
    }
    (29, at(model, i, wrong))
}

/// Two faults: at one place, by the order 8, 12, 8, 10 of a header and 8, 9, 11, 10 of an item; or in one section; or a wrong form and one fault more.
pub fn map_pair(rng: &mut Rng) -> Made {
    let mut model = valid(rng, true);
    let i = some_track(rng, &mut model);
    let last = model.tracks.len() - 1;
    let (number, place) = match rng.below(14) {
        // 12 before overhang
        0 => {
            model.tracks[last].type_byte &= 0x7F;
            model.tracks[last].overhang = 1 + rng.below(300) as u16;
            (12, model.encode().1.tracks[last].0)
        }
        // overhang before an ID twice
        1 => {
            let mut again = track(rng, model.tracks[i].id(), true);
            again.overhang = 1 + rng.below(300) as u16;
            model.tracks.push(again);
            (8, model.encode().1.tracks[last + 1].0)
        }
        // 12 before an ID twice
        2 => {
            let mut again = track(rng, model.tracks[i].id(), true);
            again.type_byte &= 0x7F;
            model.tracks.push(again);
            (12, model.encode().1.tracks[last + 1].0)
        }
        // another size before a tag twice
        3 => {
            let (tag, size) = rng.pick(&FIXED_IN_TRACK[1..]);
            let items = &mut model.tracks[i].items;
            items.retain(|item| item.tag != tag);
            items.push(Item::new(tag, &rng.bytes(size)));
            items.push(missized(rng, tag, size));
            (9, *model.encode().1.tracks[i].1.last().unwrap())
        }
        // bad text before 4D with 4F, or before a name twice
        4 => {
            let items = &mut model.tracks[i].items;
            items.retain(|item| !matches!(item.tag, 0x4C | 0x4D | 0x4F));
            let tag = rng.pick(&[0x4C, 0x4F]);
            if tag == 0x4C {
                items.push(Item::new(0x4C, &text(rng)));
            } else {
                items.push(Item::new(0x4D, &rng.bytes(8)));
            }
            items.push(Item::new(tag, &bad_text(rng)));
            (11, *model.encode().1.tracks[i].1.last().unwrap())
        }
        // overhang before another size, bad text and a tag twice
        5 => {
            let (tag, size) = rng.pick(&FIXED_IN_TRACK);
            let items = &mut model.tracks[i].items;
            let mut item = missized(rng, tag, size);
            item.value.truncate(100);
            item.length = item.value.len() as u8 + 1 + rng.below(100) as u8;
            items.push(item);
            (8, *model.encode().1.tracks[i].1.last().unwrap())
        }
        6..=9 => beside_a_repeated_tag(rng, &mut model),
        _ => beside_a_wrong_form(rng, &mut model),
    };
    let n = rng.below(3);
    let claim = refused(number, place as u64).map(|claim| claim + &" kept".repeat(n));
    (ask(rng, &model.bytes(), n), claim)
}

/// MPEG video, other known types, and some that are not listed.
const FORM_TYPES: [u8; 14] = [11, 12, 20, 22, 23, 10, 13, 21, 24, 19, 0, 1, 27, 127];

/// A map one track of which has either form, with a text for a name, a null name or none, before it or behind; and that track.
pub fn formed(rng: &mut Rng) -> (Model, usize) {
    let mut model = valid(rng, true);
    let i = some_track(rng, &mut model);
    let track = &mut model.tracks[i];
    track.type_byte = 0x80 + rng.pick(&FORM_TYPES);
    if rng.chance(1, 3) {
        track.type_byte = 0x80 + rng.pick(&KNOWN_TYPES);
    }
    track
        .items
        .retain(|item| !matches!(item.tag, 0x4C | 0x4D | 0x4F));
    let tag = rng.pick(&[0x4D, 0x4F]);
    let mut more = vec![form(rng, tag)];
    match rng.below(4) {
        0 => {}
        1 => more.push(Item::new(0x4C, &[0])),
        _ => more.push(Item::new(0x4C, &text(rng))),
    }
    rng.shuffle(&mut more);
    set_in(rng, &mut track.items, more);
    // a null name of the material, or its tag there, is no matter of a track
    if rng.chance(1, 6) {
        let tag = rng.pick(&[0x40, 0x4C]);
        model.material.retain(|item| item.tag != tag);
        model.material.push(Item::new(tag, &[0]));
    }
    (model, i)
}

pub fn map_form(rng: &mut Rng) -> Made {
    let (model, _) = formed(rng);
    let n = if rng.chance(1, 4) {
        rng.below(3)
    } else {
        (model.count() + rng.below(3)).min(80)
    };
    (ask(rng, &model.bytes(), n), Some(model.line_or_29(n)))
}

/// DV and MPEG video, the types beside them that have no aspect, any known type, and some that are not listed.
fn aspect_type(rng: &mut Rng) -> u8 {
    match rng.below(12) {
        0..=4 => rng.pick(&DV_TYPES),
        5..=8 => rng.pick(&MPEG_TYPES),
        9 => rng.pick(&[25, 26]),
        10 => rng.pick(&KNOWN_TYPES),
        _ => rng.pick(&RESERVED_TYPES),
    }
}

/// Gives a track such a type and mostly auxiliary information, with a text for a name, a null name or none, before it or behind.
fn set_aspect(rng: &mut Rng, track: &mut Track) {
    let kind = aspect_type(rng);
    track.type_byte = 0x80 + kind;
    track
        .items
        .retain(|item| !matches!(item.tag, 0x4C | 0x4D | 0x4F));
    let name = match rng.below(7) {
        0 => None,
        1 => Some(vec![0]),
        _ => Some(text(rng)),
    };
    let null = name.as_ref().is_some_and(|name| *name == [0]);
    let mut more: Vec<Item> = name.iter().map(|name| Item::new(0x4C, name)).collect();
    if rng.chance(9, 10) {
        let tag = rng.pick(forms(kind, null));
        more.push(form(rng, tag));
    }
    rng.shuffle(&mut more);
    set_in(rng, &mut track.items, more);
}

/// A map that is accepted, with a track at least, whose records mostly have to do with an aspect.
pub fn aspects(rng: &mut Rng) -> Model {
    let mut model = valid(rng, true);
    some_track(rng, &mut model);
    for track in &mut model.tracks {
        set_aspect(rng, track);
    }
    model
}

pub fn map_aspect(rng: &mut Rng) -> Made {
    let model = aspects(rng);
    let n = match rng.below(6) {
        0 => rng.below(81),
        _ => (model.count() + rng.below(3)).min(80),
    };
    (ask(rng, &model.bytes(), n), Some(model.line(n)))
}

/// Changes a byte of a 4F, takes one out or sets one in, so that it is a text still; or changes a bit of a 4D.
fn stir_form(rng: &mut Rng, item: &mut Item) {
    let last = item.value.len() - 1;
    if item.tag == 0x4D {
        item.value[rng.below(8)] ^= 1 << rng.below(8);
        return;
    }
    let byte = rng.pick(b"\n\n  0011279.-arARxV\x01\x7F");
    match rng.below(3) {
        _ if last == 0 => {}
        0 => item.value[rng.below(last)] = byte,
        1 => {
            item.value.remove(rng.below(last));
        }
        _ if last < texts::MOST => item.value.insert(rng.below(last + 1), byte),
        _ => {}
    }
    item.length = item.value.len() as u8;
    item.said = None; // it may say the same still
}

/// The same with small changes in its 4Ds and 4Fs, of which nothing is known but that they are no fault.
pub fn map_aspect_stirred(rng: &mut Rng) -> Made {
    let mut model = aspects(rng);
    for track in &mut model.tracks {
        let of_form = |item: &&mut Item| matches!(item.tag, 0x4D | 0x4F);
        if let Some(item) = track.items.iter_mut().find(of_form) {
            stir_form(rng, item);
        }
    }
    let n = (model.count() + rng.below(3)).min(80);
    let claim = format!("map {}", model.count());
    (ask(rng, &model.bytes(), n), Some(claim))
}

/// Some changes of the model, one on the other, and at times of the bytes.
pub fn map_many(rng: &mut Rng) -> Made {
    let mut model = valid(rng, true);
    let mut bytes = model.bytes();
    for _ in 0..1 + rng.below(3) {
        bytes = one_fault(rng, &mut model).0;
    }
    if rng.chance(1, 3) {
        damage(rng, &mut bytes);
        if rng.chance(1, 2) && bytes.len() >= 16 {
            true_length(&mut bytes);
        }
    }
    let n = rng.below(4);
    (ask(rng, &bytes, n), None)
}

/// Blind damage of a good map, its header left whole in most cases.
fn blind(rng: &mut Rng) -> Vec<u8> {
    let mut bytes = valid(rng, true).bytes();
    let head: Vec<u8> = bytes[..16].to_vec();
    let mut payload = bytes[16..].to_vec();
    for _ in 0..1 + rng.below(2) {
        damage(rng, &mut payload);
    }
    bytes = head;
    bytes.extend(payload);
    if rng.chance(4, 5) {
        true_length(&mut bytes);
    }
    if rng.chance(1, 10) {
        damage(rng, &mut bytes);
    }
    bytes
}

pub fn map_bytes(rng: &mut Rng) -> Made {
    let bytes = blind(rng);
    let n = rng.below(6);
    (ask(rng, &bytes, n), None)
}

/// The bench map of 01.
pub const M: [u8; 44] = [
    0x00, 0x00, 0x00, 0x00, 0x01, 0xBC, 0x00, 0x00, 0x00, 0x2C, 0x00, 0x00, 0x00, 0x00, 0xE1, 0xE2,
    0xE0, 0xFF, 0x00, 0x06, 0x41, 0x04, 0x00, 0x00, 0x00, 0x00, 0x00, 0x0F, 0x8A, 0xC1, 0x00, 0x0B,
    0x4C, 0x03, 0x41, 0x31, 0x00, 0x50, 0x04, 0xFF, 0xFF, 0xFF, 0xFE, 0x00,
];

/// M with this type byte and one item more behind its rate, in true lengths.
pub fn m_with(type_byte: u8, item: &[u8]) -> Vec<u8> {
    let mut bytes = [&M[..43], item].concat();
    for length in [27, 31] {
        bytes[length] += item.len() as u8;
    }
    bytes[28] = type_byte;
    true_length(&mut bytes);
    bytes
}

/// A text of Table 7 as an item: 16x9.
const WIDE: &[u8] = b"\x4F\x4EVer 1\nBr 0.5\nIpg 1\nPpi 4\nBpiop 2\nPix 0\nCf 1\nCg 0\nSl 7\nnl16 36\nVi 1\nf1 1\nar 1\n\0";

/// Any one byte of M, or of M with auxiliary information in either form, set to any value; at times two.
pub fn map_bench(rng: &mut Rng) -> Made {
    let type_byte = rng.pick(&[0x8A, 0x8B, 0x93]);
    let mut bytes = match rng.below(9) {
        0 => m_with(type_byte, &[0x4F, 2, 0x41, 0]),
        1 => m_with(type_byte, &[0x4D, 8, 0, 0, 0, 0, 0, 0, 0, 0]),
        2 => m_with(0x80 + rng.pick(&MPEG_TYPES), WIDE),
        3 => m_with(
            0x80 + rng.pick(&DV_TYPES),
            &[0x4D, 8, 0x11, 0, 0, 0x40, 0, 0, 0, 0],
        ),
        _ => M.to_vec(),
    };
    for _ in 0..1 + rng.below(2) {
        let i = rng.below(bytes.len());
        bytes[i] = rng.byte();
    }
    let n = rng.below(3) as u64;
    (Request::new(MAP, &[0, n], &[&bytes]), None)
}

pub fn map_noise(rng: &mut Rng) -> Made {
    let n = 2 + rng.below(60);
    let mut payload = rng.bytes(n);
    if rng.chance(5, 6) {
        payload[0] = 0xE0;
    }
    if rng.chance(3, 4) && payload.len() > 4 {
        payload[2] = 0;
        payload[3] &= 7;
    }
    let bytes = packet(0xBC, &payload);
    let n = rng.below(3);
    (ask(rng, &bytes, n), None)
}

/// A map asked at a wrong position, torn, or of another type.
pub fn map_position(rng: &mut Rng) -> Made {
    let mut bytes = valid(rng, true).bytes();
    let n = rng.below(3);
    let (at, claim) = match rng.below(4) {
        0 => {
            let at = bytes.len() as u64 - 15 + rng.below(40) as u64;
            (at, refused(1, at))
        }
        1 => {
            let at = rng.edge().max(70_000);
            (at, refused(1, at))
        }
        2 => {
            bytes[5] = rng.pick(&[0xBF, 0xFB, 0xFC, 0xFD, 0xBD, 0x3C]);
            (0, refused(6, 0))
        }
        _ => {
            let cut = 1 + rng.below(bytes.len() - 16);
            bytes.truncate(bytes.len() - cut);
            (0, torn(0, cut))
        }
    };
    let claim = claim.map(|claim| claim + &" kept".repeat(n));
    (Request::new(MAP, &[at, n as u64], &[&bytes]), claim)
}

/// A map, good or with one fault: torn, it is 5 all the same.
fn any_map(rng: &mut Rng) -> Vec<u8> {
    let mut model = valid(rng, true);
    if rng.chance(1, 3) {
        return one_fault(rng, &mut model).0;
    }
    model.bytes()
}

pub fn map_torn(rng: &mut Rng) -> Made {
    let bytes = any_map(rng);
    let n = rng.below(4);
    let (at, lent, lacking) = lend_torn(rng, bytes);
    let claim = torn(at, lacking).map(|claim| claim + &" kept".repeat(n));
    (Request::new(MAP, &[at, n as u64], &[&lent]), claim)
}

/// An ID to ask for: of a track that is there, or one that a narrowing would take for it.
fn id(rng: &mut Rng, model: &Model) -> u64 {
    if model.tracks.is_empty() || rng.chance(1, 8) {
        return rng.edge();
    }
    let i = rng.below(model.tracks.len());
    let id = u64::from(model.tracks[i].id());
    match rng.below(8) {
        0 => id + rng.pick(&[64, 128, 192, 256, 65_536, 1 << 32, 1 << 63]),
        1 => rng.below(66) as u64,
        _ => id,
    }
}

/// The name a valid model has for an ID: place and value with its 00.
fn name_in(model: &Model, id: u64) -> Option<(usize, Vec<u8>)> {
    let (_, layout) = model.encode();
    for (track, (_, places)) in model.tracks.iter().zip(&layout.tracks) {
        if track.listed() && u64::from(track.id()) == id {
            let i = track.items.iter().position(|item| item.tag == 0x4C)?;
            return Some((places[i] + 2, track.items[i].value.clone()));
        }
    }
    None
}

fn part_words(word: &str, found: &(usize, Vec<u8>)) -> Option<String> {
    let bare = &found.1[..found.1.len() - 1];
    Some(format!("{word} {} {} {}", found.0, bare.len(), hex(bare)))
}

pub fn name_asked(rng: &mut Rng) -> Made {
    let model = valid(rng, true);
    let id = id(rng, &model);
    let (at, lent) = lend(rng, &model.bytes());
    let claim = match name_in(&model, id) {
        Some(found) => part_words("name", &found),
        None => Some("refused 16 0 x".to_string()),
    };
    (Request::new(NAME, &[at, id], &[&lent]), claim)
}

/// What a name is refused with where a map has a wrong form.
fn refused_name(model: &Model) -> Option<String> {
    let place = model.wrong_form()?;
    Some(format!("refused 29 {place} x"))
}

pub fn name_form(rng: &mut Rng) -> Made {
    let (model, i) = formed(rng);
    let asked = if rng.chance(3, 4) {
        u64::from(model.tracks[i].id())
    } else {
        id(rng, &model)
    };
    let (at, lent) = lend(rng, &model.bytes());
    let found = || match name_in(&model, asked) {
        Some(found) => part_words("name", &found),
        None => Some("refused 16 0 x".to_string()),
    };
    let claim = refused_name(&model).or_else(found);
    (Request::new(NAME, &[at, asked], &[&lent]), claim)
}

pub fn name_damaged(rng: &mut Rng) -> Made {
    let mut model = valid(rng, true);
    let id = id(rng, &model);
    let (bytes, claim) = if rng.chance(1, 2) {
        one_fault(rng, &mut model)
    } else {
        (blind(rng), None)
    };
    let (mut at, lent) = lend(rng, &bytes);
    let mut claim = claim.map(|claim| claim + " x");
    if rng.chance(1, 10) {
        at = rng.edge();
        claim = None;
    }
    (Request::new(NAME, &[at, id], &[&lent]), claim)
}

pub fn name_torn(rng: &mut Rng) -> Made {
    let bytes = any_map(rng);
    let (at, lent, lacking) = lend_torn(rng, bytes);
    let claim = torn(at, lacking).map(|claim| claim + " x");
    let id = rng.below(66) as u64;
    (Request::new(NAME, &[at, id], &[&lent]), claim)
}

/// Two maps over the same few tracks.
fn two(rng: &mut Rng) -> (Model, Model) {
    let opening = valid(rng, true);
    let mut closing = if rng.chance(1, 2) {
        opening.clone()
    } else {
        valid(rng, true)
    };
    for track in &mut closing.tracks {
        match rng.below(6) {
            0 => track.items.retain(|item| item.tag != 0x4C),
            1 => track.type_byte = 0x80 + rng.pick(&RESERVED_TYPES),
            2 => track.type_byte = 0x80 + rng.pick(&KNOWN_TYPES),
            3 => {
                for item in &mut track.items {
                    if item.tag == 0x4C {
                        *item = Item::new(0x4C, &text(rng));
                    }
                }
            }
            _ => {}
        }
        if let Some(wrong) = track.wrong_item() {
            let right = forms(track.kind(), false)[0];
            track.items[wrong] = form(rng, right);
        }
    }
    (opening, closing)
}

/// The name that two valid maps have for an ID: the closing one's first.
fn of_two(opening: &Model, closing: &Model, id: u64) -> Option<String> {
    match (name_in(closing, id), name_in(opening, id)) {
        (Some(found), _) => part_words("closing", &found),
        (None, Some(found)) => part_words("opening", &found),
        _ => Some("refused 16 0 x".to_string()),
    }
}

pub fn two_maps(rng: &mut Rng) -> Made {
    let (opening, closing) = two(rng);
    let asked = if rng.chance(1, 2) { &opening } else { &closing };
    let id = id(rng, asked);
    let claim = of_two(&opening, &closing, id);
    let request = Request::new(NAME_OF_TWO, &[id], &[&opening.bytes(), &closing.bytes()]);
    (request, claim)
}

/// A wrong form in one of two maps or in both: opening's refusal first.
pub fn two_form(rng: &mut Rng) -> Made {
    let ((opening, i), (mut closing, _)) = (formed(rng), formed(rng));
    if rng.chance(1, 4) {
        closing = opening.clone();
        closing.tracks[i].type_byte = 0x80 + rng.pick(&FORM_TYPES);
    }
    let id = id(rng, &opening);
    let claim = refused_name(&opening)
        .or_else(|| refused_name(&closing))
        .or_else(|| of_two(&opening, &closing, id));
    let request = Request::new(NAME_OF_TWO, &[id], &[&opening.bytes(), &closing.bytes()]);
    (request, claim)
}

pub fn two_damaged(rng: &mut Rng) -> Made {
    let (mut opening, mut closing) = two(rng);
    let id = id(rng, &opening);
    let (mut first, mut second) = (opening.bytes(), closing.bytes());
    let mut claim = None;
    let which = rng.below(3);
    if which != 0 {
        (second, claim) = one_fault(rng, &mut closing);
    }
    if which != 1 {
        (first, claim) = one_fault(rng, &mut opening); // opening's refusal first
    }
    let claim = claim.map(|claim| claim + " x");
    (Request::new(NAME_OF_TWO, &[id], &[&first, &second]), claim)
}

/// The opening map torn, the closing one too, or the closing one behind an opening map that is good or at fault.
pub fn two_torn(rng: &mut Rng) -> Made {
    let (mut opening, closing) = two(rng);
    let id = id(rng, &opening);
    let (mut first, mut second) = (opening.bytes(), closing.bytes());
    let which = rng.below(4);
    let mut claim = None;
    if which != 0 {
        let lacking = tear(rng, &mut second);
        claim = torn(0, lacking);
    }
    if which < 2 {
        let lacking = tear(rng, &mut first);
        claim = torn(0, lacking); // opening's refusal first
    } else if which == 2 {
        (first, claim) = one_fault(rng, &mut opening);
    }
    let claim = claim.map(|claim| claim + " x");
    (Request::new(NAME_OF_TWO, &[id], &[&first, &second]), claim)
}
