//! Seeded cases: valid, damaged and absurd inputs of every function. A case may claim how its line must begin, known from how it
//! was made and not from the reader; `compare --self` holds the reader against these claims.

pub mod books;
pub mod large;
pub mod maps;
pub mod packets;
pub mod streams;
pub mod texts;
pub mod writers;

use crate::request::Request;
use crate::rng::Rng;

pub struct Case {
    pub kind: &'static str,
    pub request: Request,
    pub claim: Option<String>,
}

pub type Made = (Request, Option<String>);
pub type Maker = fn(&mut Rng) -> Made;

/// Kinds of cases, taken in turn. The first word is the function.
pub const KINDS: [(&str, Maker); 82] = [
    ("header plain", packets::header_plain),
    ("header faults", packets::header_faults),
    ("header noise", packets::header_noise),
    ("header torn", packets::header_torn),
    ("packet of type", packets::packet_of_type),
    ("packet torn", packets::packet_torn),
    ("map valid", maps::map_valid),
    ("map newer", maps::map_newer),
    ("map one fault", maps::map_fault),
    ("map two faults", maps::map_pair),
    ("map many changes", maps::map_many),
    ("map byte damage", maps::map_bytes),
    ("map bench damage", maps::map_bench),
    ("map noise", maps::map_noise),
    ("map position", maps::map_position),
    ("map torn", maps::map_torn),
    ("map records", maps::map_records),
    ("map wrong form", maps::map_form),
    ("map aspect", maps::map_aspect),
    ("map aspect stirred", maps::map_aspect_stirred),
    ("name asked", maps::name_asked),
    ("name damaged", maps::name_damaged),
    ("name torn", maps::name_torn),
    ("name wrong form", maps::name_form),
    ("two maps", maps::two_maps),
    ("two maps damaged", maps::two_damaged),
    ("two maps torn", maps::two_torn),
    ("two maps wrong form", maps::two_form),
    ("aux valid", texts::valid),
    ("aux not given", texts::not_given),
    ("aux line fault", texts::line_fault),
    ("aux twice", texts::twice),
    ("aux rate", texts::rate),
    ("aux whole number", texts::whole),
    ("aux text fault", texts::text_fault),
    ("aux damage", texts::damage),
    ("aux noise", texts::noise),
    ("locator valid", packets::locator_valid),
    ("locator faults", packets::locator_faults),
    ("locator damage", packets::locator_damage),
    ("locator torn", packets::locator_torn),
    ("media valid", packets::media_valid),
    ("media faults", packets::media_faults),
    ("media torn", packets::media_torn),
    ("check valid", streams::check_valid),
    ("check flt places", streams::check_flt),
    ("check runs without map", streams::check_runs),
    ("check ends", streams::check_ends),
    ("check tracks", streams::check_tracks),
    ("check content", streams::check_content),
    ("check wrong form", streams::check_form),
    ("check two faults", streams::check_pair),
    ("check first packet", streams::check_first),
    ("check torn", streams::check_torn),
    ("check damage", streams::check_damage),
    ("seek found", streams::seek_found),
    ("seek asked", streams::seek_asked),
    ("seek odd", streams::seek_odd),
    ("seek torn", streams::seek_torn),
    ("seek wrong form", streams::seek_form),
    ("seek damage", streams::seek_damage),
    ("book build", books::build),
    ("book build odd", books::build_odd),
    ("book build torn", books::build_torn),
    ("book build wrong form", books::build_form),
    ("book build damage", books::build_damage),
    ("lookup found", books::lookup_found),
    ("lookup asked", books::lookup_asked),
    ("lookup odd", books::lookup_odd),
    ("lookup wrong 64", books::lookup_wrong_64),
    ("lookup broken", books::lookup_broken),
    ("lookup damage", books::lookup_damage),
    ("flt writer valid", writers::flt_valid),
    ("flt writer edges", writers::flt_edges),
    ("map writer valid", writers::map_valid),
    ("map writer one fault", writers::map_fault),
    ("map writer wrong form", writers::map_form),
    ("map writer edges", writers::map_edges),
    ("map writer room", writers::map_room),
    ("walker stream", streams::walk_stream),
    ("walker torn", streams::walk_torn),
    ("walker damage", streams::walk_damage),
];

/// The kind of a number. One in a thousand is large; every fourth turn of the map writer's rooms is at its bounds, and long.
pub fn kind_of(index: u64) -> (&'static str, Maker) {
    let kinds = KINDS.len() as u64;
    if index % 1_000 == 999 {
        return ("large", large::large);
    }
    match KINDS[(index % kinds) as usize] {
        ("map writer room", _) if index / kinds % 4 == 3 => {
            ("map writer bounds", writers::map_bounds)
        }
        plain => plain,
    }
}

/// The case of a seed and a number.
pub fn case(seed: u64, index: u64) -> Case {
    let mut rng = Rng::new(seed, index);
    let (kind, make) = kind_of(index);
    let (request, claim) = make(&mut rng);
    Case {
        kind,
        request,
        claim,
    }
}
