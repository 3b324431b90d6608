//! 02, §11: the aspect of a track record, from 4D on DV tracks (Tables 8 and 9) or from `ar` on MPEG tracks (Table 7).

use super::mpeg::{parameters, Value};
use super::plate::{least_first, mpeg_video};

#[derive(Clone, Copy, PartialEq, Eq, Debug)]
pub enum Aspect {
    FourByThree,
    SixteenByNine,
}

impl Aspect {
    /// As all three tables number it: 0 is 4x3, 1 is 16x9.
    pub fn number(self) -> u8 {
        match self {
            Aspect::FourByThree => 0,
            Aspect::SixteenByNine => 1,
        }
    }

    fn of(number: u64) -> Self {
        if number == 1 {
            Aspect::SixteenByNine
        } else {
            Aspect::FourByThree
        }
    }
}

/// The bit that is the aspect, by media type: Table 8 (25 Mb/s) and Table 9 (50 Mb/s). Tables 10 and 11 have none.
fn aspect_bit(kind: u8) -> Option<u32> {
    match kind {
        13 | 14 => Some(4),
        15 | 16 => Some(0),
        _ => None,
    }
}

/// Tables 8 and 9: bit 0 is the least significant, byte 0 holds bits 0 to 7. Known only where bits 30 and 31 are the number 1.
fn of_binary(kind: u8, binary: &[u8]) -> Option<Aspect> {
    let bits = least_first(binary);
    let valid = bits >> 30 & 3 == 1;
    let bit = aspect_bit(kind)?;
    valid.then(|| Aspect::of(bits >> bit & 1))
}

/// Table 7: `ar`, which is 0 where it is absent or outside its list; unknown where the reader of the text refuses.
fn of_text(text: &[u8]) -> Option<Aspect> {
    match parameters(text).ok()?[13] {
        Value::Whole(ar) => Some(Aspect::of(u64::from(ar))),
        Value::Rate(_) => unreachable!("ar is a whole number"),
    }
}

/// The aspect of a listed track, by its type and the 4D and 4F that its record shows; `None` is unknown.
pub fn aspect(kind: u8, binary: Option<&[u8]>, text: Option<&[u8]>) -> Option<Aspect> {
    if mpeg_video(kind) {
        of_text(text?)
    } else {
        of_binary(kind, binary?)
    }
}
