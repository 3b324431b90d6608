//! 01, The refusal plate: every refusal is a number and a place, and 5 also says how many bytes are still lacking (02, §4).

use std::fmt;

/// The numbers of the plate. 25 is not used, and no refusal takes it again (F22); 29 came with 02, §12, and 28 is not given yet.
pub const PLATE: [u8; 27] = [
    1, 2, 3, 4, 5, 6, 7, 8, 9, 10, 11, 12, 13, 14, 15, 16, 17, 18, 19, 20, 21, 22, 23, 24, 26, 27,
    29,
];

#[derive(Clone, Copy, PartialEq, Eq, Debug)]
pub struct Refusal {
    pub number: u8,
    pub place: u64,
    /// Bytes that the packet lacks, of 5 alone; 0 of every other number.
    pub lacking: u64,
}

/// As lines and the listing tell it: the third figure stands exactly where the number is 5.
impl fmt::Display for Refusal {
    fn fmt(&self, f: &mut fmt::Formatter) -> fmt::Result {
        write!(f, "refused {} {}", self.number, self.place)?;
        if self.number == 5 {
            write!(f, " {}", self.lacking)?;
        }
        Ok(())
    }
}

pub type Answer<T> = Result<T, Refusal>;

/// Any refusal but 5.
pub fn refuse<T>(number: u8, place: u64) -> Answer<T> {
    assert_ne!(number, 5, "5 has a third figure");
    Err(Refusal {
        number,
        place,
        lacking: 0,
    })
}

/// 5, with so many bytes lacking.
pub fn torn<T>(place: u64, lacking: u64) -> Answer<T> {
    Err(Refusal {
        number: 5,
        place,
        lacking,
    })
}

/// Table 5 as 01 lists it: 3, 4, 7 to 18, 20 to 26.
pub fn known_type(kind: u64) -> bool {
    matches!(kind, 3 | 4 | 7..=18 | 20..=26)
}

/// The media types of MPEG video (Table 5).
pub fn mpeg_video(kind: u8) -> bool {
    matches!(kind, 11 | 12 | 20 | 22 | 23)
}

/// Clause 7.1.3: the auxiliary form that a media type may not have, 4D on MPEG video and 4F on every other (02, §12).
pub fn wrong_form(kind: u8) -> u8 {
    if mpeg_video(kind) {
        0x4D
    } else {
        0x4F
    }
}

/// 01, Map, "Text": one byte at least, 00 last and nowhere else, none over 7F.
pub fn text_ok(text: &[u8]) -> bool {
    match text.split_last() {
        None => false,
        Some((last, body)) => *last == 0 && body.iter().all(|b| (0x01..=0x7F).contains(b)),
    }
}

/// Most significant byte first (clauses 6, 7.1.2.2, 7.4.2.1).
pub fn most_first(bytes: &[u8]) -> u64 {
    bytes.iter().fold(0, |n, b| n << 8 | u64::from(*b))
}

/// Least significant byte first (clause 7.2.2; 01, seek book).
pub fn least_first(bytes: &[u8]) -> u64 {
    bytes.iter().rev().fold(0, |n, b| n << 8 | u64::from(*b))
}
