//! 01, Bench readings, "The listing program": one line a packet, last `ok` and the count; or only the refusal (D40).

use super::header::{EOS, FLT, MAP, MEDIA, UMF};
use super::stream::packets;

pub fn listing(input: &[u8]) -> String {
    if input.len() > 65_536 {
        return "refused 13 0\n".to_string(); // the size test comes first
    }
    match packets(input) {
        Err(refusal) => format!("{refusal}\n"),
        Ok(pieces) => {
            let mut lines = String::new();
            for piece in &pieces {
                let name = match piece.kind {
                    MAP => "map",
                    MEDIA => "media",
                    EOS => "eos",
                    FLT => "flt",
                    UMF => "umf",
                    _ => "other",
                };
                lines += &format!("{} {name} {}\n", piece.offset, piece.length);
            }
            lines + &format!("ok {}\n", pieces.len())
        }
    }
}
