//! Answers requests as the probe does, by the second implementation: to try the driver before a probe is there.

use compare::request::{answer, read, Read as Next};
use std::io::{self, Read, Write};

fn main() -> io::Result<()> {
    let mut input = Vec::new();
    io::stdin().lock().read_to_end(&mut input)?;
    let mut out = io::BufWriter::new(io::stdout().lock());
    let mut at = 0;
    loop {
        match read(&input[at..]) {
            Next::End => break,
            Next::Malformed => {
                writeln!(out, "malformed")?;
                break;
            }
            Next::Whole(request, length) => {
                writeln!(out, "{}", answer(&request))?;
                at += length;
            }
        }
    }
    out.flush()
}
