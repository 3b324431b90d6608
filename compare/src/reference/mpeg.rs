//! 01, MPEG auxiliary text (Table 7).

use super::plate::{refuse, text_ok, Answer};

#[derive(Clone, Copy, PartialEq, Debug)]
pub enum Value {
    Whole(u32),
    Rate(f64),
}

/// The values a parameter may have.
#[derive(Clone, Copy)]
pub enum List {
    Any,
    Range(u32, u32),
    Rate,
}

pub struct Row {
    pub identifier: &'static str,
    pub list: List,
    pub required: bool,
}

const fn row(identifier: &'static str, list: List, required: bool) -> Row {
    Row {
        identifier,
        list,
        required,
    }
}

/// In the order of Table 7; values and demands are 01's.
pub const ROWS: [Row; 14] = [
    row("Ver", List::Range(1, 1), true),
    row("Br", List::Rate, true),
    row("Ipg", List::Any, true),
    row("Ppi", List::Any, true),
    row("Bpiop", List::Any, true),
    row("Pix", List::Range(0, 1), true),
    row("Cf", List::Range(1, 2), true),
    row("Cg", List::Range(0, 1), true),
    row("Sl", List::Range(1, 31), true),
    row("nl16", List::Any, true),
    row("Vi", List::Range(1, 1), true),
    row("f1", List::Range(0, 1), true),
    row("cbpg", List::Range(0, 1), false),
    row("ar", List::Range(0, 1), false),
];

/// One to `most` digits as a number.
fn digits(value: &[u8], most: usize) -> Option<u64> {
    if value.is_empty() || value.len() > most || !value.iter().all(u8::is_ascii_digit) {
        return None;
    }
    Some(value.iter().fold(0, |n, d| n * 10 + u64::from(*d - b'0')))
}

/// *House*: Br in millionths, 1 to 10 digits, then optionally a point and 1 to 6 digits; over 2^53 is no form.
pub fn millionths(value: &[u8]) -> Option<u64> {
    let point = value.iter().position(|b| *b == b'.');
    let whole = digits(&value[..point.unwrap_or(value.len())], 10)?;
    let rest = match point {
        None => 0,
        Some(point) => {
            let part = &value[point + 1..];
            digits(part, 6)? * 10u64.pow(6 - part.len() as u32)
        }
    };
    let n = whole * 1_000_000 + rest;
    (n <= 1 << 53).then_some(n)
}

/// The value, if it has the form its parameter asks for.
fn form(list: List, value: &[u8]) -> Option<Value> {
    match list {
        // one float division, N is exact in an f64
        List::Rate => millionths(value).map(|n| Value::Rate(n as f64 / 1_000_000.0)),
        _ => digits(value, 9).map(|n| Value::Whole(n as u32)),
    }
}

fn in_list(list: List, value: Value) -> bool {
    match (list, value) {
        (List::Range(least, most), Value::Whole(n)) => least <= n && n <= most,
        _ => true,
    }
}

/// Identifier and value of the line at the front of `rest`, and its length with the 0A.
fn line(rest: &[u8]) -> Option<(&[u8], &[u8], usize)> {
    let end = rest.iter().position(|b| *b == 0x0A)?;
    let space = rest[..end].iter().position(|b| *b == 0x20)?;
    let identifier = &rest[..space];
    if identifier.is_empty() || !identifier.iter().all(u8::is_ascii_alphanumeric) {
        return None;
    }
    Some((identifier, &rest[space + 1..end], end + 1))
}

/// The fourteen parameters in the order of Table 7. Text rule first; at a line 26, then 10; 27 at the end.
pub fn parameters(text: &[u8]) -> Answer<[Value; 14]> {
    if !text_ok(text) {
        return refuse(11, 0);
    }
    let body = &text[..text.len() - 1];
    let mut met = [false; 14];
    let mut given: [Option<Value>; 14] = [None; 14];
    let mut at = 0;
    while at < body.len() {
        let Some((identifier, value, length)) = line(&body[at..]) else {
            return refuse(26, at as u64);
        };
        let known = ROWS
            .iter()
            .position(|row| row.identifier.as_bytes() == identifier);
        if let Some(i) = known {
            let Some(value) = form(ROWS[i].list, value) else {
                return refuse(26, at as u64);
            };
            if met[i] {
                return refuse(10, at as u64);
            }
            met[i] = true; // a value outside its list counts for 10
            if in_list(ROWS[i].list, value) {
                given[i] = Some(value);
            }
        }
        at += length;
    }
    let mut answer = [Value::Whole(0); 14];
    for (i, row) in ROWS.iter().enumerate() {
        answer[i] = match given[i] {
            Some(value) => value,
            None if row.required => return refuse(27, 0),
            None => Value::Whole(0), // absent meaning 0
        };
    }
    Ok(answer)
}
