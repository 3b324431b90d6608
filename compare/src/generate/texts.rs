//! MPEG auxiliary texts, valid and damaged, and Br at the edges of 2^53.

use super::packets::{damage as blind, refused};
use super::Made;
use crate::request::{Request, PARAMETERS};
use crate::rng::Rng;

/// Identifier, good values, values of the right form outside the list. Order of Table 7.
type Row = (
    &'static str,
    &'static [&'static str],
    &'static [&'static str],
);
const ANY: &[&str] = &[
    "0",
    "1",
    "12",
    "000000000",
    "000000007",
    "999999999",
    "4096",
];
const BIT: &[&str] = &["0", "1", "00", "000000001"];
const NO_BIT: &[&str] = &["2", "10", "256", "999999999"];
const ROWS: [Row; 14] = [
    (
        "Ver",
        &["1", "01", "000000001"],
        &["0", "2", "10", "257", "999999999"],
    ),
    (
        "Br",
        &[
            "0",
            "0.5",
            "50000000",
            "15000000.000001",
            "0000000001.1",
            "9007199254.740992",
        ],
        &[],
    ),
    ("Ipg", ANY, &[]),
    ("Ppi", ANY, &[]),
    ("Bpiop", ANY, &[]),
    ("Pix", BIT, NO_BIT),
    ("Cf", &["1", "2", "002"], &["0", "3", "12", "258"]),
    ("Cg", BIT, NO_BIT),
    ("Sl", &["1", "31", "7", "023"], &["0", "32", "100", "257"]),
    ("nl16", ANY, &[]),
    ("Vi", &["1", "0001"], &["0", "2", "257"]),
    ("f1", BIT, NO_BIT),
    ("cbpg", BIT, NO_BIT),
    ("ar", BIT, NO_BIT),
];

#[derive(Clone)]
struct Line {
    /// Row of Table 7, or none for an unknown identifier.
    row: Option<usize>,
    identifier: String,
    value: Vec<u8>,
}

fn known(row: usize, value: &str) -> Line {
    Line {
        row: Some(row),
        identifier: ROWS[row].0.to_string(),
        value: value.as_bytes().to_vec(),
    }
}

/// An identifier that is near a known one, with any value.
fn unknown(rng: &mut Rng) -> Line {
    let identifier = rng.pick(&[
        "ver",
        "VER",
        "Ve",
        "Verr",
        "br",
        "BR",
        "F1",
        "f",
        "f2",
        "Nl16",
        "nl1",
        "nl160",
        "AR",
        "Ar",
        "a",
        "ar1",
        "arr",
        "x",
        "0",
        "123",
        "Zz9",
        "cbpG",
        "Bpio",
        "Bpiopp",
        "IPG",
        "Abcdefghijklmnopqrstuvwxyz0123456789",
    ]);
    let value = match rng.below(5) {
        0 => Vec::new(),
        1 => b"1".to_vec(),
        2 => b"Ver 1".to_vec(),
        3 => b" two  spaces ".to_vec(),
        _ => {
            let n = rng.below(12);
            let any: Vec<u8> = rng.bytes(n).iter().map(|b| b & 0x7F).collect();
            any.into_iter().filter(|b| *b != 0 && *b != 0x0A).collect()
        }
    };
    Line {
        row: None,
        identifier: identifier.to_string(),
        value,
    }
}

/// All required lines and some optional and unknown ones, in any order.
fn lines(rng: &mut Rng) -> Vec<Line> {
    let mut lines: Vec<Line> = Vec::new();
    for (row, (_, good, _)) in ROWS.iter().enumerate() {
        if row < 12 || rng.chance(1, 2) {
            lines.push(known(row, rng.pick(good)));
        }
    }
    if rng.chance(1, 2) {
        for _ in 0..rng.below(4) {
            let line = unknown(rng);
            lines.push(line.clone());
            if rng.chance(1, 4) {
                lines.push(line); // unknown ones may be repeated
            }
        }
    }
    if rng.chance(2, 3) {
        rng.shuffle(&mut lines);
    }
    lines
}

fn line_bytes(line: &Line) -> Vec<u8> {
    let mut bytes = line.identifier.as_bytes().to_vec();
    bytes.push(0x20);
    bytes.extend(&line.value);
    bytes.push(0x0A);
    bytes
}

fn text(lines: &[Line]) -> Vec<u8> {
    let mut text: Vec<u8> = lines.iter().flat_map(line_bytes).collect();
    text.push(0);
    text
}

/// Where line i begins.
fn place(lines: &[Line], i: usize) -> u64 {
    lines[..i]
        .iter()
        .map(|line| line_bytes(line).len() as u64)
        .sum()
}

/// The answer of good lines; Br by the nearest float of its decimal digits, which is what one exact division gives.
fn told(lines: &[Line]) -> Option<String> {
    let mut line = "parameters".to_string();
    for row in 0..14 {
        let value = lines
            .iter()
            .find(|line| line.row == Some(row))
            .map(|line| String::from_utf8(line.value.clone()).expect("good values are ASCII"));
        line += &match (row, value) {
            (_, None) => " 0".to_string(),
            (1, Some(value)) => format!(" {:016x}", value.parse::<f64>().unwrap().to_bits()),
            (_, Some(value)) => format!(" {}", value.parse::<u32>().unwrap()),
        };
    }
    Some(line)
}

fn ask(text: &[u8]) -> Request {
    Request::new(PARAMETERS, &[], &[text])
}

pub fn valid(rng: &mut Rng) -> Made {
    let mut lines = lines(rng);
    if rng.chance(1, 400) {
        let many = 500 + rng.below(4_000);
        for _ in 0..many {
            lines.push(Line {
                row: None,
                identifier: "x".to_string(),
                value: b"long".to_vec(),
            });
        }
    }
    (ask(&text(&lines)), told(&lines))
}

/// A required parameter is missing or outside its list; an optional one outside its list is 0.
pub fn not_given(rng: &mut Rng) -> Made {
    let mut lines = lines(rng);
    let row = rng.below(14);
    let outside = ROWS[row].2;
    let i = lines.iter().position(|line| line.row == Some(row));
    let mut claim = refused(27, 0);
    match i {
        Some(i) if outside.is_empty() || rng.chance(1, 3) => {
            lines.remove(i);
        }
        Some(i) => lines[i] = known(row, rng.pick(outside)),
        None => lines.push(known(row, rng.pick(outside))),
    }
    if row >= 12 {
        let rest: Vec<Line> = lines
            .iter()
            .filter(|line| line.row != Some(row))
            .cloned()
            .collect();
        claim = told(&rest);
    }
    if rng.chance(1, 60) {
        return (ask(&[0]), refused(27, 0));
    }
    (ask(&text(&lines)), claim)
}

/// Lines that are 26 whatever stands before them.
fn malformed(rng: &mut Rng) -> Vec<u8> {
    let fixed: &[&[u8]] = &[
        b"\n",
        b" \n",
        b" 1\n",
        b"Ver\n",
        b"Ver1\n",
        b"x\n",
        b"Ve-r 1\n",
        b"_ 1\n",
        b"Ver\t1\n",
        b"Ver: 1\n",
        b"x.y 1\n",
        b"@ 1\n",
        b"[ 1\n",
        b"` 1\n",
        b"{ 1\n",
        b"/ 1\n",
        b"\x7F 1\n",
        b"x\x01 1\n",
    ];
    if rng.chance(1, 2) {
        return rng.pick(fixed).to_vec();
    }
    // a known identifier with a value of another form
    let row = if rng.chance(1, 3) { 1 } else { rng.below(14) };
    let identifier = ROWS[row].0;
    let both: &[&str] = &[
        "", " 1", "1 ", "-1", "+1", "1.", ".5", "0x1", "1e3", "a", "1\r", "1,0", "1..0", "1.2.3",
    ];
    let whole: &[&str] = &["1.0", "0000000001", "1234567890", "18446744073709551617"];
    let rate: &[&str] = &[
        "12345678901",
        "1.1234567",
        "9007199254.740993",
        "9007199255",
        "9999999999",
        "0.0000000",
        "00000000001",
        "00000000000.5",
    ];
    let more = if row == 1 { rate } else { whole };
    let value = if rng.chance(1, 2) {
        rng.pick(both)
    } else {
        rng.pick(more)
    };
    format!("{identifier} {value}\n").into_bytes()
}

pub fn line_fault(rng: &mut Rng) -> Made {
    let lines = lines(rng);
    let i = rng.below(lines.len() + 1);
    let at = place(&lines, i);
    let mut bad = text(&lines[..i]);
    bad.pop();
    if rng.chance(1, 5) {
        // the 00 comes before the 0A
        let mut cut = if i < lines.len() {
            line_bytes(&lines[i])
        } else {
            b"x 1\n".to_vec()
        };
        let most = cut.len();
        cut.truncate(1 + rng.below(most - 1));
        bad.extend(cut);
        bad.push(0);
    } else {
        bad.extend(malformed(rng));
        bad.extend(text(&lines[i..]));
    }
    (ask(&bad), refused(26, at))
}

/// A known identifier twice, also with a value outside its list; with a bad form 26 comes first.
pub fn twice(rng: &mut Rng) -> Made {
    let mut lines = lines(rng);
    let row = rng.below(14);
    let (_, good, outside) = ROWS[row];
    let value = |rng: &mut Rng| {
        if !outside.is_empty() && rng.chance(1, 2) {
            rng.pick(outside)
        } else {
            rng.pick(good)
        }
    };
    lines.retain(|line| line.row != Some(row));
    let first = rng.below(lines.len() + 1);
    lines.insert(first, known(row, value(rng)));
    let second = first + 1 + rng.below(lines.len() - first);
    let (again, number) = if rng.chance(1, 4) {
        (rng.pick(&["", "x", "1 ", "-1"]), 26)
    } else {
        (value(rng), 10)
    };
    lines.insert(second, known(row, again));
    let claim = refused(number, place(&lines, second));
    (ask(&text(&lines)), claim)
}

/// Br of any digits, many near 2^53 millionths.
pub fn rate(rng: &mut Rng) -> Made {
    let mut lines = lines(rng);
    let n: u64 = match rng.below(5) {
        // where whole and part divided apart would be rounded twice
        4 => 1_000_000 + rng.draw() % 16_000_000,
        0 => (1u64 << 53) - 3 + rng.below(7) as u64,
        1 => rng.draw() % (1 << 53),
        2 => rng.draw() % 10_000_000_000_000_000,
        _ => rng.draw() % (1 << rng.below(54)),
    };
    let (whole, rest) = (n / 1_000_000, n % 1_000_000);
    let mut value = match rng.below(3) {
        0 => format!("{whole:010}"),
        _ => whole.to_string(),
    };
    let mut said = whole * 1_000_000;
    if rng.chance(4, 5) {
        let digits = format!("{rest:06}");
        let keep = if rng.chance(1, 2) {
            6
        } else {
            1 + rng.below(6)
        };
        said += digits[..keep].parse::<u64>().unwrap() * 10u64.pow(6 - keep as u32);
        value = format!("{value}.{}", &digits[..keep]);
    }
    let i = lines.iter().position(|line| line.row == Some(1)).unwrap();
    lines[i] = known(1, &value);
    let claim = if said > 1 << 53 {
        refused(26, place(&lines, i))
    } else {
        told(&lines)
    };
    (ask(&text(&lines)), claim)
}

/// Whole numbers of 1 to 11 digits in any parameter.
pub fn whole(rng: &mut Rng) -> Made {
    let mut lines = lines(rng);
    let row = rng.pick(&[0, 2, 3, 4, 5, 6, 7, 8, 9, 10, 11]);
    let n = 1 + rng.below(11);
    let mut value = String::new();
    for i in 0..n {
        let zero = i + 1 < n && rng.chance(2, 3);
        let digit = if zero { 0 } else { rng.below(10) };
        value += &digit.to_string();
    }
    let i = lines.iter().position(|line| line.row == Some(row)).unwrap();
    lines[i] = known(row, &value);
    let claim = if n > 9 {
        refused(26, place(&lines, i))
    } else {
        let number: u32 = value.parse().unwrap();
        let good = match row {
            0 | 10 => number == 1,
            5 | 7 | 11 => number <= 1,
            6 => number == 1 || number == 2,
            8 => (1..=31).contains(&number),
            _ => true,
        };
        if good {
            told(&lines)
        } else {
            refused(27, 0)
        }
    };
    (ask(&text(&lines)), claim)
}

pub fn text_fault(rng: &mut Rng) -> Made {
    let mut bad = text(&lines(rng));
    let i = rng.below(bad.len());
    match rng.below(5) {
        0 => bad.clear(),
        1 => {
            bad.pop();
        }
        2 => bad.insert(i, 0),
        3 => bad.insert(i, 0x80 | rng.byte()),
        _ => bad.push(rng.pick(&[0x00, 0x0A, 0x41, 0xFF])),
    }
    (ask(&bad), refused(11, 0))
}

/// The row of `ar`.
const AR: usize = 13;

/// The most bytes of a text in an item, its 00 not counted.
pub const MOST: usize = 254;

/// Lines that are accepted, without `ar`, short enough for an item with some lines more.
fn item_lines(rng: &mut Rng) -> Vec<Vec<u8>> {
    let mut lines = lines(rng);
    lines.retain(|line| line.row != Some(AR));
    while text(&lines).len() > 190 {
        let i = lines.iter().position(|line| line.row.is_none());
        lines.remove(i.expect("known lines alone are shorter"));
    }
    lines.iter().map(line_bytes).collect()
}

/// Sets a line in anywhere.
fn set_in(rng: &mut Rng, lines: &mut Vec<Vec<u8>>, line: Vec<u8>) {
    let at = rng.below(lines.len() + 1);
    lines.insert(at, line);
}

/// Sets in `ar` or leaves it out; gives the aspect that is then said, or none where the text is refused for it.
fn set_ar(rng: &mut Rng, lines: &mut Vec<Vec<u8>>) -> Option<u8> {
    let one = ["1", "01", "000000001"];
    let zero = ["0", "00", "000000000"];
    let outside = ["2", "7", "10", "256", "257", "65537", "999999999"];
    let no_number = [
        "",
        " 1",
        "1 ",
        "-1",
        "+1",
        "1.0",
        "x",
        "0x1",
        "0000000001",
        "4294967297",
    ];
    let any = [rng.pick(&one), rng.pick(&zero), rng.pick(&outside)];
    let (values, said) = match rng.below(10) {
        0..=3 => (vec![any[0]], Some(1)),
        4 | 5 => (vec![any[1]], Some(0)),
        6 => (vec![], Some(0)),
        7 => (vec![any[2]], Some(0)), // outside its list is as if it were not there
        8 => (vec![rng.pick(&any), rng.pick(&any)], None),
        _ => (vec![rng.pick(&no_number)], None),
    };
    for value in values {
        set_in(rng, lines, line_bytes(&known(AR, value)));
    }
    said
}

/// Makes lines a text that is refused: a malformed line, the last one without its 0A, a required parameter not given or twice.
fn spoil(rng: &mut Rng, lines: &mut Vec<Vec<u8>>) {
    let row = rng.below(12);
    let of_row = |line: &Vec<u8>| line.starts_with(format!("{} ", ROWS[row].0).as_bytes());
    let i = lines.iter().position(of_row).expect("it is required");
    match rng.below(5) {
        0 => {
            let line = malformed(rng);
            set_in(rng, lines, line);
        }
        1 => {
            let last = lines.last_mut().expect("there are twelve");
            last.pop();
        }
        2 if !ROWS[row].2.is_empty() => {
            lines[i] = line_bytes(&known(row, rng.pick(ROWS[row].2)));
        }
        3 => {
            let again = lines[i].clone();
            set_in(rng, lines, again);
        }
        _ => {
            lines.remove(i);
        }
    }
}

/// A text that an item takes, as MPEG tracks have it, and the aspect that it says: none where its reader refuses. If full, or one
/// time in six, an unknown line at its front makes it as long as it can be.
fn saying(rng: &mut Rng, full: bool) -> (Vec<u8>, Option<u8>) {
    let mut lines = item_lines(rng);
    let mut said = set_ar(rng, &mut lines);
    if rng.chance(1, 6) {
        spoil(rng, &mut lines);
        said = None;
    }
    let mut bytes = lines.concat();
    if full || rng.chance(1, 6) {
        let value = vec![b'z'; MOST - bytes.len() - 3];
        bytes = [b"y ", &value[..], b"\n", &bytes].concat();
    }
    assert!(bytes.len() <= MOST, "an item takes the text");
    bytes.push(0);
    (bytes, said)
}

/// Such a text for an item.
pub fn for_item(rng: &mut Rng) -> (Vec<u8>, Option<u8>) {
    saying(rng, false)
}

/// Such a text of just the length that an item can have at most.
pub fn longest(rng: &mut Rng) -> (Vec<u8>, Option<u8>) {
    saying(rng, true)
}

/// Blind damage, with the text rule kept in most cases.
pub fn damage(rng: &mut Rng) -> Made {
    let mut bytes = text(&lines(rng));
    bytes.pop();
    for _ in 0..1 + rng.below(3) {
        blind(rng, &mut bytes);
    }
    if rng.chance(5, 6) {
        for byte in &mut bytes {
            *byte &= 0x7F;
            if *byte == 0 {
                *byte = 0x0A;
            }
        }
    }
    bytes.push(0);
    (ask(&bytes), None)
}

/// Lines of a few bytes that matter.
pub fn noise(rng: &mut Rng) -> Made {
    let n = rng.below(30);
    let mut bytes: Vec<u8> = (0..n)
        .map(|_| rng.pick(b"Ver 1\n\n  Br.09azAZ:@[`{/\x7F"))
        .collect();
    if rng.chance(1, 2) {
        bytes.push(0x0A);
    }
    bytes.push(0);
    (ask(&bytes), None)
}
