//! The driver: makes cases, asks the probe, compares line by line. docs/PROBE.md says how to run it.

use compare::generate::{case, large, Case};
use compare::own;
use compare::reference::listing::listing;
use compare::request::{answer, hex, Request, CHECK, MOST_BYTES, SHAPES};
use compare::rng::Rng;
use compare::table::{agree, off_plate, Table};
use std::fs::File;
use std::io::{self, BufRead, BufReader, BufWriter, Read, Write};
use std::process::{Command, ExitCode, Stdio};
use std::thread;

const USAGE: &str = "\
compare --cases N --seed S --probe PATH [--probe-arg A]... [--listing PATH [--probe-arg A]...] [--batch B]
compare --cases N --seed S --requests FILE --expected FILE
compare --listing PATH [--probe-arg A]... [--cases N] [--seed S]
compare --self [--cases N] [--seed S]
compare --show I --seed S";

/// So many differences are shown.
const SHOWN: u64 = 5;

/// A program that is held against the second implementation, with the words that it is given.
struct Program {
    path: String,
    args: Vec<String>,
}

impl Program {
    fn new(path: String) -> Self {
        let args = Vec::new();
        Program { path, args }
    }
}

struct Options {
    cases: u64,
    seed: u64,
    batch: u64,
    probe: Option<Program>,
    listing: Option<Program>,
    requests: Option<String>,
    expected: Option<String>,
    own: bool,
    show: Option<u64>,
}

fn options() -> Result<Options, String> {
    let mut o = Options {
        cases: 100_000,
        seed: 1,
        batch: 10_000,
        probe: None,
        listing: None,
        requests: None,
        expected: None,
        own: false,
        show: None,
    };
    let mut listing_named_last = false;
    let mut args = std::env::args().skip(1);
    while let Some(arg) = args.next() {
        let mut value = || args.next().ok_or(format!("{arg} wants a value"));
        let number = |text: String| {
            text.parse::<u64>()
                .map_err(|_| format!("no number: {text}"))
        };
        match arg.as_str() {
            "--cases" => o.cases = number(value()?)?,
            "--seed" => o.seed = number(value()?)?,
            "--batch" => o.batch = number(value()?)?.max(1),
            "--probe" => {
                o.probe = Some(Program::new(value()?));
                listing_named_last = false;
            }
            "--listing" => {
                o.listing = Some(Program::new(value()?));
                listing_named_last = true;
            }
            "--probe-arg" => {
                let named = if listing_named_last {
                    &mut o.listing
                } else {
                    &mut o.probe
                };
                let named = named.as_mut().ok_or("--probe-arg before its program")?;
                named.args.push(value()?);
            }
            "--requests" => o.requests = Some(value()?),
            "--expected" => o.expected = Some(value()?),
            "--self" => o.own = true,
            "--show" => o.show = Some(number(value()?)?),
            _ => return Err(format!("not known: {arg}")),
        }
    }
    Ok(o)
}

/// A case with its line; the request keeps the format's limits.
fn made(seed: u64, index: u64) -> (Case, String) {
    let case = case(seed, index);
    let fits = case
        .request
        .strings
        .iter()
        .all(|s| s.len() as u64 <= MOST_BYTES);
    assert!(
        fits && case.request.well_formed(),
        "case {index} breaks the format"
    );
    let line = answer(&case.request);
    (case, line)
}

/// Runs a program on some input and gives its lines; a thread feeds it, so that neither side waits for the other.
fn ask(program: &Program, input: Vec<u8>) -> io::Result<Vec<String>> {
    let mut child = Command::new(&program.path)
        .args(&program.args)
        .stdin(Stdio::piped())
        .stdout(Stdio::piped())
        .spawn()?;
    let mut stdin = child.stdin.take().expect("piped");
    let feeder = thread::spawn(move || {
        let _ = stdin.write_all(&input); // a probe that ended early shows in its lines
    });
    let mut lines = Vec::new();
    let mut out = BufReader::new(child.stdout.take().expect("piped"));
    let mut line = Vec::new();
    while out.read_until(b'\n', &mut line)? > 0 {
        lines.push(String::from_utf8_lossy(&line).into_owned());
        line.clear();
    }
    let _ = out.read_to_end(&mut line);
    let _ = feeder.join();
    child.wait()?;
    Ok(lines)
}

/// At most so many bytes of a long line, around the first difference.
fn around(line: &str, at: usize) -> String {
    let bytes = line.as_bytes();
    if bytes.len() <= 400 {
        return line.trim_end().to_string();
    }
    let from = at.saturating_sub(100).min(bytes.len());
    let to = (from + 300).min(bytes.len());
    format!(
        "..{}..",
        String::from_utf8_lossy(&bytes[from..to]).trim_end()
    )
}

fn show_difference(kind: &str, index: u64, request: &Request, want: &str, got: Option<&String>) {
    let got = got.map_or("(no line)", |line| line.as_str());
    let same = want
        .bytes()
        .zip(got.bytes())
        .take_while(|(a, b)| a == b)
        .count();
    println!("difference: {kind}, case {index}");
    let bytes = request.encode();
    if bytes.len() <= 2_000 {
        println!("  request  {}", hex(&bytes));
    } else {
        println!("  request  {}.. (--show {index})", hex(&bytes[..2_000]));
    }
    println!("  expected {}", around(want, same));
    println!("  probe    {}", around(got, same));
    if let Some(number) = off_plate(want) {
        println!("  {number} is not on the plate");
    }
}

/// Requests that end a run with `malformed`, each behind one good request.
fn malformed_runs() -> Vec<(&'static str, Vec<u8>)> {
    let good = Request::new(0x01, &[0], &[&[0; 16]]).encode();
    let mut runs = Vec::new();
    let known = |byte: u8| SHAPES.iter().any(|shape| shape.0 == byte);
    for byte in (0..=255).filter(|byte| !known(*byte)).step_by(16) {
        let mut rest = vec![byte];
        rest.extend(&good[1..]);
        runs.push(("unknown function byte", rest));
    }
    for length in [65_537u32, 0x0100_0000, 0x8000_0000, u32::MAX] {
        let mut rest = good[..9].to_vec();
        rest.extend(length.to_le_bytes());
        rest.extend([0; 40]);
        runs.push(("length over 65,536", rest));
    }
    for cut in 1..good.len() {
        runs.push(("input ends inside a request", good[..cut].to_vec()));
    }
    let over = [
        Request::new(0x02, &[0, 256], &[&[0; 16]]),
        Request::new(0x02, &[0, 0x1_0000_00BC], &[&[0; 16]]),
        Request::new(0x03, &[0, 81], &[&[0; 16]]),
        Request::new(0x0B, &[65_537], &[&[]]),
        Request::new(0x0D, &[0, 65_537, 1], &[&[]]),
        Request::new(0x0D, &[0, 64, 1], &[&[0; 7]]),
        Request::new(0x0E, &[0, 65_537], &[&[], &[0; 144], &[]]),
        Request::new(0x0E, &[0, 64], &[&[], &[0; 143], &[]]),
        Request::new(0x0E, &[0, 64], &[&[], &[0; 144], &[0; 185]]),
        Request::new(0x0F, &[5_001], &[&[]]),
    ];
    for request in over {
        let mut rest = request.encode();
        rest.extend(&good); // nothing after it is read
        runs.push(("number or words over a limit", rest));
    }
    runs.into_iter()
        .map(|(what, rest)| (what, [good.clone(), rest].concat()))
        .collect()
}

fn compare(o: &Options, probe: &Program) -> io::Result<bool> {
    let mut table = Table::default();
    let mut differences = 0;
    let mut from = 0;
    while from < o.cases {
        let to = (from + o.batch).min(o.cases);
        let mut input = Vec::new();
        let mut wanted = Vec::new();
        for index in from..to {
            let (case, line) = made(o.seed, index);
            input.extend(case.request.encode());
            table.count(case.kind, &line);
            table.count_odd(&case.request);
            wanted.push(line + "\n");
        }
        let lines = ask(probe, input)?;
        for (i, want) in wanted.iter().enumerate() {
            if !agree(want, lines.get(i).map(String::as_str)) {
                differences += 1;
                let index = from + i as u64;
                let case = case(o.seed, index);
                table.differs(case.kind);
                if differences <= SHOWN {
                    show_difference(case.kind, index, &case.request, want, lines.get(i));
                }
            }
        }
        if lines.len() > wanted.len() {
            differences += 1;
            println!("difference: {} lines too many", lines.len() - wanted.len());
        }
        from = to;
    }
    let runs = malformed_runs();
    let mut wrong = 0;
    for (what, input) in &runs {
        let lines = ask(probe, input.clone())?;
        if lines != ["refused 2 0\n", "malformed\n"] {
            differences += 1;
            wrong += 1;
            if wrong <= SHOWN {
                println!("difference: {what}: {} gave {lines:?}", hex(input));
            }
        }
    }
    table.print();
    println!(
        "runs with a malformed request: {}, {wrong} differ",
        runs.len()
    );
    if let Some(listing) = &o.listing {
        differences += compare_listing(o.seed, (o.cases / 100).clamp(100, 1_000), listing)?;
    }
    println!(
        "cases: {}, seed: {}, differences: {differences}",
        o.cases, o.seed
    );
    Ok(differences == 0)
}

/// Inputs of the listing program: none, at its limit of 65,536 bytes and over it, and so many streams of the cases that ask for a check.
fn listing_inputs(seed: u64, streams: u64) -> Vec<Vec<u8>> {
    let mut rng = Rng::new(seed, 0);
    let most = MOST_BYTES as usize;
    let mut inputs = vec![vec![]];
    for n in [most, most + 1, 70_000, 1_000_000] {
        inputs.push(vec![0; n]); // no stream at all
    }
    for n in [most, most + 4, most + 16, most + 1_000] {
        inputs.push(large::stream_of(&mut rng, n)); // good but for its size
    }
    let whole = large::stream_of(&mut rng, most);
    inputs.push([&whole[..], &[0]].concat()); // one byte too long, and behind the EOS
    inputs.push([&[0], &whole[..]].concat());
    inputs.push(whole[..most - 1].to_vec());
    inputs.push(whole[..most - 17].to_vec()); // the last media packet lacks a byte
    let cases = (0..).map(|index| case(seed, index).request);
    let asked = cases.filter(|request| request.function == CHECK);
    inputs.extend(
        asked
            .take(streams as usize)
            .map(|request| request.strings[0].clone()),
    );
    inputs
}

/// The listing program on these, one run each; how many differ.
fn compare_listing(seed: u64, streams: u64, program: &Program) -> io::Result<u64> {
    let (mut accepted, mut empty, mut too_long, mut torn, mut differences) = (0, 0, 0, 0, 0);
    let inputs = listing_inputs(seed, streams);
    for input in &inputs {
        let want = listing(input);
        accepted += u64::from(!want.starts_with("refused"));
        empty += u64::from(input.is_empty());
        too_long += u64::from(input.len() as u64 > MOST_BYTES);
        torn += u64::from(want.starts_with("refused 5 "));
        let got = ask(program, input.clone())?.concat();
        if !agree(&want, Some(&got)) {
            differences += 1;
            if differences <= SHOWN {
                println!("difference: listing of {}", around(&hex(input), 0));
                println!("  expected {want:?}\n  listing  {got:?}");
            }
        }
    }
    let n = inputs.len() as u64;
    println!(
        "runs of the listing: {n}, accepted {accepted}, refused {} (too long {too_long}, empty {empty}, torn {torn}), {differences} differ",
        n - accepted
    );
    Ok(differences)
}

/// Requests and expected lines as two files; false if a line has a refusal that is not on the plate.
fn to_files(o: &Options, requests: &str, expected: &str) -> io::Result<bool> {
    let mut table = Table::default();
    let mut asked = BufWriter::new(File::create(requests)?);
    let mut told = BufWriter::new(File::create(expected)?);
    for index in 0..o.cases {
        let (case, line) = made(o.seed, index);
        asked.write_all(&case.request.encode())?;
        writeln!(told, "{line}")?;
        table.count(case.kind, &line);
        table.count_odd(&case.request);
    }
    asked.flush()?;
    told.flush()?;
    table.print();
    println!("cases: {}, seed: {}", o.cases, o.seed);
    Ok(table.strange().is_empty())
}

fn own_check(o: &Options) -> bool {
    let mut wrong = 0;
    for tally in own::run(o.seed, o.cases) {
        println!(
            "{:<55} {:>8} made, {} wrong",
            tally.name,
            tally.made,
            tally.wrong.len()
        );
        for what in tally.wrong.iter().take(5) {
            println!("  {}", around(what, 0));
        }
        wrong += tally.wrong.len();
    }
    wrong == 0
}

fn run(o: &Options) -> io::Result<bool> {
    if let Some(index) = o.show {
        let (case, line) = made(o.seed, index);
        println!("{}\n{}\n{line}", case.kind, hex(&case.request.encode()));
        return Ok(true);
    }
    if o.own {
        return Ok(own_check(o));
    }
    match (&o.probe, &o.listing, &o.requests, &o.expected) {
        (Some(probe), _, None, None) => compare(o, probe),
        (None, Some(listing), None, None) => Ok(compare_listing(o.seed, o.cases, listing)? == 0),
        (None, None, Some(requests), Some(expected)) => to_files(o, requests, expected),
        _ => {
            eprintln!("{USAGE}");
            Ok(false)
        }
    }
}

fn main() -> ExitCode {
    let o = match options() {
        Ok(o) => o,
        Err(what) => {
            eprintln!("{what}\n{USAGE}");
            return ExitCode::from(2);
        }
    };
    match run(&o) {
        Ok(true) => ExitCode::SUCCESS,
        Ok(false) => ExitCode::from(1),
        Err(what) => {
            eprintln!("{what}");
            ExitCode::from(2)
        }
    }
}
