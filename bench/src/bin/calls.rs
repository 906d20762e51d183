//! Prints random call lines: `calls SEED COUNT [mixed|unsteered|wide|figures|grants|refusals]`.
//!
//! Mixed lines reach every answer of the program. Unsteered ones are mixed lines without those that are
//! refused at 16; these alter nothing, so the others are answered as they were. Wide lines put robust requests to labels over all
//! sixteen parties. Lines of figures work with figures that everybody sees. Grants and refusals are
//! robust requests that are granted, or refused at 16.

use plain::line::call;
use plain::monitor::Monitor;
use plain::program::LONGEST;
use plain::random::Random;
use plain::refusal::Refusal;
use std::io::{self, BufWriter, Write};
use std::process::ExitCode;

fn main() -> ExitCode {
    match arguments() {
        Some((seed, count, sort, kept)) => match print(seed, count, sort, kept) {
            Ok(()) => ExitCode::SUCCESS,
            Err(_) => ExitCode::FAILURE,
        },
        None => {
            eprintln!("calls SEED COUNT [mixed|unsteered|wide|figures|grants|refusals]");
            ExitCode::FAILURE
        }
    }
}

/// The sort of lines asked for.
type Sort = fn(&mut Random, u64) -> Vec<u8>;

/// Tells whether a line is printed.
type Kept = fn(&mut Monitor, &[u8]) -> bool;

fn arguments() -> Option<(u64, u64, Sort, Kept)> {
    let words: Vec<String> = std::env::args().skip(1).collect();
    let seed = words.first()?.parse().ok()?;
    let count = words.get(1)?.parse().ok()?;
    let word = words.get(2).map(String::as_str);
    let sort: Sort = match word {
        None | Some("mixed" | "unsteered") => |random, _| mixed_line(random),
        Some("wide") => wide_line,
        Some("figures") => figures_line,
        Some("grants") => grants_line,
        Some("refusals") => refusals_line,
        Some(_) => return None,
    };
    let kept: Kept = match word {
        Some("unsteered") => is_unsteered,
        _ => |_, _| true,
    };
    Some((seed, count, sort, kept))
}

/// Tells whether the line is answered with something else than 16. A line that is too long is.
fn is_unsteered(monitor: &mut Monitor, line: &[u8]) -> bool {
    line.len() > LONGEST || !matches!(call(monitor, line), Err(Refusal::Group(_)))
}

fn print(seed: u64, count: u64, sort: Sort, kept: Kept) -> io::Result<()> {
    let mut output = BufWriter::new(io::stdout().lock());
    let mut random = Random::new(seed);
    let mut monitor = Monitor::default();
    for turn in 0..count {
        let line = sort(&mut random, turn);
        if !kept(&mut monitor, &line) {
            continue;
        }
        output.write_all(&line)?;
        // Now and then the last line has no end.
        if turn + 1 < count || !seed.is_multiple_of(3) {
            output.write_all(b"\n")?;
        }
    }
    output.flush()
}

// Robust releases and endorsements only.

/// A label that leaves much to refuse.
const NARROW: &str = "0001.0002.0004.0008 001f";

/// Releases on even records and endorsements on odd ones, back and forth, all granted.
fn grants_line(random: &mut Random, turn: u64) -> Vec<u8> {
    if let Some(line) = opening_line(turn, ["0001.0002 0001", "T 0003"]) {
        return line;
    }
    let task = random.below(5);
    let record = random.below(10);
    let (kind, new) = match record % 2 {
        0 => ("release", random.pick(&["0002", "0001.0002"])),
        _ => ("endorse", random.pick(&["0001", "0003"])),
    };
    format!("{kind} {task} {record} {new} 1 0001 de").into_bytes()
}

/// Releases that are refused at 16, with low groups and with high ones.
fn refusals_line(random: &mut Random, turn: u64) -> Vec<u8> {
    if let Some(line) = opening_line(turn, [NARROW; 2]) {
        return line;
    }
    let task = random.below(5);
    let record = random.below(10);
    let new = random.pick(&["0001", "0100", "1000.0002", "8000.4000"]);
    format!("release {task} {record} {new} 1 0000 de").into_bytes()
}

/// Labels of any shape, set under a key that covers everything, and robust requests on them.
fn wide_line(random: &mut Random, turn: u64) -> Vec<u8> {
    if let Some(line) = opening_line(turn, [NARROW; 2]) {
        return line;
    }
    let task = random.below(5);
    let record = random.below(10);
    let kind = random.pick(&["release", "endorse"]);
    let line = match random.below(20) {
        0 => format!("close {task}"),
        1 | 2 => format!("open {task} {}", random.below(16)),
        3 => format!("take {task} {record} 0"),
        4..=11 => format!("{kind} {task} {record} {} 0 0000", wide_formula(random)),
        12..=17 => format!("{kind} {task} {record} {} 1 0000 de", wide_formula(random)),
        _ => format!(
            "{kind} {task} {record} {} 3 0000 de de 0000 T T 0000",
            wide_formula(random)
        ),
    };
    line.into_bytes()
}

/// Up to eight clauses, each of up to eight of all parties.
fn wide_formula(random: &mut Random) -> String {
    let members = 1 + random.below(8);
    let count = 1 + random.below(8);
    let clause = |random: &mut Random| (0..members).fold(0u16, |c, _| c | 1 << random.below(16));
    let clauses: Vec<String> = (0..count)
        .map(|_| format!("{:04x}", clause(random)))
        .collect();
    clauses.join(".")
}

/// Figures at the floor and the ceiling worked into tasks and shown; no label stands in the way.
fn figures_line(random: &mut Random, turn: u64) -> Vec<u8> {
    const FREE: &str = "T T";
    if let Some(line) = opening_line(turn, [FREE; 2]) {
        return line;
    }
    let task = random.below(5);
    let record = random.below(10);
    let line = match random.below(10) {
        0 => format!("drop {task} {record}"),
        1 | 2 => format!("enter {record} 0 {} {FREE}", figure(random)),
        3..=5 => format!("take {task} {record} {}", random.below(3)),
        6 | 7 => format!("put {task} {record}"),
        8 if random.chance(50) => format!("close {task}"),
        8 => format!("open {task} 0"),
        _ => format!("show {record} 0000"),
    };
    line.into_bytes()
}

/// The first lines fill ten records, even ones and odd ones, and open five tasks.
fn opening_line(turn: u64, labels: [&str; 2]) -> Option<Vec<u8>> {
    let line = match turn {
        0..=9 => format!("enter {turn} 0 {turn} {}", labels[turn as usize % 2]),
        10..=14 => format!("open {} 0", turn - 10),
        _ => return None,
    };
    Some(line.into_bytes())
}

// Mixed lines.

fn mixed_line(random: &mut Random) -> Vec<u8> {
    match random.below(1000) {
        0..=4 => Vec::new(),
        5..=9 => long_line(random),
        10..=14 => random_bytes(random),
        15..=69 => {
            let line = call_line(random);
            broken(random, line)
        }
        _ => call_line(random),
    }
}

/// A line in form, as long as the longest one or a few bytes more or less: leading zeros fill it.
fn long_line(random: &mut Random) -> Vec<u8> {
    let length = 4090 + random.below(12) as usize;
    let clauses = 810 + random.below(4) as usize;
    let list = vec!["0001"; clauses].join(".");
    let zeros = length - format!("enter 1 0 1 {list} T").len();
    let first = zeros.min(9);
    let second = (zeros - first).min(9);
    let third = zeros - first - second;
    let zeros = |count| "0".repeat(count);
    let [a, b, c] = [zeros(first), zeros(second), zeros(third)];
    let mut line = format!("enter {a}1 {b}0 {c}1 {list} T").into_bytes();
    if random.chance(20) {
        let times = 2 + random.below(20) as usize;
        line = line.repeat(times);
    }
    line
}

fn random_bytes(random: &mut Random) -> Vec<u8> {
    let count = random.below(40);
    (0..count).map(|_| random_byte(random)).collect()
}

/// Any byte but the one that ends a line.
fn random_byte(random: &mut Random) -> u8 {
    match random.bits() as u8 {
        b'\n' => b'\r',
        byte => byte,
    }
}

/// A line with one fault, most of which put it out of form.
fn broken(random: &mut Random, mut line: Vec<u8>) -> Vec<u8> {
    let place = random.below(line.len() as u64) as usize;
    match random.below(11) {
        0 => line[place] = random_byte(random),
        1 => line.insert(place, random_byte(random)),
        2 => drop(line.remove(place)),
        3 => line.truncate(place),
        4 => line.push(b'\r'),
        5 => line.push(b' '),
        6 => line.insert(0, b' '),
        7 => line.extend_from_slice(random.pick(&[&b" 0"[..], b" T", b" d", b" 0001"])),
        8 => replace_space(&mut line, place, b"  "),
        9 => replace_space(&mut line, place, b"\t"),
        _ => line.make_ascii_uppercase(),
    }
    line
}

/// Replaces the last space before the place, if there is one.
fn replace_space(line: &mut Vec<u8>, place: usize, by: &[u8]) {
    if let Some(space) = line[..place].iter().rposition(|&byte| byte == b' ') {
        line.splice(space..=space, by.iter().copied());
    }
}

fn call_line(random: &mut Random) -> Vec<u8> {
    let line = match random.below(100) {
        0..=13 => enter(random),
        14..=22 => open(random),
        23..=25 => format!("close {}", task(random, 5)),
        26..=37 => take(random),
        38..=44 => format!("put {} {}", task(random, 5), record(random)),
        45..=60 => format!("drop {} {}", task(random, 5), record(random)),
        61..=69 => format!("show {} {:04x}", record(random), group(random)),
        70..=84 => relabel(random, "release"),
        _ => relabel(random, "endorse"),
    };
    line.into_bytes()
}

fn enter(random: &mut Random) -> String {
    let party = random.below(4);
    let sight = formula(random);
    let hand = match random.chance(85) {
        true => formula_with(random, 1 << party),
        false => formula(random),
    };
    let record = record(random);
    let party = number(random, party, 16);
    let figure = figure(random);
    format!("enter {record} {party} {figure} {sight} {hand}")
}

fn open(random: &mut Random) -> String {
    let party = random.below(4);
    format!("open {} {}", task(random, 5), number(random, party, 16))
}

fn take(random: &mut Random) -> String {
    let manner = random.below(3);
    let manner = number(random, manner, 3);
    // The other tasks keep their low labels, so that they may still put and drop.
    format!("take {} {} {manner}", task(random, 2), record(random))
}

fn relabel(random: &mut Random, name: &str) -> String {
    let task = task(random, 5);
    let record = record(random);
    let formula = formula(random);
    let key = key(random);
    format!("{name} {task} {record} {formula} {key}")
}

fn key(random: &mut Random) -> String {
    let code = random.below(4);
    let written = number(random, code, 4);
    let plain = privilege(random);
    let robust = if code % 2 == 1 { mode(random) } else { "" };
    let bounded = match code {
        2 | 3 => format!(" {} {}", mode(random).trim_start(), bounds(random)),
        _ => String::new(),
    };
    format!("{written} {plain}{robust}{bounded}")
}

/// Mostly one that is strong enough.
fn privilege(random: &mut Random) -> String {
    match random.below(10) {
        0..=3 => "0000".into(),
        4..=6 => "0001.0002.0004".into(),
        _ => formula(random),
    }
}

/// A mode with a space before it, mostly both kinds.
fn mode(random: &mut Random) -> &'static str {
    random.pick(&[" d", " e", " de", " de", " de", " de"])
}

/// High and low, each side mostly so that it refuses nothing.
fn bounds(random: &mut Random) -> String {
    let mut side = |free: &str| match random.chance(75) {
        true => free.to_string(),
        false => formula(random),
    };
    let high = format!("{} {}", side("0000"), side("T"));
    let low = format!("{} {}", side("T"), side("0000"));
    format!("{high} {low}")
}

/// A number near its limit or far above it now and then, else as given; sometimes with zeros.
fn number(random: &mut Random, usual: u64, limit: u64) -> String {
    let value = match random.below(100) {
        0 => limit,
        1 => limit - 1,
        2 => limit + random.below(300),
        3 => random.below(10_000_000_000),
        _ => usual,
    };
    match random.below(100) {
        0 => format!("{value:010}"),
        1 => format!("{value:011}"),
        2 | 3 => format!("{value:03}"),
        _ => value.to_string(),
    }
}

/// Few tasks, so that they are often open.
fn task(random: &mut Random, limit: u64) -> String {
    let usual = random.below(limit);
    number(random, usual, 8)
}

/// Few records, so that they are often filled.
fn record(random: &mut Random) -> String {
    let usual = random.below(8);
    number(random, usual, 64)
}

fn figure(random: &mut Random) -> String {
    let usual = match random.below(4) {
        0 => random.below(10),
        1 => random.below(100_000),
        2 => random.pick(&[0, 1, 999_999_998, 999_999_999]),
        _ => random.below(1_000_000_000),
    };
    number(random, usual, 1_000_000_000)
}

fn group(random: &mut Random) -> u16 {
    match random.below(4) {
        0 => random.bits() as u16,
        _ => random.bits() as u16 & 15,
    }
}

/// A clause of few parties: mostly of the first four.
fn clause(random: &mut Random, parties: u64) -> u16 {
    let members = 1 + random.below(2);
    (0..members).fold(0, |clause, _| clause | 1 << random.below(parties))
}

fn formula(random: &mut Random) -> String {
    formula_with(random, 0)
}

/// A formula, each of its clauses with these parties.
fn formula_with(random: &mut Random, with: u16) -> String {
    let (count, parties) = match random.below(100) {
        0..=19 => return "T".into(),
        20..=22 => (1, 0),
        23..=82 => (1 + random.below(3), 4),
        83..=88 => (1 + random.below(4), 16),
        89..=96 => (5 + random.below(4), 16),
        97 => (9 + random.below(62), 4),
        98 => (60 + random.below(10), 6),
        _ => (9 + random.below(10), 16),
    };
    let clauses: Vec<String> = (0..count)
        .map(|_| match parties {
            0 => "0000".into(),
            _ => format!("{:04x}", clause(random, parties) | with),
        })
        .collect();
    clauses.join(".")
}
