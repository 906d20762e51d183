//! The answers of both sides on random input, well formed and damaged.

use crate::exports::{self, Entry, ENTRY, OVER};
use crate::input;
use plain::compare::compare;
use plain::docket;
use plain::key::Kind;
use plain::random::Random;
use plain::refusal::Refusal;
use std::collections::BTreeMap;

/// Every answer of the comparison, and every answer of the reader.
const COMPARED: [u32; 8] = [0, 1, 101, 102, 119, 201, 202, 219];
const READ: [u32; 4] = [0, 1, 19, 20];

/// How often each answer came.
type Tally = BTreeMap<u32, u64>;

/// Puts `count` random inputs to both sides, and tells whether all answers agree and each came.
pub fn check(seed: u64, count: u64) -> bool {
    let mut random = Random::new(seed);
    let (mut compared, mut read) = (Tally::new(), Tally::new());
    for _ in 0..count {
        if !same_comparison(&mut random, &mut compared) || !same_walk(&mut random, &mut read) {
            return false;
        }
    }
    println!("C interface, no difference: comparisons {compared:?}, readings {read:?}");
    came("comparison", &COMPARED, &compared) && came("reading", &READ, &read)
}

/// Has each answer come?
fn came(name: &str, answers: &[u32], tally: &Tally) -> bool {
    let missing: Vec<&u32> = answers.iter().filter(|a| !tally.contains_key(a)).collect();
    if !missing.is_empty() {
        println!("C interface: {name} never answered {missing:?}");
    }
    missing.is_empty()
}

fn same_comparison(random: &mut Random, tally: &mut Tally) -> bool {
    let first = clauses(random);
    let second = clauses(random);
    let ours = expected_comparison(&first, &second);
    let theirs = exports::compare(&first, &second);
    *tally.entry(ours).or_default() += 1;
    if ours != theirs {
        println!("C interface: {first:02x?} and {second:02x?}: plain {ours}, yard {theirs}");
    }
    ours == theirs
}

/// Mostly few parties, so that some formulas imply others; now and then too many bytes, or odd.
fn clauses(random: &mut Random) -> Vec<u8> {
    let (count, parties) = match random.below(20) {
        0 => (62 + random.below(6), 3),
        1 => (7 + random.below(8), 16),
        2..=5 => (random.below(9), 16),
        _ => (random.below(5), 3),
    };
    let mut bytes = input::bytes(&input::list(random, count, parties));
    if random.chance(3) {
        bytes.push(0);
    }
    bytes
}

/// The plain library's answer in the header's numbers, which also tell the list.
fn expected_comparison(first: &[u8], second: &[u8]) -> u32 {
    if let Err(refusal) = compare(first, &[]) {
        return 100 + question(refusal);
    }
    match compare(first, second) {
        Ok(yes) => u32::from(yes),
        Err(refusal) => 200 + question(refusal),
    }
}

fn question(refusal: Refusal) -> u32 {
    match refusal {
        Refusal::At(question) => u32::from(question),
        Refusal::Group(_) => 16,
    }
}

/// Walks through a docket that may be damaged, and reads at one random place more.
fn same_walk(random: &mut Random, tally: &mut Tally) -> bool {
    let docket = some_docket(random);
    let length = docket.len() as u64;
    let anywhere = random.below(length + 3);
    let mut places = vec![random.pick(&[anywhere, u64::MAX])];
    let mut next = Some(0);
    while let Some(place) = next.take().or_else(|| places.pop()) {
        let Some(answer) = same_reading(&docket, place) else {
            return false;
        };
        *tally.entry(answer.0).or_default() += 1;
        // The walk goes on from the first place only.
        next = answer.1.filter(|_| !places.is_empty());
    }
    true
}

/// Lawful, damaged, or any bytes.
fn some_docket(random: &mut Random) -> Vec<u8> {
    let count = random.below(4);
    if random.chance(20) {
        return input::bytes(&input::list(random, 3 * count, 16));
    }
    let mut docket = input::docket(random, count as usize);
    if random.chance(60) {
        damage(random, &mut docket);
    }
    docket
}

/// Flips a bit or cuts the end off.
fn damage(random: &mut Random, docket: &mut Vec<u8>) {
    if docket.is_empty() {
        return;
    }
    let place = random.below(docket.len() as u64) as usize;
    match random.chance(70) {
        true => docket[place] ^= 1 << random.below(8),
        false => docket.truncate(place),
    }
}

/// The answer of both sides and the next place, or nothing when they differ.
fn same_reading(docket: &[u8], place: u64) -> Option<(u32, Option<u64>)> {
    // What no reading gives, so that it shows whether the entry is left as it was.
    let untouched = Entry {
        kind: 77,
        next: 77,
        ..Entry::default()
    };
    let (mut ours, mut theirs) = (untouched, untouched);
    let our_answer = expected_reading(docket, place, &mut ours);
    let their_answer = exports::read(docket, place, &mut theirs);
    if (our_answer, ours) != (their_answer, theirs) {
        println!(
            "C interface: place {place} of {docket:02x?}: \
             plain {our_answer} {ours:?}, yard {their_answer} {theirs:?}"
        );
        return None;
    }
    Some((our_answer, (our_answer == ENTRY).then_some(ours.next)))
}

/// The plain library's reading in the header's shape.
fn expected_reading(docket: &[u8], place: u64, out: &mut Entry) -> u32 {
    let (entry, behind) = match docket::read(docket, place as usize) {
        Ok(Some(found)) => found,
        Ok(None) => return OVER,
        Err(refusal) => return question(refusal),
    };
    let clauses = entry.formula.clauses();
    *out = Entry {
        kind: u32::from(entry.kind == Kind::Endorse),
        question: entry.answer.err().map_or(0, question),
        task: entry.task,
        record: entry.record,
        next: behind as u64,
        group: match entry.answer {
            Err(Refusal::Group(group)) => group,
            _ => 0,
        },
        count: clauses.len() as u16,
        clauses: [0; 8],
    };
    out.clauses[..clauses.len()].copy_from_slice(clauses);
    ENTRY
}
