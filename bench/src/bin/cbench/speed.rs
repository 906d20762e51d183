//! The speed of both sides, in turn.

use crate::exports::{self, Entry, ENTRY};
use crate::input;
use plain::compare::compare;
use plain::docket;
use plain::random::Random;
use plain::timing::{self, median};
use std::hint::black_box;
use std::time::Duration;

const ROUNDS: usize = 5;
const ROUND: Duration = Duration::from_millis(300);
const PAIRS: usize = 4096;
const ENTRIES: usize = 10_000;

/// Two lists of clauses as bytes.
type Pair = [Vec<u8>; 2];

/// Prints the table.
pub fn measure() {
    let mut random = Random::new(1);
    let pairs: Vec<Pair> = (0..PAIRS).map(|_| pair(&mut random)).collect();
    let docket = input::docket(&mut random, ENTRIES);
    println!("Operations a second of processor time, the middle of {ROUNDS} alternating runs:");
    println!();
    println!("| Operation | yard | plain | yard / plain | least to most |");
    println!("|---|--:|--:|--:|--:|");
    row(
        "formulas compared",
        || yard_compares(&pairs),
        || plain_compares(&pairs),
    );
    row(
        "docket entries read",
        || yard_reads(&docket),
        || plain_reads(&docket),
    );
}

fn row(name: &str, yard: impl Fn() -> usize, plain: impl Fn() -> usize) {
    let mut yard_speeds = [0.0; ROUNDS];
    let mut plain_speeds = [0.0; ROUNDS];
    let mut ratios = [0.0; ROUNDS];
    for round in 0..ROUNDS {
        yard_speeds[round] = per_second(&yard);
        plain_speeds[round] = per_second(&plain);
        ratios[round] = yard_speeds[round] / plain_speeds[round];
    }
    let yard = median(&mut yard_speeds);
    let plain = median(&mut plain_speeds);
    let ratio = median(&mut ratios);
    let (least, most) = (ratios[0], ratios[ROUNDS - 1]);
    println!("| {name} | {yard:.0} | {plain:.0} | {ratio:.2} | {least:.2} to {most:.2} |");
}

fn per_second(work: impl Fn() -> usize) -> f64 {
    let start = timing::of_self();
    let mut done = 0;
    while timing::of_self() - start < ROUND {
        done += work();
    }
    done as f64 / (timing::of_self() - start).as_secs_f64()
}

fn yard_compares(pairs: &[Pair]) -> usize {
    for [first, second] in pairs {
        black_box(exports::compare(first, second));
    }
    pairs.len()
}

fn plain_compares(pairs: &[Pair]) -> usize {
    for [first, second] in pairs {
        black_box(compare(first, second)).ok();
    }
    pairs.len()
}

fn yard_reads(docket: &[u8]) -> usize {
    let mut entry = Entry::default();
    let mut count = 0;
    while exports::read(docket, entry.next, &mut entry) == ENTRY {
        black_box(&entry);
        count += 1;
    }
    assert_eq!(count, ENTRIES, "the docket is read to its end");
    count
}

fn plain_reads(docket: &[u8]) -> usize {
    let mut place = 0;
    let mut count = 0;
    while let Ok(Some((entry, behind))) = docket::read(docket, place) {
        black_box(&entry);
        place = behind;
        count += 1;
    }
    assert_eq!(count, ENTRIES, "the docket is read to its end");
    count
}

/// The first list often has the second's clauses, so that both answers come.
fn pair(random: &mut Random) -> Pair {
    let [mut first, second] = [0; 2].map(|_| {
        let count = random.below(5);
        input::list(random, count, 16)
    });
    if random.chance(50) {
        first.extend_from_slice(&second);
    }
    [input::bytes(&first), input::bytes(&second)]
}
