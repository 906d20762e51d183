//! Random lists of clauses and random dockets.

use plain::docket::{self, Entry};
use plain::formula::Formula;
use plain::key::Kind;
use plain::random::Random;
use plain::refusal::Refusal;

/// A list of `count` clauses over the first `parties` parties.
pub fn list(random: &mut Random, count: u64, parties: u32) -> Vec<u16> {
    let mask = ((1u32 << parties) - 1) as u16;
    (0..count).map(|_| random.bits() as u16 & mask).collect()
}

/// Two bytes a clause, high byte first.
pub fn bytes(list: &[u16]) -> Vec<u8> {
    list.iter()
        .flat_map(|clause| clause.to_be_bytes())
        .collect()
}

/// A docket of `count` lawful entries.
pub fn docket(random: &mut Random, count: usize) -> Vec<u8> {
    let mut docket = vec![0; 21 * count];
    let mut place = 0;
    for _ in 0..count {
        let entry = entry(random);
        place = docket::write(&entry, &mut docket, place).expect("an entry that fits");
    }
    docket.truncate(place);
    docket
}

fn entry(random: &mut Random) -> Entry {
    let count = random.below(9);
    let formula = list(random, count, 16);
    Entry {
        kind: random.pick(&[Kind::Release, Kind::Endorse]),
        task: random.below(8),
        record: random.below(64),
        answer: match random.below(3) {
            0 => Ok(()),
            1 => Err(Refusal::At(random.pick(&[5, 6, 12, 13, 14, 15]))),
            _ => Err(Refusal::Group(random.bits() as u16)),
        },
        formula: Formula::reduce(&formula).expect("at most eight clauses"),
    }
}
