//! Keys, which decide on releases and endorsements.

use crate::formula::Formula;
use crate::label::Label;
use crate::refusal::{ask, Refusal};

/// What a request asks for.
#[derive(Clone, Copy, Debug, PartialEq, Eq)]
pub enum Kind {
    Release,
    Endorse,
}

/// What a key is asked.
pub struct Request<'a> {
    pub kind: Kind,
    pub record: &'a Label,
    pub formula: &'a Formula,
    pub task: &'a Label,
}

impl Request<'_> {
    /// The record's label after the request is granted.
    pub fn new_label(&self) -> Label {
        let mut label = *self.record;
        match self.kind {
            Kind::Release => label.sight = *self.formula,
            Kind::Endorse => label.hand = *self.formula,
        }
        label
    }
}

/// The kinds that a wrap covers.
#[derive(Clone, Copy, Debug, PartialEq, Eq)]
pub struct Mode {
    pub release: bool,
    pub endorse: bool,
}

impl Mode {
    fn covers(self, kind: Kind) -> bool {
        match kind {
            Kind::Release => self.release,
            Kind::Endorse => self.endorse,
        }
    }
}

/// Anything that answers requests.
pub trait Key {
    fn answer(&self, request: &Request) -> Result<(), Refusal>;
}

/// A key with a formula as its privilege.
pub struct Plain {
    pub formula: Formula,
}

impl Key for Plain {
    fn answer(&self, request: &Request) -> Result<(), Refusal> {
        let covers = match request.kind {
            Kind::Release => self
                .formula
                .and_implies(request.formula, &request.record.sight),
            Kind::Endorse => self
                .formula
                .and_implies(&request.record.hand, request.formula),
        };
        ask(12, covers)
    }
}

/// A wrap that keeps labels between two bounds.
pub struct Bounded<K> {
    pub below: K,
    pub mode: Mode,
    pub high: Label,
    pub low: Label,
}

impl<K: Key> Key for Bounded<K> {
    fn answer(&self, request: &Request) -> Result<(), Refusal> {
        self.below.answer(request)?;
        ask(13, self.mode.covers(request.kind))?;
        let high = &self.high;
        ask(
            14,
            request.record.flows_to(high) && request.task.flows_to(high),
        )?;
        ask(15, self.low.covered_by(&request.new_label(), request.task))
    }
}

/// A wrap that refuses what those with a hand in the matter would gain by.
pub struct Robust<K> {
    pub below: K,
    pub mode: Mode,
}

impl<K: Key> Key for Robust<K> {
    fn answer(&self, request: &Request) -> Result<(), Refusal> {
        self.below.answer(request)?;
        ask(13, self.mode.covers(request.kind))?;
        if is_robust(request) {
            return Ok(());
        }
        lowest(request).map_or(Ok(()), |group| Err(Refusal::Group(group)))
    }
}

/// The lowest group that offends, found by trying all: slow, and plainly what question 16 asks.
fn lowest(request: &Request) -> Option<u16> {
    let mut groups = 0..=u16::MAX;
    match request.kind {
        Kind::Release => groups.find(|&group| gains_with_a_hand(request, group)),
        Kind::Endorse => groups.find(|&group| takes_own_hand_off(request, group)),
    }
}

/// The quick way to a grant: does no group offend?
fn is_robust(request: &Request) -> bool {
    let new = request.formula;
    let old = request.record;
    match request.kind {
        Kind::Release => {
            new.and_implies(&old.hand, &old.sight)
                && new.and_implies(&request.task.hand, &old.sight)
        }
        Kind::Endorse => request.task.hand.and_implies(&old.hand, new),
    }
}

/// Does the release let in this group, which has a hand in the record or in the task?
fn gains_with_a_hand(request: &Request, group: u16) -> bool {
    let old = request.record;
    request.formula.met_by(group)
        && !old.sight.met_by(group)
        && (old.hand.met_by(group) || request.task.hand.met_by(group))
}

/// Does the endorsement take the hand of this group off, which has a hand in the task?
fn takes_own_hand_off(request: &Request, group: u16) -> bool {
    !request.formula.met_by(group)
        && request.record.hand.met_by(group)
        && request.task.hand.met_by(group)
}

#[cfg(test)]
mod tests {
    use super::*;
    use crate::random::Random;

    const RELEASE: Mode = Mode {
        release: true,
        endorse: false,
    };
    const BOTH: Mode = Mode {
        release: true,
        endorse: true,
    };

    fn formula(list: &[u16]) -> Formula {
        Formula::reduce(list).unwrap()
    }

    fn label(sight: &[u16], hand: &[u16]) -> Label {
        Label {
            sight: formula(sight),
            hand: formula(hand),
        }
    }

    fn plain(list: &[u16]) -> Plain {
        Plain {
            formula: formula(list),
        }
    }

    fn robust(list: &[u16]) -> Robust<Plain> {
        Robust {
            below: plain(list),
            mode: BOTH,
        }
    }

    fn bounded(list: &[u16]) -> Bounded<Plain> {
        Bounded {
            below: plain(list),
            mode: RELEASE,
            high: label(&[1, 2], &[3]),
            low: label(&[3], &[1, 2]),
        }
    }

    fn answer(
        key: &dyn Key,
        kind: Kind,
        record: Label,
        new: &[u16],
        task: Label,
    ) -> Result<(), Refusal> {
        key.answer(&Request {
            kind,
            record: &record,
            formula: &formula(new),
            task: &task,
        })
    }

    #[test]
    fn cases_of_plain_keys() {
        let old = label(&[1, 2], &[]);
        let task = label(&[], &[]);
        let key = plain(&[1]);
        assert_eq!(answer(&key, Kind::Release, old, &[2], task), Ok(()));
        assert_eq!(
            answer(&key, Kind::Release, old, &[3], task),
            Err(Refusal::At(12))
        );
    }

    #[test]
    fn cases_of_robust_releases() {
        let old = label(&[1, 2], &[1]);
        let task = label(&[], &[1]);
        let key = robust(&[1, 2]);
        assert_eq!(
            answer(&key, Kind::Release, old, &[3], task),
            Err(Refusal::Group(1))
        );
        assert_eq!(answer(&key, Kind::Release, old, &[2], task), Ok(()));
        let old = label(&[1, 2], &[4]);
        let task = label(&[], &[4]);
        assert_eq!(
            answer(&key, Kind::Release, old, &[3], task),
            Err(Refusal::Group(5))
        );
        let nobody = label(&[], &[]);
        assert_eq!(
            answer(&robust(&[1]), Kind::Release, label(&[1], &[]), &[], nobody),
            Err(Refusal::Group(0))
        );
    }

    #[test]
    fn cases_of_robust_endorsements() {
        let old = label(&[], &[3]);
        let key = robust(&[1]);
        assert_eq!(
            answer(&key, Kind::Endorse, old, &[1], label(&[], &[1])),
            Ok(())
        );
        assert_eq!(
            answer(&key, Kind::Endorse, old, &[1], label(&[], &[3])),
            Err(Refusal::Group(2))
        );
    }

    #[test]
    fn cases_of_bounded_keys() {
        let old = label(&[1, 2], &[1]);
        let task = label(&[], &[1]);
        let key = bounded(&[1]);
        assert_eq!(answer(&key, Kind::Release, old, &[2], task), Ok(()));
        assert_eq!(
            answer(&bounded(&[1, 2]), Kind::Release, old, &[], task),
            Err(Refusal::At(15))
        );
        assert_eq!(
            answer(&key, Kind::Endorse, old, &[], task),
            Err(Refusal::At(13))
        );
        assert_eq!(
            answer(&key, Kind::Release, old, &[2], label(&[4], &[1])),
            Err(Refusal::At(14))
        );
    }

    #[test]
    fn quick_way_agrees_with_every_group() {
        let mut random = Random::new(2);
        let some = |random: &mut Random| {
            let count = random.below(4) as usize;
            let list: Vec<u16> = (0..count).map(|_| random.bits() as u16 & 31).collect();
            formula(&list)
        };
        for turn in 0..200 {
            let [sight, hand, task, new] = [0; 4].map(|_| some(&mut random));
            let request = Request {
                kind: [Kind::Release, Kind::Endorse][turn % 2],
                record: &Label { sight, hand },
                formula: &new,
                task: &Label {
                    sight: Formula::TRUE,
                    hand: task,
                },
            };
            assert_eq!(is_robust(&request), lowest(&request).is_none());
        }
    }
}
