//! Formulas in kept form: at most eight clauses, none within another, in rising order.

use crate::refusal::{ask, Refusal};

/// The most clauses that a list may have.
pub const MOST_LISTED: usize = 64;
/// The most clauses that a kept form may have.
pub const MOST_KEPT: usize = 8;

/// A formula in kept form. Slots behind the last clause are 0, so equality may be derived.
#[derive(Clone, Copy, Debug, Default, PartialEq, Eq)]
pub struct Formula {
    count: u8,
    slots: [u16; MOST_KEPT],
}

/// Is each party of `inner` one of `outer`?
fn within(inner: u16, outer: u16) -> bool {
    inner & !outer == 0
}

impl Formula {
    /// The formula that every group meets.
    pub const TRUE: Formula = Formula {
        count: 0,
        slots: [0; MOST_KEPT],
    };

    /// The formula whose one clause is the party alone.
    pub fn of_party(party: u32) -> Formula {
        let mut formula = Formula::TRUE;
        formula.count = 1;
        formula.slots[0] = 1 << party;
        formula
    }

    /// Reduces a list of clauses (questions 1 and 2).
    pub fn reduce(list: &[u16]) -> Result<Formula, Refusal> {
        Formula::reduce_all(list.iter().copied())
    }

    /// The same for clauses that are not in a slice.
    pub fn reduce_all(list: impl ExactSizeIterator<Item = u16>) -> Result<Formula, Refusal> {
        ask(1, list.len() <= MOST_LISTED)?;
        let mut minimal = Minimal::new();
        list.for_each(|clause| minimal.add(clause));
        minimal.keep()
    }

    /// The formula of clauses that are in kept form already, and nothing of others.
    pub fn of_kept(clauses: &[u16]) -> Option<Formula> {
        // In rising order a clause can only contain one before it.
        let minimal = |(k, &clause): (usize, &u16)| {
            clauses[..k]
                .iter()
                .all(|&before| before < clause && !within(before, clause))
        };
        if clauses.len() > MOST_KEPT || !clauses.iter().enumerate().all(minimal) {
            return None;
        }
        let mut formula = Formula::TRUE;
        formula.count = clauses.len() as u8;
        formula.slots[..clauses.len()].copy_from_slice(clauses);
        Some(formula)
    }

    /// The clauses, in rising order.
    pub fn clauses(&self) -> &[u16] {
        &self.slots[..usize::from(self.count)]
    }

    /// Does the group meet the formula?
    pub fn met_by(&self, group: u16) -> bool {
        self.clauses().iter().all(|clause| clause & group != 0)
    }

    /// Does the formula imply this one clause?
    fn implies_clause(&self, clause: u16) -> bool {
        self.clauses().iter().any(|&own| within(own, clause))
    }

    /// Does every group that meets this formula meet the other?
    pub fn implies(&self, other: &Formula) -> bool {
        other.clauses().iter().all(|&c| self.implies_clause(c))
    }

    /// Does every group that meets both this formula and `second` meet `target`?
    pub fn and_implies(&self, second: &Formula, target: &Formula) -> bool {
        let implied = |&c: &u16| self.implies_clause(c) || second.implies_clause(c);
        target.clauses().iter().all(implied)
    }

    /// Does every group that meets this formula meet `first` or `second`?
    pub fn implies_or(&self, first: &Formula, second: &Formula) -> bool {
        let pair = |&c: &u16| second.clauses().iter().all(|d| self.implies_clause(c | d));
        first.clauses().iter().all(pair)
    }

    /// The formula met by the groups that meet both (question 2).
    pub fn and(&self, other: &Formula) -> Result<Formula, Refusal> {
        let mut minimal = Minimal::new();
        for &clause in self.clauses().iter().chain(other.clauses()) {
            minimal.add(clause);
        }
        minimal.keep()
    }

    /// The formula met by the groups that meet either (question 2).
    pub fn or(&self, other: &Formula) -> Result<Formula, Refusal> {
        let mut minimal = Minimal::new();
        for &clause in self.clauses() {
            for &second in other.clauses() {
                minimal.add(clause | second);
            }
        }
        minimal.keep()
    }
}

/// The clauses of a growing list that contain no other of it.
struct Minimal {
    count: usize,
    slots: [u16; MOST_LISTED],
}

impl Minimal {
    fn new() -> Minimal {
        Minimal {
            count: 0,
            slots: [0; MOST_LISTED],
        }
    }

    /// Adds one more clause. At most 64 may be added.
    fn add(&mut self, clause: u16) {
        if self.slots[..self.count].iter().any(|&k| within(k, clause)) {
            return;
        }
        let mut left = 0;
        for place in 0..self.count {
            let kept = self.slots[place];
            if !within(clause, kept) {
                self.slots[left] = kept;
                left += 1;
            }
        }
        self.slots[left] = clause;
        self.count = left + 1;
    }

    /// The kept form (question 2).
    fn keep(self) -> Result<Formula, Refusal> {
        ask(2, self.count <= MOST_KEPT)?;
        let mut formula = Formula::TRUE;
        formula.count = self.count as u8;
        formula.slots[..self.count].copy_from_slice(&self.slots[..self.count]);
        formula.slots[..self.count].sort_unstable();
        Ok(formula)
    }
}

#[cfg(test)]
mod tests {
    use super::*;
    use crate::random::Random;

    fn formula(list: &[u16]) -> Formula {
        Formula::reduce(list).unwrap()
    }

    fn some_formula(random: &mut Random) -> Formula {
        let count = random.below(5) as usize;
        let mask = [0x000f, 0x00ff, 0xffff][random.below(3) as usize];
        let list: Vec<u16> = (0..count).map(|_| random.bits() as u16 & mask).collect();
        formula(&list)
    }

    #[test]
    fn cases_of_reducing() {
        assert_eq!(formula(&[3, 1]), formula(&[1]));
        assert_eq!(formula(&[]), Formula::TRUE);
        assert_eq!(formula(&[0, 5]).clauses(), [0]);
        assert_eq!(formula(&[6, 1, 6]).clauses(), [1, 6]);
    }

    #[test]
    fn cases_of_implying() {
        assert!(formula(&[1, 2]).implies(&formula(&[3])));
        assert!(!formula(&[3]).implies(&formula(&[1, 2])));
        assert!(!Formula::TRUE.implies(&formula(&[1])));
        assert_eq!(formula(&[1]).and(&formula(&[2])), Ok(formula(&[1, 2])));
        assert_eq!(formula(&[1]).or(&formula(&[2])), Ok(formula(&[3])));
    }

    #[test]
    fn kept_forms() {
        let mut random = Random::new(4);
        for _ in 0..100_000 {
            let count = random.below(5);
            let list: Vec<u16> = (0..count).map(|_| random.below(16) as u16).collect();
            let kept = formula(&list).clauses() == list;
            assert_eq!(Formula::of_kept(&list).is_some(), kept, "{list:?}");
        }
        assert_eq!(Formula::of_kept(&[1, 6]), Some(formula(&[6, 1])));
        let nine: Vec<u16> = (0..9).map(|k| 1 << k).collect();
        assert_eq!(Formula::of_kept(&nine), None);
    }

    #[test]
    fn limits() {
        let single: Vec<u16> = (0..9).map(|k| 1 << k).collect();
        assert_eq!(Formula::reduce(&single), Err(Refusal::At(2)));
        assert!(Formula::reduce(&single[..8]).is_ok());
        assert!(Formula::reduce(&[single, vec![0]].concat()).is_ok());
        assert!(Formula::reduce(&[7; 64]).is_ok());
        assert_eq!(Formula::reduce(&[7; 65]), Err(Refusal::At(1)));
    }

    #[test]
    fn meaning_on_every_group() {
        let mut random = Random::new(1);
        for _ in 0..60 {
            let a = some_formula(&mut random);
            let b = some_formula(&mut random);
            let c = some_formula(&mut random);
            let all = |test: &dyn Fn(u16) -> bool| (0..=u16::MAX).all(test);
            let implies = all(&|g| !a.met_by(g) || b.met_by(g));
            let and = all(&|g| !(a.met_by(g) && b.met_by(g)) || c.met_by(g));
            let or = all(&|g| !a.met_by(g) || b.met_by(g) || c.met_by(g));
            assert_eq!(a.implies(&b), implies);
            assert_eq!(a.and_implies(&b, &c), and);
            assert_eq!(a.implies_or(&b, &c), or);
            if let Ok(joined) = a.and(&b) {
                assert!(all(&|g| joined.met_by(g) == (a.met_by(g) && b.met_by(g))));
            }
            if let Ok(joined) = a.or(&b) {
                assert!(all(&|g| joined.met_by(g) == (a.met_by(g) || b.met_by(g))));
            }
        }
    }
}
