//! Labels: sight (confidentiality) and hand (integrity).

use crate::formula::Formula;
use crate::refusal::Refusal;

/// A label, each of its marks a formula.
#[derive(Clone, Copy, Debug, Default, PartialEq, Eq)]
pub struct Label {
    pub sight: Formula,
    pub hand: Formula,
}

impl Label {
    /// Is each mark covered by the other label's?
    pub fn flows_to(&self, other: &Label) -> bool {
        other.sight.implies(&self.sight) && self.hand.implies(&other.hand)
    }

    /// Is each mark covered by the marks of the two labels together?
    pub fn covered_by(&self, first: &Label, second: &Label) -> bool {
        first.sight.and_implies(&second.sight, &self.sight)
            && self.hand.implies_or(&first.hand, &second.hand)
    }

    /// The least label that both flow to (question 10).
    pub fn join(&self, other: &Label) -> Result<Label, Refusal> {
        let too_long = |_| Refusal::At(10);
        Ok(Label {
            sight: self.sight.and(&other.sight).map_err(too_long)?,
            hand: self.hand.or(&other.hand).map_err(too_long)?,
        })
    }
}

#[cfg(test)]
pub(crate) mod tests {
    use super::*;

    pub(crate) fn label(sight: &[u16], hand: &[u16]) -> Label {
        Label {
            sight: Formula::reduce(sight).unwrap(),
            hand: Formula::reduce(hand).unwrap(),
        }
    }

    #[test]
    fn flows() {
        assert!(label(&[], &[1]).flows_to(&label(&[1], &[3])));
        assert!(!label(&[1], &[1]).flows_to(&label(&[], &[1])));
        assert!(!label(&[], &[3]).flows_to(&label(&[], &[1])));
    }

    #[test]
    fn joins() {
        let joined = label(&[1], &[1]).join(&label(&[2], &[2]));
        assert_eq!(joined, Ok(label(&[1, 2], &[3])));
        let few = label(&[1, 2, 4, 8, 16], &[]);
        let more = label(&[32, 64, 128, 256], &[]);
        assert_eq!(few.join(&more), Err(Refusal::At(10)));
    }

    #[test]
    fn covers_beyond_the_limit_of_joining() {
        let few = label(&[1, 2, 4, 8, 16], &[1, 2, 4]);
        let more = label(&[32, 64, 128, 256], &[8, 16, 32]);
        assert!(few.covered_by(&few, &more));
        assert!(more.covered_by(&few, &more));
        assert!(!label(&[512], &[]).covered_by(&few, &more));
    }
}
