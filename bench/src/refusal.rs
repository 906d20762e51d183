//! Refusals, each the number of the question that had the answer no.

/// Why something was refused.
#[derive(Clone, Copy, Debug, PartialEq, Eq)]
pub enum Refusal {
    /// Any question but 16.
    At(u8),
    /// Question 16, with the lowest-numbered group.
    Group(u16),
}

/// Puts one question.
pub fn ask(question: u8, yes: bool) -> Result<(), Refusal> {
    if yes {
        Ok(())
    } else {
        Err(Refusal::At(question))
    }
}
