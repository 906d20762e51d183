//! The comparison of two formulas given as bytes.

use crate::formula::Formula;
use crate::refusal::{ask, Refusal};

/// Does the first formula imply the second (questions 19, 1 and 2, first list first)?
pub fn compare(first: &[u8], second: &[u8]) -> Result<bool, Refusal> {
    let first = parse(first)?;
    let second = parse(second)?;
    Ok(first.implies(&second))
}

/// Two bytes a clause, high byte first.
fn parse(bytes: &[u8]) -> Result<Formula, Refusal> {
    ask(19, bytes.len().is_multiple_of(2))?;
    let clause = |pair: &[u8]| u16::from_be_bytes([pair[0], pair[1]]);
    Formula::reduce_all(bytes.chunks_exact(2).map(clause))
}

#[cfg(test)]
mod tests {
    use super::*;

    #[test]
    fn answers() {
        assert_eq!(compare(&[0, 1, 0, 2], &[0, 3]), Ok(true));
        assert_eq!(compare(&[0, 3], &[0, 1, 0, 2]), Ok(false));
        assert_eq!(compare(&[], &[0, 1]), Ok(false));
        assert_eq!(compare(&[0, 1], &[]), Ok(true));
        assert_eq!(compare(&[0x10, 0], &[0, 0x10]), Ok(false));
    }

    #[test]
    fn refusals_in_order() {
        let nine: Vec<u8> = (0..9).flat_map(|k| (1u16 << k).to_be_bytes()).collect();
        assert_eq!(compare(&[0; 131], &[0]), Err(Refusal::At(19)));
        assert_eq!(compare(&[0; 130], &[0]), Err(Refusal::At(1)));
        assert_eq!(compare(&nine, &[0]), Err(Refusal::At(2)));
        assert_eq!(compare(&[0; 128], &[0]), Err(Refusal::At(19)));
        assert_eq!(compare(&[], &[0; 130]), Err(Refusal::At(1)));
        assert_eq!(compare(&[], &nine), Err(Refusal::At(2)));
    }
}
