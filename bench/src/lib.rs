//! The yard label monitor in plain Rust, written from `docs/RULES.md` alone: the yardstick for
//! answers and for speed. Nothing here is proved.

pub mod compare;
pub mod docket;
pub mod formula;
pub mod key;
pub mod label;
pub mod line;
pub mod monitor;
pub mod program;
pub mod random;
pub mod refusal;
pub mod timing;
