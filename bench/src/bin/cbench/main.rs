//! The monitor's functions for C against the plain library.
//!
//! `cbench` measures both; `cbench check SEED COUNT` compares their answers on random input.

#[cfg(c_interface)]
mod check;
#[cfg(c_interface)]
mod exports;
#[cfg(c_interface)]
mod input;
#[cfg(c_interface)]
mod speed;

#[cfg(c_interface)]
fn main() -> std::process::ExitCode {
    let words: Vec<String> = std::env::args().skip(1).collect();
    let words: Vec<&str> = words.iter().map(String::as_str).collect();
    let number = |word: &str| word.parse().ok();
    let good = match words[..] {
        [] => {
            speed::measure();
            true
        }
        ["check", seed, count] => match (number(seed), number(count)) {
            (Some(seed), Some(count)) => check::check(seed, count),
            _ => usage(),
        },
        _ => usage(),
    };
    std::process::ExitCode::from(u8::from(!good))
}

#[cfg(c_interface)]
fn usage() -> bool {
    eprintln!("cbench [check SEED COUNT]");
    false
}

#[cfg(not(c_interface))]
fn main() {
    println!(
        "C interface: skipped, as target/staticlib/libexports.a or include/yard.h is not there"
    );
}
