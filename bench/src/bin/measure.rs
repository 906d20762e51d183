//! Measures two programs on files of call lines: `measure YARD PLAIN NAME=FILE...`.
//!
//! Prints a table. The two run in turn on each file, so that a busy moment hits both.

use plain::timing::{self, median};
use std::fs::{self, File};
use std::io;
use std::process::{Child, Command, Stdio};
use std::thread::sleep;
use std::time::Duration;

const ROUNDS: usize = 5;

fn main() -> io::Result<()> {
    let words: Vec<String> = std::env::args().skip(1).collect();
    let [yard, plain, files @ ..] = &words[..] else {
        return Err(io::Error::other("measure YARD PLAIN NAME=FILE..."));
    };
    println!("| Calls | Lines | yard, lines/s | plain, lines/s | yard / plain | least to most | yard, peak KiB | plain, peak KiB |");
    println!("|---|--:|--:|--:|--:|--:|--:|--:|");
    for file in files {
        let (name, path) = file.split_once('=').unwrap_or((file, file));
        println!("{}", row(yard, plain, name, path)?);
    }
    Ok(())
}

/// One row of the table.
fn row(yard: &str, plain: &str, name: &str, path: &str) -> io::Result<String> {
    let lines = lines(path)?;
    let mut speeds = [[0.0; ROUNDS]; 2];
    for round in 0..ROUNDS {
        for (speeds, program) in speeds.iter_mut().zip([yard, plain]) {
            speeds[round] = lines as f64 / time(program, path)?.as_secs_f64();
        }
    }
    let mut ratios: Vec<f64> = (0..ROUNDS).map(|k| speeds[0][k] / speeds[1][k]).collect();
    let [yard_speed, plain_speed] = speeds.map(|mut speeds| median(&mut speeds));
    let ratio = median(&mut ratios);
    let (least, most) = (ratios[0], ratios[ROUNDS - 1]);
    let yard_peak = peak(yard, path)?;
    let plain_peak = peak(plain, path)?;
    Ok(format!(
        "| {name} | {lines} | {yard_speed:.0} | {plain_speed:.0} | {ratio:.2} | \
         {least:.2} to {most:.2} | {yard_peak} | {plain_peak} |"
    ))
}

fn lines(path: &str) -> io::Result<usize> {
    let bytes = fs::read(path)?;
    Ok(bytes.iter().filter(|&&byte| byte == b'\n').count())
}

fn start(program: &str, input: Stdio) -> io::Result<Child> {
    let mut command = Command::new(program);
    command.stdin(input).stdout(Stdio::null()).spawn()
}

fn end(mut child: Child) -> io::Result<()> {
    match child.wait()?.success() {
        true => Ok(()),
        false => Err(io::Error::other("a program failed")),
    }
}

/// The processor time of one run.
fn time(program: &str, path: &str) -> io::Result<Duration> {
    let before = timing::of_children();
    end(start(program, File::open(path)?.into())?)?;
    Ok(timing::of_children() - before)
}

/// The most memory that a run has had, in KiB. The system tells it while the program still waits for
/// input; what it tells after the end would count the memory of this program too.
fn peak(program: &str, path: &str) -> io::Result<String> {
    let mut child = start(program, Stdio::piped())?;
    if let Some(mut input) = child.stdin.take() {
        io::copy(&mut File::open(path)?, &mut input)?;
        sleep(Duration::from_millis(300));
        let status = fs::read_to_string(format!("/proc/{}/status", child.id()))?;
        drop(input);
        end(child)?;
        return Ok(high_water(&status));
    }
    Err(io::Error::other("no input"))
}

fn high_water(status: &str) -> String {
    let line = status.lines().find_map(|line| line.strip_prefix("VmHWM:"));
    let number = line.and_then(|rest| rest.split_whitespace().next());
    number.unwrap_or("unknown").to_string()
}
