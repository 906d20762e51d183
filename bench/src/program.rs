//! The program: call lines in, numbered answers out, in bounded memory.

use crate::line::{call, Answer};
use crate::monitor::Monitor;
use crate::refusal::Refusal;
use std::io::{self, BufRead, Read, Write};

/// The longest line that is looked at, without its end.
pub const LONGEST: usize = 4096;
const LINE_END: u8 = 0x0a;

/// Answers every line of the input.
pub fn run(mut input: impl BufRead, mut output: impl Write) -> io::Result<()> {
    let mut monitor = Monitor::default();
    let mut line = Vec::with_capacity(LONGEST + 1);
    let mut number = 0;
    while next_line(&mut input, &mut line)? {
        number += 1;
        let answer = match line.len() {
            0..=LONGEST => call(&mut monitor, &line),
            _ => Err(Refusal::At(21)),
        };
        write_answer(&mut output, number, answer)?;
    }
    output.flush()
}

/// Reads the next line without its end, and of one that is too long only as much as shows it.
fn next_line(input: &mut impl BufRead, line: &mut Vec<u8>) -> io::Result<bool> {
    line.clear();
    let most = LONGEST as u64 + 1;
    input.by_ref().take(most).read_until(LINE_END, line)?;
    if line.last() == Some(&LINE_END) {
        line.pop();
        return Ok(true);
    }
    if line.len() > LONGEST {
        input.skip_until(LINE_END)?;
    }
    Ok(!line.is_empty())
}

fn write_answer(
    output: &mut impl Write,
    number: u64,
    answer: Result<Answer, Refusal>,
) -> io::Result<()> {
    let mut text = Text::new();
    text.decimal(number);
    match answer {
        Ok(None) => text.bytes(b" ok"),
        Ok(Some(figure)) => {
            text.bytes(b" ok ");
            text.decimal(figure);
        }
        Err(Refusal::At(question)) => {
            text.bytes(b" ");
            text.decimal(u64::from(question));
        }
        Err(Refusal::Group(group)) => {
            text.bytes(b" 16 ");
            text.group(group);
        }
    }
    text.bytes(b"\n");
    output.write_all(text.written())
}

/// One answer line as it grows; far quicker than the formatting of the standard library.
struct Text {
    length: usize,
    slots: [u8; 48],
}

impl Text {
    fn new() -> Text {
        Text {
            length: 0,
            slots: [0; 48],
        }
    }

    fn written(&self) -> &[u8] {
        &self.slots[..self.length]
    }

    fn bytes(&mut self, bytes: &[u8]) {
        self.slots[self.length..][..bytes.len()].copy_from_slice(bytes);
        self.length += bytes.len();
    }

    fn decimal(&mut self, mut number: u64) {
        let mut digits = [0; 20];
        let mut first = digits.len();
        loop {
            first -= 1;
            digits[first] = b'0' + (number % 10) as u8;
            number /= 10;
            if number == 0 {
                break;
            }
        }
        self.bytes(&digits[first..]);
    }

    fn group(&mut self, group: u16) {
        let digit = |shift: u16| b"0123456789abcdef"[usize::from(group >> shift & 15)];
        self.bytes(&[digit(12), digit(8), digit(4), digit(0)]);
    }
}

#[cfg(test)]
mod tests {
    use super::*;

    fn output(input: &[u8]) -> String {
        let mut output = Vec::new();
        // A tiny buffer, so that lines lie across its ends.
        run(io::BufReader::with_capacity(3, input), &mut output).unwrap();
        String::from_utf8(output).unwrap()
    }

    #[test]
    fn lines_and_ends() {
        assert_eq!(output(b""), "");
        assert_eq!(output(b"\n"), "1 21\n");
        assert_eq!(output(b"open 0 0\nclose 0\n"), "1 ok\n2 ok\n");
        assert_eq!(output(b"open 0 0\nclose 0"), "1 ok\n2 ok\n");
        assert_eq!(
            output(b"\n\nopen 0 0\r\n\xff\0"),
            "1 21\n2 21\n3 21\n4 21\n"
        );
    }

    #[test]
    fn long_lines() {
        // The longest line has 814 clauses in its list, so 1 shows that its form was read.
        let list = vec!["0001"; 814].join(".");
        let longest = format!("enter 0000000 0 00000000 {list} T");
        assert_eq!(longest.len(), LONGEST);
        let longer = longest.replace("enter ", "enter 0");
        assert_eq!(output(longest.as_bytes()), "1 1\n");
        assert_eq!(output(longer.as_bytes()), "1 21\n");
        let both = format!("{longest}\n{longer}\n{longer}{longer}\nopen 0 0\n");
        assert_eq!(output(both.as_bytes()), "1 1\n2 21\n3 21\n4 ok\n");
        let spaces = vec![b' '; LONGEST + 1];
        assert_eq!(output(&spaces), "1 21\n");
    }

    #[test]
    fn answers() {
        let input = b"enter 5 0 500 0001.0002 0001\nopen 2 0\nrelease 2 5 0003 1 0001.0002 d\n\
            release 2 5 0002 1 0001 d\nshow 5 0002\nshow 5 0001\n";
        let expected = "1 ok\n2 ok\n3 16 0001\n4 ok\n5 ok 500\n6 11\n";
        assert_eq!(output(input), expected);
    }
}
