//! Call lines: their forms, and the formulas in them.

use crate::formula::{Formula, MOST_LISTED};
use crate::key::{Bounded, Key, Kind, Mode, Plain, Request, Robust};
use crate::label::Label;
use crate::monitor::Monitor;
use crate::refusal::{ask, Refusal};

/// The keys that a line can name.
pub enum LineKey {
    Plain(Plain),
    Robust(Robust<Plain>),
    Bounded(Bounded<Plain>),
    BoundedRobust(Bounded<Robust<Plain>>),
}

impl Key for LineKey {
    fn answer(&self, request: &Request) -> Result<(), Refusal> {
        match self {
            LineKey::Plain(key) => key.answer(request),
            LineKey::Robust(key) => key.answer(request),
            LineKey::Bounded(key) => key.answer(request),
            LineKey::BoundedRobust(key) => key.answer(request),
        }
    }
}

/// What a granted line answers: nothing more, or a figure.
pub type Answer = Option<u64>;

const NO_FORM: Refusal = Refusal::At(21);

/// Makes the call of one line.
pub fn call(monitor: &mut Monitor, line: &[u8]) -> Result<Answer, Refusal> {
    let mut words = Words::new(line);
    match words.next()? {
        b"enter" => enter(monitor, words).map(no_figure),
        b"open" => open(monitor, words).map(no_figure),
        b"close" => close(monitor, words).map(no_figure),
        b"take" => take(monitor, words).map(no_figure),
        b"put" => put(monitor, words).map(no_figure),
        b"drop" => drop(monitor, words).map(no_figure),
        b"show" => show(monitor, words).map(Some),
        b"release" => relabel(monitor, words, Kind::Release).map(no_figure),
        b"endorse" => relabel(monitor, words, Kind::Endorse).map(no_figure),
        _ => Err(NO_FORM),
    }
}

fn no_figure(_: ()) -> Answer {
    None
}

fn enter(monitor: &mut Monitor, mut words: Words) -> Result<(), Refusal> {
    let record = words.number()?;
    let party = words.number()?;
    let figure = words.number()?;
    let label = words.label()?;
    words.end()?;
    monitor.enter(record, party, figure, label)
}

fn open(monitor: &mut Monitor, mut words: Words) -> Result<(), Refusal> {
    let task = words.number()?;
    let party = words.number()?;
    words.end()?;
    monitor.open(task, party)
}

fn close(monitor: &mut Monitor, mut words: Words) -> Result<(), Refusal> {
    let task = words.number()?;
    words.end()?;
    monitor.close(task)
}

fn take(monitor: &mut Monitor, mut words: Words) -> Result<(), Refusal> {
    let task = words.number()?;
    let record = words.number()?;
    let manner = words.number()?;
    words.end()?;
    monitor.take(task, record, manner)
}

fn put(monitor: &mut Monitor, mut words: Words) -> Result<(), Refusal> {
    let task = words.number()?;
    let record = words.number()?;
    words.end()?;
    monitor.put(task, record)
}

fn drop(monitor: &mut Monitor, mut words: Words) -> Result<(), Refusal> {
    let task = words.number()?;
    let record = words.number()?;
    words.end()?;
    monitor.drop(task, record)
}

fn show(monitor: &mut Monitor, mut words: Words) -> Result<u64, Refusal> {
    let record = words.number()?;
    let group = words.group()?;
    words.end()?;
    monitor.show(record, group)
}

fn relabel(monitor: &mut Monitor, mut words: Words, kind: Kind) -> Result<(), Refusal> {
    let task = words.number()?;
    let record = words.number()?;
    let formula = words.formula()?;
    let key = words.key()?;
    words.end()?;
    monitor.relabel(kind, task, record, &formula, &key)
}

/// The words of a line that are still to be read. A word without its form is an error at once; a
/// formula that is too long waits for the end of the line, as the form of the line comes first.
struct Words<'a> {
    rest: Option<&'a [u8]>,
    too_long: Option<Refusal>,
}

impl<'a> Words<'a> {
    fn new(line: &'a [u8]) -> Words<'a> {
        Words {
            rest: Some(line),
            too_long: None,
        }
    }

    fn next(&mut self) -> Result<&'a [u8], Refusal> {
        let rest = self.rest.ok_or(NO_FORM)?;
        let Some(space) = rest.iter().position(|&byte| byte == b' ') else {
            self.rest = None;
            return Ok(rest);
        };
        self.rest = Some(&rest[space + 1..]);
        Ok(&rest[..space])
    }

    fn number(&mut self) -> Result<u64, Refusal> {
        number(self.next()?).ok_or(NO_FORM)
    }

    fn group(&mut self) -> Result<u16, Refusal> {
        four_digits(self.next()?).ok_or(NO_FORM)
    }

    /// A formula, or True in place of one that is refused.
    fn formula(&mut self) -> Result<Formula, Refusal> {
        let reduced = formula(self.next()?).ok_or(NO_FORM)?;
        Ok(reduced.unwrap_or_else(|refusal| {
            self.too_long.get_or_insert(refusal);
            Formula::TRUE
        }))
    }

    fn label(&mut self) -> Result<Label, Refusal> {
        Ok(Label {
            sight: self.formula()?,
            hand: self.formula()?,
        })
    }

    fn mode(&mut self) -> Result<Mode, Refusal> {
        let (release, endorse) = match self.next()? {
            b"d" => (true, false),
            b"e" => (false, true),
            b"de" => (true, true),
            _ => return Err(NO_FORM),
        };
        Ok(Mode { release, endorse })
    }

    fn key(&mut self) -> Result<LineKey, Refusal> {
        let code = self.number()?;
        let plain = Plain {
            formula: self.formula()?,
        };
        Ok(match code {
            0 => LineKey::Plain(plain),
            1 => LineKey::Robust(self.robust(plain)?),
            2 => LineKey::Bounded(self.bounded(plain)?),
            3 => {
                let robust = self.robust(plain)?;
                LineKey::BoundedRobust(self.bounded(robust)?)
            }
            _ => return Err(NO_FORM),
        })
    }

    fn robust<K: Key>(&mut self, below: K) -> Result<Robust<K>, Refusal> {
        let mode = self.mode()?;
        Ok(Robust { below, mode })
    }

    fn bounded<K: Key>(&mut self, below: K) -> Result<Bounded<K>, Refusal> {
        Ok(Bounded {
            below,
            mode: self.mode()?,
            high: self.label()?,
            low: self.label()?,
        })
    }

    /// No word may be left; then the first refused formula refuses the line.
    fn end(self) -> Result<(), Refusal> {
        ask(21, self.rest.is_none())?;
        self.too_long.map_or(Ok(()), Err)
    }
}

/// A number of 1 to 10 decimal digits.
fn number(word: &[u8]) -> Option<u64> {
    if word.is_empty() || word.len() > 10 {
        return None;
    }
    word.iter().try_fold(0, |number, byte| {
        let digit = byte.wrapping_sub(b'0');
        (digit < 10).then(|| number * 10 + u64::from(digit))
    })
}

/// What `DIGITS` has for a byte that is no lowercase hexadecimal digit.
const NO_DIGIT: u8 = 0xff;
/// The worth of each byte as a lowercase hexadecimal digit.
const DIGITS: [u8; 256] = {
    let mut digits = [NO_DIGIT; 256];
    let mut worth = 0;
    while worth < 16 {
        digits[b"0123456789abcdef"[worth] as usize] = worth as u8;
        worth += 1;
    }
    digits
};

/// A group or a clause.
fn four_digits(word: &[u8]) -> Option<u16> {
    let &[a, b, c, d] = word else { return None };
    let [a, b, c, d] = [a, b, c, d].map(|byte| DIGITS[usize::from(byte)]);
    if a | b | c | d == NO_DIGIT {
        return None;
    }
    Some(u16::from(a << 4 | b) << 8 | u16::from(c << 4 | d))
}

/// A formula as on paper, reduced: nothing for a word of another form.
fn formula(word: &[u8]) -> Option<Result<Formula, Refusal>> {
    if word == b"T" {
        return Some(Ok(Formula::TRUE));
    }
    let mut stops = word.iter().skip(4).step_by(5);
    if word.len() % 5 != 4 || stops.any(|&byte| byte != b'.') {
        return None;
    }
    // One place more than a list may have, so that too long a list stays too long.
    let mut list = [0; MOST_LISTED + 1];
    for (place, clause) in word.chunks(5).enumerate() {
        list[place.min(MOST_LISTED)] = four_digits(&clause[..4])?;
    }
    let count = word.len().div_ceil(5).min(list.len());
    Some(Formula::reduce(&list[..count]))
}

#[cfg(test)]
mod tests {
    use super::*;

    fn answers(lines: &[&str]) -> Vec<Result<Answer, Refusal>> {
        let mut monitor = Monitor::default();
        let call = |line: &&str| call(&mut monitor, line.as_bytes());
        lines.iter().map(call).collect()
    }

    fn answer(line: &str) -> Result<Answer, Refusal> {
        answers(&[line])[0]
    }

    fn of_clauses(count: usize) -> String {
        vec!["0001"; count].join(".")
    }

    #[test]
    fn numbers() {
        assert_eq!(number(b"0000000007"), Some(7));
        assert_eq!(number(b"9999999999"), Some(9_999_999_999));
        for word in ["", "00000000007", "+1", "-1", "1a", "1\r", " "] {
            assert_eq!(number(word.as_bytes()), None, "{word:?}");
        }
    }

    #[test]
    fn digits() {
        assert_eq!(four_digits(b"09af"), Some(0x09af));
        for word in ["", "1", "001", "00001", "000A", "000g", "00\u{e9}"] {
            assert_eq!(four_digits(word.as_bytes()), None, "{word:?}");
        }
    }

    #[test]
    fn formulas() {
        let reduce = |list| Some(Formula::reduce(list));
        assert_eq!(formula(b"T"), reduce(&[]));
        assert_eq!(formula(b"0006.0001"), reduce(&[1, 6]));
        for word in ["", ".", "t", "TT", "T.0001", "0001.", ".0001", "0001..0002"] {
            assert_eq!(formula(word.as_bytes()), None, "{word:?}");
        }
        assert_eq!(formula(of_clauses(64).as_bytes()), reduce(&[1]));
        for count in [65, 66, 800] {
            let word = of_clauses(count);
            assert_eq!(formula(word.as_bytes()), Some(Err(Refusal::At(1))));
            let broken = word + ".000";
            assert_eq!(formula(broken.as_bytes()), None);
        }
    }

    #[test]
    fn cases_of_the_program() {
        let lines = [
            "enter 5 0 500 0001.0002 0001",
            "open 2 0",
            "release 2 5 0003 1 0001.0002 d",
            "release 2 5 0002 1 0001 d",
            "show 5 0002",
            "show 5 0001",
        ];
        let expected = [
            Ok(None),
            Ok(None),
            Err(Refusal::Group(1)),
            Ok(None),
            Ok(Some(500)),
            Err(Refusal::At(11)),
        ];
        assert_eq!(answers(&lines), expected);
    }

    #[test]
    fn forms() {
        let lines = [
            "",
            " ",
            "open",
            "open 0",
            "open 0 0 0",
            "open 0  0",
            " open 0 0",
            "open 0 0 ",
            "open 0 0\r",
            "open\t0 0",
            "Open 0 0",
            "show 0 T",
            "enter 0 0 0 0001",
            "release 0 0 T 4 T",
            "release 0 0 T 0 T d",
            "release 0 0 T 1 T",
            "release 0 0 T 1 T ed",
            "release 0 0 T 2 T d T T T",
            "release 0 0 T 3 T d T T T T",
        ];
        for line in lines {
            assert_eq!(answer(line), Err(NO_FORM), "{line:?}");
        }
        for line in ["release 0 0 T 0000000003 T d e T T T T", "close 000"] {
            assert_eq!(answer(line), Err(Refusal::At(5)), "{line:?}");
        }
    }

    #[test]
    fn form_then_formulas_then_call() {
        let one = of_clauses(65);
        let nine: Vec<String> = (0..9).map(|k| format!("{:04x}", 1 << k)).collect();
        let two = nine.join(".");
        let answer = |line: String| answer(&line);
        assert_eq!(answer(format!("enter 0 0 0 {one} {two} ")), Err(NO_FORM));
        assert_eq!(
            answer(format!("enter 99 0 0 {one} {two}")),
            Err(Refusal::At(1))
        );
        assert_eq!(
            answer(format!("enter 99 0 0 {two} {one}")),
            Err(Refusal::At(2))
        );
        assert_eq!(answer("enter 99 0 0 T T".into()), Err(Refusal::At(3)));
    }
}
