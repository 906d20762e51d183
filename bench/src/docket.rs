//! The docket: entries packed bit by bit, most significant first.

use crate::formula::{Formula, MOST_KEPT};
use crate::key::Kind;
use crate::refusal::{ask, Refusal};

/// The questions that an entry can name.
const NAMED: [u8; 7] = [5, 6, 12, 13, 14, 15, 16];

/// One entry.
#[derive(Clone, Copy, Debug, PartialEq, Eq)]
pub struct Entry {
    pub kind: Kind,
    pub task: u64,
    pub record: u64,
    pub answer: Result<(), Refusal>,
    pub formula: Formula,
}

/// Packs the entry into the buffer and answers the place behind it (questions 18 and 17).
pub fn write(entry: &Entry, buffer: &mut [u8], place: usize) -> Result<usize, Refusal> {
    ask(18, carries(entry))?;
    let end = place.checked_add(length(entry)).ok_or(Refusal::At(17))?;
    let bytes = buffer.get_mut(place..end).ok_or(Refusal::At(17))?;
    bytes.fill(0);
    pack(entry, &mut Packer { bytes, place: 0 });
    Ok(end)
}

/// Can the docket carry each field?
fn carries(entry: &Entry) -> bool {
    let named = match entry.answer {
        Err(Refusal::At(question)) => question != 16 && NAMED.contains(&question),
        _ => true,
    };
    entry.task <= 7 && entry.record <= 63 && named
}

/// The bytes that the entry takes.
fn length(entry: &Entry) -> usize {
    let answer = match entry.answer {
        Ok(()) => 0,
        Err(Refusal::At(_)) => 5,
        Err(Refusal::Group(_)) => 5 + 16,
    };
    let bits = 1 + 3 + 6 + 1 + answer + 4 + 16 * entry.formula.clauses().len();
    bits.div_ceil(8)
}

fn pack(entry: &Entry, packer: &mut Packer) {
    packer.put(1, u16::from(entry.kind == Kind::Endorse));
    packer.put(3, entry.task as u16);
    packer.put(6, entry.record as u16);
    packer.put(1, u16::from(entry.answer.is_ok()));
    match entry.answer {
        Ok(()) => {}
        Err(Refusal::At(question)) => packer.put(5, u16::from(question)),
        Err(Refusal::Group(group)) => {
            packer.put(5, 16);
            packer.put(16, group);
        }
    }
    let clauses = entry.formula.clauses();
    packer.put(4, clauses.len() as u16);
    clauses.iter().for_each(|&clause| packer.put(16, clause));
}

/// Reads the entry at the place and answers it with the place behind it (questions 19 and 20), or
/// nothing at the docket's end.
pub fn read(bytes: &[u8], place: usize) -> Result<Option<(Entry, usize)>, Refusal> {
    let rest = bytes.get(place..).ok_or(Refusal::At(19))?;
    if rest.is_empty() {
        return Ok(None);
    }
    let mut unpacker = Unpacker::new(rest);
    let entry = unpack(&mut unpacker)?;
    let taken = unpacker.padding()?;
    Ok(Some((entry, place + taken)))
}

fn unpack(unpacker: &mut Unpacker) -> Result<Entry, Refusal> {
    let kind = match unpacker.take(1)? {
        0 => Kind::Release,
        _ => Kind::Endorse,
    };
    Ok(Entry {
        kind,
        task: u64::from(unpacker.take(3)?),
        record: u64::from(unpacker.take(6)?),
        answer: unpack_answer(unpacker)?,
        formula: unpack_formula(unpacker)?,
    })
}

fn unpack_answer(unpacker: &mut Unpacker) -> Result<Result<(), Refusal>, Refusal> {
    if unpacker.take(1)? == 1 {
        return Ok(Ok(()));
    }
    let question = unpacker.take(5)? as u8;
    ask(20, NAMED.contains(&question))?;
    Ok(Err(match question {
        16 => Refusal::Group(unpacker.take(16)?),
        _ => Refusal::At(question),
    }))
}

fn unpack_formula(unpacker: &mut Unpacker) -> Result<Formula, Refusal> {
    let count = usize::from(unpacker.take(4)?);
    ask(20, count <= MOST_KEPT)?;
    let mut slots = [0; MOST_KEPT];
    let clauses = &mut slots[..count];
    for clause in clauses.iter_mut() {
        *clause = unpacker.take(16)?;
    }
    Formula::of_kept(clauses).ok_or(Refusal::At(20))
}

/// Puts fields behind each other into bytes that are 0.
struct Packer<'a> {
    bytes: &'a mut [u8],
    place: usize,
}

impl Packer<'_> {
    /// Puts the lowest bits of the value; at most 16, so they lie in three bytes.
    fn put(&mut self, bits: usize, value: u16) {
        let shift = 24 - bits - self.place % 8;
        let spread = (u32::from(value) << shift).to_be_bytes();
        let first = self.place / 8;
        for (byte, part) in self.bytes[first..].iter_mut().zip(&spread[1..]) {
            *byte |= part;
        }
        self.place += bits;
    }
}

/// At least the longest entry, and enough behind it to take four bytes from any of its bytes.
const WINDOW: usize = 24;

/// Takes fields from bytes.
struct Unpacker {
    window: [u8; WINDOW],
    present: usize,
    place: usize,
}

impl Unpacker {
    fn new(bytes: &[u8]) -> Unpacker {
        let length = bytes.len().min(WINDOW);
        let window = bytes.first_chunk().copied().unwrap_or_else(|| {
            let mut padded = [0; WINDOW];
            padded[..length].copy_from_slice(&bytes[..length]);
            padded
        });
        Unpacker {
            window,
            present: 8 * length,
            place: 0,
        }
    }

    /// Takes the next bits, at most 16 (question 19).
    fn take(&mut self, bits: usize) -> Result<u16, Refusal> {
        ask(19, self.place + bits <= self.present)?;
        let mut four = [0; 4];
        four.copy_from_slice(&self.window[self.place / 8..][..4]);
        let shift = 32 - bits - self.place % 8;
        let mask = (1 << bits) - 1;
        self.place += bits;
        Ok((u32::from_be_bytes(four) >> shift & mask) as u16)
    }

    /// Checks the padding (question 20) and answers the number of bytes taken.
    fn padding(&mut self) -> Result<usize, Refusal> {
        let taken = self.place.div_ceil(8);
        let bits = 8 * taken - self.place;
        ask(20, bits == 0 || self.take(bits)? == 0)?;
        Ok(taken)
    }
}

#[cfg(test)]
mod tests {
    use super::*;
    use crate::random::Random;

    fn formula(list: &[u16]) -> Formula {
        Formula::reduce(list).unwrap()
    }

    fn granted() -> Entry {
        Entry {
            kind: Kind::Release,
            task: 2,
            record: 5,
            answer: Ok(()),
            formula: formula(&[3]),
        }
    }

    fn refused() -> Entry {
        Entry {
            kind: Kind::Release,
            task: 0,
            record: 0,
            answer: Err(Refusal::Group(1)),
            formula: Formula::TRUE,
        }
    }

    fn longest() -> Entry {
        let eight: Vec<u16> = (8..16).map(|k| 1 << k).collect();
        Entry {
            kind: Kind::Endorse,
            task: 7,
            record: 63,
            answer: Err(Refusal::Group(0xffff)),
            formula: formula(&eight),
        }
    }

    #[test]
    fn cases_of_writing() {
        let mut buffer = [0xff; 6];
        assert_eq!(write(&granted(), &mut buffer, 1), Ok(5));
        assert_eq!(buffer, [0xff, 0x21, 0x62, 0x00, 0x06, 0xff]);
        assert_eq!(write(&refused(), &mut buffer, 0), Ok(5));
        assert_eq!(buffer, [0x00, 0x10, 0x00, 0x01, 0x00, 0xff]);
        assert_eq!(write(&longest(), &mut [0; 21], 0), Ok(21));
    }

    #[test]
    fn refusals_of_the_writer() {
        let mut buffer = [7; 4];
        for place in [1, 4, 5, usize::MAX] {
            assert_eq!(
                write(&granted(), &mut buffer, place),
                Err(Refusal::At(17)),
                "{place}"
            );
        }
        let mut entry = granted();
        entry.task = 8;
        assert_eq!(write(&entry, &mut [], 9), Err(Refusal::At(18)));
        entry = granted();
        entry.record = 64;
        assert_eq!(write(&entry, &mut buffer, 0), Err(Refusal::At(18)));
        for question in [0, 3, 4, 7, 11, 16, 17, 37] {
            entry = granted();
            entry.answer = Err(Refusal::At(question));
            assert_eq!(write(&entry, &mut buffer, 0), Err(Refusal::At(18)));
        }
        assert_eq!(buffer, [7; 4]);
    }

    #[test]
    fn cases_of_reading() {
        let bytes = [0x21, 0x62, 0x00, 0x06, 0x00, 0x10, 0x00, 0x01, 0x00];
        assert_eq!(read(&bytes, 0), Ok(Some((granted(), 4))));
        assert_eq!(read(&bytes, 4), Ok(Some((refused(), 9))));
        assert_eq!(read(&bytes, 9), Ok(None));
        assert_eq!(read(&bytes, 10), Err(Refusal::At(19)));
        for end in 1..4 {
            assert_eq!(read(&bytes[..end], 0), Err(Refusal::At(19)));
        }
    }

    #[test]
    fn unlawful_content() {
        let unlawful: [&[u8]; 6] = [
            // Question 3.
            &[0x00, 0x03],
            // Nine clauses: the count is judged before the clauses are missed.
            &[0x00, 0x32],
            // A bit in the padding.
            &[0x21, 0x62, 0x00, 0x07],
            // Clauses that fall, are equal, or contain each other.
            &[0x21, 0x64, 0x00, 0x08, 0x00, 0x04],
            &[0x21, 0x64, 0x00, 0x04, 0x00, 0x04],
            &[0x21, 0x64, 0x00, 0x04, 0x00, 0x0c],
        ];
        for bytes in unlawful {
            assert_eq!(read(bytes, 0), Err(Refusal::At(20)), "{bytes:?}");
        }
    }

    #[test]
    fn entries_come_back() {
        let mut random = Random::new(3);
        for _ in 0..10_000 {
            let list: Vec<u16> = (0..random.below(9)).map(|_| random.bits() as u16).collect();
            let entry = Entry {
                kind: random.pick(&[Kind::Release, Kind::Endorse]),
                task: random.below(8),
                record: random.below(64),
                answer: match random.pick(&NAMED) {
                    5 => Ok(()),
                    16 => Err(Refusal::Group(random.bits() as u16)),
                    question => Err(Refusal::At(question)),
                },
                formula: formula(&list),
            };
            let mut buffer = [0xaa; 24];
            let end = write(&entry, &mut buffer, 2).unwrap();
            assert_eq!(read(&buffer, 2), Ok(Some((entry, end))));
            assert!(buffer[..2].iter().chain(&buffer[end..]).all(|&b| b == 0xaa));
            assert_eq!(read(&buffer[..end - 1], 2), Err(Refusal::At(19)));
        }
    }
}
