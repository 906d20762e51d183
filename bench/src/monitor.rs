//! The monitor: 64 records, 8 tasks and the nine calls.

use crate::formula::Formula;
use crate::key::{Key, Kind, Request};
use crate::label::Label;
use crate::refusal::{ask, Refusal};

pub const RECORDS: usize = 64;
pub const TASKS: usize = 8;
const PARTIES: u64 = 16;
/// The largest figure.
pub const CEILING: u64 = 999_999_999;

/// A figure under its label.
#[derive(Clone, Copy, Debug, PartialEq, Eq)]
pub struct Held {
    pub figure: u64,
    pub label: Label,
}

/// All records and tasks.
pub struct Monitor {
    records: [Option<Held>; RECORDS],
    tasks: [Option<Held>; TASKS],
}

impl Default for Monitor {
    fn default() -> Monitor {
        Monitor {
            records: [None; RECORDS],
            tasks: [None; TASKS],
        }
    }
}

/// Puts question 3 to a number that stands for a place.
fn place(number: u64, limit: usize) -> Result<usize, Refusal> {
    ask(3, number < limit as u64)?;
    Ok(number as usize)
}

/// Puts question 3 to a party.
fn party(number: u64) -> Result<u32, Refusal> {
    ask(3, number < PARTIES)?;
    Ok(number as u32)
}

/// Works a record's figure into a task's (question 7 is put before).
fn work(manner: u64, task: u64, record: u64) -> u64 {
    let result = match manner {
        0 => task + record,
        1 => task.saturating_sub(record),
        _ => task * record,
    };
    result.min(CEILING)
}

impl Monitor {
    /// Puts questions 3, 5 and 6 to an open task and a filled record.
    fn pair(&mut self, task: u64, record: u64) -> Result<(&mut Held, &mut Option<Held>), Refusal> {
        let task = place(task, TASKS)?;
        let record = place(record, RECORDS)?;
        let held = self.tasks[task].as_mut().ok_or(Refusal::At(5))?;
        let slot = &mut self.records[record];
        ask(6, slot.is_some())?;
        Ok((held, slot))
    }

    /// The same, where both are used as they are held.
    fn held_pair(&mut self, task: u64, record: u64) -> Result<(&mut Held, &mut Held), Refusal> {
        let (task, slot) = self.pair(task, record)?;
        let record = slot.as_mut().ok_or(Refusal::At(6))?;
        Ok((task, record))
    }

    pub fn enter(
        &mut self,
        record: u64,
        by: u64,
        figure: u64,
        label: Label,
    ) -> Result<(), Refusal> {
        let record = place(record, RECORDS)?;
        let by = party(by)?;
        ask(4, figure <= CEILING)?;
        let slot = &mut self.records[record];
        ask(6, slot.is_none())?;
        ask(8, label.hand.met_by(1 << by))?;
        *slot = Some(Held { figure, label });
        Ok(())
    }

    pub fn open(&mut self, task: u64, by: u64) -> Result<(), Refusal> {
        let task = place(task, TASKS)?;
        let by = party(by)?;
        let slot = &mut self.tasks[task];
        ask(5, slot.is_none())?;
        let label = Label {
            sight: Formula::TRUE,
            hand: Formula::of_party(by),
        };
        *slot = Some(Held { figure: 0, label });
        Ok(())
    }

    pub fn close(&mut self, task: u64) -> Result<(), Refusal> {
        let slot = &mut self.tasks[place(task, TASKS)?];
        ask(5, slot.is_some())?;
        *slot = None;
        Ok(())
    }

    pub fn take(&mut self, task: u64, record: u64, manner: u64) -> Result<(), Refusal> {
        let (task, record) = self.held_pair(task, record)?;
        ask(7, manner <= 2)?;
        task.label = task.label.join(&record.label)?;
        task.figure = work(manner, task.figure, record.figure);
        Ok(())
    }

    pub fn put(&mut self, task: u64, record: u64) -> Result<(), Refusal> {
        let (task, record) = self.held_pair(task, record)?;
        ask(9, task.label.flows_to(&record.label))?;
        record.figure = task.figure;
        Ok(())
    }

    pub fn drop(&mut self, task: u64, record: u64) -> Result<(), Refusal> {
        let (task, slot) = self.pair(task, record)?;
        let flows = slot.is_some_and(|held| task.label.flows_to(&held.label));
        ask(9, flows)?;
        *slot = None;
        Ok(())
    }

    pub fn show(&self, record: u64, group: u16) -> Result<u64, Refusal> {
        let slot = &self.records[place(record, RECORDS)?];
        let held = slot.as_ref().ok_or(Refusal::At(6))?;
        ask(11, held.label.sight.met_by(group))?;
        Ok(held.figure)
    }

    /// Release or endorse.
    pub fn relabel(
        &mut self,
        kind: Kind,
        task: u64,
        record: u64,
        formula: &Formula,
        key: &impl Key,
    ) -> Result<(), Refusal> {
        let (task, record) = self.held_pair(task, record)?;
        let request = Request {
            kind,
            record: &record.label,
            formula,
            task: &task.label,
        };
        key.answer(&request)?;
        record.label = request.new_label();
        Ok(())
    }
}

#[cfg(test)]
mod tests {
    use super::*;
    use crate::label::tests::label;

    #[test]
    fn figures_stay_between_floor_and_ceiling() {
        assert_eq!(work(0, CEILING, 1), CEILING);
        assert_eq!(work(1, 3, 5), 0);
        assert_eq!(work(2, 100_000, 100_000), CEILING);
        assert_eq!(work(2, 3, 5), 15);
    }

    #[test]
    fn questions_come_in_rising_number() {
        let mut monitor = Monitor::default();
        let nobody = label(&[], &[0]);
        assert_eq!(monitor.enter(64, 0, 1 << 40, nobody), Err(Refusal::At(3)));
        assert_eq!(monitor.enter(0, 16, 1 << 40, nobody), Err(Refusal::At(3)));
        assert_eq!(monitor.enter(0, 0, 1 << 40, nobody), Err(Refusal::At(4)));
        assert_eq!(monitor.enter(0, 0, CEILING, nobody), Err(Refusal::At(8)));
        assert_eq!(monitor.enter(0, 0, CEILING, label(&[], &[1])), Ok(()));
        assert_eq!(monitor.enter(0, 0, 5, nobody), Err(Refusal::At(6)));
        assert_eq!(monitor.take(8, 64, 3), Err(Refusal::At(3)));
        assert_eq!(monitor.take(0, 1, 3), Err(Refusal::At(5)));
        assert_eq!(monitor.open(0, 0), Ok(()));
        assert_eq!(monitor.open(0, 0), Err(Refusal::At(5)));
        assert_eq!(monitor.take(0, 1, 3), Err(Refusal::At(6)));
        assert_eq!(monitor.take(0, 0, 3), Err(Refusal::At(7)));
    }

    #[test]
    fn a_figure_goes_through_a_task() {
        let mut monitor = Monitor::default();
        monitor.enter(0, 0, 5, label(&[1], &[1])).unwrap();
        monitor.enter(1, 0, 7, label(&[1], &[1])).unwrap();
        monitor.enter(2, 0, 9, label(&[], &[1])).unwrap();
        monitor.open(0, 0).unwrap();
        monitor.take(0, 0, 0).unwrap();
        assert_eq!(monitor.put(0, 2), Err(Refusal::At(9)));
        assert_eq!(monitor.put(0, 1), Ok(()));
        assert_eq!(monitor.show(1, 1), Ok(5));
        assert_eq!(monitor.show(1, 2), Err(Refusal::At(11)));
        assert_eq!(monitor.drop(0, 2), Err(Refusal::At(9)));
        assert_eq!(monitor.drop(0, 1), Ok(()));
        assert_eq!(monitor.show(1, 1), Err(Refusal::At(6)));
        assert_eq!(monitor.close(0), Ok(()));
        assert_eq!(monitor.close(0), Err(Refusal::At(5)));
    }
}
