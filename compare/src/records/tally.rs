//! Counts of the records of a comparison.

use std::fmt;

use super::record::{Object, Record, KINDS, MEMORY};
use super::wrong::WRONG;
use crate::calls::{Point, LEAST, MOST};
use crate::counts::{listed, Counts};

/// Whose position is at which end of the range.
const ENDS: [&str; 4] = ["screen DC -32768", "screen DC 32767", "DC -32768", "DC 32767"];

pub struct Tally {
    refused: Counts<3>,
    /// Unsound records, by the reason.
    wrong: Counts<{ WRONG.len() }>,
    /// The slots of each of `KINDS`.
    kinds: [u64; KINDS.len()],
    /// Records whose handles do not ascend.
    unsorted: u64,
    /// Records with 256 objects.
    full: u64,
    /// Accepted records whose screen DC has the surface `memory`.
    memory_screens: u64,
    /// Accepted records with a position at an end of the range: the screen DC's, or a
    /// created DC's.
    ends: Counts<4>,
}

impl Tally {
    pub fn new() -> Self {
        Self {
            refused: Counts::new(["0", "8", "9"]),
            wrong: Counts::new(WRONG.map(|wrong| wrong.0)),
            kinds: [0; KINDS.len()],
            unsorted: 0,
            full: 0,
            memory_screens: 0,
            ends: Counts::new(ENDS),
        }
    }

    /// Counts the reason for which a record was made unsound.
    pub fn wrong(&mut self, name: &str) {
        self.wrong.add(name);
    }

    pub fn count(&mut self, record: &Record, refusal: u8) {
        self.refused.add(&refusal.to_string());
        for slot in &record.slots {
            self.kinds[usize::from(slot.object.byte())] += 1;
        }
        self.unsorted += u64::from(!record.slots.is_sorted_by_key(|slot| slot.handle));
        self.full += u64::from(record.count == 256);
        self.memory_screens += u64::from(record.screen == MEMORY && refusal == 0);
        if refusal == 0 {
            self.count_ends(record);
        }
    }

    /// Counts an accepted record by the ends of the range that its positions are at.
    fn count_ends(&mut self, record: &Record) {
        let created = record.slots.iter().take(record.count as usize);
        let created = created.filter_map(|slot| match slot.object {
            Object::Dc { x, y, .. } => Some(Point { x, y }),
            _ => None,
        });
        let positions = [vec![record.position], created.collect()];
        for (at, name) in ENDS.iter().enumerate() {
            let end = [LEAST, MOST][at % 2];
            if positions[at / 2].iter().any(|position| [position.x, position.y].contains(&end)) {
                self.ends.add(name);
            }
        }
    }

    /// The number of all records that were read.
    pub fn records(&self) -> u64 {
        self.refused.sum()
    }

    /// The least of all counts.
    #[cfg(test)]
    pub fn least(&self) -> u64 {
        let others = [self.unsorted, self.full, self.memory_screens];
        let counts = [self.refused.least(), self.wrong.least(), self.ends.least()];
        self.kinds.into_iter().chain(counts).chain(others).min().unwrap_or_default()
    }
}

impl fmt::Display for Tally {
    fn fmt(&self, f: &mut fmt::Formatter<'_>) -> fmt::Result {
        let names: Vec<&str> = KINDS.iter().map(|kind| kind.1).collect();
        writeln!(f, "records by refusal: {}", self.refused)?;
        writeln!(f, "made unsound: {}", self.wrong)?;
        writeln!(f, "slots: {}", listed(&names, &self.kinds))?;
        writeln!(f, "handles not in order: {}; 256 objects: {}", self.unsorted, self.full)?;
        writeln!(f, "not refused, with a screen DC that says memory: {}", self.memory_screens)?;
        write!(f, "not refused, with a position at an end of the range: {}", self.ends)
    }
}
