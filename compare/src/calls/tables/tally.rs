//! Counts of loads and saves, to show that the scripts reach every case.

use std::fmt;

use super::decode::RULES;
use super::random::KINDS;
use super::record::Why;
use super::table::Table;
use super::Unfit;
use crate::counts::Counts;

pub struct Tally {
    scripts: u64,
    calls: u64,
    looks: u64,
    /// Records by their number of objects, and their objects by kind.
    sizes: Counts<5>,
    kinds: Counts<5>,
    accepted: u64,
    /// Loads refused with 12, by the rule that the bytes break; of them those of bytes
    /// that were made to break one rule, and those into a memory that is too short too.
    rules: Counts<{ RULES.len() }>,
    alone: Counts<{ RULES.len() }>,
    and_short: u64,
    /// Loads refused with 7.
    short: Counts<3>,
    /// Tables with one bit changed, and those of them that still were tables.
    damaged: [u64; 2],
    saves: Counts<2>,
}

impl Tally {
    pub fn new() -> Self {
        Self {
            scripts: 0,
            calls: 0,
            looks: 0,
            sizes: Counts::new(["0", "1", "2 to 12", "13 to 255", "256"]),
            kinds: Counts::new(KINDS),
            accepted: 0,
            rules: Counts::new(RULES),
            alone: Counts::new(RULES),
            and_short: 0,
            short: Counts::new(["panel", "store", "both"]),
            damaged: [0; 2],
            saves: Counts::new(["0", "13"]),
        }
    }

    /// Counts a record.
    pub fn record(&mut self, table: &Table) {
        self.sizes.add(match table.objects.len() {
            0 => "0",
            1 => "1",
            2..=12 => "2 to 12",
            13..=255 => "13 to 255",
            _ => "256",
        });
        for object in &table.objects {
            self.kinds.add(KINDS[object.fields.kind() as usize]);
        }
    }

    pub fn begin(&mut self) {
        self.scripts += 1;
    }

    pub fn look(&mut self) {
        self.looks += 1;
    }

    /// Counts a call that is no load and no save.
    pub fn call(&mut self) {
        self.calls += 1;
    }

    /// Counts a load, in a script with a memory that is too short for its record or
    /// not.
    pub fn load(&mut self, why: Why, unfit: Option<Unfit>, short: bool) {
        self.calls += 1;
        match unfit {
            None => self.accepted += 1,
            Some(Unfit::Broken(rule)) => {
                self.rules.add(rule);
                self.and_short += u64::from(short);
            }
            Some(Unfit::Short { panel, store }) => self.short.add(match (panel, store) {
                (true, true) => "both",
                (true, false) => "panel",
                _ => "store",
            }),
        }
        match why {
            Why::Damaged => {
                let still = u64::from(!matches!(unfit, Some(Unfit::Broken(_))));
                self.damaged = [self.damaged[0] + 1, self.damaged[1] + still];
            }
            Why::Broken(rule) => {
                assert_eq!(unfit, Some(Unfit::Broken(rule)));
                self.alone.add(rule);
            }
            Why::Other => {}
        }
    }

    /// Counts a save.
    pub fn save(&mut self, refusal: u8) {
        self.calls += 1;
        self.saves.add(&refusal.to_string());
    }

    /// Adds the counts of another tally.
    pub fn merge(&mut self, other: &Tally) {
        self.scripts += other.scripts;
        self.calls += other.calls;
        self.looks += other.looks;
        self.sizes.merge(&other.sizes);
        self.kinds.merge(&other.kinds);
        self.accepted += other.accepted;
        self.rules.merge(&other.rules);
        self.alone.merge(&other.alone);
        self.and_short += other.and_short;
        self.short.merge(&other.short);
        self.damaged = [0, 1].map(|at| self.damaged[at] + other.damaged[at]);
        self.saves.merge(&other.saves);
    }

    /// The number of all records.
    pub fn records(&self) -> u64 {
        self.sizes.sum()
    }

    /// The number of all calls.
    pub fn calls(&self) -> u64 {
        self.calls
    }

    /// The least of all counts.
    #[cfg(test)]
    pub fn least(&self) -> u64 {
        let counts = [self.sizes.least(), self.kinds.least(), self.rules.least()];
        let others = [self.alone.least(), self.short.least(), self.saves.least()];
        let [damaged, still] = self.damaged;
        let all = [self.looks, self.accepted, self.and_short, still, damaged - still];
        counts.into_iter().chain(others).chain(all).min().unwrap_or_default()
    }
}

impl fmt::Display for Tally {
    fn fmt(&self, f: &mut fmt::Formatter<'_>) -> fmt::Result {
        let Tally { scripts, calls, looks, accepted, and_short, .. } = self;
        let [damaged, still] = self.damaged;
        writeln!(f, "scripts {scripts}, calls {calls}, looks {looks}")?;
        writeln!(f, "records by their objects: {}; objects: {}", self.sizes, self.kinds)?;
        writeln!(f, "loads accepted: {accepted}")?;
        writeln!(f, "refused with 12, by rule: {}", self.rules)?;
        writeln!(f, "made to break one rule: {}", self.alone)?;
        writeln!(f, "refused with 12 where a memory is too short too: {and_short}")?;
        writeln!(f, "refused with 7, too short: {}", self.short)?;
        writeln!(f, "tables with one bit changed: {damaged}, still tables: {still}")?;
        write!(f, "saves by refusal: {}", self.saves)
    }
}
