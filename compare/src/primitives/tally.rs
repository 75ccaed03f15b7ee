//! Counts of what the cases of a comparison did, to show that they reach every
//! case.

use std::fmt;

use super::case::{Case, KINDS};
use super::clip::{boxed, skipped};
use super::lent::Lent;
use super::original::Outcome;
use crate::clip::{cuts, moved, CUTS, MOVES};
use crate::counts::listed;

/// The numbers of refusals.
const REFUSALS: [u8; 3] = [6, 8, 10];

/// Counts of the cases of one kind.
#[derive(Clone, Copy, Default)]
struct Kind {
    cases: u64,
    accepted: u64,
    changed: u64,
    marked: u64,
}

#[derive(Default)]
pub struct Tally {
    /// The counts of each of `KINDS`.
    kinds: [Kind; KINDS.len()],
    /// Operations refused with each of `REFUSALS`.
    refused: [u64; REFUSALS.len()],
    /// Drawings cut at each of `CUTS` that changed a byte.
    cuts: [u64; CUTS.len()],
    /// Blits that skipped some rows of the source, and blits that skipped all.
    skipped_some: u64,
    skipped_all: u64,
    /// Overlapping blits within the surface, by `MOVES`.
    moves: [u64; MOVES.len()],
    /// Cases that were dropped because a sum of the original overflows.
    dropped: u64,
}

impl Tally {
    /// Counts a case. These are the bytes that it was lent.
    pub fn count(&mut self, case: &Case, outcome: &Outcome, target: Lent) {
        let kind = KINDS.iter().position(|kind| kind.0 == case.byte());
        let kind = &mut self.kinds[kind.expect("each case has a kind")];
        kind.cases += 1;
        if !case.draws() {
            return;
        }
        if let Some(at) = REFUSALS.iter().position(|&number| number == outcome.refusal) {
            self.refused[at] += 1;
            return;
        }
        kind.accepted += 1;
        kind.changed += u64::from(outcome.changed);
        kind.marked += u64::from(outcome.marked);
        self.count_clipped(case, outcome, target);
    }

    /// Counts where an accepted drawing was cut, and which rows it skipped.
    fn count_clipped(&mut self, case: &Case, outcome: &Outcome, target: Lent) {
        let Some(seen) = boxed(case, target) else { return };
        if outcome.changed {
            for (sum, cut) in self.cuts.iter_mut().zip(cuts(&seen)) {
                *sum += u64::from(cut);
            }
        }
        match *case {
            Case::Blit { src_w, src_len, .. } => {
                let rows = skipped(&seen, src_w, src_len);
                self.skipped_some += u64::from(rows != 0);
                self.skipped_all += u64::from(rows == seen[1].len);
            }
            Case::BlitWithin { .. } => {
                if let Some(at) = moved(&seen) {
                    self.moves[at] += 1;
                }
            }
            _ => {}
        }
    }

    pub fn drop_one(&mut self) {
        self.dropped += 1;
    }

    fn sum(&self, part: fn(&Kind) -> u64) -> u64 {
        self.kinds.iter().map(part).sum()
    }

    /// The share of accepted drawings that changed a byte, in percent.
    pub fn share_changed(&self) -> u64 {
        100 * self.sum(|kind| kind.changed) / self.sum(|kind| kind.accepted).max(1)
    }

    /// The least of all counts that must be above 0: the cases of each kind, the
    /// drawings of each kind that changed a byte, refusals, cuts, skipped rows and
    /// directions.
    #[cfg(test)]
    pub fn least(&self) -> u64 {
        let kinds = self.kinds.iter().map(|kind| kind.cases);
        let drawing = self.kinds.iter().filter(|kind| kind.accepted != 0);
        let changed = drawing.map(|kind| kind.changed);
        let others = [self.skipped_some, self.skipped_all].into_iter();
        let others = others.chain(self.refused).chain(self.cuts).chain(self.moves);
        kinds.chain(changed).chain(others).min().unwrap_or_default()
    }
}

impl fmt::Display for Tally {
    fn fmt(&self, f: &mut fmt::Formatter<'_>) -> fmt::Result {
        let titles = ["cases", "accepted", "changed", "marked"];
        let row = |cells: [String; 4]| cells.map(|cell| format!("{cell:>10}")).concat();
        writeln!(f, "{:24}{}", "", row(titles.map(String::from)))?;
        for ((byte, name), kind) in KINDS.iter().zip(&self.kinds) {
            let Kind { cases, accepted, changed, marked } = kind;
            let drawing = accepted + changed + marked != 0;
            let shown = |count: &u64| if drawing { count.to_string() } else { String::new() };
            let cells = [cases.to_string(), shown(accepted), shown(changed), shown(marked)];
            writeln!(f, "{:24}{}", format!("  {byte:02x} {name}"), row(cells).trim_end())?;
        }
        let (share, accepted) = (self.share_changed(), self.sum(|kind| kind.accepted));
        writeln!(f, "accepted drawings: {accepted}, of which {share} % changed a byte")?;
        let numbers = REFUSALS.map(|number| number.to_string());
        writeln!(f, "refused: {}", listed(&numbers.each_ref().map(String::as_str), &self.refused))?;
        writeln!(f, "cut, and changed a byte: {}", listed(&CUTS, &self.cuts))?;
        let (some, all) = (self.skipped_some, self.skipped_all);
        writeln!(f, "blits with source rows skipped: {some}, all of them: {all}")?;
        writeln!(f, "overlapping blits within the surface: {}", listed(&MOVES, &self.moves))?;
        write!(f, "dropped, since the original's sums overflow: {}", self.dropped)
    }
}
