//! Counts of what the scripts of a comparison did, to show that they reach every
//! case.

use std::fmt;

use pocket_kernel::gdi::{is_stock_handle, GdiObject, GDI_SCREEN_DC};

use super::call::{is_drawing, Call, KINDS};
use super::device::Device;
use super::drawn::Drawn;
use super::form::Form;
use super::lines::Lines;
use super::outcome::{Answer, Outcome};
use crate::counts::Counts;

pub struct Tally {
    /// Scripts by their first line.
    begun: Counts<5>,
    bad_calls: u64,
    looks: u64,
    /// For each of `KINDS`: the calls, those accepted, and those that changed a
    /// pixel.
    kinds: [[u64; 3]; KINDS.len()],
    refused: Counts<7>,
    /// Texts refused with 10.
    too_long: u64,
    /// Moves and lines refused with 11.
    out_of_range: u64,
    /// Loads refused with 12, and saves refused with 13.
    tables: Counts<2>,
    deleted: Counts<3>,
    removed: Counts<6>,
    selected: Counts<4>,
    set: Counts<2>,
    drawn: Drawn,
    lines: Lines,
    /// Bitmaps that moved, and those of them that were not all black.
    moved: [u64; 2],
    /// Random calls that were dropped because a sum of the original overflows.
    dropped: u64,
    /// The most objects that were live at a time.
    most: usize,
}

impl Tally {
    pub fn new() -> Self {
        Self {
            // The program accepts no memory above open's limit, so 8 cannot occur.
            begun: Counts::new(["open 0", "open 6", "open 7", "bad script", "too large"]),
            bad_calls: 0,
            looks: 0,
            kinds: [[0; 3]; KINDS.len()],
            refused: Counts::new(["1", "2", "3", "4", "5", "6", "7"]),
            too_long: 0,
            out_of_range: 0,
            tables: Counts::new(["12", "13"]),
            deleted: Counts::new(["created", "stock", "absent"]),
            removed: Counts::new(["none", "DC", "bitmap", "brush", "pen", "font"]),
            selected: Counts::new(["nothing", "stock", "live", "gone"]),
            set: Counts::new(["screen", "created"]),
            drawn: Drawn::new(),
            lines: Lines::new(),
            moved: [0; 2],
            dropped: 0,
            most: 0,
        }
    }

    pub fn begin(&mut self, line: &str) {
        self.begun.add(line);
    }

    pub fn bad_call(&mut self) {
        self.bad_calls += 1;
    }

    pub fn look(&mut self) {
        self.looks += 1;
    }

    pub fn drop_some(&mut self, calls: u64) {
        self.dropped += calls;
    }

    pub fn end(&mut self, device: &Device) {
        self.moved = [0, 1].map(|at| self.moved[at] + device.moved[at]);
    }

    /// Counts a call, with the device after it.
    pub fn count(&mut self, call: &Call, outcome: &Outcome, device: &Device) {
        self.most = self.most.max(device.created().len());
        let kind = KINDS.iter().position(|kind| kind.0 == call.byte());
        let [calls, accepted, changed] = &mut self.kinds[kind.expect("each call has a kind")];
        *calls += 1;
        *accepted += u64::from(outcome.refusal == 0);
        *changed += u64::from(outcome.changed);
        if call.draws() {
            self.drawn.count(call, outcome, device);
        }
        self.lines.count(call, outcome);
        match outcome.refusal {
            0 => self.count_accepted(call, outcome, device),
            10 => self.too_long += 1,
            11 => self.out_of_range += 1,
            number @ (12 | 13) => self.tables.add(&number.to_string()),
            number => self.refused.add(&number.to_string()),
        }
    }

    /// Counts the answer of an accepted call.
    fn count_accepted(&mut self, call: &Call, outcome: &Outcome, device: &Device) {
        match (call, &outcome.answer) {
            (Call::Delete { handle }, Answer::Flag(deleted)) => {
                let stock = if is_stock_handle(*handle) { "stock" } else { "created" };
                self.deleted.add(if *deleted { stock } else { "absent" });
            }
            (Call::Remove { .. }, Answer::Object(object, _)) => self.removed.add(kind_of(object)),
            (Call::Select { .. }, Answer::Number(previous)) => {
                self.selected.add(standing(*previous, device));
            }
            (Call::SetTextColor { dc, .. }, _)
            | (Call::SetTextAlign { dc, .. }, _)
            | (Call::SetBkColor { dc, .. }, _)
            | (Call::SetBkMode { dc, .. }, _) => {
                self.set.add(if *dc == GDI_SCREEN_DC { "screen" } else { "created" });
            }
            _ => {}
        }
    }

    /// The number of all calls.
    pub fn calls(&self) -> u64 {
        self.kinds.iter().map(|kind| kind[0]).sum()
    }

    #[cfg(test)]
    pub fn looks(&self) -> u64 {
        self.looks
    }

    /// The least of all counts that must be above 0.
    #[cfg(test)]
    pub fn least(&self) -> u64 {
        let calls = self.least_of_calls();
        calls.min(self.begun.least()).min(self.bad_calls).min(self.too_long)
    }

    /// The same without the counts that need several scripts or a long text.
    #[cfg(test)]
    pub fn least_of_calls(&self) -> u64 {
        let answers = [self.refused.least(), self.deleted.least(), self.removed.least()];
        let others = [self.selected.least(), self.set.least(), self.drawn.least()];
        let kinds = KINDS.iter().zip(self.kinds).filter(|(kind, _)| Form::Gdi1.has(kind.0));
        let kinds = kinds.flat_map(|((byte, _), [calls, accepted, changed])| {
            let changed = if is_drawing(*byte) { changed } else { calls };
            [calls, accepted, changed]
        });
        let all = kinds.chain(answers).chain(others).chain(self.moved).chain([self.looks]);
        all.min().unwrap_or_default()
    }

    /// The same for lines and moves.
    #[cfg(test)]
    pub fn least_of_lines(&self) -> u64 {
        let accepted = self.least_accepted([0x13, 0x14]);
        accepted.min(self.lines.least()).min(self.out_of_range).min(self.looks)
    }

    /// The same for loads and saves.
    #[cfg(test)]
    pub fn least_of_tables(&self) -> u64 {
        self.least_accepted([0x15, 0x16]).min(self.tables.least()).min(self.looks)
    }

    #[cfg(test)]
    fn least_accepted(&self, bytes: [u8; 2]) -> u64 {
        let kinds = KINDS.iter().zip(self.kinds).filter(|(kind, _)| bytes.contains(&kind.0));
        kinds.map(|(_, [_, accepted, _])| accepted).min().unwrap_or_default()
    }

    /// The counts of lines and moves.
    pub fn lines(&self) -> &Lines {
        &self.lines
    }

    #[cfg(test)]
    pub fn most(&self) -> usize {
        self.most
    }

    /// The share of accepted drawings that changed a pixel, in percent.
    pub fn share_changed(&self) -> u64 {
        let drawing = || KINDS.iter().zip(self.kinds).filter(|(kind, _)| is_drawing(kind.0));
        let sum = |part: usize| drawing().map(|(_, counts)| counts[part]).sum::<u64>();
        100 * sum(2) / sum(1).max(1)
    }
}

/// The kind of a removed object.
fn kind_of(object: &Option<GdiObject>) -> &'static str {
    match object {
        None => "none",
        Some(GdiObject::Dc(_)) => "DC",
        Some(GdiObject::Bitmap(_)) => "bitmap",
        Some(GdiObject::Brush(_)) => "brush",
        Some(GdiObject::Pen(_)) => "pen",
        Some(GdiObject::Font(_)) => "font",
    }
}

/// What the handle that a selection returned names now.
fn standing(previous: u32, device: &Device) -> &'static str {
    if previous == 0 {
        "nothing"
    } else if is_stock_handle(previous) {
        "stock"
    } else if device.gdi().get(previous).is_some() {
        "live"
    } else {
        "gone"
    }
}

impl fmt::Display for Tally {
    fn fmt(&self, f: &mut fmt::Formatter<'_>) -> fmt::Result {
        writeln!(f, "{:30}{:>10}{:>10}{:>10}", "", "calls", "accepted", "changed")?;
        // Calls that the original does not have are listed only if there are some.
        let listed =
            |(kind, counts): &(&(u8, &str), &[u64; 3])| Form::Gdi1.has(kind.0) || counts[0] > 0;
        let kinds = KINDS.iter().zip(&self.kinds).filter(listed);
        for ((byte, name), [calls, accepted, changed]) in kinds {
            let changed = if is_drawing(*byte) { changed.to_string() } else { String::new() };
            let line = format!("  {byte:02x} {name:25}{calls:>10}{accepted:>10}{changed:>10}");
            writeln!(f, "{}", line.trim_end())?;
        }
        writeln!(f, "accepted drawings that changed a pixel: {} %", self.share_changed())?;
        writeln!(f, "looks {}", self.looks)?;
        writeln!(f, "scripts: {}; ended by a bad call: {}", self.begun, self.bad_calls)?;
        write!(f, "refused: {}, 10 {}", self.refused, self.too_long)?;
        if self.lines.lines() > 0 {
            write!(f, ", 11 {}", self.out_of_range)?;
        }
        if self.tables.sum() > 0 {
            write!(f, ", {}", self.tables)?;
        }
        writeln!(f)?;
        if self.lines.lines() > 0 {
            writeln!(f, "{}", self.lines)?;
        }
        writeln!(f, "deleted: {}", self.deleted)?;
        writeln!(f, "removed: {}", self.removed)?;
        writeln!(f, "previously selected: {}", self.selected)?;
        writeln!(f, "settings of DCs: {}", self.set)?;
        writeln!(f, "{}", self.drawn)?;
        let [moved, colored] = self.moved;
        writeln!(f, "bitmaps moved down: {moved}, with colours: {colored}")?;
        writeln!(f, "dropped, since the original's sums overflow: {}", self.dropped)?;
        write!(f, "most live objects: {}", self.most)
    }
}
