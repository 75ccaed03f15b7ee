//! The scripts of one record: its table loaded, looked at and saved; damaged in
//! single bits, cut, lengthened and with each rule broken; into memories that are
//! long enough and too short.

use pocket_kernel::gdi::GDI_SCREEN_DC;

use super::decode::Broken;
use super::plain::{painter, white};
use super::random;
use super::table::Table;
use super::wrong::{broken, flipped};
use crate::calls::call::{Call, MAX_BYTES};
use crate::calls::form::Form;
use crate::calls::script::{Header, HEADER, LONGEST};
use crate::calls::step::Step;
use crate::rng::Rng;

/// The first bits of a table, each of which is damaged, and how many others are.
const FIRST: usize = 500;
const OTHERS: usize = 40;
/// Up to this many objects every load of a damaged table that is accepted is looked
/// at. Of longer tables the save is compared, and every so many are looked at.
const FEW: usize = 6;
const LOADS_PER_LOOK: u64 = 8;
/// Every so many damaged tables are loaded into memories that are not black.
const LOADS_PER_PAINT: u64 = 24;

/// Why a step is there.
#[derive(Clone, Copy, Debug, PartialEq)]
pub enum Why {
    /// A load of a table with one bit changed.
    Damaged,
    /// A load of bytes that are a table but for this rule.
    Broken(Broken),
    /// Any other step.
    Other,
}

/// A script, with the reasons of its steps.
pub struct Script {
    pub header: Header,
    /// Whether a memory is too short for the record.
    pub short: bool,
    pub steps: Vec<(Step, Why)>,
}

impl Script {
    pub fn bytes(&self) -> Vec<u8> {
        let mut script = self.header.bytes_as(Form::Gdi2);
        self.steps.iter().for_each(|(step, _)| step.write(&mut script));
        script
    }
}

/// Scripts of one header that are being made, none of them too long.
struct Made {
    rng: Rng,
    header: Header,
    short: bool,
    scripts: Vec<Script>,
    len: usize,
}

impl Made {
    fn new(rng: Rng, header: Header, short: bool) -> Self {
        Self { rng, header, short, scripts: Vec::new(), len: LONGEST }
    }

    /// Adds a step. If the script would be too long, another one begins, with paint.
    fn add(&mut self, step: impl Into<Step>, why: Why) {
        let step = step.into();
        let mut bytes = Vec::new();
        step.write(&mut bytes);
        if self.len + bytes.len() > LONGEST {
            let (header, short) = (self.header, self.short);
            self.scripts.push(Script { header, short, steps: Vec::new() });
            self.len = HEADER;
            self.paint();
        }
        self.len += bytes.len();
        self.scripts.last_mut().expect("one is begun").steps.push((step, why));
    }

    fn other(&mut self, step: impl Into<Step>) {
        self.add(step, Why::Other);
    }

    /// Makes the panel, the stock bitmap and the store white.
    fn paint(&mut self) {
        let (table, dcs) = painter(self.header.panel_len, self.header.store_len);
        self.other(Call::load(table.bytes()));
        dcs.into_iter().for_each(|dc| self.other(white(dc)));
    }

    /// A load that may be accepted.
    fn load(&mut self, bytes: Vec<u8>, objects: usize, why: Why) {
        if self.rng.one_in(LOADS_PER_PAINT) {
            self.paint();
        }
        let len = bytes.len();
        self.add(Call::load(bytes), why);
        if objects > FEW {
            self.other(Call::Save { room: len as u32 });
        }
        if objects <= FEW || self.rng.one_in(LOADS_PER_LOOK) {
            self.other(Step::Look);
        }
    }

    /// A load of bytes that are no table.
    fn refused(&mut self, (rule, bytes): (Broken, Vec<u8>)) {
        self.add(Call::load(bytes), Why::Broken(rule));
        if self.rng.one_in(2 * LOADS_PER_LOOK) {
            self.other(Step::Look);
        }
    }
}

/// The scripts of a seed's record.
pub fn scripts(seed: u64) -> (Table, Vec<Script>) {
    let mut rng = Rng::new(seed);
    let table = random::table(&mut rng);
    let scripts = scripts_of(&mut rng, &table, FIRST, OTHERS);
    (table, scripts)
}

/// The scripts of a record, whose table is damaged in its first bits and in others.
pub fn scripts_of(rng: &mut Rng, table: &Table, first: usize, others: usize) -> Vec<Script> {
    let mut scripts = long_enough(rng, table, first, others);
    scripts.extend(short(rng, table));
    scripts
}

/// The record's table into memories that are just long enough, or longer.
fn long_enough(rng: &mut Rng, table: &Table, first: usize, others: usize) -> Vec<Script> {
    let mut more = || [0, 0, 1, rng.below(40) as u32][rng.below(4) as usize];
    let panel_len = table.panel_bytes() as u32 + more();
    let store_len = table.store_bytes() as u32 + more();
    let mut made = Made::new(Rng::new(rng.next()), header(rng, table, panel_len, store_len), false);
    let (bytes, count) = (table.bytes(), table.objects.len());
    made.other(Step::Look);
    made.other(Call::load(bytes.clone()));
    made.other(Step::Look);
    let (len, more) = (bytes.len() as u32, rng.between(1, 99) as u32);
    for room in [len, len - 1, len + 1, len + more, rng.below(len.into()) as u32, 0] {
        made.other(Call::Save { room });
    }
    for _ in 0..rng.below(4) {
        made.other(Call::CreateFont { height: rng.next() as i32 });
    }
    made.other(Call::Save { room: MAX_BYTES as u32 });
    made.other(white(GDI_SCREEN_DC));
    made.other(Step::Look);
    let bits = 8 * bytes.len();
    let damaged = (0..bits.min(first)).chain((0..others).map(|_| rng.below(bits as u64) as usize));
    for bit in damaged.collect::<Vec<_>>() {
        made.load(flipped(&bytes, bit), count, Why::Damaged);
    }
    made.other(Call::load(bytes));
    for wrong in broken(rng, table) {
        made.refused(wrong);
    }
    made.scripts
}

/// The record's table into memories of which one or both are too short by one byte;
/// with a rule broken it is no table all the same. None if the memories cannot be
/// shorter.
fn short(rng: &mut Rng, table: &Table) -> Vec<Script> {
    let needed = [table.panel_bytes() as u32, table.store_bytes() as u32];
    let shorter: Vec<[u32; 2]> = [[1, 0], [0, 1], [1, 1]]
        .into_iter()
        .filter(|less| needed.iter().zip(less).all(|(needed, less)| needed - less > 1))
        .collect();
    if shorter.is_empty() {
        return Vec::new();
    }
    let [less_panel, less_store] = rng.pick(&shorter);
    let more = rng.pick(&[0, 1, 8]);
    let panel_len = needed[0] + if less_panel == 0 { more } else { 0 } - less_panel;
    let store_len = needed[1] + if less_store == 0 { more } else { 0 } - less_store;
    let header = Header { panel_len, store_len, width: 1, height: 1, fill: rng.next() as u8 };
    let mut made = Made::new(Rng::new(rng.next()), header, true);
    made.other(Call::load(table.bytes()));
    made.other(Step::Look);
    for wrong in broken(rng, table) {
        made.refused(wrong);
    }
    let small = Table { width: 1, height: 1, ..table.clone() };
    made.other(Call::load(small.bytes()));
    made.other(Step::Look);
    made.other(Call::load(table.bytes()));
    made.scripts
}

/// A header with memories of these lengths, and the sides of the table or smaller
/// ones.
fn header(rng: &mut Rng, table: &Table, panel_len: u32, store_len: u32) -> Header {
    let [width, height] = if rng.one_in(3) { [table.width, table.height] } else { [1, 1] };
    Header { panel_len, store_len, width, height, fill: fill(rng) }
}

fn fill(rng: &mut Rng) -> u8 {
    let any = rng.next() as u8;
    rng.pick(&[0x5A, 0xFF, 0x00, any])
}

#[cfg(test)]
mod tests {
    use super::super::plain::answered;
    use super::super::tally::Tally;
    use super::*;

    #[test]
    fn every_case_occurs() {
        let mut tally = Tally::new();
        for seed in 0..200 {
            let (table, scripts) = scripts(seed);
            tally.record(&table);
            for script in scripts {
                assert!(script.bytes().len() <= LONGEST);
                answered(script, &mut tally);
            }
        }
        assert!(tally.least() > 0, "{tally}");
    }

    #[test]
    fn a_seed_makes_one_record() {
        let bytes = |seed| scripts(seed).1.iter().map(Script::bytes).collect::<Vec<_>>();
        assert_eq!(bytes(7), bytes(7));
        assert_ne!(bytes(7), bytes(8));
    }
}
