//! Random scripts of calls, lines and moves with saves between them, and with loads
//! of what was saved before.

use super::wrong::flipped;
use crate::calls::call::{Call, MAX_BYTES};
use crate::calls::lines::Made;
use crate::calls::step::Step;
use crate::calls::tally::Tally;
use crate::rng::Rng;

/// The script of a seed: mostly some hundred calls, one in seven of them a save or a
/// load. It adds only the dropped calls to the tally.
pub fn script(seed: u64, tally: &mut Tally) -> Vec<u8> {
    let mut made = Made::begun(seed);
    let mut tables = vec![made.device.table().bytes()];
    for _ in 0..made.rng.between(100, 400) {
        match made.rng.below(14) {
            0 => {
                let table = made.device.table().bytes();
                let room = room(&mut made.rng, table.len());
                made.add(Call::Save { room });
                tables.push(table);
            }
            1 => {
                let at = made.rng.below(tables.len() as u64) as usize;
                load(&mut made, &tables[at]);
            }
            2..=7 => made.call(),
            _ => made.step(),
        }
    }
    made.script(tally)
}

/// The length of an output: mostly that of the table or longer.
fn room(rng: &mut Rng, len: usize) -> u32 {
    let shorter = rng.below(len as u64) as usize;
    let longer = rng.between(len as i64, MAX_BYTES as i64) as usize;
    rng.pick(&[len, len, len + 1, longer, len - 1, shorter, MAX_BYTES]) as u32
}

/// Adds a load, mostly of the table as it is, and mostly a look after it.
fn load(made: &mut Made, table: &[u8]) {
    let bit = made.rng.below(8 * table.len() as u64) as usize;
    let damaged = match made.rng.below(8) {
        0 => flipped(table, bit),
        1 => table[..bit / 8].to_vec(),
        _ => table.to_vec(),
    };
    // The original cannot give a handle that was damaged.
    let bytes = if made.device.can_load(&damaged) { damaged } else { table.to_vec() };
    made.add(Call::load(bytes));
    if !made.rng.one_in(4) {
        made.steps.push(Step::Look);
    }
}

#[cfg(test)]
mod tests {
    use super::*;
    use crate::calls::random::tests::tallied;

    #[test]
    fn loads_and_saves_occur() {
        let tally = tallied(script, 60);
        assert!(tally.least_of_tables() >= 20, "{tally}");
        assert!(tally.lines().lines() > 2000, "{tally}");
    }
}
