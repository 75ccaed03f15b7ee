//! Fixed scripts of loads and saves.

use super::random::{self, KINDS};
use super::record::{scripts_of, Script, Why};
use super::table::{Fields, Table};
use crate::calls::call::{Call, MAX_BYTES};
use crate::calls::device::{MAX_OBJECTS, MAX_SIDE};
use crate::calls::form::Form;
use crate::calls::script::{Header, MOST_PANEL, MOST_STORE};
use crate::calls::step::{Step, LOOK};
use crate::rng::Rng;

const SMALL: Header = Header { panel_len: 9, store_len: 5, width: 2, height: 2, fill: 0xA5 };

/// Saves of every length and loads on a fresh device; loads and saves that are cut
/// short, too long, or in a `GDI1` script.
pub fn scripts() -> Vec<Vec<u8>> {
    let small = SMALL.bytes_as(Form::Gdi2);
    let (_, device) = SMALL.open();
    let table = device.table().bytes();
    let mut all = small.clone();
    for room in (0..=60).chain([MAX_BYTES as u32]) {
        Call::Save { room }.write(&mut all);
    }
    let zeros = |len: usize| [table.as_slice(), &vec![0; len - table.len()]].concat();
    let loads = [vec![], table.clone(), zeros(MAX_BYTES), vec![0; MAX_BYTES], table.clone()];
    for bytes in loads {
        Call::load(bytes).write(&mut all);
        all.push(LOOK);
    }
    let mut scripts = vec![all];
    for call in [Call::load(table.clone()), Call::Save { room: 54 }] {
        let bytes = call.bytes();
        scripts.extend((1..=bytes.len()).map(|len| [&small[..], &bytes[..len]].concat()));
        scripts.push([&SMALL.bytes()[..], &[0x01], &bytes, &[0x01]].concat());
    }
    let long = [zeros(MAX_BYTES + 1), vec![0; 70_000]].map(Call::load);
    let rooms = [MAX_BYTES as u32 + 1, 0x0001_0000, u32::MAX].map(|room| Call::Save { room });
    for call in long.into_iter().chain(rooms) {
        scripts.push([&small[..], &call.bytes(), &[0x01]].concat());
    }
    scripts
}

/// Records without an object, with one and with 256 of each kind, all bits of the
/// short tables damaged; memories at their limits; sums that need more than 32 bits.
pub fn records() -> Vec<(Table, Vec<Script>)> {
    let mut rng = Rng::new(0);
    let mut records = Vec::new();
    for kind in KINDS {
        for (count, first) in [(0, 8 * 54), (1, 8 * 104), (MAX_OBJECTS, 60)] {
            let table = random::with(&mut rng, count, Some(kind));
            let scripts = scripts_of(&mut rng, &table, first, 20);
            records.push((table, scripts));
        }
    }
    records.extend(limits(&mut rng));
    records
}

/// The longest memories that the program accepts, filled exactly, and by two bytes
/// too much; bitmaps whose bytes add up to 2 and to 0 in 32 bits.
fn limits(rng: &mut Rng) -> Vec<(Table, Vec<Script>)> {
    let header = Header { panel_len: MOST_PANEL, store_len: MOST_STORE, ..SMALL };
    let bitmaps = |rng: &mut Rng, sides: &[[u32; 2]]| {
        let mut table = random::with(rng, sides.len(), Some("bitmap"));
        for (object, &[width, height]) in table.objects.iter_mut().zip(sides) {
            object.fields = Fields::Bitmap { width, height, dirty: false };
        }
        Table { width: MAX_SIDE, height: 128, ..table }
    };
    let full = bitmaps(rng, &[[MAX_SIDE, 511], [MAX_SIDE - 1, 1]]);
    assert_eq!((full.panel_bytes(), full.store_bytes()), (MOST_PANEL.into(), MOST_STORE.into()));
    let mut store = full.clone();
    store.objects[1].fields = Fields::Bitmap { width: MAX_SIDE, height: 1, dirty: true };
    let panel = Table { height: 129, ..full.clone() };
    let both = Table { height: MAX_SIDE, ..store.clone() };
    let [sum_2, sum_0] = [128, 127].map(|count| {
        let mut sides = vec![[MAX_SIDE, MAX_SIDE]; count];
        // With the stock bitmap's bytes these are 2 bytes less than the others.
        sides.extend([[MAX_SIDE, MAX_SIDE - 1], [MAX_SIDE - 1, 1]].iter().skip(2 * (count - 127)));
        bitmaps(rng, &sides)
    });
    assert_eq!((sum_2.store_bytes(), sum_0.store_bytes()), ((1 << 32) + 2, 1 << 32));
    let tables = [full.clone(), store, panel, both, sum_2, sum_0, full];
    let mut steps = Vec::new();
    for table in &tables {
        steps.extend([Call::load(table.bytes()).into(), Step::Look]);
    }
    let steps = steps.into_iter().map(|step| (step, Why::Other)).collect();
    let [first, ..] = tables;
    vec![(first, vec![Script { header, short: false, steps }])]
}

#[cfg(test)]
mod tests {
    use super::super::plain::answered;
    use super::super::tally::Tally;
    use super::*;
    use crate::calls::printed;
    use crate::calls::script::LONGEST;

    #[test]
    fn the_fixed_records_have_everything() {
        let mut tally = Tally::new();
        for (table, scripts) in records() {
            tally.record(&table);
            for script in scripts {
                assert!(script.bytes().len() <= LONGEST);
                answered(script, &mut tally);
            }
        }
        println!("{tally}");
        assert!(tally.records() == 16, "{tally}");
    }

    #[test]
    fn memories_at_their_limits() {
        let (_, mut scripts) = limits(&mut Rng::new(0)).remove(0);
        let lines = answered(scripts.remove(0), &mut Tally::new()).lines;
        let loads: Vec<&String> = lines.iter().filter(|line| line.starts_with("15 ")).collect();
        assert_eq!(loads, ["15 0", "15 7", "15 7", "15 7", "15 7", "15 7", "15 0"]);
    }

    #[test]
    fn bad_calls_end_the_script() {
        let texts: Vec<String> = scripts().iter().map(|script| printed(script)).collect();
        let bad = texts.iter().filter(|text| text.contains("\nbad call\n")).count();
        // Every beginning of the two calls, each in a GDI1 script, and the long ones.
        assert_eq!(bad, 58 + 4 + 2 + 5);
        assert!(texts[0].contains("\n16 13 0 ") && texts[0].contains("\n16 0 54 "), "{}", texts[0]);
        let loads: Vec<&str> = texts[0].lines().filter(|line| line.starts_with("15 ")).collect();
        assert_eq!(loads, ["15 12", "15 0", "15 12", "15 12", "15 0"]);
    }
}
