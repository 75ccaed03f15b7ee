//! Times saving and loading a table through the host library beside a plain encoder
//! and decoder. A proved save and load check the record too; a load also makes the
//! panel and the store black, and so does the plain one. Each round times both, in
//! alternating order; a row has the medians over the rounds. Tables and loaded
//! records must be equal.

#[path = "../plain_table.rs"]
mod plain_table;
#[path = "../timing.rs"]
mod timing;

use std::hint::black_box;

use plain_table::Table;
use ravinefork::{Colorref, Device, Handle, Point, Refusal, MAX_OBJECTS, MAX_TABLE};
use timing::time;

/// About how long each of them runs in a round, in nanoseconds.
const SLICE: f64 = 2e6;
const PANEL: [u32; 2] = [240, 320];
const STORE: usize = 64 * 1024;

/// What is timed, on how many DCs.
struct Row {
    name: &'static str,
    part: Part,
    dcs: usize,
}

#[derive(Clone, Copy)]
enum Part {
    Save,
    Load,
}

const ROWS: [Row; 4] = [
    Row { name: "save 256 DCs", part: Part::Save, dcs: MAX_OBJECTS },
    Row { name: "load 256 DCs", part: Part::Load, dcs: MAX_OBJECTS },
    Row { name: "save 20 DCs", part: Part::Save, dcs: 20 },
    Row { name: "load 20 DCs", part: Part::Load, dcs: 20 },
];

/// A device with so many DCs, no two alike.
fn device(dcs: usize) -> Result<Device, Refusal> {
    let [width, height] = PANEL;
    let mut device = Device::open(width, height, (2 * width * height) as usize, STORE)?;
    for at in 0..dcs as u32 {
        let dc = device.create_memory_dc()?;
        device.set_text_color(dc, Colorref(0x0001_0307 * at))?;
        device.move_to(dc, Point { x: at as i32, y: -(at as i32) })?;
        if at % 2 == 0 {
            device.select_into(dc, Handle::STOCK_DEFAULT_BITMAP)?;
        }
    }
    Ok(device)
}

/// The device and its table, and the plain table with memories of its own.
struct Scene {
    device: Device,
    bytes: Vec<u8>,
    out: Vec<u8>,
    table: Table,
    memories: [Vec<u8>; 2],
}

impl Scene {
    /// Saved and loaded once by both, with equal results.
    fn new(dcs: usize) -> Scene {
        let mut device = device(dcs).expect("a device");
        let table = Table::of(device.record().as_numbers());
        let bytes = device.save().expect("a table");
        assert!(bytes == table.encode(), "the tables differ");
        assert_eq!(Table::decode(&bytes).as_ref(), Some(&table));
        device.load(&bytes).expect("a load");
        assert!(Table::of(device.record().as_numbers()) == table, "the loaded records differ");
        let memories = [device.panel().to_vec(), device.store().to_vec()];
        Scene { device, bytes, out: vec![0; MAX_TABLE], table, memories }
    }

    /// Does the part once with the library. Returns its length or objects.
    fn ours(&mut self, part: Part) -> usize {
        match part {
            Part::Save => self.device.record().save_into(&mut self.out).expect("a save"),
            Part::Load => {
                self.device.load(black_box(&self.bytes)).expect("a load");
                self.device.record().count()
            }
        }
    }

    /// The same with the plain encoder or decoder.
    fn plain(&mut self, part: Part) -> usize {
        match part {
            Part::Save => black_box(&self.table).encode().len(),
            Part::Load => {
                self.table = Table::decode(black_box(&self.bytes)).expect("a table");
                let [panel, store] = &mut self.memories;
                panel.fill(0);
                store[2..].fill(0);
                self.table.slots.len()
            }
        }
    }
}

/// Both medians in nanoseconds.
fn measure(row: &Row, rounds: u32) -> [f64; 2] {
    let (mut scene, part) = (Scene::new(row.dcs), row.part);
    assert_eq!(scene.ours(part), scene.plain(part), "{}: the answers differ", row.name);
    let fitting = |once: f64| (SLICE / once.max(1.0)).clamp(1.0, 1e6) as u32;
    let counts = [fitting(time(3, || scene.ours(part))), fitting(time(3, || scene.plain(part)))];
    let mut times = [const { Vec::new() }; 2];
    for round in 0..rounds {
        for turn in 0..2 {
            let which = ((round + turn) % 2) as usize;
            times[which].push(match which {
                0 => time(counts[0], || scene.ours(part)),
                _ => time(counts[1], || scene.plain(part)),
            });
        }
    }
    times.map(timing::median)
}

fn main() {
    let rounds = timing::rounds("tables");
    println!("| table | proved, µs | plain, µs | ratio |");
    println!("|---|---|---|---|");
    for row in &ROWS {
        let [ours, plain] = measure(row, rounds);
        let (name, ratio) = (row.name, ours / plain);
        println!("| {name} | {:.1} | {:.1} | {ratio:.2} |", ours / 1e3, plain / 1e3);
    }
    println!("{rounds} rounds, medians; tables and loaded records equal");
}
