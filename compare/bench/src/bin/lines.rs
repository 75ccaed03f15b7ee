//! Times lines through the host library beside a plain loop from the same formula.
//! A row has the time of a move and a line, of two moves, and of the loop. The
//! difference of the first two is the line's own work, since a move checks the same
//! record and sets the position. Each round times all three, in alternating order,
//! each on its own scene; a row has the medians over the rounds. Panels, marks and
//! positions must be equal.

#[path = "../plain.rs"]
mod plain;
#[path = "../timing.rs"]
mod timing;

use std::hint::black_box;
use std::time::Instant;

use ravinefork::{Colorref, Device, Handle, Point, Refusal, Rgb565};

/// About how long each of them runs in a round, in nanoseconds.
const SLICE: f64 = 1e6;
const PANEL: [u32; 2] = [240, 320];
const GROUND: u16 = 0xA5C3;
/// The pen as a COLORREF and packed.
const PEN: u32 = 0x0000_FF00;
const PACKED: u16 = 0x07E0;
/// How many created objects the record has.
const OBJECTS: u32 = 20;
const SCREEN: Handle = Handle::GDI_SCREEN_DC;

/// A row of the table: a name, the line's start and end, and the ratio that should
/// not be exceeded.
struct Row {
    name: &'static str,
    from: [i32; 2],
    to: [i32; 2],
    target: f64,
}

#[rustfmt::skip]
const ROWS: [Row; 6] = [
    Row { name: "line along x, 200 pixels", from: [20, 160], to: [220, 160], target: 1.0 },
    Row { name: "line along y, 200 pixels", from: [120, 60], to: [120, 260], target: 1.0 },
    Row { name: "line to the upper left, 200 by 120", from: [220, 250], to: [20, 130], target: 1.0 },
    Row { name: "line to the upper left, 90 by 200", from: [200, 280], to: [110, 80], target: 1.0 },
    Row { name: "line of 40,000 pixels, 240 on the panel", from: [-20_000, -15_000], to: [20_000, 15_040], target: 0.1 },
    Row { name: "line of 40,000 pixels, none on the panel", from: [-20_000, 400], to: [20_000, 20_000], target: 0.1 },
];

fn point([x, y]: [i32; 2]) -> Point {
    Point { x, y }
}

/// A device with a panel of one colour, a pen in the screen DC, and brushes.
fn device() -> Result<Device, Refusal> {
    let [width, height] = PANEL;
    let mut device = Device::open(width, height, (2 * width * height) as usize, 2)?;
    device.panel_fill(Rgb565(GROUND))?;
    for i in 1..OBJECTS {
        device.create_solid_brush(Colorref(i))?;
    }
    let pen = device.create_pen(Colorref(PEN), 1)?;
    device.select_into(SCREEN, pen)?;
    Ok(device)
}

/// The device and the loop's panel.
struct Scene {
    device: Device,
    panel: Vec<u8>,
}

/// What is timed.
#[derive(Clone, Copy)]
enum Part {
    MoveAndLine,
    TwoMoves,
    Loop,
}

impl Scene {
    fn new() -> Scene {
        let device = device().expect("a device");
        let panel = device.panel().to_vec();
        Scene { device, panel }
    }

    /// Does the part once. Returns whether all calls were accepted.
    fn make(&mut self, part: Part, row: &Row) -> bool {
        let (from, to) = (black_box(row.from), black_box(row.to));
        match part {
            Part::MoveAndLine => {
                let moved = self.device.move_to(SCREEN, point(from));
                moved.is_ok() & self.device.line_to(SCREEN, point(to)).is_ok()
            }
            Part::TwoMoves => {
                let moved = self.device.move_to(SCREEN, point(from));
                moved.is_ok() & self.device.move_to(SCREEN, point(to)).is_ok()
            }
            Part::Loop => {
                black_box(plain::draw_line(&mut self.panel, PANEL, from, to, PACKED));
                true
            }
        }
    }

    /// The time of one of them in nanoseconds, measured over `count`.
    fn time(&mut self, part: Part, row: &Row, count: u32) -> f64 {
        let start = Instant::now();
        for _ in 0..count {
            assert!(black_box(self.make(part, row)));
        }
        start.elapsed().as_nanos() as f64 / f64::from(count)
    }
}

/// Draws the line on both. The panels must be equal, there is one mark if the loop
/// drew a pixel, and the position is the end.
fn check(row: &Row) {
    let Scene { mut device, mut panel } = Scene::new();
    let frames = device.frame_counter();
    device.move_to(SCREEN, point(row.from)).expect("a move");
    device.line_to(SCREEN, point(row.to)).expect("a line");
    let drawn = plain::draw_line(&mut panel, PANEL, row.from, row.to, PACKED);
    assert!(device.panel() == panel, "{}: the pixels differ", row.name);
    assert_eq!(device.frame_counter() - frames, u64::from(drawn), "{}: the marks differ", row.name);
    assert_eq!(device.record().screen().position, point(row.to), "{}", row.name);
}

/// The medians of the three parts.
fn measure(row: &Row, rounds: u32) -> [f64; 3] {
    check(row);
    let parts = [Part::MoveAndLine, Part::TwoMoves, Part::Loop];
    let mut scenes = [(); 3].map(|()| Scene::new());
    let mut counts = [0; 3];
    for (at, part) in parts.into_iter().enumerate() {
        let once = scenes[at].time(part, row, 20);
        counts[at] = (SLICE / once.max(1.0)).clamp(1.0, 1e6) as u32;
    }
    let mut times = [const { Vec::new() }; 3];
    for round in 0..rounds as usize {
        for turn in 0..3 {
            let which = (round + turn) % 3;
            times[which].push(scenes[which].time(parts[which], row, counts[which]));
        }
    }
    times.map(timing::median)
}

fn main() {
    let rounds = timing::rounds("lines");
    println!("| line | move and line, ns | two moves, ns | line's own work, ns | plain loop, ns | ratio | target |");
    println!("|---|---|---|---|---|---|---|");
    let mut over = Vec::new();
    for row in &ROWS {
        let [ours, moves, plain] = measure(row, rounds);
        let (own, name, target) = (ours - moves, row.name, row.target);
        let ratio = own / plain;
        if ratio > target {
            over.push(name);
        }
        println!("| {name} | {ours:.0} | {moves:.0} | {own:.0} | {plain:.0} | {ratio:.3} | {target:.1} |");
    }
    let targets = timing::targets(&over);
    println!(
        "{rounds} rounds, medians, {OBJECTS} objects; pixels, marks and positions equal; {targets}"
    );
}
