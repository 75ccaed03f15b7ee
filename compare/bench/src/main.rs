//! Times the proved operations and the original's. Each round times both, in
//! alternating order and in the same memory, since the same code takes longer in
//! some memory than in other; a row has the medians over the rounds. Answers and
//! pixels must be equal.

mod proved;
mod timing;

use pocket_kernel::font;
use pocket_kernel::gdi::{rop3, Bitmap, Surface};
use timing::time;

/// About how long each of the two runs in a round, in nanoseconds.
const SLICE: f64 = 2e6;

/// What is drawn.
enum Operation {
    Fill([i32; 4]),
    FillRop([i32; 4], u32),
    Blit(u32),
    Text(usize),
    Outline([i32; 4]),
}

/// A row of the table: what is drawn, the sides of the surface, and the ratio that
/// should not be exceeded, if there is a target.
struct Row {
    name: &'static str,
    sides: [u32; 2],
    operation: Operation,
    target: Option<f64>,
}

const COLOR: u16 = 0xA5C3;
const PAT: u16 = 0x5A3C;
const PANEL: [u32; 2] = [240, 320];
const LARGE: [u32; 2] = [1024, 1024];

#[rustfmt::skip]
fn rows() -> Vec<Row> {
    use Operation::*;
    let row = |name, sides, operation, target| Row { name, sides, operation, target: Some(target) };
    let more = |name, sides, operation| Row { name, sides, operation, target: None };
    let whole = |[w, h]: [u32; 2]| [0, 0, w as i32, h as i32];
    vec![
        row("fill 240×320", PANEL, Fill(whole(PANEL)), 1.0),
        more("fill 100×100 on 240×320", PANEL, Fill([70, 110, 100, 100])),
        more("fill 4×300 on 240×320", PANEL, Fill([118, 10, 4, 300])),
        row("fill 1024×1024", LARGE, Fill(whole(LARGE)), 1.0),
        row("pattern fill DSTINVERT 240×320", PANEL, FillRop(whole(PANEL), rop3::DSTINVERT), 1.0),
        row("pattern fill table A5 240×320", PANEL, FillRop(whole(PANEL), 0x00A5_0065), 0.2),
        row("blit SRCCOPY 240×320", PANEL, Blit(rop3::SRCCOPY), 1.2),
        more("blit SRCCOPY 1024×1024", LARGE, Blit(rop3::SRCCOPY)),
        row("blit SRCAND 240×320", PANEL, Blit(rop3::SRCAND), 0.2),
        row("blit table B8 240×320", PANEL, Blit(0x00B8_074A), 0.2),
        row("text, 40 units", PANEL, Text(40), 1.0),
        more("text, 4 units", PANEL, Text(4)),
        more("text, 1 unit", PANEL, Text(1)),
        row("outline 200×280", PANEL, Outline([20, 20, 200, 280]), 1.0),
    ]
}

/// Both surfaces, a source and a text.
struct Scene {
    ours: proved::Surface,
    theirs: Bitmap,
    src: Vec<u8>,
    text: Vec<u16>,
}

impl Scene {
    fn new([width, height]: [u32; 2]) -> Self {
        let mut theirs = Bitmap::new(width, height);
        let mut n = 1u32;
        let mut byte = || {
            n = n.wrapping_mul(1_103_515_245).wrapping_add(12_345);
            (n >> 16) as u8
        };
        theirs.pixels.fill_with(&mut byte);
        let src = (0..theirs.pixels.len()).map(|_| byte()).collect();
        let ours = proved::Surface { pixels: theirs.pixels.clone(), width, height };
        let text = "MODULE 6 LOW 2.71 V  MAX 3.33 V CHARGE 6".encode_utf16().collect();
        Scene { ours, theirs, src, text }
    }

    /// Runs a part with the two surfaces' memories exchanged.
    fn exchanged<T>(&mut self, part: impl FnOnce(&mut Self) -> T) -> T {
        std::mem::swap(&mut self.ours.pixels, &mut self.theirs.pixels);
        let result = part(self);
        std::mem::swap(&mut self.ours.pixels, &mut self.theirs.pixels);
        result
    }

    /// Draws with the proved operation. Returns its answer.
    fn ours(&mut self, operation: &Operation) -> i32 {
        let surface = &mut self.ours;
        match *operation {
            Operation::Fill(area) => surface.fill_rect(area, COLOR).into(),
            Operation::FillRop(area, rop) => surface.fill_rect_rop(area, PAT, rop).into(),
            Operation::Blit(rop) => surface.blit_whole(&self.src, rop, PAT).into(),
            Operation::Text(n) => surface.draw_str_u16(0, 8, &self.text[..n], COLOR),
            Operation::Outline(area) => surface.stroke_rect(area, COLOR).into(),
        }
    }

    /// Draws with the original. Returns its answer, or whether it made a mark.
    fn theirs(&mut self, operation: &Operation) -> i32 {
        let (width, height) = (self.theirs.width, self.theirs.height);
        let (whole_w, whole_h) = (width as i32, height as i32);
        self.theirs.host_dirty = false;
        let mut surface = Surface::Bitmap(&mut self.theirs);
        match *operation {
            Operation::Fill([x, y, w, h]) => surface.fill_rect(x, y, w, h, COLOR),
            Operation::FillRop([x, y, w, h], rop) => surface.fill_rect_rop(x, y, w, h, PAT, rop),
            #[rustfmt::skip]
            Operation::Blit(rop) => surface.blit_from_bytes_rop(
                0, 0, 0, 0, whole_w, whole_h, &self.src, width, height, rop, PAT,
            ),
            Operation::Text(n) => {
                return font::draw_str_u16(&mut surface, 0, 8, &self.text[..n], COLOR)
            }
            Operation::Outline([x, y, w, h]) => surface.stroke_rect(x, y, w, h, COLOR),
        }
        self.theirs.host_dirty.into()
    }
}

/// Both medians in nanoseconds.
fn measure(row: &Row, rounds: u32) -> (f64, f64) {
    let mut scene = Scene::new(row.sides);
    let operation = &row.operation;
    let answers = (scene.ours(operation), scene.theirs(operation));
    assert_eq!(answers.0, answers.1, "{}: the answers differ", row.name);
    let fitting = |once: f64| (SLICE / once.max(1.0)).clamp(1.0, 1e6) as u32;
    let counts =
        [fitting(time(3, || scene.ours(operation))), fitting(time(3, || scene.theirs(operation)))];
    let mut times = [Vec::new(), Vec::new()];
    for round in 0..rounds {
        for turn in 0..2 {
            let which = ((round + turn) % 2) as usize;
            let once = match which {
                0 => time(counts[0], || scene.ours(operation)),
                _ => scene.exchanged(|scene| time(counts[1], || scene.theirs(operation))),
            };
            times[which].push(once);
        }
    }
    check(row);
    let [ours, theirs] = times.map(timing::median);
    (ours, theirs)
}

/// Draws twice on both, from the same pixels. The pixels must be equal afterwards.
fn check(row: &Row) {
    let mut scene = Scene::new(row.sides);
    for _ in 0..2 {
        scene.ours(&row.operation);
        scene.theirs(&row.operation);
        assert!(scene.ours.pixels == scene.theirs.pixels, "{}: the pixels differ", row.name);
    }
}

fn main() {
    let rounds = timing::rounds("bench");
    println!("| operation | proved, µs | original, µs | ratio | target |");
    println!("|---|---|---|---|---|");
    let mut over = Vec::new();
    for row in rows() {
        let (ours, theirs) = measure(&row, rounds);
        let ratio = ours / theirs;
        if row.target.is_some_and(|target| ratio > target) {
            over.push(row.name);
        }
        let target = row.target.map_or("–".into(), |target| format!("{target:.1}"));
        let name = row.name;
        println!("| {name} | {:.3} | {:.3} | {ratio:.3} | {target} |", ours / 1e3, theirs / 1e3);
    }
    let targets = timing::targets(&over);
    println!("{rounds} rounds, medians; pixels and answers equal; {targets}");
}
