//! Random scripts of lines and moves, mixed with the other calls.

use pocket_kernel::gdi::GDI_SCREEN_DC;

use super::{Point, LEAST, MOST};
use crate::calls::call::Call;
use crate::calls::device::{bytes_of, Device};
use crate::calls::form::Form;
use crate::calls::handle::{a_dc, with_surface};
use crate::calls::random::{self, sides_of};
use crate::calls::script::Header;
use crate::calls::spoilt::spoil;
use crate::calls::step::Step;
use crate::calls::tally::Tally;
use crate::overflow::Overflow;
use crate::random::colorref;
use crate::rng::Rng;

/// About how many objects are live.
const GOAL: usize = 24;
/// On a small device a look follows one call in this many.
const CALLS_PER_LOOK: usize = 9;
/// Memories of this many bytes make looks half as frequent.
const MANY_BYTES: usize = 60_000;

/// The script of a seed: mostly some hundred lines with the moves and other calls
/// between them. It adds only the dropped calls to the tally.
pub fn script(seed: u64, tally: &mut Tally) -> Vec<u8> {
    let mut made = Made::begun(seed);
    for _ in 0..made.rng.between(200, 500) {
        made.step();
    }
    made.script(tally)
}

/// A header that opens, with a panel of any shape.
fn header(rng: &mut Rng) -> Header {
    let [width, height] = shape(rng);
    let more = rng.pick(&[0, 0, 1, 600]);
    let panel_len = bytes_of(width, height) as u32 + more;
    let store_len = rng.between(4000, 60_000) as u32;
    Header { panel_len, store_len, width, height, fill: rng.pick(&[0x00, 0xFF, 0xA5]) }
}

/// Sides: one pixel, a column, a row, wide, high, or neither.
fn shape(rng: &mut Rng) -> [u32; 2] {
    let few = rng.between(2, 6) as u32;
    let long = rng.pick(&[7, 30, 100, 600]) + rng.below(9) as u32;
    let (width, height) = (rng.between(2, 40) as u32, rng.between(2, 40) as u32);
    match rng.below(16) {
        0 => [1, 1],
        1 | 2 => [1, long],
        3 | 4 => [long, 1],
        5 | 6 => [4 * few + long, few],
        7 | 8 => [few, 4 * few + long],
        9 if rng.one_in(8) => [240, 320],
        _ => [width, height],
    }
}

/// A script that is being made, and the device after its steps.
pub struct Made {
    pub rng: Rng,
    header: Header,
    pub device: Device,
    pub steps: Vec<Step>,
    dropped: u64,
}

impl Made {
    /// The beginning of a seed's script: a header that opens, and surfaces to draw on.
    pub fn begun(seed: u64) -> Self {
        let mut rng = Rng::new(seed);
        let header = header(&mut rng);
        let (_, device) = header.open();
        let mut made = Self { rng, header, device, steps: Vec::new(), dropped: 0 };
        made.surfaces();
        made
    }

    /// The whole script, sometimes with an error.
    pub fn script(mut self, tally: &mut Tally) -> Vec<u8> {
        tally.drop_some(self.dropped);
        spoil(&mut self.rng, Form::Gdi2, self.header, &self.steps)
    }

    /// Performs a call and adds it. A call in which a sum of the original overflows is
    /// dropped.
    pub fn add(&mut self, call: Call) {
        match self.device.perform(&call) {
            Ok(_) => self.steps.push(call.into()),
            Err(Overflow) => self.dropped += 1,
        }
    }

    /// Adds a create call. Returns the handle that it gives if it is accepted.
    fn create(&mut self, call: Call) -> u32 {
        let handle = self.device.next();
        self.add(call);
        handle
    }

    /// Memory DCs with bitmaps of all shapes, one DC without a bitmap, and a pen in
    /// each DC.
    fn surfaces(&mut self) {
        for _ in 0..self.rng.between(3, 6) {
            let dc = self.create(Call::CreateMemoryDc {});
            let [width, height] = shape(&mut self.rng);
            let object = self.create(Call::CreateCompatibleBitmap { width, height });
            self.add(Call::Select { dc, object });
            self.pen(dc);
        }
        self.add(Call::CreateMemoryDc {});
        self.pen(GDI_SCREEN_DC);
    }

    /// Gives a DC a pen of any colour and width.
    fn pen(&mut self, dc: u32) {
        let (color, width) = (colorref(&mut self.rng), self.rng.pick(&[0, 1, 1, 5, u32::MAX]));
        let object = self.create(Call::CreatePen { color, width });
        self.add(Call::Select { dc, object });
        // The DC keeps the colour.
        if self.rng.one_in(2) {
            self.add(Call::Delete { handle: object });
        }
    }

    /// Adds a call of a `GDI1` script.
    pub fn call(&mut self) {
        let call = random::call(&mut self.rng, &self.device, GOAL);
        self.add(call);
    }

    /// Adds a line, a move, a pen or another call, and sometimes a look.
    pub fn step(&mut self) {
        match self.rng.below(32) {
            0..=19 => {
                let dc = with_surface(&mut self.rng, &self.device);
                let Point { x, y } = end(&mut self.rng, &self.device, dc);
                self.add(Call::Line { dc, x, y });
            }
            20..=24 => {
                let any = self.rng.one_in(4);
                let pick = if any { a_dc } else { with_surface };
                let dc = pick(&mut self.rng, &self.device);
                let Point { x, y } = start(&mut self.rng, &self.device, dc);
                self.add(Call::Move { dc, x, y });
            }
            25 | 26 => {
                let dc = with_surface(&mut self.rng, &self.device);
                self.pen(dc);
            }
            _ => self.call(),
        }
        let bytes = self.device.panel_len() + self.device.store_len();
        let calls = CALLS_PER_LOOK * (1 + bytes / MANY_BYTES);
        if self.rng.one_in(calls as u64) {
            self.steps.push(Step::Look);
        }
    }
}

/// The end of a line: mostly a point on the surface or beside it, else one in any
/// direction from the position, the position itself, or one out of range.
fn end(rng: &mut Rng, device: &Device, dc: u32) -> Point {
    let [width, height] = sides_of(device, dc);
    match rng.below(32) {
        0 => device.position(dc),
        1 => out_of_range(rng, device, dc),
        2..=15 => directed(rng, device.position(dc), width.max(height)),
        _ => Point { x: near(rng, width), y: near(rng, height) },
    }
}

/// Where a move goes: mostly to a point on the surface or beside it.
fn start(rng: &mut Rng, device: &Device, dc: u32) -> Point {
    let [width, height] = sides_of(device, dc);
    match rng.below(24) {
        0 => out_of_range(rng, device, dc),
        1..=12 => Point { x: inside(rng, width), y: inside(rng, height) },
        _ => Point { x: near(rng, width), y: near(rng, height) },
    }
}

fn inside(rng: &mut Rng, side: i64) -> i32 {
    rng.between(0, side - 1) as i32
}

/// A coordinate: on the side, just past it at either end, some way past it, far
/// past it, or at an end of the range.
fn near(rng: &mut Rng, side: i64) -> i32 {
    let past = match rng.below(24) {
        0 => return rng.pick(&[LEAST, LEAST + 1, MOST - 1, MOST]),
        1 => return rng.between(LEAST.into(), MOST.into()) as i32,
        2..=4 => rng.between(2, 3 * side + 9),
        5..=8 => 1,
        _ => return inside(rng, side),
    };
    if rng.one_in(2) {
        -past as i32
    } else {
        (side - 1 + past) as i32
    }
}

/// The end of a line of a chosen direction: on an axis, on a diagonal, in an
/// octant, or with halves.
fn directed(rng: &mut Rng, from: Point, side: i64) -> Point {
    let most = rng.pick(&[3, 8, side + 2, 3 * side + 9, 70_000]);
    let long = rng.between(1, most);
    let (long, short) = match rng.below(8) {
        0 => (long, 0),
        1 => (long, long),
        // A length divisible by 4, so that most of these lines have halves.
        2 | 3 => (4 * long, rng.pick(&[1, 2, 3, 2 * long, 3 * long])),
        4 => (2 * long, 1),
        _ => (long, rng.between(0, long)),
    };
    let (dx, dy) = if rng.one_in(2) { (long, short) } else { (short, long) };
    let [dx, dy] = [dx, dy].map(|by| if rng.one_in(2) { by } else { -by });
    let ends = [i64::from(from.x) + dx, i64::from(from.y) + dy];
    let [x, y] = ends.map(|at| at.clamp(LEAST.into(), MOST.into()) as i32);
    Point { x, y }
}

/// A point that is no position: one coordinate or both just past the range, far
/// past it, or at the ends of 32 bits.
fn out_of_range(rng: &mut Rng, device: &Device, dc: u32) -> Point {
    let [width, height] = sides_of(device, dc);
    let far = rng.between(i64::from(MOST) + 1, i32::MAX.into()) as i32;
    let out = rng.pick(&[LEAST - 1, MOST + 1, LEAST - 1, MOST + 1, i32::MIN, i32::MAX, far, -far]);
    let (x, y) = (inside(rng, width), inside(rng, height));
    rng.pick(&[Point { x: out, y }, Point { x, y: out }, Point { x: out, y: out }])
}

#[cfg(test)]
mod tests {
    use super::*;
    use crate::calls::random::tests::tallied;

    #[test]
    fn every_kind_of_line_occurs() {
        let tally = tallied(script, 60);
        assert!(tally.lines().lines() > 8000, "{tally}");
        assert!(tally.lines().least() >= 20, "{tally}");
        assert!(tally.least_of_lines() >= 5, "{tally}");
    }
}
