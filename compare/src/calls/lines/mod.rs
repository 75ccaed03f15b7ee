//! Positions, moves and lines. The original has none of them, so their rules are
//! here: the pixels of a line one by one from the specification's formula, the
//! refusals, the marks and the positions.

mod edges;
mod random;
mod tally;

pub use edges::scripts as edges;
pub use random::{script, Made};
pub use tally::Lines;

use std::collections::HashMap;
use std::fmt;

use super::device::Device;
use super::outcome::Stop;

/// The least and the greatest coordinate of a position.
pub const LEAST: i32 = -32_768;
pub const MOST: i32 = 32_767;

#[derive(Clone, Copy, Debug, Default, PartialEq)]
pub struct Point {
    pub x: i32,
    pub y: i32,
}

impl Point {
    /// Whether it can be a position.
    pub fn is_position(self) -> bool {
        [self.x, self.y].iter().all(|coordinate| (LEAST..=MOST).contains(coordinate))
    }
}

impl fmt::Display for Point {
    fn fmt(&self, f: &mut fmt::Formatter<'_>) -> fmt::Result {
        write!(f, "{} {}", self.x, self.y)
    }
}

/// The positions of the DCs, by their handles.
pub struct Positions(HashMap<u32, Point>);

impl Positions {
    /// All DCs are at (0, 0).
    pub fn new() -> Self {
        Self(HashMap::new())
    }

    pub fn of(&self, dc: u32) -> Point {
        self.0.get(&dc).copied().unwrap_or_default()
    }

    /// Sets the position of a DC. Returns the old one.
    pub fn set(&mut self, dc: u32, to: Point) -> Point {
        self.0.insert(dc, to).unwrap_or_default()
    }

    /// Drops the position of an object that is gone.
    pub fn forget(&mut self, handle: u32) {
        self.0.remove(&handle);
    }
}

/// A line on a surface of these sides.
#[derive(Clone, Copy, Debug, PartialEq)]
pub struct Line {
    pub from: Point,
    pub to: Point,
    pub sides: [u32; 2],
}

impl Line {
    /// The pixels of the line, from its start on, without its end.
    pub fn pixels(&self) -> impl Iterator<Item = Point> {
        let Line { from, to, .. } = *self;
        let (dx, dy) = (i64::from(to.x) - i64::from(from.x), i64::from(to.y) - i64::from(from.y));
        let (a, b) = (dx.abs(), dy.abs());
        (0..a.max(b)).map(move |i| {
            let (along_x, along_y) = if a >= b {
                (i, (2 * i * b + a) / (2 * a))
            } else {
                ((2 * i * a + b) / (2 * b), i)
            };
            Point {
                x: (i64::from(from.x) + along_x * dx.signum()) as i32,
                y: (i64::from(from.y) + along_y * dy.signum()) as i32,
            }
        })
    }

    /// Whether a pixel is on the surface.
    pub fn holds(&self, pixel: Point) -> bool {
        let [width, height] = self.sides;
        let inside = |at: i32, side: u32| u32::try_from(at).is_ok_and(|at| at < side);
        inside(pixel.x, width) && inside(pixel.y, height)
    }
}

impl Device {
    /// A DC's position.
    pub fn position(&self, dc: u32) -> Point {
        self.positions.of(dc)
    }

    /// Moves a DC's position. Returns the old one, or a refusal: 1 no such DC, then 11
    /// a coordinate out of range.
    pub fn move_to(&mut self, dc: u32, to: Point) -> Result<Point, u8> {
        self.gdi().dc(dc).ok_or(1)?;
        if !to.is_position() {
            return Err(11);
        }
        Ok(self.positions.set(dc, to))
    }

    /// Draws a line from a DC's position in the pen colour, marks once if it drew a
    /// pixel, and moves the position to its end. Refused with 1, 2, then 11.
    pub fn line_to(&mut self, dc: u32, to: Point) -> Result<Line, Stop> {
        let (place, color) = self.place_and_pen(dc)?;
        if !to.is_position() {
            return Err(Stop::Refused(11));
        }
        let line = Line { from: self.position(dc), to, sides: self.sides(place) };
        self.paint(place, |on| {
            let mut drawn = false;
            for pixel in line.pixels().filter(|pixel| line.holds(*pixel)) {
                on.put_pixel(pixel.x, pixel.y, color);
                drawn = true;
            }
            if drawn {
                on.mark_dirty();
            }
        })?;
        self.positions.set(dc, to);
        Ok(line)
    }
}

#[cfg(test)]
mod tests {
    use super::*;
    use crate::calls::call::Call;
    use crate::calls::form::Form;
    use crate::calls::paint::Place;
    use pocket_kernel::gdi::{GDI_SCREEN_DC, STOCK_DEFAULT_BITMAP, STOCK_WHITE_PEN};

    const SCREEN: u32 = GDI_SCREEN_DC;
    const MEMORY: u32 = 0xDEAD_1000;
    const BITMAP: u32 = 0xDEAD_1001;

    fn pixels(from: [i32; 2], to: [i32; 2]) -> Vec<[i32; 2]> {
        let point = |[x, y]: [i32; 2]| Point { x, y };
        let line = Line { from: point(from), to: point(to), sides: [1, 1] };
        line.pixels().map(|Point { x, y }| [x, y]).collect()
    }

    #[test]
    fn the_worked_examples() {
        assert_eq!(pixels([0, 0], [5, 2]), [[0, 0], [1, 0], [2, 1], [3, 1], [4, 2]]);
        assert_eq!(pixels([0, 0], [-2, -5]), [[0, 0], [0, -1], [-1, -2], [-1, -3], [-2, -4]]);
        assert_eq!(pixels([3, 3], [3, 3]), [[0; 2]; 0]);
        assert_eq!(pixels([0, 0], [2, 1]), [[0, 0], [1, 1]]);
    }

    #[test]
    fn one_line_of_each_octant() {
        let right_down = [[0, 0], [1, 0], [2, 1], [3, 1], [4, 1], [5, 1], [6, 2]];
        for [sx, sy] in [[1, 1], [1, -1], [-1, 1], [-1, -1]] {
            let flat = right_down.map(|[x, y]| [10 + sx * x, 20 + sy * y]);
            assert_eq!(pixels([10, 20], [10 + 7 * sx, 20 + 2 * sy]), flat);
            let steep = right_down.map(|[x, y]| [10 + sx * y, 20 + sy * x]);
            assert_eq!(pixels([10, 20], [10 + 2 * sx, 20 + 7 * sy]), steep);
        }
    }

    #[test]
    fn axes_and_diagonals() {
        assert_eq!(pixels([1, 1], [4, 1]), [[1, 1], [2, 1], [3, 1]]);
        assert_eq!(pixels([1, 1], [-2, 1]), [[1, 1], [0, 1], [-1, 1]]);
        assert_eq!(pixels([1, 1], [1, 3]), [[1, 1], [1, 2]]);
        assert_eq!(pixels([1, 1], [1, -1]), [[1, 1], [1, 0]]);
        assert_eq!(pixels([0, 0], [3, -3]), [[0, 0], [1, -1], [2, -2]]);
        assert_eq!(pixels([0, 0], [-3, 3]), [[0, 0], [-1, 1], [-2, 2]]);
    }

    #[test]
    fn a_half_goes_away_from_the_start() {
        assert_eq!(pixels([0, 0], [4, 2]), [[0, 0], [1, 1], [2, 1], [3, 2]]);
        assert_eq!(pixels([4, 2], [0, 0]), [[4, 2], [3, 1], [2, 1], [1, 0]]);
        assert_eq!(pixels([0, 0], [-1, 2]), [[0, 0], [-1, 1]]);
        assert_eq!(pixels([0, 0], [6, 1]), [[0, 0], [1, 0], [2, 0], [3, 1], [4, 1], [5, 1]]);
        assert_eq!(pixels([0, 0], [-1, -4]), [[0, 0], [0, -1], [-1, -2], [-1, -3]]);
    }

    #[test]
    fn the_longest_lines() {
        let long = pixels([LEAST, LEAST], [MOST, MOST]);
        assert_eq!((long.len(), long[0], long[65_534]), (65_535, [LEAST; 2], [MOST - 1; 2]));
        let long = pixels([MOST, 1], [LEAST, 0]);
        // The half of 65,535 is not whole, so that there is no tie.
        assert_eq!((long[32_767], long[32_768]), ([0, 1], [-1, 0]));
        assert_eq!((long.len(), long[65_534]), (65_535, [LEAST + 1, 0]));
    }

    /// A device whose panel has 3 by 2 pixels, with a memory DC that has no bitmap yet,
    /// a bitmap of 3 by 2, and white pens in both DCs.
    fn device() -> Device {
        let (refusal, device) = Device::open(vec![0xA5; 12], vec![0xA5; 40], 3, 2);
        assert_eq!(refusal, 0);
        let mut device = device.shown_as(Form::Gdi2);
        perform(&mut device, Call::CreateMemoryDc {});
        perform(&mut device, Call::CreateCompatibleBitmap { width: 3, height: 2 });
        for dc in [SCREEN, MEMORY] {
            perform(&mut device, Call::Select { dc, object: STOCK_WHITE_PEN });
        }
        device
    }

    /// Performs the call. Returns its refusal and answer, as printed.
    fn perform(device: &mut Device, call: Call) -> String {
        device.perform(&call).expect("no sum overflows").to_string()
    }

    fn select(device: &mut Device, object: u32) {
        perform(device, Call::Select { dc: MEMORY, object });
    }

    fn go(device: &mut Device, dc: u32, x: i32, y: i32) -> String {
        perform(device, Call::Move { dc, x, y })
    }

    fn line(device: &mut Device, dc: u32, x: i32, y: i32) -> String {
        perform(device, Call::Line { dc, x, y })
    }

    fn white(device: &Device, place: Place) -> Vec<bool> {
        device.pixels_at(place).chunks(2).map(|word| word == [0xFF; 2]).collect()
    }

    #[test]
    fn a_move_answers_the_old_position() {
        let mut device = device();
        assert_eq!(go(&mut device, SCREEN, 3, -4), "0 0 0");
        assert_eq!(go(&mut device, SCREEN, LEAST, MOST), "0 3 -4");
        assert_eq!(go(&mut device, MEMORY, 7, 8), "0 0 0");
        assert_eq!(go(&mut device, SCREEN, 0, 0), "0 -32768 32767");
        assert_eq!(go(&mut device, MEMORY, 0, 0), "0 7 8");
        assert_eq!(device.panel.frame_counter, 0);
    }

    #[test]
    fn refusals_in_their_order() {
        let mut device = device();
        for out in [LEAST - 1, MOST + 1, i32::MIN, i32::MAX] {
            for [x, y] in [[out, 0], [0, out], [out, out]] {
                assert_eq!(go(&mut device, BITMAP, x, y), "1 0 0");
                assert_eq!(line(&mut device, BITMAP, x, y), "1");
                assert_eq!(go(&mut device, MEMORY, x, y), "11 0 0");
                assert_eq!(line(&mut device, MEMORY, x, y), "2");
                assert_eq!(go(&mut device, SCREEN, x, y), "11 0 0");
                assert_eq!(line(&mut device, SCREEN, x, y), "11");
            }
        }
        // No refused call moves a position.
        assert_eq!(go(&mut device, MEMORY, 5, 6), "0 0 0");
        assert_eq!(line(&mut device, MEMORY, 1, 1), "2");
        assert_eq!(go(&mut device, MEMORY, LEAST, LEAST), "0 5 6");
        assert_eq!(go(&mut device, SCREEN, MOST, MOST), "0 0 0");
        assert_eq!((device.panel.frame_counter, device.panel.pixels.clone()), (0, vec![0; 12]));
    }

    #[test]
    fn a_line_draws_marks_and_moves() {
        let mut device = device();
        select(&mut device, BITMAP);
        // No pixel, no mark; a pixel outside, no mark.
        assert_eq!(line(&mut device, SCREEN, 0, 0), "0");
        assert_eq!(go(&mut device, SCREEN, 0, -2), "0 0 0");
        assert_eq!(line(&mut device, SCREEN, 0, 0), "0");
        assert_eq!(device.panel.frame_counter, 0);
        assert_eq!(line(&mut device, SCREEN, 2, 1), "0");
        assert_eq!(device.panel.frame_counter, 1);
        let two = [true, false, false, false, true, false];
        assert_eq!(white(&device, Place::Panel), two);
        assert_eq!(go(&mut device, SCREEN, 0, 0), "0 2 1");
        // On a bitmap the mark is its dirty mark.
        let dirty = |device: &Device| device.gdi().bitmap(BITMAP).unwrap().host_dirty;
        assert_eq!(go(&mut device, MEMORY, 5, 5), "0 0 0");
        assert_eq!(line(&mut device, MEMORY, 3, 1), "0");
        assert!(!dirty(&device));
        assert_eq!(line(&mut device, MEMORY, LEAST, 1), "0");
        assert!(dirty(&device));
        let row = [false, false, false, true, true, true];
        assert_eq!(white(&device, Place::Bitmap(BITMAP)), row);
        assert_eq!(device.panel.frame_counter, 1);
    }

    #[test]
    fn a_line_on_the_stock_bitmap() {
        let mut device = device();
        select(&mut device, STOCK_DEFAULT_BITMAP);
        assert_eq!(line(&mut device, MEMORY, 9, 9), "0");
        assert_eq!(white(&device, Place::Bitmap(STOCK_DEFAULT_BITMAP)), [true]);
        assert!(device.state()[0].contains(" stock 1 "));
    }

    #[test]
    fn positions_are_printed_and_go_with_their_dc() {
        let mut device = device();
        go(&mut device, SCREEN, -1, 2);
        go(&mut device, MEMORY, 3, -4);
        assert!(device.state()[1].ends_with(" 0 -1 2"));
        let removed = perform(&mut device, Call::Remove { handle: MEMORY });
        assert!(removed.starts_with("0 dc memory none ") && removed.ends_with(" 0 3 -4"));
        assert_eq!(device.positions.of(MEMORY), Point::default());
        let removed = perform(&mut device, Call::Remove { handle: BITMAP });
        assert_eq!(removed, "0 bitmap 3 2 0");
        assert_eq!(perform(&mut device, Call::Remove { handle: SCREEN }), "0 none");
        assert!(device.state()[1].ends_with(" 0 -1 2"));
        // The other form prints no position.
        let device = device.shown_as(Form::Gdi1);
        assert!(device.state()[1].ends_with(" 00ffffff 0"));
    }
}
