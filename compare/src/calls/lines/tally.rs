//! Counts of lines and moves, to show that the scripts reach every case.

use std::fmt;

use pocket_kernel::gdi::GDI_SCREEN_DC;

use super::{Line, Point, LEAST, MOST};
use crate::calls::call::Call;
use crate::calls::outcome::{Answer, Outcome};
use crate::counts::Counts;

/// Directions as on a compass, with north at the top: the axes, the diagonals and
/// the eight octants between them; and lines without a pixel.
const DIRECTIONS: [&str; 17] = [
    "E", "ESE", "SE", "SSE", "S", "SSW", "SW", "WSW", "W", "WNW", "NW", "NNW", "N", "NNE", "NE",
    "ENE", "none",
];
const CLIPPED: [&str; 5] =
    ["wholly inside", "start outside", "end outside", "crossing", "wholly outside"];
const REGIONS: [&str; 9] = [
    "above left",
    "above",
    "above right",
    "left",
    "inside",
    "right",
    "below left",
    "below",
    "below right",
];
const SURFACES: [&str; 6] = ["1×1", "1×n", "n×1", "wide", "high", "square or nearly"];

pub struct Lines {
    directions: Counts<17>,
    clipped: Counts<5>,
    starts: Counts<9>,
    ends: Counts<9>,
    surfaces: Counts<6>,
    through: Counts<2>,
    drawn: Counts<2>,
    /// Lines with a tie at a pixel, and with one on the surface.
    ties: Counts<2>,
    /// Lines with an end of the range as a coordinate of their start or end.
    far: Counts<4>,
    refused: Counts<3>,
    moves: Counts<3>,
}

impl Lines {
    pub fn new() -> Self {
        Self {
            directions: Counts::new(DIRECTIONS),
            clipped: Counts::new(CLIPPED),
            starts: Counts::new(REGIONS),
            ends: Counts::new(REGIONS),
            surfaces: Counts::new(SURFACES),
            through: Counts::new(["screen DC", "memory DCs"]),
            drawn: Counts::new(["drawn", "not drawn"]),
            ties: Counts::new(["anywhere", "on the surface"]),
            far: Counts::new(["x -32768", "x 32767", "y -32768", "y 32767"]),
            refused: Counts::new(["1", "2", "11"]),
            moves: Counts::new(["0", "1", "11"]),
        }
    }

    /// Counts a line or a move; other calls are not counted.
    pub fn count(&mut self, call: &Call, outcome: &Outcome) {
        match (call, &outcome.answer) {
            (Call::Move { .. }, _) => self.moves.add(&outcome.refusal.to_string()),
            (Call::Line { dc, .. }, Answer::Line(line)) => {
                let screen = *dc == GDI_SCREEN_DC;
                self.through.add(if screen { "screen DC" } else { "memory DCs" });
                self.count_line(line);
            }
            (Call::Line { .. }, _) => self.refused.add(&outcome.refusal.to_string()),
            _ => {}
        }
    }

    fn count_line(&mut self, line: &Line) {
        self.directions.add(direction(line));
        self.surfaces.add(surface(line.sides));
        self.starts.add(region(line.from, line.sides));
        self.ends.add(region(line.to, line.sides));
        self.count_far(line);
        let seen = line.pixels().any(|pixel| line.holds(pixel));
        self.drawn.add(if seen { "drawn" } else { "not drawn" });
        if let Some(last) = line.pixels().last() {
            self.clipped.add(match (line.holds(line.from), line.holds(last)) {
                (true, true) => "wholly inside",
                (true, false) => "end outside",
                (false, true) => "start outside",
                (false, false) if seen => "crossing",
                (false, false) => "wholly outside",
            });
        }
        let mut ties = ties(line).peekable();
        if ties.peek().is_some() {
            self.ties.add("anywhere");
        }
        if ties.any(|pixel| line.holds(pixel)) {
            self.ties.add("on the surface");
        }
    }

    fn count_far(&mut self, Line { from, to, .. }: &Line) {
        let coordinates = [
            ("x -32768", from.x, to.x, LEAST),
            ("x 32767", from.x, to.x, MOST),
            ("y -32768", from.y, to.y, LEAST),
            ("y 32767", from.y, to.y, MOST),
        ];
        for (name, _, _, _) in coordinates.iter().filter(|(_, a, b, end)| a == end || b == end) {
            self.far.add(name);
        }
    }

    /// The number of all lines, accepted or refused.
    pub fn lines(&self) -> u64 {
        self.drawn.sum() + self.refused.sum()
    }

    /// The least of all counts.
    #[cfg(test)]
    pub fn least(&self) -> u64 {
        let counts = [
            self.directions.least(),
            self.clipped.least(),
            self.starts.least(),
            self.ends.least(),
            self.surfaces.least(),
            self.through.least(),
            self.drawn.least(),
            self.ties.least(),
            self.far.least(),
            self.refused.least(),
            self.moves.least(),
        ];
        counts.into_iter().min().unwrap_or_default()
    }
}

/// The direction of a line.
fn direction(line: &Line) -> &'static str {
    let dx = i64::from(line.to.x) - i64::from(line.from.x);
    let dy = i64::from(line.to.y) - i64::from(line.from.y);
    // From an axis to the next one: the axis, the flatter octant, the diagonal, the steeper one.
    let in_quarter = |along: i64, across: i64| match across {
        0 => 0,
        _ if across < along => 1,
        _ if across == along => 2,
        _ => 3,
    };
    DIRECTIONS[match (dx, dy) {
        (0, 0) => 16,
        (1.., 0..) => in_quarter(dx, dy),
        (..=0, 1..) => 4 + in_quarter(dy, -dx),
        (..=-1, ..=0) => 8 + in_quarter(-dx, -dy),
        _ => 12 + in_quarter(-dy, dx),
    }]
}

/// Where a point lies beside a surface of these sides.
fn region(at: Point, [width, height]: [u32; 2]) -> &'static str {
    let part = |at: i32, side: u32| match u32::try_from(at) {
        Err(_) => 0,
        Ok(at) if at < side => 1,
        Ok(_) => 2,
    };
    REGIONS[3 * part(at.y, height) + part(at.x, width)]
}

fn surface([width, height]: [u32; 2]) -> &'static str {
    match (width, height) {
        (1, 1) => "1×1",
        (1, _) => "1×n",
        (_, 1) => "n×1",
        _ if width >= 4 * height => "wide",
        _ if height >= 4 * width => "high",
        _ => "square or nearly",
    }
}

/// The pixels at which the line lies halfway between two.
fn ties(line: &Line) -> impl Iterator<Item = Point> {
    let [dx, dy] = [line.from.x.abs_diff(line.to.x), line.from.y.abs_diff(line.to.y)];
    let (long, short) = (u64::from(dx.max(dy)), u64::from(dx.min(dy)));
    let halfway = move |i: u64| (2 * i * short) % (2 * long) == long;
    line.pixels().zip(0..).filter(move |(_, i)| halfway(*i)).map(|(pixel, _)| pixel)
}

impl fmt::Display for Lines {
    fn fmt(&self, f: &mut fmt::Formatter<'_>) -> fmt::Result {
        writeln!(f, "lines {}: {}; refused: {}", self.lines(), self.drawn, self.refused)?;
        writeln!(f, "  by direction: {}", self.directions)?;
        writeln!(f, "  by clipping: {}", self.clipped)?;
        writeln!(f, "  starts: {}", self.starts)?;
        writeln!(f, "  ends: {}", self.ends)?;
        writeln!(f, "  surfaces: {}; through: {}", self.surfaces, self.through)?;
        writeln!(f, "  with a tie: {}; at an end of the range: {}", self.ties, self.far)?;
        write!(f, "moves by refusal: {}", self.moves)
    }
}

#[cfg(test)]
mod tests {
    use super::*;

    fn line(to: [i32; 2]) -> Line {
        Line { from: Point::default(), to: Point { x: to[0], y: to[1] }, sides: [3, 2] }
    }

    #[test]
    fn every_direction_has_its_name() {
        let ends = [
            [5, 0],
            [5, 1],
            [5, 5],
            [1, 5],
            [0, 5],
            [-1, 5],
            [-5, 5],
            [-5, 1],
            [-5, 0],
            [-5, -1],
            [-5, -5],
            [-1, -5],
            [0, -5],
            [1, -5],
            [5, -5],
            [5, -1],
            [0, 0],
        ];
        assert_eq!(ends.map(|end| direction(&line(end))), DIRECTIONS);
    }

    #[test]
    fn regions_and_ties() {
        let names = [[-1, -1], [0, -1], [3, -1], [-1, 0], [2, 1], [3, 1], [-1, 2], [0, 2], [3, 2]];
        assert_eq!(names.map(|[x, y]| region(Point { x, y }, [3, 2])), REGIONS);
        let at = |to| ties(&line(to)).map(|pixel| [pixel.x, pixel.y]).collect::<Vec<_>>();
        assert_eq!(at([2, 1]), [[1, 1]]);
        assert_eq!(at([-4, 2]), [[-1, 1], [-3, 2]]);
        assert_eq!(at([1, -6]), [[1, -3]]);
        assert!(at([5, 2]).is_empty() && at([4, 4]).is_empty() && at([7, 0]).is_empty());
    }
}
