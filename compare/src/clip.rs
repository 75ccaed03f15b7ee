//! Where a drawing lies, computed for the tallies only: in 64 bits, one axis at a
//! time.

/// The sides at which a drawing can be cut.
pub const CUTS: [&str; 5] = ["left", "right", "top", "bottom", "by the source"];

/// The directions in which a box can be moved onto a part of itself.
pub const MOVES: [&str; 5] = ["down", "up", "right", "left", "onto itself"];

/// One axis of a drawing, clipped.
pub struct Axis {
    /// Where it starts on the target and in the source.
    to: i64,
    pub from: i64,
    pub len: i64,
    /// Whether it is cut at the target's start, at its end, by the source.
    cuts: [bool; 3],
}

/// A span before it is clipped: its start on the target, its start in the source,
/// its length, and the source's side.
pub struct Stretch([i64; 4]);

impl Stretch {
    /// A span without a source.
    pub fn plain(begin: i32, len: i64) -> Self {
        Self([begin.into(), 0, len, len])
    }

    /// A span from a source of this side.
    pub fn taken(to: i32, from: i32, len: i32, side: u32) -> Self {
        Self([to.into(), from.into(), len.into(), side.into()])
    }

    /// The part that lies in the source and on the target's side.
    fn clip(self, side: u32) -> Option<Axis> {
        let Self([begin, from, len, source]) = self;
        let side = i64::from(side);
        let (first, end) = (from.max(0), (from + len).min(source));
        let (low, high) = (begin + first - from, begin + end - from);
        let (to, till) = (low.max(0), high.min(side));
        let cuts = [low < 0, high > side, high - low < len];
        (to < till).then_some(Axis { to, from: from + to - begin, len: till - to, cuts })
    }
}

/// The part of a box that lies on a target of these sides, as columns and rows;
/// `None` if there is none.
pub fn boxed([x, y]: [Stretch; 2], [width, height]: [u32; 2]) -> Option<[Axis; 2]> {
    Some([x.clip(width)?, y.clip(height)?])
}

/// At which of `CUTS` a box is cut.
pub fn cuts([x, y]: &[Axis; 2]) -> [bool; CUTS.len()] {
    let [left, right, by_columns] = x.cuts;
    let [top, bottom, by_rows] = y.cuts;
    [left, right, top, bottom, by_columns || by_rows]
}

/// Which of `MOVES` a blit within one surface makes; `None` if its source and its
/// target share no pixel.
pub fn moved([x, y]: &[Axis; 2]) -> Option<usize> {
    let (right, down) = (x.to - x.from, y.to - y.from);
    let overlap = right.abs() < x.len && down.abs() < y.len;
    let rows = [down > 0, down < 0, right > 0, right < 0, true];
    rows.iter().position(|way| *way).filter(|_| overlap)
}

#[cfg(test)]
mod tests {
    use super::*;

    /// A blit to a target of 4 by 3, from these places of a source of these sides.
    fn taken([dx, dy]: [i32; 2], [sx, sy]: [i32; 2], n: i32, side: [u32; 2]) -> Option<[Axis; 2]> {
        let stretches = [Stretch::taken(dx, sx, n, side[0]), Stretch::taken(dy, sy, n, side[1])];
        boxed(stretches, [4, 3])
    }

    #[test]
    fn a_box_is_cut_by_its_source_and_then_by_the_surface() {
        let cuts = |dx, sx| taken([dx, 1], [sx, 0], 3, [3, 3]).map(|at| cuts(&at));
        assert_eq!(cuts(-1, 0), Some([true, false, false, true, false]));
        assert_eq!(cuts(-1, -1), Some([false, false, false, true, true]));
        assert_eq!(cuts(4, 0), None);
        assert_eq!(cuts(0, 3), None);
    }

    #[test]
    fn the_direction_of_a_move() {
        let way =
            |to, from| taken(to, from, 2, [4, 3]).as_ref().and_then(moved).map(|at| MOVES[at]);
        assert_eq!(way([1, 1], [1, 1]), Some("onto itself"));
        assert_eq!(way([2, 1], [1, 1]), Some("right"));
        assert_eq!(way([0, 1], [1, 1]), Some("left"));
        assert_eq!(way([2, 0], [1, 1]), Some("up"));
        assert_eq!(way([0, 1], [1, 0]), Some("down"));
        assert_eq!(way([0, 1], [2, 1]), None);
        assert_eq!(way([4, 1], [1, 1]), None);
    }
}
