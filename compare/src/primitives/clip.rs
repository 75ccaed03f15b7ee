//! Where a case draws, for the tally.

use super::case::Case;
use super::lent::Lent;
use crate::clip::{self, Axis, Stretch};
use pocket_kernel::font::{GLYPH_H, GLYPH_W};

/// The visible box of the case's drawing, as columns and rows; `None` if it has no
/// visible part. The box of an outline includes its inside.
pub fn boxed(case: &Case, target: Lent) -> Option<[Axis; 2]> {
    let sides = [target.width, target.height];
    clip::boxed(stretches(case, sides)?, sides)
}

fn stretches(case: &Case, [width, height]: [u32; 2]) -> Option<[Stretch; 2]> {
    let (plain, taken) = (Stretch::plain, Stretch::taken);
    Some(match *case {
        Case::PatternFill { x, y, w, h, .. }
        | Case::Fill { x, y, w, h, .. }
        | Case::Outline { x, y, w, h, .. } => [plain(x, w.into()), plain(y, h.into())],
        Case::Blit { dx, dy, sx, sy, w, h, src_w, src_h, .. } => {
            [taken(dx, sx, w, src_w), taken(dy, sy, h, src_h)]
        }
        Case::BlitWithin { dx, dy, sx, sy, w, h, .. } => {
            [taken(dx, sx, w, width), taken(dy, sy, h, height)]
        }
        Case::BlitBetween { dx, dy, sx, sy, w, h, src_w, src_h, .. } => {
            [taken(dx, sx, w, src_w.into()), taken(dy, sy, h, src_h.into())]
        }
        // The last column of a glyph has no ink.
        Case::Character { x, y, .. } => {
            [plain(x, i64::from(GLYPH_W) - 1), plain(y, GLYPH_H.into())]
        }
        Case::Text { x, y, .. } => {
            let advance = i64::from(GLYPH_W) * case.units_drawn() as i64;
            [plain(x, advance - 1), plain(y, GLYPH_H.into())]
        }
        _ => return None,
    })
}

/// How many rows of the box pass the end of a source of `len` bytes.
pub fn skipped([x, y]: &[Axis; 2], src_w: u32, len: u16) -> i64 {
    let end = |row: i64| 2 * (row * i64::from(src_w) + x.from + x.len);
    (y.from..y.from + y.len).filter(|row| end(*row) > len.into()).count() as i64
}

#[cfg(test)]
mod tests {
    use super::*;

    #[test]
    fn rows_past_the_end_of_the_source_are_skipped() {
        let (dx, dy, sx, sy, w, h, src_w, src_h) = (0, 1, 0, 0, 3, 3, 3, 3);
        let (src_len, seed, code, pattern) = (17, 1, 0, 0);
        let blit = Case::Blit { dx, dy, sx, sy, w, h, src_w, src_h, src_len, seed, code, pattern };
        let seen = boxed(&blit, Lent { width: 4, height: 3, at: 0, len: 24 }).unwrap();
        assert_eq!([11, 12, 17, 6, 5].map(|len| skipped(&seen, 3, len)), [1, 0, 0, 1, 2]);
    }
}
