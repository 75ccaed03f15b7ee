//! Bytes of the memory that are lent as a surface, and how operations on them are
//! refused. The original refuses nothing; the refusals are the specification's.

use std::ops::Range;

use super::case::{bytes_of, Case, MAX_SIDE};

/// `len` bytes of the memory from `at` on, lent as a surface of these sides. Length
/// and sides may be wrong.
#[derive(Clone, Copy, Debug, PartialEq)]
pub struct Lent {
    pub width: u32,
    pub height: u32,
    pub at: usize,
    pub len: usize,
}

impl Lent {
    /// A surface with exactly its bytes.
    pub fn surface(width: u16, height: u16, at: usize) -> Self {
        let len = bytes_of(width, height);
        Self { width: width.into(), height: height.into(), at, len }
    }

    pub fn bytes(&self) -> Range<usize> {
        self.at..self.at + self.len
    }

    /// The number with which the case's operation is refused, 0 if it is accepted:
    /// 6 a side outside its limits (a source's side may be 0); then 8 if the bytes
    /// are not 2·w·h; last, for a text, 10 too many units.
    pub fn refusal(&self, case: &Case) -> u8 {
        let side = |n| (1..=MAX_SIDE).contains(&n);
        let source = match *case {
            Case::Blit { src_w, src_h, .. } => src_w <= MAX_SIDE && src_h <= MAX_SIDE,
            _ => true,
        };
        if !(side(self.width) && side(self.height) && source) {
            6
        } else if self.len as u64 != 2 * u64::from(self.width) * u64::from(self.height) {
            8
        } else if case.units_drawn() > 65_535 {
            10
        } else {
            0
        }
    }
}

#[cfg(test)]
mod tests {
    use super::*;
    use crate::argument::Units;

    fn text(count: u32, stop: u32) -> Case {
        let units = Units::new(vec![0x41]).unwrap();
        Case::Text { x: 0, y: 0, color: 0, count, stop, units }
    }

    fn blit(src_w: u32, src_h: u32) -> Case {
        let (dx, dy, sx, sy, w, h) = (0, 0, 0, 0, 1, 1);
        let (src_len, seed, code, pattern) = (0, 0, 0, 0);
        Case::Blit { dx, dy, sx, sy, w, h, src_w, src_h, src_len, seed, code, pattern }
    }

    #[test]
    fn refusals_and_their_order() {
        let fill = Case::Fill { x: 0, y: 0, w: 1, h: 1, color: 0 };
        let refusal =
            |case: &Case, width, height, len| Lent { width, height, at: 0, len }.refusal(case);
        assert_eq!(refusal(&fill, 4, 3, 24), 0);
        assert_eq!(refusal(&fill, 4096, 1, 8192), 0);
        for (width, height) in [(0, 3), (4, 0), (4097, 1), (1, 4097), (u32::MAX, u32::MAX)] {
            assert_eq!(refusal(&fill, width, height, 24), 6);
        }
        for len in [0, 23, 25, 26] {
            assert_eq!(refusal(&fill, 4, 3, len), 8);
            assert_eq!(refusal(&text(65_536, u32::MAX), 4, 3, len), 8);
            assert_eq!(refusal(&blit(4097, 1), 4, 3, len), 6);
        }
        assert_eq!(refusal(&blit(0, 4096), 4, 3, 24), 0);
        assert_eq!(refusal(&blit(1, 4097), 4, 3, 24), 6);
        assert_eq!(refusal(&text(65_535, u32::MAX), 4, 3, 24), 0);
        assert_eq!(refusal(&text(65_536, u32::MAX), 4, 3, 24), 10);
        assert_eq!(refusal(&text(65_536, 65_536), 4, 3, 24), 10);
        assert_eq!(refusal(&text(65_536, 65_535), 4, 3, 24), 0);
    }
}
