//! Small pictures that can be checked by hand, for the sample.

use pocket_kernel::gdi::rop3::{DSTINVERT, PATCOPY, SRCCOPY};

use super::case::{Case, MAX_COUNT};
use crate::argument::Units;

/// A stop that no text reaches.
const NEVER: u32 = u32::MAX;

pub fn add(cases: &mut Vec<Case>) {
    boxes(cases);
    sources(cases);
    moves(cases);
    ink(cases);
    refusals(cases);
}

fn fill(x: i32, y: i32, w: i32, h: i32) -> Case {
    Case::Fill { x, y, w, h, color: 0xF800 }
}

fn pattern_fill(x: i32, y: i32, w: i32, h: i32, code: u32) -> Case {
    Case::PatternFill { x, y, w, h, pattern: 0x07E0, code }
}

fn outline(x: i32, y: i32, w: i32, h: i32) -> Case {
    Case::Outline { x, y, w, h, color: 0x001F }
}

/// A blit of a 3 by 3 box from a source with these sides and bytes.
fn blit([dx, dy]: [i32; 2], [sx, sy]: [i32; 2], [src_w, src_h]: [u32; 2], src_len: u16) -> Case {
    let (w, h, seed, code, pattern) = (3, 3, 2, SRCCOPY, 0);
    Case::Blit { dx, dy, sx, sy, w, h, src_w, src_h, src_len, seed, code, pattern }
}

fn within([dx, dy]: [i32; 2], [sx, sy]: [i32; 2], [w, h]: [i32; 2]) -> Case {
    Case::BlitWithin { dx, dy, sx, sy, w, h, code: SRCCOPY, pattern: 0 }
}

fn character(x: i32, y: i32, character: u32) -> Case {
    Case::Character { x, y, character, color: 0xFFFF }
}

fn text(x: i32, y: i32, count: u32, stop: u32, units: &[u16]) -> Case {
    let units = Units::new(units.to_vec()).expect("there are a few");
    Case::Text { x, y, color: 0x07FF, count, stop, units }
}

/// Fills and outlines on 4 by 3.
fn boxes(cases: &mut Vec<Case>) {
    cases.extend([
        // On the first surface, which is 1 by 1 and black.
        pattern_fill(0, 0, 1, 1, PATCOPY),
        Case::Surface { width: 4, height: 3, seed: 0 },
        pattern_fill(1, 1, 2, 1, DSTINVERT),
        fill(0, 0, i32::MAX, 1),
        fill(3, i32::MIN, 1, i32::MAX),
        fill(4, 0, 1, 3),
        fill(1, 1, 0, 1),
        fill(1, 1, 1, i32::MIN),
        fill(-5, -5, 20, 20),
        // A whole outline, one pixel, one visible side, no visible side, an empty box.
        outline(0, 0, 4, 3),
        outline(1, 1, 1, 1),
        outline(-1, 1, 3, 9),
        outline(-1, -1, 6, 5),
        outline(10, 10, 1, 1),
        outline(1, 1, i32::MAX, 0),
    ]);
}

/// Blits on 4 by 3, from sources that are complete, too short, too long, or empty.
fn sources(cases: &mut Vec<Case>) {
    let square = |src_len| blit([0, 0], [0, 0], [3, 3], src_len);
    cases.extend([
        Case::Surface { width: 4, height: 3, seed: 0 },
        blit([-1, 1], [0, 0], [3, 3], 18),
        blit([0, 0], [-1, 1], [3, 3], 18),
        blit([4, 0], [0, 0], [3, 3], 18),
        // A source that lacks a row, a byte, everything.
        Case::Surface { width: 4, height: 3, seed: 0 },
        square(12),
        square(17),
        square(0),
        square(19),
        // Three of 4096 columns; the third of three rows passes the end.
        blit([1, 0], [4093, 0], [4096, 3], 8192),
        blit([1, 0], [0, 0], [0, 3], 18),
        blit([1, 0], [0, 0], [3, 0], 18),
    ]);
}

/// Blits from the surface to itself, and from one surface to another.
fn moves(cases: &mut Vec<Case>) {
    let between = |order, [dx, dy]: [i32; 2], [sx, sy]: [i32; 2]| {
        Case::copy_between(order, [4, 3, 2, 5], [dx, dy, sx, sy], [2, 2])
    };
    cases.extend([
        // In one row: right, left, onto itself, an empty box.
        Case::Surface { width: 3, height: 1, seed: 1 },
        within([1, 0], [0, 0], [2, 1]),
        within([0, 0], [1, 0], [2, 1]),
        within([0, 0], [0, 0], [3, 1]),
        within([0, 0], [3, 0], [1, 1]),
        // Down, up, and diagonally with all sides cut.
        Case::Surface { width: 4, height: 3, seed: 3 },
        within([1, 1], [0, 0], [3, 2]),
        Case::Surface { width: 4, height: 3, seed: 4 },
        within([0, 0], [0, 1], [4, 2]),
        within([-1, 1], [0, -1], [9, 9]),
        within([1, -1], [-1, 0], [9, 9]),
        // These draw on the memory past the surface too.
        Case::Surface { width: 6, height: 6, seed: 5 },
        between(0, [1, 1], [0, 3]),
        between(1, [-1, 0], [0, 0]),
        between(1, [3, 2], [1, 4]),
        between(0, [0, 0], [2, 0]),
    ]);
}

/// Characters and texts on 4 by 8.
fn ink(cases: &mut Vec<Case>) {
    let black = Case::Surface { width: 4, height: 8, seed: 0 };
    cases.extend([
        // One column of a character.
        black.clone(),
        character(-4, 0, u32::from(b'A')),
        character(-5, 0, u32::from(b'A')),
        character(0, 7, u32::from(b'~')),
    ]);
    cases.extend([0, 0x1F, 0x20, 0x7F, 0x0141, 0xD800, u32::MAX].map(|n| character(0, 0, n)));
    cases.extend([
        // The last column of a glyph and the first of the next; unit 0; no unit.
        black,
        text(-4, 0, 2, NEVER, &[0x41, 0x42]),
        text(0, -3, 5, 1, &[0x41]),
        text(0, 0, 3, NEVER, &[0, 0x41]),
        text(0, 0, 0, NEVER, &[0x41]),
        text(-6, 1, 2, NEVER, &[0x41, 0xD800]),
        text(i32::MIN, i32::MAX, 2, NEVER, &[0x20]),
        // The last unit of the longest text that is accepted.
        text(-6 * 65_534, 0, 65_535, NEVER, &[0x41, 0x7F, 0x7E]),
        text(-6 * 65_534, 0, MAX_COUNT, 65_535, &[0x42]),
        text(0, 0, 65_536, NEVER, &[0x41]),
        text(0, 0, MAX_COUNT, 65_536, &[0x41]),
    ]);
}

/// Each operation on bytes that are lent as the surface, as a surface with other
/// sides, with a wrong length, with a wrong side, with both.
fn refusals(cases: &mut Vec<Case>) {
    let lent = [
        (3, 4, 24),
        (12, 1, 24),
        (1, 2, 4),
        (4096, 1, 8192),
        (4, 3, 23),
        (4, 3, 26),
        (4, 3, 0),
        (4096, 4096, 153_600),
        (0, 3, 0),
        (4, 0, 0),
        (4097, 1, 8194),
        (1, 4097, 8194),
        (u32::MAX, u32::MAX, 2),
        (0x0001_0002, 1, 4),
    ];
    cases.push(Case::Surface { width: 4, height: 3, seed: 6 });
    for (width, height, len) in lent {
        cases.extend([
            Case::Lend { width, height, len },
            fill(0, 0, 1, 1),
            pattern_fill(1, 0, 2, 1, DSTINVERT),
            outline(0, 0, 3, 2),
            blit([0, 1], [0, 0], [3, 3], 18),
            blit([0, 1], [0, 0], [4097, 3], 18),
            blit([0, 1], [0, 0], [3, 4097], 18),
            character(0, 0, 0x41),
            text(0, 0, 2, NEVER, &[0x42]),
            text(0, 0, 65_536, NEVER, &[0x42]),
            // This case always uses the surface.
            within([1, 1], [0, 0], [3, 2]),
        ]);
    }
}
