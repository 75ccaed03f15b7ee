//! Random cases: at every edge of the surface, far away, and at the ends of i32.

use super::case::{Case, MAX_COUNT, MAX_SIDE, MAX_SOURCE, MEMORY};
use super::lent::Lent;
use super::script::Script;
use super::tally::Tally;
use crate::argument::Units;
use crate::random::{code, colorref, unit, word};
use crate::rng::Rng;
use crate::span::{moved, near, outline, span};

/// The kinds of cases, each with its share.
pub type Mix = &'static [(u8, u64)];

pub const ALL: Mix = &[
    (0x01, 4),
    (0x02, 2),
    (0x03, 2),
    (0x04, 2),
    (0x05, 8),
    (0x06, 2),
    (0x07, 1),
    (0x10, 12),
    (0x11, 12),
    (0x12, 18),
    (0x13, 12),
    (0x14, 8),
    (0x15, 8),
    (0x16, 10),
    (0x17, 12),
    (0x18, 6),
    (0x19, 8),
];

/// The kinds that make surfaces, lend and draw.
pub const DRAWING: Mix = ALL.split_at(7).1;

/// A surface's width and height.
type Sides = (i64, i64);

/// Adds `count` random cases to the script.
pub fn add(script: &mut Script, seed: u64, count: u64, mix: Mix, tally: &mut Tally) {
    let mut rng = Rng::new(seed);
    let end = script.cases.len() + count as usize;
    // The first case fills the whole memory with words, also past later surfaces.
    let mut case = Case::Surface { width: 240, height: 320, seed: seed as u32 | 1 };
    while script.cases.len() < end {
        script.push(case, tally);
        case = self::case(&mut rng, mix, script.surface(), script.lent());
    }
}

fn case(rng: &mut Rng, mix: Mix, surface: Lent, lent: Lent) -> Case {
    let on = on(lent);
    match rng.weighted(mix) {
        0x01 => Case::Pack { colorref: colorref(rng) },
        0x02 => Case::Widen { word: word(rng) },
        0x03 => Case::From555 { word: word(rng) },
        0x04 => Case::To555 { word: word(rng) },
        0x05 => Case::Raster { code: code(rng), p: word(rng), s: word(rng), d: word(rng) },
        0x06 => Case::Glyph { index: rng.below(95) as u8 },
        0x07 => Case::Sweep { block: rng.next() as u8 },
        0x10 => self::surface(rng),
        0x11 => pattern_fill(rng, on),
        0x12 => blit(rng, on),
        0x13 => blit_within(rng, self::on(surface)),
        0x14 => character(rng, on),
        0x15 => fill(rng, on),
        0x16 => outlined(rng, on),
        0x17 => text(rng, on),
        0x18 => lend(rng, surface),
        0x19 => blit_between(rng),
        byte => unreachable!("no case {byte:02x}"),
    }
}

/// The sides to draw on: the lent ones, or the nearest that a surface may have.
fn on(lent: Lent) -> Sides {
    let side = |n: u32| n.clamp(1, MAX_SIDE).into();
    (side(lent.width), side(lent.height))
}

/// A seed, rarely 0, which means black.
fn seed(rng: &mut Rng) -> u32 {
    if rng.one_in(24) {
        0
    } else {
        rng.next() as u32
    }
}

fn surface(rng: &mut Rng) -> Case {
    let (width, height) = sides(rng);
    Case::Surface { width: width as u16, height: height as u16, seed: seed(rng) }
}

/// Sides of a surface that fits the memory, rarely of a large one.
fn sides(rng: &mut Rng) -> Sides {
    let room = MEMORY as i64 / 2 / i64::from(MAX_SIDE);
    match rng.below(96) {
        0 => (240, 320),
        1 => (rng.between(1, 240), rng.between(1, 320)),
        2 => (MAX_SIDE.into(), rng.between(1, room)),
        3 => (rng.between(1, room), MAX_SIDE.into()),
        4..=6 => (1, rng.between(1, 40)),
        7..=9 => (rng.between(1, 40), 1),
        _ => (rng.between(1, 40), rng.between(1, 40)),
    }
}

fn pattern_fill(rng: &mut Rng, (width, height): Sides) -> Case {
    let whole = rng.one_in(8);
    let (x, y) = (span(rng, width, width, whole), span(rng, height, height, whole));
    let (pattern, code) = (word(rng), code(rng));
    Case::PatternFill { x: x.begin, y: y.begin, w: x.len, h: y.len, pattern, code }
}

fn fill(rng: &mut Rng, (width, height): Sides) -> Case {
    let whole = rng.one_in(8);
    let (x, y) = (span(rng, width, width, whole), span(rng, height, height, whole));
    Case::Fill { x: x.begin, y: y.begin, w: x.len, h: y.len, color: word(rng) }
}

fn outlined(rng: &mut Rng, (width, height): Sides) -> Case {
    let (x, y) = (outline(rng, width), outline(rng, height));
    let (mut w, h) = (x.len, y.len);
    // If the height is empty, the original does not go through the width.
    if h <= 0 && rng.one_in(2) {
        w = i32::MAX;
    }
    Case::Outline { x: x.begin, y: y.begin, w, h, color: word(rng) }
}

fn blit(rng: &mut Rng, (width, height): Sides) -> Case {
    let (src_w, src_h) = source_sides(rng);
    let src_len = source_len(rng, src_w, src_h);
    // Mostly the rows that the source's bytes hold, and two more.
    let held = src_len / (2 * src_w).max(1) + 2;
    let rows = if rng.one_in(4) { src_h } else { src_h.min(held) };
    let whole = rng.one_in(8);
    let side = |n: i64| n.clamp(1, MAX_SIDE.into());
    let (x, y) = (span(rng, width, side(src_w), whole), span(rng, height, side(rows), whole));
    Case::Blit {
        dx: x.begin,
        dy: y.begin,
        sx: x.from,
        sy: y.from,
        w: x.len,
        h: y.len,
        src_w: src_w as u32,
        src_h: src_h as u32,
        src_len: src_len as u16,
        seed: seed(rng),
        code: code(rng),
        pattern: word(rng),
    }
}

/// A source's sides: mostly small, sometimes large, rarely 0 or too large.
fn source_sides(rng: &mut Rng) -> Sides {
    let most = rng.pick(&[8, 40, 64]);
    let (a, b) = (rng.between(1, most), rng.between(1, most));
    let large = rng.between(1, MAX_SIDE.into());
    let over = rng.pick(&[4097, 5000, 65_536, u32::MAX.into()]);
    match rng.below(64) {
        0 => rng.pick(&[(0, b), (a, 0), (0, 0)]),
        1 => rng.pick(&[(over, b), (a, over), (over, over), (over, 0)]),
        2 => rng.pick(&[(MAX_SIDE.into(), b), (a, MAX_SIDE.into())]),
        3..=6 => rng.pick(&[(large, b), (a, large), (large, large)]),
        _ => (a, b),
    }
}

/// A source's length: mostly 2·w·h, otherwise less or more.
fn source_len(rng: &mut Rng, src_w: i64, src_h: i64) -> i64 {
    let side = |n: i64| n.min(MAX_SIDE.into());
    let (row, whole) = (2 * side(src_w), 2 * side(src_w) * side(src_h));
    let most = whole.min(MAX_SOURCE.into());
    let len = match rng.below(20) {
        0..=11 => whole,
        12 | 13 => whole - row,
        14 => whole - 1,
        15 => rng.between(0, most),
        16 | 17 => whole + rng.between(1, 300),
        18 => rng.between(0, most) / row.max(1) * row,
        _ => rng.pick(&[0, 1, 2, row - 1, row, row + 1]),
    };
    len.clamp(0, MAX_SOURCE.into())
}

/// A blit within the surface, mostly onto a part of its source.
fn blit_within(rng: &mut Rng, (width, height): Sides) -> Case {
    let (x, y) = if rng.one_in(6) {
        (span(rng, width, width, false), span(rng, height, height, false))
    } else {
        (moved(rng, width), moved(rng, height))
    };
    let (dx, dy, sx, sy, w, h) = (x.begin, y.begin, x.from, y.from, x.len, y.len);
    Case::BlitWithin { dx, dy, sx, sy, w, h, code: code(rng), pattern: word(rng) }
}

fn blit_between(rng: &mut Rng) -> Case {
    let (mut target, mut source) = (sides(rng), sides(rng));
    if 2 * (target.0 * target.1 + source.0 * source.1) > MEMORY as i64 {
        let mut small = || (rng.between(1, 40), rng.between(1, 40));
        (target, source) = (small(), small());
    }
    let whole = rng.one_in(8);
    let (x, y) = (span(rng, target.0, source.0, whole), span(rng, target.1, source.1, whole));
    Case::BlitBetween {
        order: rng.below(2) as u8,
        width: target.0 as u16,
        height: target.1 as u16,
        src_w: source.0 as u16,
        src_h: source.1 as u16,
        dx: x.begin,
        dy: y.begin,
        sx: x.from,
        sy: y.from,
        w: x.len,
        h: y.len,
        code: code(rng),
        pattern: word(rng),
    }
}

fn character(rng: &mut Rng, (width, height): Sides) -> Case {
    let (x, y) = (near(rng, width, 5), near(rng, height, 8));
    let character = match rng.below(16) {
        0 => rng.next() as u32,
        1 => unit(rng).into(),
        2 => rng.pick(&[0x0001_0000, 0x0010_FFFF, 0x0011_0000, u32::MAX, 0x0100_0041]),
        _ => rng.between(0x21, 0x7E) as u32,
    };
    Case::Character { x, y, character, color: word(rng) }
}

fn text(rng: &mut Rng, (width, height): Sides) -> Case {
    let (count, stop) = count(rng, width);
    let x = near(rng, width, 6 * count.min(stop));
    let y = near(rng, height, 8);
    let n = if rng.one_in(32) { rng.between(1, 255) } else { rng.between(1, 12) };
    let units = (0..n).map(|_| unit(rng)).collect();
    let units = Units::new(units).expect("there are at most 255");
    Case::Text { x, y, color: word(rng), count: count as u32, stop: stop as u32, units }
}

/// How many units a text has: a few, sometimes more than fit the surface, rarely
/// about as many as are accepted. And which unit is 0, mostly none.
fn count(rng: &mut Rng, width: i64) -> (i64, i64) {
    let most = i64::from(u16::MAX);
    let count = match rng.below(48) {
        0 => rng.between(most - 1, MAX_COUNT.into()),
        1 => rng.pick(&[most, most + 1]),
        2 | 3 => 0,
        4..=6 => rng.between(1, 400),
        7..=20 => rng.between(1, width / 6 + 4),
        _ => rng.between(1, 20),
    };
    let stop = match rng.below(8) {
        0 => rng.between(0, count),
        1 => rng.pick(&[count - 1, count, most, most + 1]).max(0),
        _ => u32::MAX.into(),
    };
    (count, stop)
}

/// Lent bytes: the surface's or others, with other sides, or with sides or a length
/// that are refused.
fn lend(rng: &mut Rng, surface: Lent) -> Case {
    let (width, height) = match rng.below(8) {
        0 | 1 => (surface.height, surface.width),
        2 => (1, surface.len as u32 / 2),
        3 => (surface.len as u32 / 2, 1),
        4 => (rng.between(1, 40) as u32, rng.between(1, 40) as u32),
        5 => (surface.width, surface.height + 1),
        _ => (surface.width, surface.height),
    };
    let exact = 2 * i64::from(width) * i64::from(height);
    let len = match rng.below(12) {
        0 => exact + rng.pick(&[-2, -1, 1, 2]),
        1 => rng.pick(&[0, 1, 2, MEMORY as i64]),
        _ => exact,
    };
    let (width, height) = match rng.below(10) {
        0 => (side(rng), height),
        1 => (width, side(rng)),
        _ => (width, height),
    };
    Case::Lend { width, height, len: len.clamp(0, MEMORY as i64) as u32 }
}

/// A side at the limits or outside them.
fn side(rng: &mut Rng) -> u32 {
    rng.pick(&[0, 4096, 4097, 0x0001_0001, u32::MAX])
}

#[cfg(test)]
mod tests {
    use super::*;
    use crate::primitives::script::answers;

    fn script(seed: u64, count: u64, tally: &mut Tally) -> Script {
        let mut script = Script::new();
        add(&mut script, seed, count, ALL, tally);
        script
    }

    #[test]
    fn a_seed_makes_one_script() {
        let mut tally = Tally::default();
        let long = script(7, 2000, &mut tally).bytes();
        assert!(long.starts_with(&script(7, 1000, &mut tally).bytes()));
        assert_ne!(long, script(8, 2000, &mut tally).bytes());
    }

    #[test]
    fn reading_the_bytes_gives_the_same_answers() {
        let script = script(1, 2000, &mut Tally::default());
        assert_eq!(answers(&script.bytes()), Ok(script.lines()));
    }

    #[test]
    fn most_accepted_drawings_draw() {
        let mut tally = Tally::default();
        script(1, 5000, &mut tally);
        assert!(tally.share_changed() > 60, "{tally}");
    }

    #[test]
    fn every_refusal_cut_and_direction_occurs() {
        let mut tally = Tally::default();
        script(1, 4000, &mut tally);
        assert!(tally.least() >= 2, "{tally}");
    }
}
