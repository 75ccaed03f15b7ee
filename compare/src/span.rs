//! Random spans along one axis: of boxes, of blits, of text.

use crate::rng::Rng;

/// A span: its start on the surface and in the source, and its length.
pub struct Span {
    pub begin: i32,
    pub from: i32,
    pub len: i32,
}

/// A span on a surface and a source of these sides. Mostly it is visible: a part
/// that lies inside both, or the largest such part, extended at either end.
pub fn span(rng: &mut Rng, side: i64, source: i64, whole: bool) -> Span {
    if rng.one_in(14) {
        return unseen(rng, side, source);
    }
    let most = side.min(source);
    let len = if whole { most } else { rng.between(1, most) };
    let (begin, from) = (rng.between(0, side - len), rng.between(0, source - len));
    wider(rng, [begin, from, len], side + source)
}

/// A span moved within one side, mostly onto a part of itself, extended at either
/// end.
pub fn moved(rng: &mut Rng, side: i64) -> Span {
    let len = if rng.one_in(8) { side } else { rng.between(1, (side - 1).max(1)) };
    let room = side - len;
    let most = if rng.one_in(8) { room } else { room.min((len - 1).max(1)) };
    let by = if rng.one_in(3) { 0 } else { rng.between(most.min(1), most) };
    let low = rng.between(0, room - by);
    let (begin, from) = if rng.one_in(2) { (low + by, low) } else { (low, low + by) };
    wider(rng, [begin, from, len], 2 * side)
}

/// A visible part extended at both ends, as far as i32 allows.
fn wider(rng: &mut Rng, [begin, from, len]: [i64; 3], sides: i64) -> Span {
    let (before, after) = (beyond(rng, sides), beyond(rng, sides));
    let wider = |before, after| {
        Some(Span {
            begin: i32::try_from(begin - before).ok()?,
            from: i32::try_from(from - before).ok()?,
            len: i32::try_from(len + before + after).ok()?,
        })
    };
    wider(before, after).or_else(|| wider(0, 0)).expect("a part inside has small numbers")
}

/// How far a span extends past its visible part: not at all, a little, past every
/// edge, or to the end of i32.
fn beyond(rng: &mut Rng, sides: i64) -> i64 {
    match rng.below(16) {
        0..=8 => 0,
        9..=11 => rng.between(1, 4),
        12..=14 => rng.between(1, sides),
        _ => rng.pick(&[i64::from(i32::MAX), 1 << 30]) - rng.between(0, 2 * sides),
    }
}

/// A span that is mostly not visible: empty, of negative length, next to an edge,
/// far away, or at the ends of i32.
fn unseen(rng: &mut Rng, side: i64, source: i64) -> Span {
    let begin = rng.between(0, side - 1) as i32;
    let from = rng.between(0, source - 1) as i32;
    let len = rng.between(1, side.min(source)) as i32;
    let far = rng.pick(&[-1, 1]) * rng.between(1000, 1 << 30) as i32;
    let ends = [i32::MIN, i32::MIN + 1, i32::MIN / 2, -1, 0, 1, i32::MAX - 1, i32::MAX];
    match rng.below(8) {
        0 => Span { begin, from, len: 0 },
        1 => Span { begin, from, len: rng.pick(&[-1, -len, i32::MIN, -i32::MAX]) },
        2 => Span { begin: rng.pick(&[side as i32, -len]), from, len },
        3 => Span { begin, from: rng.pick(&[source as i32, -len]), len },
        4 => Span { begin: begin + far, from, len },
        5 => Span { begin, from: from + far, len },
        6 => Span { begin: rng.pick(&ends), from, len: rng.pick(&ends) },
        _ => Span { begin: rng.pick(&ends), from: rng.pick(&ends), len: rng.next() as i32 },
    }
}

/// A span of an outline. Both ends are mostly on the side or next to it, some are
/// further away. The original visits every pixel of it, so it is rarely long.
pub fn outline(rng: &mut Rng, side: i64) -> Span {
    let (low, high) = match rng.below(16) {
        0 => return unwalked(rng, side),
        1 => (-rng.between(0, 2500), side + rng.between(0, 2400)),
        2 if rng.one_in(16) => (-rng.between(0, 50_000), side + rng.between(0, 45_000)),
        3 => (side + rng.between(0, 8), side + rng.between(8, 40)),
        4 => (-rng.between(8, 40), -rng.between(0, 8)),
        5 | 6 => (rng.between(-3, side + 2), rng.between(-3, side + 2)),
        _ => (rng.between(0, side - 1), rng.between(0, side - 1)),
    };
    let (first, last) = (low.min(high), low.max(high));
    Span { begin: first as i32, from: 0, len: (last - first + 1) as i32 }
}

/// An outline's span without a visible end: empty, of negative length, or at the
/// ends of i32.
fn unwalked(rng: &mut Rng, side: i64) -> Span {
    let len = rng.between(1, 2 * side) as i32;
    let (begin, len) = match rng.below(8) {
        0 => (rng.between(0, side - 1) as i32, 0),
        1 => (rng.between(0, side - 1) as i32, -len),
        2 => (rng.next() as i32, rng.pick(&[i32::MIN, -1, 0])),
        3 | 4 => (i32::MIN + rng.between(0, 2) as i32, len),
        5 | 6 => (i32::MAX - len + rng.between(0, 1) as i32, len),
        _ => (rng.next() as i32, len),
    };
    Span { begin, from: 0, len }
}

/// The start of a span of this length. Mostly a part of it is on the side: its
/// first part, or any. Otherwise it is next to the side, far away, or at the ends
/// of i32.
pub fn near(rng: &mut Rng, side: i64, len: i64) -> i32 {
    let begin = match rng.below(48) {
        0 | 1 => rng.pick(&[-len - 1, -len, -len + 1, side - 1, side, side + 1]),
        2 => rng.pick(&[i32::MIN, i32::MIN + 1, i32::MAX - 1, i32::MAX]).into(),
        3 => i64::from(i32::MAX) - len - rng.between(0, 12),
        4 => i64::from(rng.next() as i32),
        5..=12 => rng.between(1 - len.max(1), side - 1),
        13..=20 => rng.between(-8, side - 1),
        _ => rng.between(0, side - 1),
    };
    begin.clamp(i32::MIN.into(), i32::MAX.into()) as i32
}
