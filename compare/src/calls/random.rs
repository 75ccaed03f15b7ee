//! Random call scripts. The calls depend on what is live on the device.

use super::call::{Call, MAX_UNITS};
use super::device::{bytes_of, Device, MAX_OBJECTS, MAX_SIDE};
use super::form::Form;
use super::handle::{a_dc, any_object, dc_for, selectable, source, with_surface};
use super::paint::Place;
use super::script::{Header, MOST_PANEL, MOST_STORE};
use super::spoilt::spoil;
use super::step::Step;
use super::tally::Tally;
use crate::overflow::Overflow;
use crate::random::{code, colorref, unit, word};
use crate::rng::Rng;
use crate::span::{moved, near, outline, span, Span};

/// More objects than a device can hold.
const CROWD: usize = 300;
/// On a small device a look follows one call in this many.
const CALLS_PER_LOOK: usize = 10;
/// The same for calls that move bitmaps or make the panel black.
const MOVES_PER_LOOK: usize = 2;
/// Memories of this many bytes, or this many objects, make looks half as frequent.
const MANY_BYTES: usize = 250_000;
const MANY_OBJECTS: usize = 64;

/// The script of a seed: mostly 60 to 400 calls on a device that opens, with looks
/// between them. It adds only the dropped calls to the tally.
pub fn script(seed: u64, tally: &mut Tally) -> Vec<u8> {
    let mut rng = Rng::new(seed);
    let header = header(&mut rng);
    let goal = goal(&mut rng);
    let count = match rng.below(40) {
        0 => rng.between(0, 4),
        _ if goal == CROWD => rng.between(360, 440),
        _ => rng.between(60, 400),
    };
    let (_, mut device) = header.open();
    let (steps, dropped) =
        steps(&mut rng, &mut device, goal, count as usize, |_, _| true, looked_at);
    tally.drop_some(dropped);
    spoil(&mut rng, Form::Gdi1, header, &steps)
}

/// Random calls, which the device performs, with a look after some of them. They
/// keep the number of live objects near a target that changes from time to time.
/// Calls that are not wanted are left out. Calls in which a sum of the original
/// overflows are dropped; their number is returned too.
pub fn steps(
    rng: &mut Rng,
    device: &mut Device,
    mut goal: usize,
    count: usize,
    wanted: impl Fn(&Device, &Call) -> bool,
    looked_at: impl Fn(&mut Rng, &Device, &Call) -> bool,
) -> (Vec<Step>, u64) {
    let (mut steps, mut calls, mut dropped) = (Vec::new(), 0, 0);
    while calls < count {
        if rng.one_in(120) {
            goal = self::goal(rng);
        }
        let call = call(rng, device, goal);
        if !wanted(device, &call) {
            continue;
        }
        if let Err(Overflow) = device.perform(&call) {
            dropped += 1;
            continue;
        }
        let look = looked_at(rng, device, &call).then_some(Step::Look);
        steps.push(call.into());
        steps.extend(look);
        calls += 1;
    }
    (steps, dropped)
}

/// Whether a look follows the call. Looks are rarer the more they have to print and
/// to compute a CRC of.
fn looked_at(rng: &mut Rng, device: &Device, call: &Call) -> bool {
    let calls = match call {
        Call::Delete { .. } | Call::Remove { .. } | Call::Resize { .. } => MOVES_PER_LOOK,
        _ => CALLS_PER_LOOK,
    };
    let bytes = device.panel_len() + device.store_len();
    let times = 1 + bytes / MANY_BYTES + device.created().len() / MANY_OBJECTS;
    rng.one_in((calls * times) as u64)
}

fn goal(rng: &mut Rng) -> usize {
    rng.pick(&[6, 12, 20, 30, 30, 60, CROWD])
}

/// A header that opens.
fn header(rng: &mut Rng) -> Header {
    let (width, height) = match rng.below(48) {
        0 => (240, 320),
        1 => (MAX_SIDE.into(), rng.between(1, 128)),
        2 => (rng.between(1, 128), MAX_SIDE.into()),
        3 => (1, 1),
        _ => (rng.between(1, 24), rng.between(1, 24)),
    };
    let (width, height) = (width as u32, height as u32);
    let more = match rng.below(32) {
        0 => MOST_PANEL.into(),
        1..=9 => rng.between(1, 4000),
        10..=17 => rng.between(1, 9),
        _ => 0,
    };
    let panel_len = (bytes_of(width, height) as u32 + more as u32).min(MOST_PANEL);
    let fill = [0x00, 0xFF, 0xA5, rng.next() as u8];
    Header { panel_len, store_len: store_len(rng), width, height, fill: rng.pick(&fill) }
}

/// A length of the store: from the stock bitmap's bytes alone to enough for many
/// bitmaps.
fn store_len(rng: &mut Rng) -> u32 {
    let len = match rng.below(48) {
        0 => rng.between(70_000, MOST_STORE.into()),
        1 => MOST_STORE.into(),
        2..=4 => rng.pick(&[2, 3, 4, 12, 13, 8194, 8195]),
        5..=8 => rng.between(2, 64),
        9..=18 => rng.between(64, 2000),
        _ => rng.between(2000, 70_000),
    };
    len as u32
}

/// A random call of a `GDI1` script.
pub fn call(rng: &mut Rng, device: &Device, goal: usize) -> Call {
    let live = device.created().len();
    let (create, delete) = if live + 40 < goal && live < MAX_OBJECTS {
        (300, 2)
    } else if live < goal {
        (20, 6)
    } else {
        (6, 20)
    };
    // On the way to many objects there are few bitmaps, since they may not fit the store.
    let bitmap = if goal == CROWD && live < MAX_OBJECTS { create / 2 } else { 3 * create };
    let kinds = [
        (0x01, 2 * create),
        (0x02, bitmap),
        (0x03, create),
        (0x04, create),
        (0x05, create / 2),
        (0x06, 3 * delete),
        (0x07, 2 * delete),
        (0x08, 60),
        (0x09, 30),
        (0x0A, 8),
        (0x0B, 8),
        (0x0C, 8),
        (0x0D, 40),
        (0x0E, 36),
        (0x0F, 36),
        (0x10, 4),
        (0x11, 10),
        (0x12, 80),
    ];
    let kind = rng.weighted(&kinds);
    of_kind(rng, device, kind)
}

fn of_kind(rng: &mut Rng, device: &Device, kind: u8) -> Call {
    match kind {
        0x01 => Call::CreateMemoryDc {},
        0x02 => {
            let (width, height) = sides(rng, device);
            Call::CreateCompatibleBitmap { width, height }
        }
        0x03 => Call::CreateSolidBrush { color: colorref(rng) },
        0x04 => Call::CreatePen { color: colorref(rng), width: number(rng) },
        0x05 => Call::CreateFont { height: number(rng) as i32 },
        0x06 => Call::Delete { handle: any_object(rng, device) },
        0x07 => Call::Remove { handle: any_object(rng, device) },
        0x08 => {
            let object = selectable(rng, device);
            Call::Select { dc: dc_for(rng, device, object), object }
        }
        0x09 => Call::SetTextColor { dc: with_surface(rng, device), color: colorref(rng) },
        0x0A => Call::SetTextAlign { dc: a_dc(rng, device), align: number(rng) },
        0x0B => Call::SetBkColor { dc: a_dc(rng, device), color: colorref(rng) },
        0x0C => Call::SetBkMode { dc: a_dc(rng, device), transparent: rng.below(2) as u32 },
        0x0D => pattern_fill(rng, device),
        0x0E => rectangle(rng, device),
        0x0F => text(rng, device),
        0x10 => Call::PanelFill { word: word(rng).into() },
        0x11 => resize(rng, device),
        0x12 => blit(rng, device),
        byte => unreachable!("no call {byte:02x}"),
    }
}

/// A bitmap's sides: small, as large as the free bytes allow or a little larger, at
/// the limits, above them.
fn sides(rng: &mut Rng, device: &Device) -> (u32, u32) {
    let small = |rng: &mut Rng| rng.between(1, 16) as u32;
    let limit = [0, 1, 4095, 4096, 4097, 0x1_0000, 0x1_0001, 0x8000_0000, u32::MAX];
    let (width, height) = match rng.below(24) {
        0 | 1 => (rng.below(3) as u32, rng.below(3) as u32),
        2 | 3 => just(rng, device.left()),
        4 => (rng.pick(&limit), rng.pick(&limit)),
        5 | 6 => (rng.pick(&limit), small(rng)),
        7 => (1, rng.between(1, 4096) as u32),
        _ => (small(rng), small(rng)),
    };
    if rng.one_in(2) {
        (width, height)
    } else {
        (height, width)
    }
}

/// Sides of a bitmap that just fits these bytes, or just does not.
fn just(rng: &mut Rng, left: usize) -> (u32, u32) {
    let words = (left / 2) as u32;
    let least = words.div_ceil(MAX_SIDE).max(1);
    let width = rng.between(least.into(), (least + 3).into()) as u32;
    (width.min(MAX_SIDE), words / width + rng.below(2) as u32)
}

/// A width, height or alignment: mostly small, or at the ends of 32 bits.
fn number(rng: &mut Rng) -> u32 {
    match rng.below(6) {
        0 => rng.pick(&[0, 1, 0x7FFF_FFFF, 0x8000_0000, u32::MAX]),
        1 => rng.next() as u32,
        _ => rng.between(-30, 30) as u32,
    }
}

/// The sides to draw on: those of a DC's surface, or the panel's if it has none.
pub fn sides_of(device: &Device, dc: u32) -> [i64; 2] {
    let place = device.place(dc).unwrap_or(Place::Panel);
    device.sides(place).map(|side| i64::from(side).max(1))
}

fn pattern_fill(rng: &mut Rng, device: &Device) -> Call {
    let dc = with_surface(rng, device);
    let [width, height] = sides_of(device, dc);
    let whole = rng.one_in(8);
    let (x, y) = (span(rng, width, width, whole), span(rng, height, height, whole));
    Call::PatternFill { dc, x: x.begin, y: y.begin, w: x.len, h: y.len, code: code(rng) }
}

fn rectangle(rng: &mut Rng, device: &Device) -> Call {
    let dc = with_surface(rng, device);
    let [width, height] = sides_of(device, dc);
    let (x, y) = if rng.one_in(2) {
        (outline(rng, width), outline(rng, height))
    } else {
        (short(rng, width), short(rng, height))
    };
    Call::Rectangle { dc, x: x.begin, y: y.begin, w: x.len, h: y.len }
}

/// A span that starts on the side or just before it.
fn short(rng: &mut Rng, side: i64) -> Span {
    let (begin, len) = (rng.between(-2, side - 1), rng.between(1, side + 2));
    Span { begin: begin as i32, from: 0, len: len as i32 }
}

fn text(rng: &mut Rng, device: &Device) -> Call {
    let dc = with_surface(rng, device);
    let [width, height] = sides_of(device, dc);
    let units = units(rng, width);
    let (x, y) = (near(rng, width, 6 * units.len() as i64), near(rng, height, 8));
    Call::text(dc, x, y, units)
}

/// A few units, sometimes more than fit the surface, rarely about as many as are
/// accepted or as a script can have.
fn units(rng: &mut Rng, width: i64) -> Vec<u16> {
    let count = match rng.below(160) {
        0 => return many(rng),
        1..=8 => 0,
        9..=14 => rng.between(1, 300),
        15..=50 => rng.between(1, width / 6 + 4),
        _ => rng.between(1, 12),
    };
    (0..count).map(|_| unit(rng)).collect()
}

/// About as many units as are accepted or as a script can have: a few units,
/// repeated; sometimes with a unit 0.
fn many(rng: &mut Rng) -> Vec<u16> {
    let count = rng.pick(&[65_534, 65_535, 65_536, 65_537, MAX_UNITS - 1, MAX_UNITS]);
    let few: Vec<u16> = (0..rng.between(1, 5)).map(|_| unit(rng)).collect();
    let mut units: Vec<u16> = few.into_iter().cycle().take(count).collect();
    if rng.one_in(2) {
        units[rng.pick(&[0, 5, 65_533, 65_535, 65_536]).min(count - 1)] = 0;
    }
    units
}

/// Sides for a resize: mostly such that the panel fits its memory, else a little
/// larger, the present ones, 0, or above the limit.
fn resize(rng: &mut Rng, device: &Device) -> Call {
    let [width, height] = device.sides(Place::Panel);
    let over = rng.pick(&[4097, 5000, 0x1_0000, 0x8000_0000, u32::MAX]);
    let mut small = || rng.between(1, 24) as u32;
    let (a, b) = (small(), small());
    let (width, height) = match rng.below(16) {
        0 => rng.pick(&[(0, b), (a, 0), (0, 0), (0, over)]),
        1 => (width, height),
        2 | 3 => rng.pick(&[(over, b), (a, over), (over, over)]),
        4 | 5 => just(rng, device.panel_len()),
        6 => (height, width),
        7 => rng.pick(&[(width + 1, height), (width, height + 1)]),
        8 => rng.pick(&[(width.div_ceil(2), height), (width, height.div_ceil(2))]),
        _ => (a, b),
    };
    Call::Resize { width, height }
}

/// A blit; within one surface mostly onto a part of its source.
fn blit(rng: &mut Rng, device: &Device) -> Call {
    let dc = with_surface(rng, device);
    let source = source(rng, device, dc);
    let ([width, height], [src_w, src_h]) = (sides_of(device, dc), sides_of(device, source));
    let (x, y) = if device.place(dc) == device.place(source) && !rng.one_in(6) {
        (moved(rng, width), moved(rng, height))
    } else {
        let whole = rng.one_in(8);
        (span(rng, width, src_w, whole), span(rng, height, src_h, whole))
    };
    Call::Blit {
        dc,
        x: x.begin,
        y: y.begin,
        w: x.len,
        h: y.len,
        source,
        sx: x.from,
        sy: y.from,
        code: code(rng),
    }
}

#[cfg(test)]
pub mod tests {
    use super::*;
    use crate::calls::lines;
    use crate::calls::script::{answered, LONGEST};

    /// A function that makes random scripts.
    type Scripts = fn(u64, &mut Tally) -> Vec<u8>;

    #[test]
    fn a_seed_makes_one_script() {
        for scripts in [script as Scripts, lines::script] {
            let script = |seed| scripts(seed, &mut Tally::new());
            assert_eq!(script(7), script(7));
            assert_ne!(script(7), script(8));
        }
    }

    /// The tally of this many scripts.
    pub fn tallied(scripts: Scripts, count: u64) -> Tally {
        let mut tally = Tally::new();
        for seed in 0..count {
            let script = scripts(seed, &mut tally);
            assert!(script.len() <= LONGEST);
            assert!(answered(&script, &mut tally).is_ok());
        }
        tally
    }

    #[test]
    fn every_call_refusal_and_answer_occurs() {
        let tally = tallied(script, 400);
        assert!(tally.least() >= 5, "{tally}");
        assert!((6..14).contains(&(tally.calls() / tally.looks())), "{tally}");
        assert!(tally.share_changed() > 60, "{tally}");
        assert_eq!(tally.most(), MAX_OBJECTS, "{tally}");
    }

    #[test]
    fn looks_go_by_size() {
        let looks = |panel_len, store_len, objects: usize| {
            let header = Header { panel_len, store_len, width: 1, height: 1, fill: 0 };
            let (mut rng, (_, mut device)) = (Rng::new(1), header.open());
            let create = Call::CreateMemoryDc {};
            (0..objects).for_each(|_| assert!(device.perform(&create).is_ok()));
            let mut count =
                |call| (0..9000).filter(|_| looked_at(&mut rng, &device, &call)).count();
            [count(Call::PanelFill { word: 0 }), count(Call::Delete { handle: 0 })]
        };
        let about = |looks: [usize; 2], due: [usize; 2]| {
            assert!(looks.iter().zip(due).all(|(n, due)| n.abs_diff(due) < due / 3), "{looks:?}");
        };
        about(looks(2, 70_000, 20), [900, 4500]);
        about(looks(2, 70_000, MAX_OBJECTS), [180, 900]);
        about(looks(MOST_PANEL, MOST_STORE, 0), [43, 214]);
    }

    #[test]
    fn some_bitmaps_just_fit() {
        let mut rng = Rng::new(1);
        for left in [0, 1, 2, 3, 10, 8193, 100_001, 4_194_302] {
            let sides: Vec<_> = (0..40).map(|_| just(&mut rng, left)).collect();
            let fits = |&(width, height): &(u32, u32)| bytes_of(width, height) <= left as u64;
            assert!(left < 2 || sides.iter().any(fits), "{left}");
            assert!(!sides.iter().all(fits) || left == 0, "{left}");
        }
    }
}
