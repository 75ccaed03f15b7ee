//! Changes that make a record unsound, each for one reason.

use super::random::{dc, handles};
use super::record::{Object, Record, Slot, MEMORY, SCREEN};
use crate::calls::{bytes_of, LEAST, MAX_MEMORY, MAX_OBJECTS, MAX_SIDE, MOST, STOCK};
use crate::rng::Rng;

/// A change to a sound record that has at least three objects.
type Change = fn(&mut Rng, &mut Record);

/// The changes and their names.
pub const WRONG: [(&str, Change); 15] = [
    ("count", count),
    ("vacant slot", vacant_slot),
    ("neighbour's handle", neighbours_handle),
    ("other's handle", others_handle),
    ("handle 0", |rng, record| a_slot(rng, record).handle = 0),
    ("stock handle", |rng, record| a_slot(rng, record).handle = rng.pick(&STOCK)),
    ("screen DC", |rng, record| a_slot(rng, record).object = dc(rng, SCREEN)),
    ("bitmap side", bitmap_side),
    ("panel side", panel_side),
    ("panel memory", panel_memory),
    ("store", |rng, record| record.store_len = record.pixels() - rng.pick(&[1, 1, 2])),
    ("sum of 32 bits", sum_of_32_bits),
    ("long memory", long_memory),
    ("screen DC's position", screen_position),
    ("DC's position", dc_position),
];

/// Sides out of range, mostly by one. The product of two of them can be 0 in 32
/// bits.
const SIDES: [u32; 7] = [0, 0, MAX_SIDE + 1, MAX_SIDE + 1, 0x1_0000, 0x8000_0000, u32::MAX];

fn a_slot<'a>(rng: &mut Rng, record: &'a mut Record) -> &'a mut Slot {
    let at = rng.below(record.count) as usize;
    &mut record.slots[at]
}

/// A count above 256. Mostly there is no vacant slot, so that only the count is
/// wrong.
fn count(rng: &mut Rng, record: &mut Record) {
    if !rng.one_in(4) {
        let object = Object::Font { height: 12 };
        record.slots.resize(MAX_OBJECTS, Slot { handle: 0, object });
        record.count = MAX_OBJECTS as u64;
        rename(rng, record);
    }
    let wrapped = (1 << 32) + record.count;
    record.count = rng.pick(&[257, 65_536, wrapped, 1 << 63, u64::MAX]);
}

fn vacant_slot(rng: &mut Rng, record: &mut Record) {
    record.slots.truncate(MAX_OBJECTS - 1);
    let least = record.slots.len() as i64 + 1;
    let more = rng.between(least, MAX_OBJECTS as i64) as u64;
    record.count = rng.pick(&[least as u64, more, MAX_OBJECTS as u64]);
}

fn neighbours_handle(rng: &mut Rng, record: &mut Record) {
    let at = 1 + rng.below(record.count - 1) as usize;
    record.slots[at].handle = record.slots[at - 1].handle;
}

/// A handle that stands twice, with others between.
fn others_handle(rng: &mut Rng, record: &mut Record) {
    let last = record.count as i64 - 1;
    let (mut first, mut second) = (0, last);
    if rng.one_in(2) {
        second = rng.between(2, last);
        first = rng.between(0, second - 2);
    }
    if rng.one_in(2) {
        (first, second) = (second, first);
    }
    record.slots[first as usize].handle = record.slots[second as usize].handle;
}

fn bitmap_side(rng: &mut Rng, record: &mut Record) {
    let small = rng.between(1, 4) as u32;
    let (side, other) = (rng.pick(&SIDES), rng.pick(&SIDES));
    let (width, height) = rng.pick(&[(side, small), (small, side), (side, other)]);
    // The store has room for a side of 4,097, so that only the side is wrong.
    record.store_len += bytes_of(MAX_SIDE + 1, small);
    let object = Object::Bitmap { width, height, dirty: 0 };
    a_slot(rng, record).object = object;
}

fn panel_side(rng: &mut Rng, record: &mut Record) {
    let small = rng.between(1, 4) as u32;
    let (side, other) = (rng.pick(&SIDES), rng.pick(&SIDES));
    (record.width, record.height) = rng.pick(&[(side, small), (small, side), (side, other)]);
    // The panel memory has room for it, so that only the side is wrong.
    record.panel_len = record.panel_len.max(bytes_of(MAX_SIDE + 1, small));
}

fn panel_memory(rng: &mut Rng, record: &mut Record) {
    let panel = bytes_of(record.width, record.height);
    record.panel_len = rng.pick(&[panel - 1, panel - 1, panel - 2, 0]);
}

/// Adds bitmaps whose bytes add up to 0 in 32 bits.
fn sum_of_32_bits(rng: &mut Rng, record: &mut Record) {
    record.slots.truncate(MAX_OBJECTS - 128);
    let object = Object::Bitmap { width: MAX_SIDE, height: MAX_SIDE, dirty: 0 };
    record.slots.extend((0..128).map(|_| Slot { handle: 0, object: object.clone() }));
    record.count = record.slots.len() as u64;
    rename(rng, record);
}

/// Gives all slots new, different handles.
fn rename(rng: &mut Rng, record: &mut Record) {
    let handles = handles(rng, record.slots.len());
    for (slot, handle) in record.slots.iter_mut().zip(handles) {
        slot.handle = handle;
    }
}

fn long_memory(rng: &mut Rng, record: &mut Record) {
    let long = |rng: &mut Rng, len| {
        rng.pick(&[MAX_MEMORY + 1, 1 << 32, (1 << 32) + len, 1 << 63, u64::MAX])
    };
    if rng.one_in(2) {
        record.panel_len = long(rng, record.panel_len);
    } else {
        record.store_len = long(rng, record.store_len);
    }
}

/// Coordinates out of range: just past it, far past it, and such that their low 16
/// bits are in range.
const OUT_OF_RANGE: [i32; 8] =
    [LEAST - 1, LEAST - 1, MOST + 1, MOST + 1, 0x1_0000, -0x1_0000, i32::MIN, i32::MAX];

/// One coordinate out of range, or both.
fn out_of_range(rng: &mut Rng, x: &mut i32, y: &mut i32) {
    let out = rng.pick(&OUT_OF_RANGE);
    match rng.below(5) {
        0 | 1 => *x = out,
        2 | 3 => *y = out,
        _ => (*x, *y) = (out, rng.pick(&OUT_OF_RANGE)),
    }
}

fn screen_position(rng: &mut Rng, record: &mut Record) {
    out_of_range(rng, &mut record.position.x, &mut record.position.y);
}

fn dc_position(rng: &mut Rng, record: &mut Record) {
    a_slot(rng, record).object = misplaced(rng);
}

/// A memory DC whose position is out of range.
fn misplaced(rng: &mut Rng) -> Object {
    let mut object = dc(rng, MEMORY);
    if let Object::Dc { x, y, .. } = &mut object {
        out_of_range(rng, x, y);
    }
    object
}

/// A slot that no sound record has.
pub fn junk(rng: &mut Rng, record: &Record) -> Slot {
    let taken: Vec<u32> = record.slots.iter().map(|slot| slot.handle).collect();
    let handle = match rng.below(4) {
        0 => rng.pick(&STOCK),
        1 => rng.next() as u32,
        2 if !taken.is_empty() => rng.pick(&taken),
        _ => 0,
    };
    let object = match rng.below(5) {
        0 => dc(rng, SCREEN),
        1 => dc(rng, MEMORY),
        2 => misplaced(rng),
        3 => Object::Bitmap { width: rng.pick(&SIDES), height: rng.pick(&SIDES), dirty: 1 },
        _ => Object::Brush { color: 0 },
    };
    Slot { handle, object }
}
