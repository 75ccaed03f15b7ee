//! Random records.

use pocket_kernel::gdi::is_stock_handle;

use super::record::{Object, Record, Slot, MEMORY, MOST_LENT, SCREEN};
use super::tally::Tally;
use super::wrong::{junk, WRONG};
use crate::calls::{bytes_of, Point, LEAST, MAX_MEMORY, MAX_OBJECTS, MAX_SIDE, MOST};
use crate::rng::Rng;

/// A random record; about half of them are sound.
pub fn record(rng: &mut Rng, tally: &mut Tally) -> Record {
    let mut record;
    if rng.one_in(2) {
        record = sound(rng, 3);
        let (name, change) = rng.pick(&WRONG);
        change(rng, &mut record);
        tally.wrong(name);
    } else {
        record = sound(rng, 0);
        if rng.one_in(4) {
            past_count(rng, &mut record);
        }
        if rng.one_in(12) {
            large(rng, &mut record);
        }
    }
    lend(rng, &mut record);
    record
}

/// A sound record with at least this many objects.
fn sound(rng: &mut Rng, least: usize) -> Record {
    let count = match rng.below(40) {
        0 => MAX_OBJECTS as i64,
        1 => rng.between(100, 255),
        2..=5 => rng.between(0, 2),
        6..=9 => rng.between(10, 40),
        _ => rng.between(3, 9),
    };
    let count = least.max(count as usize);
    let (width, height) = match rng.below(16) {
        0 => rng.pick(&[(MAX_SIDE, 8), (8, MAX_SIDE), (MAX_SIDE, 1), (1, MAX_SIDE), (1, 1)]),
        _ => (rng.between(1, 20) as u32, rng.between(1, 20) as u32),
    };
    let handles = handles(rng, count).into_iter();
    let counter = rng.next();
    let mut record = Record {
        panel_len: bytes_of(width, height) + more(rng),
        store_len: 0,
        width,
        height,
        frame_counter: rng.pick(&[0, counter, u64::MAX]),
        next_handle: rng.next() as u32,
        stock_dirty: rng.below(2) as u8,
        screen: if rng.one_in(8) { MEMORY } else { SCREEN },
        position: position(rng),
        count: count as u64,
        slots: handles.map(|handle| Slot { handle, object: object(rng) }).collect(),
        panel_lent: 0,
        store_lent: 0,
    };
    record.store_len = record.pixels() + more(rng);
    if let Some(slot) = record.slots.last().filter(|_| rng.one_in(2)) {
        record.next_handle = slot.handle.wrapping_add(rng.below(2) as u32);
    }
    record
}

/// How many bytes a memory has past those in use.
fn more(rng: &mut Rng) -> u64 {
    match rng.below(4) {
        0 => rng.below(300),
        1 => 1,
        _ => 0,
    }
}

/// Different handles, none of them 0 or stock: consecutive, near the stock ones,
/// round the end of 32 bits, far apart; in order or not.
pub fn handles(rng: &mut Rng, count: usize) -> Vec<u32> {
    let before = rng.below(count as u64 + 1) as u32;
    let any = rng.next() as u32;
    let first = rng.pick(&[0xDEAD_1000, 0xDEAD_5701 - before, 0u32.wrapping_sub(before), any]);
    // With an odd step no number repeats before all have been used.
    let step = rng.pick(&[1, 1, 3, 0x0100_0001]);
    let numbers = (0..u32::MAX).map(|n| first.wrapping_add(n.wrapping_mul(step)));
    let free = numbers.filter(|&handle| handle != 0 && !is_stock_handle(handle));
    let mut handles: Vec<u32> = free.take(count).collect();
    match rng.below(4) {
        0 => handles.reverse(),
        1 => {
            for at in 1..count {
                handles.swap(at, rng.below(at as u64 + 1) as usize);
            }
        }
        _ => {}
    }
    handles
}

fn object(rng: &mut Rng) -> Object {
    let color = rng.next() as u32;
    match rng.below(12) {
        0..=2 => dc(rng, MEMORY),
        3..=6 => {
            let side = |rng: &mut Rng| rng.between(1, 6) as u32;
            let small = (side(rng), side(rng));
            let long = rng.pick(&[(MAX_SIDE, 1), (1, MAX_SIDE)]);
            let (width, height) = if rng.one_in(40) { long } else { small };
            Object::Bitmap { width, height, dirty: rng.below(2) as u8 }
        }
        7 | 8 => Object::Brush { color },
        9 | 10 => Object::Pen { color, width: rng.below(9) as u32 },
        _ => Object::Font { height: color as i32 },
    }
}

/// A DC with random handles and colours.
pub fn dc(rng: &mut Rng, surface: u8) -> Object {
    Object::Dc {
        surface,
        chosen: rng.below(2) as u8,
        bitmap: rng.next() as u32,
        brush: rng.next() as u32,
        pen: rng.next() as u32,
        font: rng.next() as u32,
        brush_color: rng.next() as u32,
        pen_color: rng.next() as u32,
        text_color: rng.next() as u32,
        align: rng.next() as u32,
        bk_color: rng.next() as u32,
        transparent: rng.below(2) as u8,
        x: coordinate(rng),
        y: coordinate(rng),
    }
}

fn position(rng: &mut Rng) -> Point {
    Point { x: coordinate(rng), y: coordinate(rng) }
}

/// A coordinate in range: at an end of it, small, or any.
fn coordinate(rng: &mut Rng) -> i32 {
    match rng.below(4) {
        0 => rng.pick(&[LEAST, MOST]),
        1 => rng.between(-20, 20) as i32,
        _ => rng.between(LEAST.into(), MOST.into()) as i32,
    }
}

/// Adds slots past the count, which no check reads.
fn past_count(rng: &mut Rng, record: &mut Record) {
    for _ in 0..rng.between(1, 4) {
        if record.slots.len() < MAX_OBJECTS {
            let slot = junk(rng, record);
            record.slots.push(slot);
        }
    }
}

/// Makes the memories longer than the program can lend, up to the limit.
fn large(rng: &mut Rng, record: &mut Record) {
    let any = rng.between(i64::from(MOST_LENT) + 1, MAX_MEMORY as i64) as u64;
    let len = rng.pick(&[MAX_MEMORY, MAX_MEMORY - 1, any]);
    match rng.below(3) {
        0 => record.panel_len = len,
        1 => record.store_len = len.max(record.store_len),
        _ => {
            (record.width, record.height) = (MAX_SIDE, MAX_SIDE);
            (record.panel_len, record.store_len) = (MAX_MEMORY, MAX_MEMORY);
        }
    }
}

/// Lends memories of the record's lengths, or the longest that can be lent.
pub fn lend_all(record: &mut Record) {
    let most = |len: u64| len.min(MOST_LENT.into()) as u32;
    record.panel_lent = most(record.panel_len);
    record.store_lent = most(record.store_len);
}

/// Lends memories of these lengths, sometimes of others.
fn lend(rng: &mut Rng, record: &mut Record) {
    lend_all(record);
    let (panel, store) = (record.panel_lent, record.store_lent);
    if rng.one_in(5) {
        let other = |rng: &mut Rng, len: u32, others: u32| {
            let len = rng.pick(&[len + 1, len.saturating_sub(1), 0, MOST_LENT, others]);
            len.min(MOST_LENT)
        };
        match rng.below(3) {
            0 => record.panel_lent = other(rng, panel, store),
            1 => record.store_lent = other(rng, store, panel),
            _ => (record.panel_lent, record.store_lent) = (store, panel),
        }
    }
}

#[cfg(test)]
mod tests {
    use super::*;

    #[test]
    fn sound_records_are_sound() {
        let mut rng = Rng::new(1);
        for _ in 0..500 {
            let mut record = sound(&mut rng, 0);
            assert!(record.is_sound(), "{record:?}");
            past_count(&mut rng, &mut record);
            assert!(record.is_sound(), "{record:?}");
            large(&mut rng, &mut record);
            assert!(record.is_sound(), "{record:?}");
        }
    }

    #[test]
    fn each_change_makes_a_record_unsound() {
        let mut rng = Rng::new(1);
        for (name, change) in WRONG {
            for _ in 0..200 {
                let mut record = sound(&mut rng, 3);
                change(&mut rng, &mut record);
                lend(&mut rng, &mut record);
                assert_eq!(record.refusal(), 9, "{name}: {record:?}");
                assert!(record.slots.len() <= MAX_OBJECTS);
            }
        }
    }

    #[test]
    fn handles_differ() {
        let mut rng = Rng::new(1);
        let mut ascending = 0;
        for _ in 0..200 {
            let handles = handles(&mut rng, 256);
            ascending += u32::from(handles.is_sorted());
            let mut sorted = handles.clone();
            sorted.sort();
            sorted.dedup();
            assert_eq!(sorted.len(), 256);
        }
        assert!((20..150).contains(&ascending), "{ascending}");
    }
}
