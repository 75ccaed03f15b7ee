//! Records at the limits: sound, or unsound for one reason.

use super::random::lend_all;
use super::record::{Object, Record, Slot, MEMORY, SCREEN};
use crate::calls::{bytes_of, Point, LEAST, MAX_MEMORY, MAX_OBJECTS, MAX_SIDE, MOST, STOCK};

/// A sound record with a panel of 2 by 3 and six objects, the first and the last of
/// them DCs. Its memories have the least length, and are lent with that length.
pub fn base() -> Record {
    let objects = [
        (9, dc(MEMORY)),
        (u32::MAX, bitmap(5, 1)),
        (1, Object::Brush { color: 1 }),
        (0xDEAD_570A, Object::Pen { color: 1, width: 2 }),
        (0xDEAD_1000, Object::Font { height: -1 }),
        (2, dc(MEMORY)),
    ];
    Record {
        panel_len: 12,
        store_len: 12,
        width: 2,
        height: 3,
        frame_counter: u64::MAX,
        next_handle: 0,
        stock_dirty: 1,
        screen: SCREEN,
        position: Point { x: -9, y: 10 },
        count: 6,
        slots: objects.map(|(handle, object)| Slot { handle, object }).to_vec(),
        panel_lent: 12,
        store_lent: 12,
    }
}

pub fn bitmap(width: u32, height: u32) -> Object {
    Object::Bitmap { width, height, dirty: 1 }
}

/// A DC whose fields are all different.
pub fn dc(surface: u8) -> Object {
    Object::Dc {
        surface,
        chosen: 1,
        bitmap: 0,
        brush: 1,
        pen: 2,
        font: 3,
        brush_color: 4,
        pen_color: 5,
        text_color: 6,
        align: 7,
        bk_color: 8,
        transparent: 1,
        x: 9,
        y: -10,
    }
}

/// A memory DC with this position.
pub fn dc_at(position: Point) -> Object {
    let mut dc = dc(MEMORY);
    if let Object::Dc { x, y, .. } = &mut dc {
        [*x, *y] = [position.x, position.y];
    }
    dc
}

pub fn records() -> Vec<Record> {
    let mut records = vec![base()];
    lent(&mut records);
    handles(&mut records);
    memory_screens(&mut records);
    sides(&mut records);
    lengths(&mut records);
    counts(&mut records);
    positions(&mut records);
    records
}

/// Adds the changed record, with memories of its lengths.
fn add(records: &mut Vec<Record>, change: impl FnOnce(&mut Record)) {
    let mut record = base();
    change(&mut record);
    lend_all(&mut record);
    records.push(record);
}

/// Lent lengths that are not the record's; at last with an unsound record.
fn lent(records: &mut Vec<Record>) {
    for (panel_lent, store_lent, height) in [(13, 12, 3), (12, 11, 3), (0, 0, 3), (13, 13, 0)] {
        records.push(Record { panel_lent, store_lent, height, ..base() });
    }
}

/// Handles that no created object may have, equal handles, created screen DCs.
fn handles(records: &mut Vec<Record>) {
    for handle in STOCK.into_iter().chain([0]) {
        add(records, |record| record.slots[3].handle = handle);
    }
    for (first, second) in [(0, 1), (1, 0), (4, 5), (0, 5), (5, 0), (2, 4)] {
        add(records, |record| record.slots[first].handle = record.slots[second].handle);
    }
    for at in [0, 3, 5] {
        add(records, |record| record.slots[at].object = dc(SCREEN));
        add(records, |record| record.slots[at].object = dc(MEMORY));
    }
}

/// Screen DCs whose surface is `memory`, which has no effect: with and without
/// created objects, with a wrong lent length, with a created DC whose surface is
/// `screen`.
fn memory_screens(records: &mut Vec<Record>) {
    add(records, |record| record.screen = MEMORY);
    add(records, |record| (record.screen, record.count) = (MEMORY, 0));
    records.push(Record { screen: MEMORY, panel_lent: 13, ..base() });
    add(records, |record| {
        (record.screen, record.slots[0].object) = (MEMORY, dc(SCREEN));
    });
}

/// The least and the greatest sides, and those next to them.
fn sides(records: &mut Vec<Record>) {
    for side in [0, 1, MAX_SIDE, MAX_SIDE + 1] {
        for (width, height) in [(side, 1), (1, side), (side, 0)] {
            let room = bytes_of(MAX_SIDE + 1, 1);
            add(records, |record| {
                (record.width, record.height, record.panel_len) = (width, height, room);
            });
            add(records, |record| {
                (record.slots[1].object, record.store_len) = (bitmap(width, height), 2 + room);
            });
        }
    }
}

/// Memories that are one byte too short, and memories at the limit.
fn lengths(records: &mut Vec<Record>) {
    for len in [11, 12, 13, MAX_MEMORY, MAX_MEMORY + 1, (1 << 32) + 12, 1 << 63, u64::MAX] {
        add(records, |record| record.panel_len = len);
        add(records, |record| record.store_len = len);
    }
    add(records, |record| record.slots[5].object = bitmap(1, 1));
}

/// Counts below and above the number of slots given, and with no vacant slot.
fn counts(records: &mut Vec<Record>) {
    for count in [0, 1, 5, 7, 256, 257, (1 << 32) + 6, 1 << 63] {
        add(records, |record| record.count = count);
    }
    let slot = |n: u32| Slot { handle: 0xDEAD_6000 + n, object: Object::Brush { color: n } };
    for count in [255, 256, 257, 65_536, (1 << 32) + 256, 1 << 63, u64::MAX] {
        add(records, |record| {
            record.slots = (0..MAX_OBJECTS as u32).map(slot).collect();
            record.count = count;
        });
    }
}

/// Positions of the screen DC and of created DCs: at each end of the range, just past
/// it and far past it, in either coordinate.
fn positions(records: &mut Vec<Record>) {
    for coordinate in [LEAST, MOST, LEAST - 1, MOST + 1, 0x1_0000, -0x1_0000, i32::MIN, i32::MAX] {
        for position in [Point { x: coordinate, y: 0 }, Point { x: 0, y: coordinate }] {
            add(records, |record| record.position = position);
            for at in [0, 3, 5] {
                add(records, |record| record.slots[at].object = dc_at(position));
            }
        }
    }
}

#[cfg(test)]
mod tests {
    use super::*;

    #[test]
    fn the_refusals_at_the_edges() {
        let refusals = |add: fn(&mut Vec<Record>)| {
            let mut records = Vec::new();
            add(&mut records);
            records.iter().map(|record| record.refusal().to_string()).collect::<String>()
        };
        assert_eq!(base().refusal(), 0);
        assert_eq!(refusals(lent), "8889");
        assert_eq!(refusals(handles), "9999999999999".to_string() + "999999" + "909090");
        assert_eq!(refusals(memory_screens), "0089");
        assert_eq!(refusals(sides), "999999".to_string() + "000099" + "000099" + "999999");
        assert_eq!(refusals(lengths), "9900008899999999".to_string() + "9");
        assert_eq!(refusals(counts), "00099999".to_string() + "0099999");
        assert_eq!(refusals(positions), "0".repeat(2 * 8) + &"9".repeat(6 * 8));
    }
}
