//! The records of docs/record-cases.md, as values and as bytes.

use std::collections::HashSet;

use pocket_kernel::gdi::is_stock_handle;

use crate::argument::Argument;
use crate::calls::{bytes_of, Point, MAX_MEMORY, MAX_OBJECTS, MAX_SIDE};
use crate::table::table;

/// The longest memory that the program lends.
pub const MOST_LENT: u32 = 65_536;

/// A DC's surface.
pub const SCREEN: u8 = 0;
pub const MEMORY: u8 = 1;

table! {
    /// The object of a slot. Flags are 0 or 1.
    Object {
        0x00 "DC" Dc {
            surface: u8, chosen: u8, bitmap: u32, brush: u32, pen: u32, font: u32,
            brush_color: u32, pen_color: u32, text_color: u32, align: u32, bk_color: u32,
            transparent: u8, x: i32, y: i32
        }
        0x01 "bitmap" Bitmap { width: u32, height: u32, dirty: u8 }
        0x02 "brush" Brush { color: u32 }
        0x03 "pen" Pen { color: u32, width: u32 }
        0x04 "font" Font { height: i32 }
    }
}

#[derive(Clone, Debug, PartialEq)]
pub struct Slot {
    pub handle: u32,
    pub object: Object,
}

/// A device record, and the lengths of the memories lent with it.
#[derive(Clone, Debug, PartialEq)]
pub struct Record {
    pub panel_len: u64,
    pub store_len: u64,
    pub width: u32,
    pub height: u32,
    pub frame_counter: u64,
    pub next_handle: u32,
    pub stock_dirty: u8,
    /// The screen DC's surface and position; its other fields are those of a fresh
    /// device.
    pub screen: u8,
    pub position: Point,
    pub count: u64,
    /// The slots given; the others are vacant.
    pub slots: Vec<Slot>,
    pub panel_lent: u32,
    pub store_lent: u32,
}

impl Record {
    /// The number with which every call refuses the record, 0 if none does.
    pub fn refusal(&self) -> u8 {
        if !self.is_sound() {
            9
        } else if [self.panel_lent, self.store_lent].map(u64::from)
            != [self.panel_len, self.store_len]
        {
            8
        } else {
            0
        }
    }

    /// Whether the record is sound, by the specification's list. Only created DCs
    /// must be memory DCs; the screen DC's surface has no effect. The positions of all
    /// DCs are in range.
    pub fn is_sound(&self) -> bool {
        let side = |n| (1..=MAX_SIDE).contains(&n);
        let created = self.count.min(self.slots.len() as u64) as usize;
        let created = &self.slots[..created];
        let fits = |slot: &Slot| {
            let object = match slot.object {
                Object::Dc { surface, x, y, .. } => {
                    surface == MEMORY && Point { x, y }.is_position()
                }
                Object::Bitmap { width, height, .. } => side(width) && side(height),
                _ => true,
            };
            object && slot.handle != 0 && !is_stock_handle(slot.handle)
        };
        let handles: HashSet<u32> = created.iter().map(|slot| slot.handle).collect();
        self.panel_len.max(self.store_len) <= MAX_MEMORY
            && self.count <= MAX_OBJECTS as u64
            // The handle of a vacant slot is 0.
            && self.count == created.len() as u64
            && created.iter().all(fits)
            && handles.len() == created.len()
            && self.position.is_position()
            && side(self.width)
            && side(self.height)
            && bytes_of(self.width, self.height) <= self.panel_len
            && self.pixels() <= self.store_len
    }

    /// How many bytes of the store the stock bitmap and all created ones need. Their
    /// sides are within the limits.
    pub fn pixels(&self) -> u64 {
        let bytes = |slot: &Slot| match slot.object {
            Object::Bitmap { width, height, .. } => bytes_of(width, height),
            _ => 0,
        };
        2 + self.slots.iter().take(self.count as usize).map(bytes).sum::<u64>()
    }
}

impl Record {
    /// Reads a record from the front of a stream; `None` if it is a bad record.
    pub fn read(stream: &mut &[u8]) -> Option<Record> {
        let mut record = Record {
            panel_len: u64::read(stream)?,
            store_len: u64::read(stream)?,
            width: u32::read(stream)?,
            height: u32::read(stream)?,
            frame_counter: u64::read(stream)?,
            next_handle: u32::read(stream)?,
            stock_dirty: u8::read(stream)?,
            screen: u8::read(stream)?,
            position: Point { x: i32::read(stream)?, y: i32::read(stream)? },
            count: u64::read(stream)?,
            slots: Vec::new(),
            panel_lent: 0,
            store_lent: 0,
        };
        let given = u16::read(stream)?;
        if record.stock_dirty.max(record.screen) > 1 || usize::from(given) > MAX_OBJECTS {
            return None;
        }
        record.slots = (0..given).map(|_| Slot::read(stream)).collect::<Option<_>>()?;
        record.panel_lent = u32::read(stream)?;
        record.store_lent = u32::read(stream)?;
        (record.panel_lent.max(record.store_lent) <= MOST_LENT).then_some(record)
    }

    /// Appends the record to a stream.
    pub fn write(&self, stream: &mut Vec<u8>) {
        self.panel_len.write(stream);
        self.store_len.write(stream);
        self.width.write(stream);
        self.height.write(stream);
        self.frame_counter.write(stream);
        self.next_handle.write(stream);
        self.stock_dirty.write(stream);
        self.screen.write(stream);
        self.position.x.write(stream);
        self.position.y.write(stream);
        self.count.write(stream);
        (self.slots.len() as u16).write(stream);
        for slot in &self.slots {
            slot.handle.write(stream);
            slot.object.write(stream);
        }
        self.panel_lent.write(stream);
        self.store_lent.write(stream);
    }
}

impl Slot {
    fn read(stream: &mut &[u8]) -> Option<Slot> {
        let handle = u32::read(stream)?;
        let object = Object::read_any(stream)?;
        let flags = match object {
            Object::Dc { surface, chosen, transparent, .. } => surface.max(chosen).max(transparent),
            Object::Bitmap { dirty, .. } => dirty,
            _ => 0,
        };
        (flags <= 1).then_some(Slot { handle, object })
    }
}

#[cfg(test)]
mod tests {
    use super::*;
    use crate::records::edges::{base, bitmap, dc, dc_at};

    /// The refusal of the record after the change.
    fn refusal(change: impl FnOnce(&mut Record)) -> u8 {
        let mut record = base();
        change(&mut record);
        record.refusal()
    }

    #[test]
    fn records_are_written_and_read() {
        let mut bytes = Vec::new();
        base().write(&mut bytes);
        assert_eq!(bytes.len(), 56 + 2 * 52 + 14 + 9 + 13 + 9 + 8);
        assert_eq!(Record::read(&mut bytes.as_slice()), Some(base()));
        for len in 0..bytes.len() {
            assert_eq!(Record::read(&mut &bytes[..len]), None);
        }
        // The flags of the stock bitmap and of the screen DC, the number of slots, the kind and
        // surface of the first slot.
        for (at, byte) in [(36, 2), (37, 2), (54, 1), (60, 5), (61, 2)] {
            let mut bytes = bytes.clone();
            bytes[at] = byte;
            bytes.resize(20_000, 0);
            assert_eq!(Record::read(&mut bytes.as_slice()), None, "{at}");
        }
    }

    #[test]
    fn lent_lengths_are_asked_last() {
        assert_eq!(refusal(|_| ()), 0);
        assert_eq!(refusal(|record| record.panel_lent = 13), 8);
        assert_eq!(refusal(|record| record.store_lent = 11), 8);
        assert_eq!(refusal(|record| record.panel_len = 13), 8);
        assert_eq!(refusal(|record| record.store_len = MAX_MEMORY), 8);
        assert_eq!(refusal(|record| (record.panel_lent, record.count) = (13, 257)), 9);
    }

    #[test]
    fn each_of_the_list_is_asked() {
        assert_eq!(refusal(|record| record.panel_len = MAX_MEMORY + 1), 9);
        assert_eq!(refusal(|record| record.store_len = MAX_MEMORY + 1), 9);
        assert_eq!(refusal(|record| record.count = 7), 9);
        assert_eq!(refusal(|record| record.count = (1 << 32) + 6), 9);
        assert_eq!(refusal(|record| record.width = 0), 9);
        assert_eq!(refusal(|record| record.height = 4097), 9);
        assert_eq!(refusal(|record| record.panel_len = 11), 9);
        assert_eq!(refusal(|record| record.store_len = 11), 9);
        assert_eq!(refusal(|record| record.slots[2].object = bitmap(1, 1)), 9);
        assert_eq!(refusal(|record| record.slots[1].object = bitmap(0, 1)), 9);
        assert_eq!(refusal(|record| record.slots[1].object = bitmap(u32::MAX, u32::MAX)), 9);
        assert_eq!(refusal(|record| record.slots[4].handle = 0), 9);
        assert_eq!(refusal(|record| record.slots[4].handle = 0xDEAD_5720), 9);
        assert_eq!(refusal(|record| record.slots[5].handle = 9), 9);
        // The slots past the count have no effect.
        assert_eq!(refusal(|record| (record.slots[5].handle, record.count) = (9, 5)), 0);
        assert_eq!(refusal(|record| record.slots[5].object = dc(SCREEN)), 9);
    }

    #[test]
    fn the_screen_dc_s_surface_is_not_asked() {
        assert_eq!(refusal(|record| record.screen = MEMORY), 0);
        assert_eq!(refusal(|record| (record.screen, record.store_lent) = (MEMORY, 11)), 8);
        assert_eq!(refusal(|record| (record.screen, record.count) = (MEMORY, 7)), 9);
        let mut bytes = Vec::new();
        Record { screen: MEMORY, ..base() }.write(&mut bytes);
        assert_eq!(Record::read(&mut bytes.as_slice()), Some(Record { screen: MEMORY, ..base() }));
    }

    #[test]
    fn positions_are_asked() {
        for (coordinate, number) in [(-32_769, 9), (-32_768, 0), (32_767, 0), (32_768, 9)] {
            let points = [Point { x: coordinate, y: 5 }, Point { x: -5, y: coordinate }];
            for Point { x, y } in points {
                assert_eq!(refusal(|record| record.position = Point { x, y }), number);
                assert_eq!(
                    refusal(|record| record.slots[5].object = dc_at(Point { x, y })),
                    number
                );
                // A slot past the count has no effect.
                let past = |record: &mut Record| {
                    (record.slots[5].object, record.count) = (dc_at(Point { x, y }), 5);
                };
                assert_eq!(refusal(past), 0);
            }
        }
    }
}
