//! The device record, as the numbers that a host keeps.

use std::fmt;
use std::ops::Range;

use crate::ffi::{self, HostCall, Reply};
use crate::object::{Bitmap, Dc, GdiObject, Handle, Slot};
use crate::refusal::Refusal;
use crate::{DC, MAX_OBJECTS, RECORD, SCREEN, SLOT, SLOTS};

/// A device record: the numbers of a device, for hosts that lend their own
/// memories. Each call takes the panel memory and the store, with the lengths
/// that they had at [`open`](Record::open).
///
/// It may hold any numbers. Each call checks them, and refuses with 9 if they are
/// not a sound record. The accessors accept any numbers; what they return has a
/// meaning only for a sound record.
///
/// Two records are equal if they hold the same head, the same screen DC and the
/// same created objects. The numbers past the last object mean nothing and are
/// not compared.
#[derive(Clone)]
pub struct Record {
    numbers: Box<[u32]>,
}

impl Record {
    /// [`RECORD`] numbers, all 0. They are not a sound record before an open.
    pub fn new() -> Record {
        Record { numbers: vec![0; RECORD].into() }
    }

    /// A record from its numbers. They and the memories are a whole device, pixels
    /// too; [`load`](Record::load) reads a saved table instead.
    pub fn from_numbers(numbers: impl Into<Box<[u32]>>) -> Record {
        Record { numbers: numbers.into() }
    }

    /// The numbers, those past the last object too.
    pub fn as_numbers(&self) -> &[u32] {
        &self.numbers
    }

    pub(crate) fn numbers_mut(&mut self) -> &mut [u32] {
        &mut self.numbers
    }

    /// The numbers, those past the last object too.
    pub fn into_numbers(self) -> Box<[u32]> {
        self.numbers
    }

    /// Opens a device on these memories, with a panel of these sides. The record
    /// is then fresh, without a created object, and the panel and the stock
    /// bitmap's pixel are black.
    ///
    /// Refused with 6, 8 or 7, it writes a record with lengths and sides 0 and no
    /// object, and otherwise as fresh: the first [`SLOTS`] numbers. Every call on
    /// this record is refused with 9. No byte of the memories changes. Refused
    /// with 9, if there are not [`RECORD`] numbers, it changes nothing.
    pub fn open(
        &mut self,
        width: u32,
        height: u32,
        panel: &mut [u8],
        store: &mut [u8],
    ) -> Result<(), Refusal> {
        Refusal::check(ffi::open(&mut self.numbers, panel, store, width, height))
    }

    /// Performs a call. The units are those of a text; other calls do not read
    /// them.
    pub fn perform(
        &mut self,
        call: &HostCall,
        units: &[u16],
        panel: &mut [u8],
        store: &mut [u8],
    ) -> Reply {
        ffi::perform(&mut self.numbers, *call, units, panel, store)
    }

    /// The length of the panel memory.
    pub fn panel_len(&self) -> u32 {
        self.at(0)
    }

    /// The length of the store.
    pub fn store_len(&self) -> u32 {
        self.at(1)
    }

    /// The panel's width.
    pub fn width(&self) -> u32 {
        self.at(2)
    }

    /// The panel's height.
    pub fn height(&self) -> u32 {
        self.at(3)
    }

    /// How many dirty marks the panel has; 0 follows the last number.
    pub fn frame_counter(&self) -> u64 {
        u64::from(self.at(5)) << 32 | u64::from(self.at(4))
    }

    /// Where the search for a new object's handle begins.
    pub fn next_handle(&self) -> Handle {
        Handle(self.at(6))
    }

    /// Whether the stock bitmap has a dirty mark.
    pub fn stock_dirty(&self) -> bool {
        self.at(7) == 1
    }

    /// How many created objects are live.
    pub fn count(&self) -> usize {
        self.at(8) as usize
    }

    /// The screen DC.
    pub fn screen(&self) -> Dc {
        Dc::of(&self.block(SCREEN))
    }

    /// The created object at this place in the order of creation, from 0 on.
    pub fn slot(&self, i: usize) -> Option<Slot> {
        if i >= self.count().min(MAX_OBJECTS) {
            return None;
        }
        let at = SLOTS + SLOT * i;
        let object = GdiObject::of(self.at(at + 1), &self.block(at + 2))?;
        Some(Slot { handle: Handle(self.at(at)), object })
    }

    /// The created objects in order of creation.
    pub fn slots(&self) -> impl Iterator<Item = Slot> + '_ {
        (0..).map_while(|i| self.slot(i))
    }

    /// The object with this handle, created or stock.
    pub fn get(&self, handle: Handle) -> Option<GdiObject> {
        match handle {
            Handle::GDI_SCREEN_DC => Some(GdiObject::Dc(self.screen())),
            Handle::STOCK_DEFAULT_BITMAP => Some(GdiObject::Bitmap(Bitmap {
                width: 1,
                height: 1,
                host_dirty: self.stock_dirty(),
            })),
            _ => {
                let created = self.slots().find(|slot| slot.handle == handle);
                created.map(|slot| slot.object).or_else(|| GdiObject::stock(handle))
            }
        }
    }

    /// The DC with this handle: a created one or the screen DC.
    pub fn dc(&self, handle: Handle) -> Option<Dc> {
        match self.get(handle)? {
            GdiObject::Dc(dc) => Some(dc),
            _ => None,
        }
    }

    /// The bitmap with this handle, created or stock.
    pub fn bitmap(&self, handle: Handle) -> Option<Bitmap> {
        match self.get(handle)? {
            GdiObject::Bitmap(bitmap) => Some(bitmap),
            _ => None,
        }
    }

    /// Where the panel's bytes lie in the panel memory.
    pub fn panel_place(&self) -> Range<usize> {
        0..bytes(self.width(), self.height())
    }

    /// Where a bitmap's bytes lie in the store, until the next delete or remove.
    /// The stock bitmap has bytes 0 and 1; created ones follow in order of creation
    /// without a gap.
    pub fn bitmap_place(&self, handle: Handle) -> Option<Range<usize>> {
        let mut start = 2;
        if handle == Handle::STOCK_DEFAULT_BITMAP {
            return Some(0..start);
        }
        for slot in self.slots() {
            if let GdiObject::Bitmap(Bitmap { width, height, .. }) = slot.object {
                let end = start.saturating_add(bytes(width, height));
                if slot.handle == handle {
                    return Some(start..end);
                }
                start = end;
            }
        }
        None
    }

    /// The number at this place; 0 past the last one.
    fn at(&self, i: usize) -> u32 {
        self.numbers.get(i).copied().unwrap_or(0)
    }

    /// The numbers of the head, the screen DC and the created objects; all numbers
    /// if their length or count is not a record's.
    fn used(&self) -> &[u32] {
        if self.numbers.len() != RECORD || self.count() > MAX_OBJECTS {
            return &self.numbers;
        }
        &self.numbers[..SLOTS + SLOT * self.count()]
    }

    /// The numbers of the DC or object that begins here.
    fn block(&self, start: usize) -> [u32; DC] {
        std::array::from_fn(|i| self.at(start + i))
    }
}

impl PartialEq for Record {
    fn eq(&self, other: &Record) -> bool {
        self.numbers.len() == other.numbers.len() && self.used() == other.used()
    }
}

impl Eq for Record {}

impl Default for Record {
    fn default() -> Record {
        Record::new()
    }
}

impl fmt::Debug for Record {
    fn fmt(&self, f: &mut fmt::Formatter<'_>) -> fmt::Result {
        f.debug_struct("Record")
            .field("panel_len", &self.panel_len())
            .field("store_len", &self.store_len())
            .field("width", &self.width())
            .field("height", &self.height())
            .field("frame_counter", &self.frame_counter())
            .field("next_handle", &self.next_handle())
            .field("stock_dirty", &self.stock_dirty())
            .field("screen", &self.screen())
            .field("slots", &self.slots().collect::<Vec<_>>())
            .finish()
    }
}

/// How many bytes a surface of these sides has.
fn bytes(width: u32, height: u32) -> usize {
    let bytes = u128::from(width) * u128::from(height) * 2;
    usize::try_from(bytes).unwrap_or(usize::MAX)
}
