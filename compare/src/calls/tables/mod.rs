//! Saved tables. The original has none, so their rules are here, from the
//! specification's text: the bytes of a table, which bytes are one, and what a load
//! and a save do.
//!
//! There are two devices. That of the other scripts keeps the original's objects:
//! it saves them, and loads a table whose handles the original can give. The
//! device in `plain` has no original: it loads any table.

mod decode;
mod edges;
mod mixed;
mod plain;
mod random;
mod record;
mod run;
mod table;
mod tally;
mod wrong;

pub use edges::scripts as edges;
pub use mixed::script;
pub use run::run_records;

use pocket_kernel::framebuffer::Framebuffer;
use pocket_kernel::gdi::{DcSurface, GDI_SCREEN_DC, STOCK_DEFAULT_BITMAP};

use super::device::Device;
use super::lines::Positions;
use super::original::Original;
use super::outcome::Answer;
use crate::crc::crc32;
use decode::{decoded, Broken};
use table::{Dc, Fields, Object, Table, FORM};

/// The output of a save, which held the fill byte before. Refused with 13 if it is
/// shorter than the table.
fn saved(table: &Table, room: usize, fill: u8) -> Result<Answer, u8> {
    let bytes = table.bytes();
    let rest = room.checked_sub(bytes.len()).ok_or(13)?;
    let output = [bytes.as_slice(), &vec![fill; rest]].concat();
    Ok(Answer::Saved { len: bytes.len(), crc: crc32(&output) })
}

/// Why a load is refused.
#[derive(Clone, Copy, Debug, PartialEq)]
pub enum Unfit {
    /// The bytes are no table, by this rule.
    Broken(Broken),
    /// The panel memory or the store is too short, or both are.
    Short { panel: bool, store: bool },
}

impl From<Unfit> for u8 {
    fn from(unfit: Unfit) -> u8 {
        match unfit {
            Unfit::Broken(_) => 12,
            Unfit::Short { .. } => 7,
        }
    }
}

/// The table that the bytes are, if it fits memories of these lengths. That they
/// are no table is asked first.
fn fitting(bytes: &[u8], panel_len: usize, store_len: usize) -> Result<Table, Unfit> {
    let table = decoded(bytes).map_err(Unfit::Broken)?;
    let panel = table.panel_bytes() > panel_len as u64;
    let store = table.store_bytes() > store_len as u64;
    if panel || store {
        return Err(Unfit::Short { panel, store });
    }
    Ok(table)
}

impl Original {
    /// The original with a table's objects; `None` if it cannot give their handles.
    fn of(table: &Table) -> Option<Original> {
        let objects = table.objects.iter();
        let objects = objects.map(|object| (object.handle, object.fields.object()));
        let mut original = Original::holding(table.next, objects)?;
        let screen = original.gdi.dc_mut(GDI_SCREEN_DC).expect("the screen DC is stock");
        *screen = table.screen.original(DcSurface::Screen);
        Some(original)
    }
}

impl Device {
    /// The device's record as a table.
    fn table(&self) -> Table {
        let fields = |handle| {
            let object = self.gdi().get(handle).expect("a created object is live");
            Fields::of(object, self.position(handle))
        };
        let created = self.created().iter();
        let objects: Vec<Object> =
            created.map(|&handle| Object { handle, fields: fields(handle) }).collect();
        let screen = self.gdi().dc(GDI_SCREEN_DC).expect("the screen DC is stock");
        Table {
            form: FORM,
            width: self.panel.width,
            height: self.panel.height,
            next: self.next(),
            count: objects.len() as u32,
            screen: Dc::of(screen, self.position(GDI_SCREEN_DC)),
            objects,
        }
    }

    /// Saves the table to an output of this length, or refuses with 13.
    pub(super) fn save(&self, room: usize) -> Result<Answer, u8> {
        saved(&self.table(), room, self.fill)
    }

    /// Whether the original can hold what a load of these bytes leaves.
    pub(super) fn can_load(&self, bytes: &[u8]) -> bool {
        let table = fitting(bytes, self.panel_len(), self.store_len());
        table.map_or(true, |table| Original::of(&table).is_some())
    }

    /// Loads a table that the original can hold, or refuses with 12, then 7. The
    /// frame counter counts on. The stock bitmap stays, with its mark.
    pub(super) fn load(&mut self, bytes: &[u8]) -> Result<(), u8> {
        let table = fitting(bytes, self.panel_len(), self.store_len())?;
        let before = self.panel_bytes();
        let mut original = Original::of(&table).expect("the original can hold it");
        let stock = self.gdi().get(STOCK_DEFAULT_BITMAP).expect("the bitmap is stock").clone();
        *original.gdi.get_mut(STOCK_DEFAULT_BITMAP).expect("the bitmap is stock") = stock;
        self.original = original;
        self.order.truncate(1);
        self.positions = Positions::new();
        self.positions.set(GDI_SCREEN_DC, table.screen.position());
        for Object { handle, fields } in &table.objects {
            self.order.push(*handle);
            if let Some(position) = fields.position() {
                self.positions.set(*handle, position);
            }
        }
        let frame_counter = self.panel.frame_counter.wrapping_add(1);
        self.panel = Framebuffer { frame_counter, ..Framebuffer::new(table.width, table.height) };
        self.panel_memory = before;
        self.store.fill(0);
        Ok(())
    }
}
