//! The proved drawing core for hosts in Rust: GDI objects by handle, DCs, raster
//! operations and the RGB565 panel, in the static library that `tools/build
//! host_c` writes.
//!
//! A [`Device`] holds a [`Record`], 4,119 numbers, with a panel memory and a pixel
//! store, and has a method for each call, with the original's name. A host that
//! keeps its own memories lends them to [`Record::perform`] instead. A call that
//! cannot be served is refused with a number, a [`Refusal`], and changes nothing.
//! A refused [`Record::open`] writes the record and changes no byte. No input
//! makes a call panic.
//!
//! [`Device::save`] gives the table of a device, its objects and settings without a
//! pixel, as bytes; [`Device::load`] takes them back after a restart.
//!
//! ```
//! use ravinefork::{Area, Device, Colorref, Handle, Point};
//!
//! # fn main() -> Result<(), ravinefork::Refusal> {
//! let screen = Handle::GDI_SCREEN_DC;
//! let mut device = Device::open(240, 320, 2 * 240 * 320, 64 * 1024)?;
//!
//! let blue = device.create_solid_brush(Colorref(0x00FF_0000))?;
//! device.select_into(screen, blue)?;
//! device.rectangle(screen, Area { x: 10, y: 20, w: 100, h: 30 })?;
//!
//! let units: Vec<u16> = "MODULE 6".encode_utf16().collect();
//! device.set_text_color(screen, Colorref(0x00FF_FFFF))?;
//! let advance = device.text_out(screen, Point { x: 16, y: 30 }, &units)?;
//!
//! assert_eq!(advance, 48);
//! // One mark for the rectangle's fill, one for its outline, one for the text.
//! assert_eq!(device.frame_counter(), 3);
//! // The pixel below and right of the outline's corner is blue.
//! let at = 2 * (240 * 21 + 11);
//! assert_eq!(device.panel()[at..at + 2], 0x001F_u16.to_le_bytes());
//! # Ok(())
//! # }
//! ```

#![deny(missing_docs, unsafe_code)]

pub mod call;
mod device;
#[allow(unsafe_code)]
mod ffi;
mod object;
mod record;
mod refusal;
pub mod rop3;
pub mod snapshot;
mod table;

pub use device::Device;
pub use ffi::{HostCall, Reply};
pub use object::{
    Area, Bitmap, Brush, Colorref, Dc, DcSurface, Font, GdiObject, Handle, Pen, Point, Rgb565, Slot,
};
pub use record::Record;
pub use refusal::Refusal;

/// How many numbers a record has.
pub const RECORD: usize = SLOTS + SLOT * MAX_OBJECTS;
/// Where the screen DC's numbers begin in a record.
pub const SCREEN: usize = 9;
/// Where the first slot's numbers begin in a record.
pub const SLOTS: usize = SCREEN + DC;
/// How many numbers a DC or another object has.
pub const DC: usize = 14;
/// How many numbers a slot has: a handle, a kind, and those of the object.
pub const SLOT: usize = 2 + DC;
/// The most created objects that a record can hold.
pub const MAX_OBJECTS: usize = 256;
/// The least coordinate of a position.
pub const MIN_POSITION: i32 = -32_768;
/// The greatest coordinate of a position.
pub const MAX_POSITION: i32 = 32_767;
/// The kind in a reply without an object.
pub const NO_OBJECT: u32 = 5;
/// The longest side.
pub const MAX_SIDE: u32 = 4096;
/// The length of the longest memory.
pub const MAX_MEMORY: usize = 33_554_432;
/// The length of the longest saved table, that of 256 DCs.
pub const MAX_TABLE: usize = 12_502;
