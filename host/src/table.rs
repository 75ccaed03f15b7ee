//! The saved table: the record without memory lengths, frame counter and stock
//! bitmap's mark, packed into bytes. Pixels are not part of it.

#![allow(unsafe_code)]

use crate::device::Device;
use crate::ffi::Reply;
use crate::record::Record;
use crate::refusal::Refusal;
use crate::MAX_TABLE;

/// The answer of a save. A refused one has the refusal's number and length 0.
#[repr(C)]
struct Saving {
    refusal: u32,
    length: u32,
}

#[rustfmt::skip]
#[link(name = "host", kind = "static")]
extern "C" {
    fn ravinefork_save(numbers: *const u32, numbers_len: usize, out: *mut u8, out_len: usize) -> Saving;
    fn ravinefork_load(numbers: *mut u32, numbers_len: usize, bytes: *const u8, bytes_len: usize, panel: *mut u8, panel_len: usize, store: *mut u8, store_len: usize) -> Reply;
}

impl Record {
    /// Writes the record's table to the front of the output. Returns its length, at
    /// most [`MAX_TABLE`]. The output past it is unchanged.
    ///
    /// Refused with 9, then with 13 if the output is shorter than the table; then
    /// the output is unchanged.
    pub fn save_into(&self, out: &mut [u8]) -> Result<usize, Refusal> {
        let numbers = self.as_numbers();
        // SAFETY: each pointer and length is that of a slice. The function writes to `out` alone,
        // which is a mutable slice, so that it overlaps no other. It keeps no pointer.
        let Saving { refusal, length } = unsafe {
            ravinefork_save(numbers.as_ptr(), numbers.len(), out.as_mut_ptr(), out.len())
        };
        Refusal::check(refusal).map(|()| length as usize)
    }

    /// Loads a saved table. The record is then the saved one, with the memory
    /// lengths, the frame counter and the stock bitmap's mark of this one. The
    /// loaded panel and every byte of the store past the stock bitmap become 0, with
    /// one mark of the panel.
    ///
    /// Refused with 9, 8, then 12 if the bytes are not exactly one table, then 7 if
    /// a memory is too short for its panel or its bitmaps.
    pub fn load(
        &mut self,
        bytes: &[u8],
        panel: &mut [u8],
        store: &mut [u8],
    ) -> Result<(), Refusal> {
        let numbers = self.numbers_mut();
        // SAFETY: each pointer and length is that of a slice. `numbers`, `panel` and `store` are
        // mutable slices, so that no two of the four overlap; `bytes` is only read. The function
        // keeps no pointer.
        let reply = unsafe {
            ravinefork_load(
                numbers.as_mut_ptr(),
                numbers.len(),
                bytes.as_ptr(),
                bytes.len(),
                panel.as_mut_ptr(),
                panel.len(),
                store.as_mut_ptr(),
                store.len(),
            )
        };
        Refusal::check(reply.refusal)
    }
}

impl<M: AsRef<[u8]> + AsMut<[u8]>> Device<M> {
    /// The table: every created object with its handle, the screen DC, the panel's
    /// sides and the next handle, without a pixel. Refused with 9.
    pub fn save(&self) -> Result<Vec<u8>, Refusal> {
        let mut table = vec![0; MAX_TABLE];
        let length = self.record().save_into(&mut table)?;
        table.truncate(length);
        Ok(table)
    }

    /// Loads a table that was saved from this device or from another one. Handles
    /// and settings are then the saved ones; the panel and the created bitmaps are
    /// black. Refused with 12 or 7.
    pub fn load(&mut self, table: &[u8]) -> Result<(), Refusal> {
        let (record, panel, store) = self.parts_mut();
        record.load(table, panel, store)
    }
}
