//! The static library's functions. They take a slice as a pointer and a length,
//! and require nothing else of their caller than that these are a slice's.

use crate::DC;

/// A call as numbers. [`crate::call`] has the number of each call and the fields
/// that it reads; it does not read the others.
#[repr(C)]
#[derive(Clone, Copy, Debug, Default, PartialEq, Eq)]
pub struct HostCall {
    /// The number of the call.
    pub call: u32,
    /// The handle of the DC that the call sets, selects into or draws on.
    pub dc: u32,
    /// The handle of a blit's source DC.
    pub src: u32,
    /// The width of a bitmap or panel, a colour, an object's handle, a setting or a
    /// raster code.
    pub a: u32,
    /// A height, or a pen's width.
    pub b: u32,
    /// The left column, or the column of a position.
    pub x: i32,
    /// The top row, or the row of a position.
    pub y: i32,
    /// The width of the box that is drawn.
    pub w: i32,
    /// The height of the box that is drawn, or of a font.
    pub h: i32,
    /// The left column in a blit's source.
    pub src_x: i32,
    /// The top row in a blit's source.
    pub src_y: i32,
}

/// An answer as numbers. If the call is refused, it has the refusal's number and
/// nothing else.
#[repr(C)]
#[derive(Clone, Copy, Debug, PartialEq, Eq)]
pub struct Reply {
    /// The number of the refusal; 0 if the call is accepted.
    pub refusal: u32,
    /// A handle, a COLORREF, an alignment, or a text's advance.
    pub value: u32,
    /// Whether there was an object to delete, or the old background mode: 0 or 1.
    pub flag: u32,
    /// The column of the old position, if the call is a move; else 0.
    pub x: i32,
    /// The row of the old position, if the call is a move; else 0.
    pub y: i32,
    /// The kind of a removed object, as in a record; [`crate::NO_OBJECT`] if there
    /// is none.
    pub kind: u32,
    /// The numbers of a removed object, as in a record.
    pub fields: [u32; DC],
}

#[rustfmt::skip]
#[link(name = "host", kind = "static")]
extern "C" {
    fn ravinefork_open(numbers: *mut u32, numbers_len: usize, panel: *mut u8, panel_len: usize, store: *mut u8, store_len: usize, width: u32, height: u32) -> u32;
    fn ravinefork_perform(numbers: *mut u32, numbers_len: usize, call: HostCall, units: *const u16, units_len: usize, panel: *mut u8, panel_len: usize, store: *mut u8, store_len: usize) -> Reply;
}

/// Opens a device. Returns the number of the refusal, 0 if it is accepted.
pub(crate) fn open(
    numbers: &mut [u32],
    panel: &mut [u8],
    store: &mut [u8],
    width: u32,
    height: u32,
) -> u32 {
    // SAFETY: each pointer and length is that of a mutable slice, so that no two overlap and nothing
    // else reads or writes them during the call. The function keeps no pointer.
    unsafe {
        ravinefork_open(
            numbers.as_mut_ptr(),
            numbers.len(),
            panel.as_mut_ptr(),
            panel.len(),
            store.as_mut_ptr(),
            store.len(),
            width,
            height,
        )
    }
}

/// Performs a call.
pub(crate) fn perform(
    numbers: &mut [u32],
    call: HostCall,
    units: &[u16],
    panel: &mut [u8],
    store: &mut [u8],
) -> Reply {
    // SAFETY: as in `open`; `units` is a shared slice, which the function only reads.
    unsafe {
        ravinefork_perform(
            numbers.as_mut_ptr(),
            numbers.len(),
            call,
            units.as_ptr(),
            units.len(),
            panel.as_mut_ptr(),
            panel.len(),
            store.as_mut_ptr(),
            store.len(),
        )
    }
}
