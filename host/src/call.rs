//! The number of each call, as in call scripts, and the fields that it reads from
//! a [`HostCall`](crate::HostCall).

/// Creates a memory DC.
pub const CREATE_MEMORY_DC: u32 = 1;
/// Creates a bitmap: width `a`, height `b`.
pub const CREATE_COMPATIBLE_BITMAP: u32 = 2;
/// Creates a brush: COLORREF `a`.
pub const CREATE_SOLID_BRUSH: u32 = 3;
/// Creates a pen: COLORREF `a`, width `b`.
pub const CREATE_PEN: u32 = 4;
/// Creates a font: height `h`.
pub const CREATE_FONT: u32 = 5;
/// Deletes the object `a`.
pub const DELETE: u32 = 6;
/// Removes the object `a`.
pub const REMOVE: u32 = 7;
/// Selects the object `a` into `dc`.
pub const SELECT_INTO: u32 = 8;
/// Sets the text colour of `dc`: COLORREF `a`.
pub const SET_TEXT_COLOR: u32 = 9;
/// Sets the text alignment of `dc`: `a`.
pub const SET_TEXT_ALIGN: u32 = 10;
/// Sets the background colour of `dc`: COLORREF `a`.
pub const SET_BK_COLOR: u32 = 11;
/// Sets the background mode of `dc`: `a`, 1 for transparent or 0.
pub const SET_BK_MODE: u32 = 12;
/// Fills the box `x`, `y`, `w`, `h` on `dc` under the raster code `a`.
pub const PATTERN_FILL: u32 = 13;
/// Draws the rectangle `x`, `y`, `w`, `h` on `dc`.
pub const RECTANGLE: u32 = 14;
/// Writes the units at `x`, `y` on `dc`.
pub const TEXT: u32 = 15;
/// Fills the panel: RGB565 word `a`.
pub const PANEL_FILL: u32 = 16;
/// Resizes the panel: width `a`, height `b`.
pub const RESIZE: u32 = 17;
/// Blits from `src_x`, `src_y` on `src` to the box `x`, `y`, `w`, `h` on `dc`,
/// under the raster code `a`.
pub const BLIT: u32 = 18;
/// Moves the position of `dc` to `x`, `y`.
pub const MOVE_TO: u32 = 19;
/// Draws a line on `dc` from its position to `x`, `y`, and moves the position
/// there.
pub const LINE_TO: u32 = 20;
