//! What a record holds: handles, colours, DCs and other objects, read from its
//! numbers.

use std::fmt;

use crate::DC;

/// The handle of a DC or another object, created or stock. No object has 0.
#[derive(Clone, Copy, Debug, Default, PartialEq, Eq, Hash, PartialOrd, Ord)]
pub struct Handle(pub u32);

/// A COLORREF, 0x00BBGGRR. It is another type than an [`Rgb565`] word.
#[derive(Clone, Copy, Debug, Default, PartialEq, Eq, Hash)]
pub struct Colorref(pub u32);

/// An RGB565 word: a pixel. It is another type than a [`Colorref`].
#[derive(Clone, Copy, Debug, Default, PartialEq, Eq, Hash)]
pub struct Rgb565(pub u16);

impl Handle {
    /// The handle that the first created object gets.
    pub const GDI_HANDLE_BASE: Handle = Handle(0xDEAD_1000);
    /// The screen DC.
    pub const GDI_SCREEN_DC: Handle = Handle(0xDEAD_0DC0);
    /// A stock brush, COLORREF 0x00FFFFFF.
    pub const STOCK_WHITE_BRUSH: Handle = Handle(0xDEAD_5701);
    /// A stock brush, COLORREF 0x00C0C0C0.
    pub const STOCK_LTGRAY_BRUSH: Handle = Handle(0xDEAD_5702);
    /// A stock brush, COLORREF 0x00808080.
    pub const STOCK_GRAY_BRUSH: Handle = Handle(0xDEAD_5703);
    /// A stock brush, COLORREF 0.
    pub const STOCK_BLACK_BRUSH: Handle = Handle(0xDEAD_5704);
    /// A stock brush, COLORREF 0xFF000000, which paints black.
    pub const STOCK_NULL_BRUSH: Handle = Handle(0xDEAD_5705);
    /// A stock pen, COLORREF 0x00FFFFFF.
    pub const STOCK_WHITE_PEN: Handle = Handle(0xDEAD_5706);
    /// A stock pen, COLORREF 0.
    pub const STOCK_BLACK_PEN: Handle = Handle(0xDEAD_5707);
    /// A stock pen, COLORREF 0xFF000000, which paints black.
    pub const STOCK_NULL_PEN: Handle = Handle(0xDEAD_5708);
    /// A stock brush, COLORREF 0x00404040.
    pub const STOCK_DKGRAY_BRUSH: Handle = Handle(0xDEAD_5709);
    /// The stock font, height 12.
    pub const STOCK_SYSTEM_FONT: Handle = Handle(0xDEAD_5710);
    /// The stock bitmap, one pixel: bytes 0 and 1 of the store.
    pub const STOCK_DEFAULT_BITMAP: Handle = Handle(0xDEAD_5720);
}

impl fmt::Display for Handle {
    fn fmt(&self, f: &mut fmt::Formatter<'_>) -> fmt::Result {
        write!(f, "{:08x}", self.0)
    }
}

/// A box on a surface: its left column, top row, width and height.
#[derive(Clone, Copy, Debug, Default, PartialEq, Eq)]
pub struct Area {
    /// The left column.
    pub x: i32,
    /// The top row.
    pub y: i32,
    /// The width; a box of width 0 or less has no pixel.
    pub w: i32,
    /// The height; a box of height 0 or less has no pixel.
    pub h: i32,
}

/// A place on a surface.
#[derive(Clone, Copy, Debug, Default, PartialEq, Eq)]
pub struct Point {
    /// The column.
    pub x: i32,
    /// The row.
    pub y: i32,
}

/// The surface that a DC draws on.
#[derive(Clone, Copy, Debug, PartialEq, Eq)]
pub enum DcSurface {
    /// The panel.
    Screen,
    /// The bitmap that is selected into it.
    Memory,
}

/// A DC's record.
#[derive(Clone, Copy, Debug, PartialEq, Eq)]
pub struct Dc {
    /// The surface that it draws on.
    pub surface: DcSurface,
    /// The selected bitmap; none before the first one is selected.
    pub selected_bitmap: Option<Handle>,
    /// The selected brush.
    pub selected_brush: Handle,
    /// The selected pen.
    pub selected_pen: Handle,
    /// The selected font.
    pub selected_font: Handle,
    /// The colour of the brush when it was selected.
    pub brush_color: Colorref,
    /// The colour of the pen when it was selected.
    pub pen_color: Colorref,
    /// The text colour.
    pub text_color: Colorref,
    /// The text alignment; it has no effect on drawing.
    pub text_align: u32,
    /// The background colour; it has no effect on drawing.
    pub bk_color: Colorref,
    /// The background mode; it has no effect on drawing.
    pub bk_transparent: bool,
    /// The current position, from which the next line is drawn.
    pub position: Point,
}

/// A bitmap's record; its pixels are in the store.
#[derive(Clone, Copy, Debug, PartialEq, Eq)]
pub struct Bitmap {
    /// Its width in pixels.
    pub width: u32,
    /// Its height in pixels.
    pub height: u32,
    /// Whether it has a dirty mark.
    pub host_dirty: bool,
}

/// A brush's record.
#[derive(Clone, Copy, Debug, PartialEq, Eq)]
pub struct Brush {
    /// Its colour.
    pub color: Colorref,
}

/// A pen's record.
#[derive(Clone, Copy, Debug, PartialEq, Eq)]
pub struct Pen {
    /// Its colour.
    pub color: Colorref,
    /// Its width. It has no effect: outlines and lines are one pixel thick.
    pub width: u32,
}

/// A font's record.
#[derive(Clone, Copy, Debug, PartialEq, Eq)]
pub struct Font {
    /// Its height; it has no effect on drawing.
    pub height: i32,
}

/// An object's record.
#[derive(Clone, Copy, Debug, PartialEq, Eq)]
pub enum GdiObject {
    /// A DC.
    Dc(Dc),
    /// A bitmap.
    Bitmap(Bitmap),
    /// A brush.
    Brush(Brush),
    /// A pen.
    Pen(Pen),
    /// A font.
    Font(Font),
}

/// A created object with its handle.
#[derive(Clone, Copy, Debug, PartialEq, Eq)]
pub struct Slot {
    /// Its handle.
    pub handle: Handle,
    /// Its record.
    pub object: GdiObject,
}

impl Dc {
    /// The DC with these numbers.
    pub(crate) fn of(numbers: &[u32; DC]) -> Dc {
        let &[surface, present, bitmap, brush, pen, font, colors @ ..] = numbers;
        let [brush_color, pen_color, text_color, text_align, bk_color, transparent, x, y] = colors;
        Dc {
            surface: if surface == 1 { DcSurface::Memory } else { DcSurface::Screen },
            selected_bitmap: (present == 1).then_some(Handle(bitmap)),
            selected_brush: Handle(brush),
            selected_pen: Handle(pen),
            selected_font: Handle(font),
            brush_color: Colorref(brush_color),
            pen_color: Colorref(pen_color),
            text_color: Colorref(text_color),
            text_align,
            bk_color: Colorref(bk_color),
            bk_transparent: transparent == 1,
            position: Point { x: x as i32, y: y as i32 },
        }
    }
}

impl GdiObject {
    /// The object of this kind with these numbers; none for an unknown kind.
    pub(crate) fn of(kind: u32, numbers: &[u32; DC]) -> Option<GdiObject> {
        let &[first, second, third, ..] = numbers;
        let color = Colorref(first);
        Some(match kind {
            0 => GdiObject::Dc(Dc::of(numbers)),
            1 => {
                let host_dirty = third == 1;
                GdiObject::Bitmap(Bitmap { width: first, height: second, host_dirty })
            }
            2 => GdiObject::Brush(Brush { color }),
            3 => GdiObject::Pen(Pen { color, width: second }),
            4 => GdiObject::Font(Font { height: first as i32 }),
            _ => return None,
        })
    }

    /// The stock object with this handle; none for the screen DC and the bitmap.
    pub(crate) fn stock(handle: Handle) -> Option<GdiObject> {
        let brush = |color| GdiObject::Brush(Brush { color: Colorref(color) });
        let pen = |color, width| GdiObject::Pen(Pen { color: Colorref(color), width });
        Some(match handle {
            Handle::STOCK_WHITE_BRUSH => brush(0x00FF_FFFF),
            Handle::STOCK_LTGRAY_BRUSH => brush(0x00C0_C0C0),
            Handle::STOCK_GRAY_BRUSH => brush(0x0080_8080),
            Handle::STOCK_BLACK_BRUSH => brush(0),
            Handle::STOCK_NULL_BRUSH => brush(0xFF00_0000),
            Handle::STOCK_DKGRAY_BRUSH => brush(0x0040_4040),
            Handle::STOCK_WHITE_PEN => pen(0x00FF_FFFF, 1),
            Handle::STOCK_BLACK_PEN => pen(0, 1),
            Handle::STOCK_NULL_PEN => pen(0xFF00_0000, 0),
            Handle::STOCK_SYSTEM_FONT => GdiObject::Font(Font { height: 12 }),
            _ => return None,
        })
    }
}
