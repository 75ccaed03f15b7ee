//! How objects are printed.

use pocket_kernel::gdi::{Dc, DcSurface, GdiObject};

use super::lines::Point;

/// An object's kind and fields. The position is that of a DC, if it is printed.
pub fn object(object: &GdiObject, position: Option<Point>) -> String {
    match object {
        GdiObject::Dc(dc) => format!("dc {}", dc_fields(dc, position)),
        GdiObject::Bitmap(bitmap) => {
            let dirty = u8::from(bitmap.host_dirty);
            format!("bitmap {} {} {dirty}", bitmap.width, bitmap.height)
        }
        GdiObject::Brush(brush) => format!("brush {:08x}", brush.color),
        GdiObject::Pen(pen) => format!("pen {:08x} {}", pen.color, pen.width),
        GdiObject::Font(font) => format!("font {}", font.height),
    }
}

/// A DC's fields: surface, bitmap, other handles, colours, alignment, mode, and the
/// position if it is printed.
pub fn dc_fields(dc: &Dc, position: Option<Point>) -> String {
    let surface = match dc.surface {
        DcSurface::Screen => "screen",
        DcSurface::Memory => "memory",
    };
    let bitmap = dc.selected_bitmap.map_or("none".into(), |handle| format!("{handle:08x}"));
    let numbers = [
        dc.selected_brush,
        dc.selected_pen,
        dc.selected_font,
        dc.brush_color,
        dc.pen_color,
        dc.text_color,
        dc.text_align,
        dc.bk_color,
    ];
    let numbers = numbers.map(|number| format!("{number:08x}")).join(" ");
    let position = position.map_or(String::new(), |position| format!(" {position}"));
    format!("{surface} {bitmap} {numbers} {}{position}", u8::from(dc.bk_transparent))
}

#[cfg(test)]
mod tests {
    use super::*;
    use pocket_kernel::gdi::{Bitmap, Brush, Font, Pen};

    #[test]
    fn kinds_and_fields() {
        let dc = Dc { selected_bitmap: Some(0xDEAD_5720), text_align: 0xA, ..Dc::default() };
        let lines = [
            object(&GdiObject::Dc(dc.clone()), None),
            object(&GdiObject::Dc(dc), Some(Point { x: -32_768, y: 7 })),
            object(&GdiObject::Bitmap(Bitmap::new(0, 4096)), None),
            object(&GdiObject::Brush(Brush { color: 0xFF00_0000 }), None),
            object(&GdiObject::Pen(Pen { color: 0xC0FFEE, width: u32::MAX }), None),
            object(&GdiObject::Font(Font { height: i32::MIN }), None),
        ];
        let expected = [
            "dc memory dead5720 dead5701 dead5707 dead5710 00ffffff 00000000 00000000 0000000a \
             00ffffff 0",
            "dc memory dead5720 dead5701 dead5707 dead5710 00ffffff 00000000 00000000 0000000a \
             00ffffff 0 -32768 7",
            "bitmap 1 4096 0",
            "brush ff000000",
            "pen 00c0ffee 4294967295",
            "font -2147483648",
        ];
        assert_eq!(lines, expected);
    }
}
