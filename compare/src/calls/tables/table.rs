//! A saved table as plain values, and its bytes: the specification's list of
//! fields, one after another, most significant bit first.

use pocket_kernel::gdi::{self, DcSurface, GdiObject};

use crate::calls::lines::Point;

/// The form that is saved and loaded.
pub const FORM: u32 = 1;
/// How many bits a table has before its objects, and before the fields of each.
pub const HEAD: usize = 4 + 13 + 13 + 32 + 9 + DC;
pub const OBJECT: usize = 3 + 32;
/// How many bits the fields of a DC have.
pub const DC: usize = 1 + 32 + 8 * 32 + 1 + 2 * 32;

/// A table. It may hold numbers that no record has.
#[derive(Clone, Debug, PartialEq)]
pub struct Table {
    pub form: u32,
    pub width: u32,
    pub height: u32,
    pub next: u32,
    pub count: u32,
    pub screen: Dc,
    pub objects: Vec<Object>,
}

/// A created object.
#[derive(Clone, Debug, PartialEq)]
pub struct Object {
    pub handle: u32,
    pub fields: Fields,
}

#[derive(Clone, Debug, PartialEq)]
pub enum Fields {
    Dc(Dc),
    Bitmap { width: u32, height: u32, dirty: bool },
    Brush { color: u32 },
    Pen { color: u32, width: u32 },
    Font { height: i32 },
}

#[derive(Clone, Debug, PartialEq)]
pub struct Dc {
    pub present: bool,
    pub bitmap: u32,
    pub brush: u32,
    pub pen: u32,
    pub font: u32,
    pub brush_color: u32,
    pub pen_color: u32,
    pub text_color: u32,
    pub align: u32,
    pub bk_color: u32,
    pub transparent: bool,
    pub x: i32,
    pub y: i32,
}

/// Bits that are being packed into bytes.
#[derive(Default)]
struct Bits {
    bytes: Vec<u8>,
    len: usize,
}

impl Bits {
    /// Adds the low bits of a number.
    fn put(&mut self, bits: usize, number: u32) {
        for bit in (0..bits).rev() {
            if self.len % 8 == 0 {
                self.bytes.push(0);
            }
            let last = self.bytes.last_mut().expect("there is a byte for the bit");
            *last |= ((number >> bit & 1) as u8) << (7 - self.len % 8);
            self.len += 1;
        }
    }

    fn put_dc(&mut self, dc: &Dc) {
        self.put(1, dc.present.into());
        let numbers = [dc.bitmap, dc.brush, dc.pen, dc.font, dc.brush_color, dc.pen_color];
        for number in numbers.into_iter().chain([dc.text_color, dc.align, dc.bk_color]) {
            self.put(32, number);
        }
        self.put(1, dc.transparent.into());
        self.put(32, dc.x as u32);
        self.put(32, dc.y as u32);
    }

    fn put_object(&mut self, object: &Object) {
        self.put(3, object.fields.kind());
        self.put(32, object.handle);
        match object.fields {
            Fields::Dc(ref dc) => self.put_dc(dc),
            Fields::Bitmap { width, height, dirty } => {
                self.put(13, width);
                self.put(13, height);
                self.put(1, dirty.into());
            }
            Fields::Brush { color } => self.put(32, color),
            Fields::Pen { color, width } => {
                self.put(32, color);
                self.put(32, width);
            }
            Fields::Font { height } => self.put(32, height as u32),
        }
    }
}

impl Table {
    /// The table as bytes; zeros fill the last one.
    pub fn bytes(&self) -> Vec<u8> {
        let mut bits = Bits::default();
        bits.put(4, self.form);
        bits.put(13, self.width);
        bits.put(13, self.height);
        bits.put(32, self.next);
        bits.put(9, self.count);
        bits.put_dc(&self.screen);
        self.objects.iter().for_each(|object| bits.put_object(object));
        bits.bytes
    }

    /// How many bits it has.
    pub fn bits(&self) -> usize {
        self.start(self.objects.len())
    }

    /// The bit at which an object begins; the end if it is the number of objects.
    pub fn start(&self, at: usize) -> usize {
        HEAD + self.objects[..at].iter().map(|object| OBJECT + object.fields.bits()).sum::<usize>()
    }

    /// How many bytes the panel needs.
    pub fn panel_bytes(&self) -> u64 {
        2 * u64::from(self.width) * u64::from(self.height)
    }

    /// How many bytes of the store the stock bitmap and the created ones need.
    pub fn store_bytes(&self) -> u64 {
        2 + self.objects.iter().map(|object| object.fields.pixel_bytes()).sum::<u64>()
    }
}

impl Fields {
    pub fn kind(&self) -> u32 {
        match self {
            Fields::Dc(_) => 0,
            Fields::Bitmap { .. } => 1,
            Fields::Brush { .. } => 2,
            Fields::Pen { .. } => 3,
            Fields::Font { .. } => 4,
        }
    }

    fn bits(&self) -> usize {
        match self {
            Fields::Dc(_) => DC,
            Fields::Bitmap { .. } => 13 + 13 + 1,
            Fields::Pen { .. } => 64,
            Fields::Brush { .. } | Fields::Font { .. } => 32,
        }
    }

    /// How many bytes of the store its pixels need.
    pub fn pixel_bytes(&self) -> u64 {
        match *self {
            Fields::Bitmap { width, height, .. } => 2 * u64::from(width) * u64::from(height),
            _ => 0,
        }
    }

    /// The fields of an object of the original; the position is that of a DC.
    pub fn of(object: &GdiObject, position: Point) -> Fields {
        match object {
            GdiObject::Dc(dc) => Fields::Dc(Dc::of(dc, position)),
            &GdiObject::Bitmap(gdi::Bitmap { width, height, host_dirty: dirty, .. }) => {
                Fields::Bitmap { width, height, dirty }
            }
            &GdiObject::Brush(gdi::Brush { color }) => Fields::Brush { color },
            &GdiObject::Pen(gdi::Pen { color, width }) => Fields::Pen { color, width },
            &GdiObject::Font(gdi::Font { height }) => Fields::Font { height },
        }
    }

    /// The object of the original with these fields; a bitmap is black.
    pub fn object(&self) -> GdiObject {
        match *self {
            Fields::Dc(ref dc) => GdiObject::Dc(dc.original(DcSurface::Memory)),
            Fields::Bitmap { width, height, dirty: host_dirty } => {
                GdiObject::Bitmap(gdi::Bitmap { host_dirty, ..gdi::Bitmap::new(width, height) })
            }
            Fields::Brush { color } => GdiObject::Brush(gdi::Brush { color }),
            Fields::Pen { color, width } => GdiObject::Pen(gdi::Pen { color, width }),
            Fields::Font { height } => GdiObject::Font(gdi::Font { height }),
        }
    }

    /// A DC's position.
    pub fn position(&self) -> Option<Point> {
        match self {
            Fields::Dc(dc) => Some(dc.position()),
            _ => None,
        }
    }
}

impl Dc {
    /// The fields of a DC of the original.
    pub fn of(dc: &gdi::Dc, Point { x, y }: Point) -> Dc {
        Dc {
            present: dc.selected_bitmap.is_some(),
            bitmap: dc.selected_bitmap.unwrap_or(0),
            brush: dc.selected_brush,
            pen: dc.selected_pen,
            font: dc.selected_font,
            brush_color: dc.brush_color,
            pen_color: dc.pen_color,
            text_color: dc.text_color,
            align: dc.text_align,
            bk_color: dc.bk_color,
            transparent: dc.bk_transparent,
            x,
            y,
        }
    }

    /// The DC of the original with these fields. The surface is not saved.
    pub fn original(&self, surface: DcSurface) -> gdi::Dc {
        gdi::Dc {
            surface,
            selected_bitmap: self.present.then_some(self.bitmap),
            selected_brush: self.brush,
            selected_pen: self.pen,
            selected_font: self.font,
            brush_color: self.brush_color,
            pen_color: self.pen_color,
            text_color: self.text_color,
            text_align: self.align,
            bk_color: self.bk_color,
            bk_transparent: self.transparent,
        }
    }

    pub fn position(&self) -> Point {
        Point { x: self.x, y: self.y }
    }
}

#[cfg(test)]
pub mod tests {
    use super::*;

    /// A DC as on a fresh device.
    pub fn fresh_dc() -> Dc {
        Dc::of(&gdi::Dc::default(), Point::default())
    }

    /// The table of a fresh device with a panel of 240 by 320.
    pub fn fresh() -> Table {
        let (width, height, next) = (240, 320, gdi::GDI_HANDLE_BASE);
        let screen = fresh_dc();
        Table { form: FORM, width, height, next, count: 0, screen, objects: Vec::new() }
    }

    /// A string of 0 and 1, with spaces, as bytes.
    fn packed(bits: &str) -> Vec<u8> {
        let bits: Vec<u8> = bits.bytes().filter(|byte| *byte != b' ').collect();
        let byte = |bits: &[u8]| {
            let bit = |at: usize| bits.get(at).map_or(0, |bit| bit - b'0');
            (0..8).fold(0, |byte, at| byte << 1 | bit(at))
        };
        bits.chunks(8).map(byte).collect()
    }

    fn word(number: u32) -> String {
        format!("{number:032b}")
    }

    /// The bits of a fresh DC, by hand.
    fn fresh_bits() -> String {
        let handles = [0, 0xDEAD_5701, 0xDEAD_5707, 0xDEAD_5710].map(word).concat();
        let colors = [0x00FF_FFFF, 0, 0, 0, 0x00FF_FFFF].map(word).concat();
        format!("0 {handles} {colors} 0 {} {}", word(0), word(0))
    }

    #[test]
    fn a_fresh_device_has_54_bytes() {
        let table = fresh();
        let head = format!("0001 0000011110000 0000101000000 {} 000000000", word(0xDEAD_1000));
        let bytes = table.bytes();
        assert_eq!(bytes, packed(&format!("{head} {}", fresh_bits())));
        assert_eq!((table.bits(), bytes.len(), bytes[0]), (425, 54, 0x10));
    }

    #[test]
    fn each_kind_by_hand() {
        let dc = Dc { present: true, bitmap: 7, transparent: true, x: -1, y: 2, ..fresh_dc() };
        let dc_bits = {
            let handles = [7, 0xDEAD_5701, 0xDEAD_5707, 0xDEAD_5710].map(word).concat();
            let colors = [0x00FF_FFFF, 0, 0, 0, 0x00FF_FFFF].map(word).concat();
            format!("1 {handles} {colors} 1 {} {}", "1".repeat(32), word(2))
        };
        let kinds = [
            (Fields::Dc(dc), "000", dc_bits),
            (
                Fields::Bitmap { width: 4096, height: 5, dirty: true },
                "001",
                "1000000000000 0000000000101 1".into(),
            ),
            (Fields::Brush { color: 0x8000_0001 }, "010", word(0x8000_0001)),
            (Fields::Pen { color: 3, width: u32::MAX }, "011", word(3) + &"1".repeat(32)),
            (Fields::Font { height: -12 }, "100", word(0xFFFF_FFF4)),
        ];
        for (fields, kind, bits) in kinds {
            let table = Table {
                width: 1,
                height: 4096,
                next: 9,
                count: 1,
                screen: fresh_dc(),
                objects: vec![Object { handle: 0x0102_0304, fields }],
                ..fresh()
            };
            let head = format!("0001 0000000000001 1000000000000 {} 000000001", word(9));
            let object = format!("{kind} {} {bits}", word(0x0102_0304));
            let all = format!("{head} {} {object}", fresh_bits());
            assert_eq!(table.bytes(), packed(&all), "{table:?}");
            let bits = all.bytes().filter(|byte| *byte != b' ').count();
            assert_eq!((table.bits(), table.start(0)), (bits, 425));
        }
    }
}
