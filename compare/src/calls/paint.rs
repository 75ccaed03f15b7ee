//! The drawing calls: on the surface of a DC, and on the panel.

use pocket_kernel::font::draw_str_u16;
use pocket_kernel::framebuffer::colorref_to_rgb565;
use pocket_kernel::gdi::{rop3, DcSurface, Surface};

use super::call::Call;
use super::device::{bytes_of, Device, MAX_SIDE};
use super::lines::Point;
use super::outcome::{Answer, Stop};
use crate::overflow::{caught, Overflow};

/// The most units that a text may have.
const MAX_DRAWN: usize = 65_535;

/// The surface that a DC draws on.
#[derive(Clone, Copy, Debug, PartialEq)]
pub enum Place {
    Panel,
    /// The bitmap with this handle.
    Bitmap(u32),
}

/// The surface that a DC draws on, and its packed colours.
struct Target {
    place: Place,
    brush: u16,
    pen: u16,
    text: u16,
}

impl Device {
    /// The surface that a DC draws on, or a refusal: 1 no such DC, then 2 no
    /// surface.
    pub fn place(&self, dc: u32) -> Result<Place, u8> {
        let dc = self.gdi().dc(dc).ok_or(1)?;
        match dc.surface {
            DcSurface::Screen => Ok(Place::Panel),
            DcSurface::Memory => {
                let live = |handle: &u32| self.gdi().bitmap(*handle).is_some();
                dc.selected_bitmap.filter(live).map(Place::Bitmap).ok_or(2)
            }
        }
    }

    /// A surface's width and height.
    pub fn sides(&self, place: Place) -> [u32; 2] {
        match place {
            Place::Panel => [self.panel.width, self.panel.height],
            Place::Bitmap(handle) => {
                let bitmap = self.gdi().bitmap(handle).expect("a place is live");
                [bitmap.width, bitmap.height]
            }
        }
    }

    fn target(&self, dc: u32) -> Result<Target, u8> {
        let place = self.place(dc)?;
        let dc = self.gdi().dc(dc).ok_or(1)?;
        let [brush, pen, text] =
            [dc.brush_color, dc.pen_color, dc.text_color].map(colorref_to_rgb565);
        Ok(Target { place, brush, pen, text })
    }

    /// The surface that a DC draws on and its packed pen colour, or a refusal.
    pub(super) fn place_and_pen(&self, dc: u32) -> Result<(Place, u16), u8> {
        self.target(dc).map(|target| (target.place, target.pen))
    }

    /// Performs a drawing call.
    pub fn draw(&mut self, call: &Call) -> Result<Answer, Stop> {
        match *call {
            Call::PatternFill { dc, x, y, w, h, code } => {
                let Target { place, brush, .. } = self.target(dc)?;
                self.paint(place, |on| on.fill_rect_rop(x, y, w, h, brush, code))?;
            }
            Call::Rectangle { dc, x, y, w, h } => {
                let Target { place, brush, pen, .. } = self.target(dc)?;
                self.paint(place, |on| {
                    on.fill_rect(x, y, w, h, brush);
                    on.stroke_rect(x, y, w, h, pen);
                })?;
            }
            Call::Text { dc, x, y, ref units } => {
                let advance = self.text(dc, x, y, units.as_slice())?;
                return Ok(Answer::Advance(advance));
            }
            Call::PanelFill { word } => {
                let before = self.panel.pixels.clone();
                self.panel.fill(word as u16);
                self.changed = before != self.panel.pixels;
            }
            Call::Resize { width, height } => self.resize(width, height)?,
            Call::Blit { .. } => self.blit(call)?,
            Call::Line { dc, x, y } => return Ok(Answer::Line(self.line_to(dc, Point { x, y })?)),
            _ => unreachable!("{call} draws nothing"),
        }
        Ok(Answer::Nothing)
    }

    /// Draws a text, and marks once if it has a unit. Refusal 10 is the last one.
    fn text(&mut self, dc: u32, x: i32, y: i32, units: &[u16]) -> Result<i32, Stop> {
        let Target { place, text, .. } = self.target(dc)?;
        let drawn = drawn(units);
        if drawn > MAX_DRAWN {
            return Err(Stop::Refused(10));
        }
        let advance = self.paint(place, |on| {
            let advance = draw_str_u16(on, x, y, units, text);
            if drawn != 0 {
                on.mark_dirty();
            }
            advance
        })?;
        Ok(advance)
    }

    /// Blits. Under a code that does not use S it is a pattern fill without a source.
    fn blit(&mut self, call: &Call) -> Result<(), Stop> {
        let Call::Blit { dc, x, y, w, h, source, sx, sy, code } = *call else {
            unreachable!("{call} is no blit");
        };
        let Target { place, brush, .. } = self.target(dc)?;
        if !rop3::uses_src(code) {
            return Ok(self.paint(place, |on| on.fill_rect_rop(x, y, w, h, brush, code))?);
        }
        let source = self.place(source).map_err(|number| number + 2)?;
        let (bytes, [width, height]) = (self.pixels_at(source).to_vec(), self.sides(source));
        self.paint(place, |on| {
            on.blit_from_bytes_rop(x, y, sx, sy, w, h, &bytes, width, height, code, brush);
        })?;
        Ok(())
    }

    /// Resizes the panel. The old panel's bytes are first copied to the memory.
    fn resize(&mut self, width: u32, height: u32) -> Result<(), u8> {
        let effective = width != 0 && height != 0 && [width, height] != self.sides(Place::Panel);
        if effective && width.max(height) > MAX_SIDE {
            return Err(6);
        }
        if effective && bytes_of(width, height) > self.panel_memory.len() as u64 {
            return Err(7);
        }
        let before = self.panel.pixels.clone();
        self.panel_memory[..before.len()].copy_from_slice(&before);
        self.panel.resize(width, height);
        self.changed = before != self.panel.pixels;
        Ok(())
    }

    pub(super) fn pixels_at(&self, place: Place) -> &[u8] {
        match place {
            Place::Panel => &self.panel.pixels,
            Place::Bitmap(handle) => &self.gdi().bitmap(handle).expect("a place is live").pixels,
        }
    }

    /// Makes the original draw on a copy of a surface. The copy replaces the surface
    /// if no sum overflows.
    pub(super) fn paint<T>(
        &mut self,
        place: Place,
        paint: impl FnOnce(&mut Surface<'_>) -> T,
    ) -> Result<T, Overflow> {
        match place {
            Place::Panel => {
                let mut panel = self.panel.clone();
                let answer = caught(|| paint(&mut Surface::Screen(&mut panel)))?;
                self.changed = panel.pixels != self.panel.pixels;
                self.panel = panel;
                Ok(answer)
            }
            Place::Bitmap(handle) => {
                let bitmap = self.gdi_mut().bitmap_mut(handle).expect("a place is live");
                let mut copy = bitmap.clone();
                let answer = caught(|| paint(&mut Surface::Bitmap(&mut copy)))?;
                let changed = copy.pixels != bitmap.pixels;
                *bitmap = copy;
                self.changed = changed;
                Ok(answer)
            }
        }
    }
}

/// The units that a text draws: those before unit 0 or the end.
pub fn drawn(units: &[u16]) -> usize {
    units.iter().take_while(|unit| **unit != 0).count()
}

#[cfg(test)]
mod tests {
    use super::*;
    use pocket_kernel::gdi::rop3::{DSTINVERT, PATCOPY, SRCCOPY, SRCINVERT};
    use pocket_kernel::gdi::{GDI_SCREEN_DC, STOCK_DEFAULT_BITMAP};

    const SCREEN: u32 = GDI_SCREEN_DC;
    const MEMORY: u32 = 0xDEAD_1000;
    const BITMAP: u32 = 0xDEAD_1001;

    /// A device with a panel of 3 by 2, a memory DC, and a bitmap of 3 by 2 that is not
    /// selected yet.
    fn device() -> Device {
        let (refusal, mut device) = Device::open(vec![0xA5; 30], vec![0xA5; 40], 3, 2);
        assert_eq!(refusal, 0);
        perform(&mut device, Call::CreateMemoryDc {});
        perform(&mut device, Call::CreateCompatibleBitmap { width: 3, height: 2 });
        device
    }

    /// Performs the call. Returns its refusal and answer, as printed.
    fn perform(device: &mut Device, call: Call) -> String {
        device.perform(&call).expect("no sum overflows").to_string()
    }

    fn select(device: &mut Device, object: u32) {
        perform(device, Call::Select { dc: MEMORY, object });
    }

    fn fill(dc: u32, [x, y, w, h]: [i32; 4], code: u32) -> Call {
        Call::PatternFill { dc, x, y, w, h, code }
    }

    fn rectangle(dc: u32, [x, y, w, h]: [i32; 4]) -> Call {
        Call::Rectangle { dc, x, y, w, h }
    }

    fn blit(dc: u32, [x, y, w, h]: [i32; 4], source: u32, sx: i32, code: u32) -> Call {
        Call::Blit { dc, x, y, w, h, source, sx, sy: 0, code }
    }

    fn text(dc: u32, units: &[u16]) -> Call {
        Call::text(dc, 0, 0, units.to_vec())
    }

    fn words(device: &Device, place: Place) -> Vec<u16> {
        let pixels = device.pixels_at(place).chunks(2);
        pixels.map(|word| u16::from_le_bytes([word[0], word[1]])).collect()
    }

    fn dirty(device: &Device, bitmap: u32) -> bool {
        device.gdi().bitmap(bitmap).unwrap().host_dirty
    }

    #[test]
    fn refusals_in_their_order() {
        let mut device = device();
        let at = [0, 0, 1, 1];
        let refusals = |device: &mut Device, dc| {
            let calls =
                [fill(dc, at, PATCOPY), rectangle(dc, at), text(dc, &[]), blit(dc, at, 0, 0, 0)];
            calls.map(|call| perform(device, call))
        };
        assert_eq!(refusals(&mut device, 0), ["1", "1", "1 0", "1"]);
        assert_eq!(refusals(&mut device, MEMORY), ["2", "2", "2 0", "2"]);
        let mut from = |source, at, code| perform(&mut device, blit(SCREEN, at, source, 0, code));
        assert_eq!(from(0, at, SRCCOPY), "3");
        assert_eq!(from(0, [0, 0, 0, 1], SRCCOPY), "3");
        assert_eq!(from(MEMORY, [0, 0, -1, 1], SRCCOPY), "4");
        assert_eq!(from(0, at, DSTINVERT), "0");
        assert_eq!(from(MEMORY, at, 0x00AA_1234), "0");
        select(&mut device, BITMAP);
        assert_eq!(refusals(&mut device, MEMORY), ["0", "0", "0 0", "0"]);
        perform(&mut device, Call::Delete { handle: BITMAP });
        assert_eq!(refusals(&mut device, MEMORY), ["2", "2", "2 0", "2"]);
        assert_eq!(perform(&mut device, blit(SCREEN, at, MEMORY, 0, SRCCOPY)), "4");
    }

    #[test]
    fn a_bitmap_of_another_kind_is_no_surface() {
        let mut device = device();
        select(&mut device, BITMAP);
        let brush = device.gdi().get(pocket_kernel::gdi::STOCK_WHITE_BRUSH).cloned();
        *device.gdi_mut().get_mut(BITMAP).unwrap() = brush.unwrap();
        assert_eq!(device.place(MEMORY), Err(2));
    }

    #[test]
    fn a_rectangle_has_two_marks_one_or_none() {
        let mut device = device();
        for (at, frames) in
            [([0, 0, 2, 2], 2), ([9, 9, 1, 1], 3), ([0, 0, 0, 1], 3), ([0, 0, 1, -1], 3)]
        {
            assert_eq!(perform(&mut device, rectangle(SCREEN, at)), "0");
            assert_eq!(device.panel.frame_counter, frames);
        }
        select(&mut device, BITMAP);
        perform(&mut device, rectangle(MEMORY, [0, 0, 0, 1]));
        assert!(!dirty(&device, BITMAP));
        perform(&mut device, rectangle(MEMORY, [9, 9, 1, 1]));
        assert!(dirty(&device, BITMAP));
        perform(&mut device, rectangle(MEMORY, [0, 0, 3, 2]));
        assert_eq!(words(&device, Place::Bitmap(BITMAP)), [0; 6]);
    }

    #[test]
    fn a_text_marks_if_it_has_a_unit() {
        let mut device = device();
        for (units, line, frames) in [
            (vec![], "0 0", 0),
            (vec![0, 0x41], "0 0", 0),
            (vec![0x20], "0 6", 1),
            (vec![0x41, 0xD800, 0, 0x41], "0 12", 2),
            (vec![0x41; 65_535], "0 393210", 3),
            (vec![0x41; 65_536], "10 0", 3),
            ([vec![0x41; 5], vec![0], vec![0x41; 65_530]].concat(), "0 30", 4),
        ] {
            assert_eq!(perform(&mut device, text(SCREEN, &units)), line);
            assert_eq!(device.panel.frame_counter, frames);
        }
        assert_eq!(perform(&mut device, text(MEMORY, &[0x41; 65_536])), "2 0");
    }

    #[test]
    fn a_blit_takes_the_pixels_before_it() {
        let mut device = device();
        select(&mut device, BITMAP);
        for (dc, place) in [(SCREEN, Place::Panel), (MEMORY, Place::Bitmap(BITMAP))] {
            for (x, color) in [(0, 0xFF), (1, 0xFF00), (2, 0xFF_0000)] {
                device.gdi_mut().dc_mut(dc).unwrap().brush_color = color;
                perform(&mut device, fill(dc, [x, 0, 1, 1], PATCOPY));
            }
            assert_eq!(words(&device, place), [0xF800, 0x07E0, 0x001F, 0, 0, 0]);
            perform(&mut device, blit(dc, [1, 0, 2, 1], dc, 0, SRCCOPY));
            assert_eq!(words(&device, place), [0xF800, 0xF800, 0x07E0, 0, 0, 0]);
        }
        perform(&mut device, blit(SCREEN, [0, 1, 3, 1], MEMORY, -1, SRCINVERT));
        let panel = [0xF800, 0xF800, 0x07E0, 0, 0xF800, 0xF800];
        assert_eq!(words(&device, Place::Panel), panel);
    }

    #[test]
    fn the_screen_dc_paints_the_panel() {
        let mut device = device();
        perform(&mut device, Call::Select { dc: SCREEN, object: BITMAP });
        assert_eq!(device.place(SCREEN), Ok(Place::Panel));
    }

    #[test]
    fn the_stock_bitmap_is_a_surface() {
        let mut device = device();
        select(&mut device, STOCK_DEFAULT_BITMAP);
        assert_eq!(perform(&mut device, fill(MEMORY, [-1, 0, 9, 9], PATCOPY)), "0");
        assert!(dirty(&device, STOCK_DEFAULT_BITMAP));
        assert_eq!(words(&device, Place::Bitmap(STOCK_DEFAULT_BITMAP)), [0xFFFF]);
        assert!(device.state()[0].contains(" stock 1 "));
    }

    #[test]
    fn a_resize_keeps_the_bytes_behind_the_panel() {
        let mut device = device();
        perform(&mut device, Call::PanelFill { word: 0x0102 });
        let mut resize = |width, height| {
            let line = perform(&mut device, Call::Resize { width, height });
            (line, device.panel.frame_counter, device.panel_bytes())
        };
        let before = [[2, 1].repeat(6), vec![0xA5; 18]].concat();
        for (width, height, line) in [
            (3, 2, "0"),
            (0, 9, "0"),
            (u32::MAX, 0, "0"),
            (4097, 1, "6"),
            (4096, 4096, "7"),
            (4, 4, "7"),
        ] {
            assert_eq!(resize(width, height), (line.into(), 1, before.clone()));
        }
        let after = [vec![0; 4], [2, 1].repeat(4), vec![0xA5; 18]].concat();
        assert_eq!(resize(1, 2), ("0".into(), 2, after));
        assert_eq!(resize(5, 3), ("0".into(), 3, vec![0; 30]));
    }

    #[test]
    fn an_overflow_changes_nothing() {
        let mut device = device();
        let calls = [
            rectangle(SCREEN, [i32::MAX - 1, 0, 3, 1]),
            fill(SCREEN, [1, 0, i32::MAX, 1], DSTINVERT),
            Call::text(SCREEN, i32::MAX - 7, 0, vec![0x20, 0x41]),
            blit(SCREEN, [0, 0, i32::MAX, 1], SCREEN, 1, SRCCOPY),
        ];
        for call in calls {
            assert!(device.perform(&call).is_err(), "{call}");
            assert_eq!((device.panel.frame_counter, words(&device, Place::Panel)), (0, vec![0; 6]));
        }
    }
}
