//! The smallest inputs of docs/DIFFERENCES.md for drawing and selection, on this
//! port and, where it has the operation, on the original.

use pocket_kernel::font;
use pocket_kernel::framebuffer::Framebuffer;
use pocket_kernel::gdi::{self, GdiState, Surface};
use ravinefork::{
    rop3, Area, Bitmap, Colorref, Device, GdiObject, Handle, Pen, Point, Refusal, Rgb565,
};

const SCREEN_DC: Handle = Handle::GDI_SCREEN_DC;
const ONE: Area = Area { x: 0, y: 0, w: 1, h: 1 };

/// A device with a white panel of these sides, and the original's panel.
fn white(width: u32, height: u32) -> (Device, Framebuffer) {
    let bytes = 2 * width as usize * height as usize;
    let mut ours = Device::open(width, height, bytes, 64).expect("a device");
    ours.panel_fill(Rgb565(0xFFFF)).expect("a fill");
    let mut theirs = Framebuffer::new(width, height);
    theirs.fill(0xFFFF);
    (ours, theirs)
}

/// The pixel at a place of a surface of this width.
fn pixel(bytes: &[u8], width: usize, x: usize, y: usize) -> u16 {
    let at = 2 * (width * y + x);
    u16::from_le_bytes([bytes[at], bytes[at + 1]])
}

#[test]
fn a_pattern_fill_under_a_code_that_uses_the_source_takes_0_for_it() {
    let (mut ours, mut theirs) = white(1, 1);
    ours.pattern_fill(SCREEN_DC, ONE, rop3::SRCCOPY).expect("a fill");
    Surface::Screen(&mut theirs).fill_rect_rop(0, 0, 1, 1, 0xFFFF, gdi::rop3::SRCCOPY);
    assert_eq!((ours.panel(), theirs.pixels.as_slice()), ([0; 2].as_slice(), [0; 2].as_slice()));
}

#[test]
fn each_side_of_0_becomes_1() {
    let mut ours = Device::open(1, 1, 2, 64).expect("a device");
    let bitmap = ours.create_compatible_bitmap(0, 2).expect("a bitmap");
    let sides = Bitmap { width: 1, height: 2, host_dirty: false };
    assert_eq!(ours.get(bitmap), Some(GdiObject::Bitmap(sides)));
    let mut theirs = GdiState::new();
    let bitmap = theirs.create_compatible_bitmap(0, 2);
    let bitmap = theirs.bitmap(bitmap).expect("a bitmap");
    assert_eq!((bitmap.width, bitmap.height), (1, 2));
}

#[test]
fn a_deleted_brush_still_paints_and_a_bitmap_goes_into_two_dcs() {
    let (mut ours, _) = white(1, 1);
    let brush = ours.create_solid_brush(Colorref(0x0000_00FF)).expect("a brush");
    ours.select_into(SCREEN_DC, brush).expect("a selection");
    assert_eq!(ours.delete(brush), Ok(true));
    ours.pattern_fill(SCREEN_DC, ONE, rop3::PATCOPY).expect("a fill");
    assert_eq!(pixel(ours.panel(), 1, 0, 0), 0xF800);

    let bitmap = ours.create_compatible_bitmap(1, 1).expect("a bitmap");
    for _ in 0..2 {
        let dc = ours.create_memory_dc().expect("a DC");
        assert_eq!(ours.select_into(dc, bitmap), Ok(Handle::STOCK_DEFAULT_BITMAP));
    }
}

#[test]
fn a_screen_dc_with_a_bitmap_draws_on_the_panel() {
    let (mut ours, _) = white(1, 1);
    let bitmap = ours.create_compatible_bitmap(1, 1).expect("a bitmap");
    assert_eq!(ours.select_into(SCREEN_DC, bitmap), Ok(Handle::STOCK_DEFAULT_BITMAP));
    ours.pattern_fill(SCREEN_DC, ONE, rop3::DSTINVERT).expect("a fill");
    assert_eq!(pixel(ours.panel(), 1, 0, 0), 0);
    assert_eq!(ours.bitmap_pixels(bitmap), Some([0; 2].as_slice()));

    let mut theirs = GdiState::new();
    let bitmap = theirs.create_compatible_bitmap(1, 1);
    let before = theirs.select_into(gdi::GDI_SCREEN_DC, bitmap);
    assert_eq!(before, gdi::STOCK_DEFAULT_BITMAP);
    let screen = theirs.dc(gdi::GDI_SCREEN_DC).expect("the screen DC");
    assert_eq!((screen.surface, screen.selected_bitmap), (gdi::DcSurface::Screen, Some(bitmap)));
}

#[test]
fn unit_0_ends_a_text_and_no_background_is_drawn() {
    let units = [0x41, 0, 0x42];
    let (mut ours, mut theirs) = white(12, 8);
    ours.set_bk_mode(SCREEN_DC, false).expect("opaque mode");
    ours.set_bk_color(SCREEN_DC, Colorref(0x0000_00FF)).expect("a colour");
    assert_eq!(ours.text_out(SCREEN_DC, Point { x: 0, y: 0 }, &units), Ok(6));
    let advance = font::draw_str_u16(&mut Surface::Screen(&mut theirs), 0, 0, &units, 0);
    assert_eq!((advance, theirs.pixels.as_slice()), (6, ours.panel()));
    let inked = |x| (0..8).any(|y| pixel(ours.panel(), 12, x, y) == 0);
    assert!((0..5).all(inked) && !(5..12).any(inked));
    assert!(ours.panel().iter().all(|&byte| byte == 0 || byte == 0xFF));
}

#[test]
fn an_outline_is_one_pixel_thick_whatever_the_pen_s_width() {
    let (mut ours, mut theirs) = white(3, 3);
    let pen = ours.create_pen(Colorref(0), 3).expect("a pen");
    ours.select_into(SCREEN_DC, pen).expect("a selection");
    ours.rectangle(SCREEN_DC, Area { x: 0, y: 0, w: 3, h: 3 }).expect("a rectangle");
    Surface::Screen(&mut theirs).stroke_rect(0, 0, 3, 3, 0);
    assert_eq!(ours.panel(), theirs.pixels);
    assert_eq!(pixel(ours.panel(), 3, 1, 1), 0xFFFF);
    let width = Pen { color: Colorref(0), width: 3 };
    assert_eq!(ours.get(pen), Some(GdiObject::Pen(width)));
}

#[test]
fn a_line_is_one_pixel_thick_and_its_tie_rounds_away_from_the_start() {
    let (mut ours, _) = white(3, 3);
    let pen = ours.create_pen(Colorref(0), 3).expect("a pen");
    ours.select_into(SCREEN_DC, pen).expect("a selection");
    ours.line_to(SCREEN_DC, Point { x: 2, y: 1 }).expect("a line");
    let black: Vec<_> = (0..9).filter(|at| pixel(ours.panel(), 3, at % 3, at / 3) == 0).collect();
    assert_eq!(black, [0, 4], "(0, 0) and (1, 1)");
    let refused = ours.move_to(SCREEN_DC, Point { x: 32_768, y: 0 });
    assert_eq!(refused, Err(Refusal::POSITION));
}

#[test]
fn the_null_brush_and_the_null_pen_are_black() {
    let (mut ours, _) = white(3, 3);
    for stock in [Handle::STOCK_NULL_BRUSH, Handle::STOCK_NULL_PEN] {
        ours.select_into(SCREEN_DC, stock).expect("a selection");
    }
    ours.rectangle(SCREEN_DC, Area { x: 0, y: 0, w: 3, h: 3 }).expect("a rectangle");
    assert_eq!(ours.panel(), [0; 18]);
}

#[test]
fn no_call_reads_a_stock_pen() {
    let mut ours = Device::open(1, 1, 2, 2).expect("a device");
    let stock = [Handle::STOCK_BLACK_PEN, Handle::STOCK_NULL_PEN, Handle::STOCK_SYSTEM_FONT];
    for handle in stock {
        assert_eq!(ours.remove(handle), Ok(None));
    }
    let theirs = GdiState::new();
    let widths = [gdi::STOCK_WHITE_PEN, gdi::STOCK_BLACK_PEN, gdi::STOCK_NULL_PEN]
        .map(|handle| theirs.pen(handle).expect("a stock pen").width);
    assert_eq!(widths, [1, 1, 0]);
}

#[test]
fn notsrcerase_has_the_table_of_microsoft_s_code() {
    for code in [rop3::NOTSRCERASE, 0x0011_00A6] {
        let (mut ours, _) = white(1, 1);
        ours.blit(SCREEN_DC, ONE, SCREEN_DC, Point { x: 0, y: 0 }, code).expect("a blit");
        assert_eq!(pixel(ours.panel(), 1, 0, 0), 0);
    }
}
