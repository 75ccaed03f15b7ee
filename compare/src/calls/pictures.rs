//! Drawings that can be checked by hand.

use pocket_kernel::gdi::rop3::{
    BLACKNESS, DSTINVERT, PATCOPY, PATINVERT, SRCAND, SRCCOPY, SRCINVERT, WHITENESS,
};
use pocket_kernel::gdi::{
    GDI_SCREEN_DC, STOCK_DEFAULT_BITMAP, STOCK_NULL_BRUSH, STOCK_WHITE_BRUSH,
};

use super::call::Call;
use super::examples::{bitmap, brush, delete, pen, remove, select, List};
use super::step::Step;

/// How many bytes the bitmaps that stay have.
pub const BYTES: u32 = 2 * (4 * 256 + 20 * 10 + 8 * 6 + 3 + 4 * 3 + 8 * 8 + 2 * 3);

/// Red, green, blue and a few more, as COLORREFs.
const RED: u32 = 0x0000_00FF;
const GREEN: u32 = 0x0000_FF00;
const BLUE: u32 = 0x00FF_0000;
const AMBER: u32 = 0x0000_A5FF;
const WHITE: u32 = 0x00FF_FFFF;

/// Every drawing call and every refusal of each, with their results kept in
/// bitmaps, on a device with a panel memory of 963 bytes and this next handle.
pub fn steps(next: u32) -> Vec<Step> {
    List::of(next, &[panel, refusals, tables, boxes, overlaps, ink, moves, stock])
}

fn fill(dc: u32, [x, y, w, h]: [i32; 4], code: u32) -> Call {
    Call::PatternFill { dc, x, y, w, h, code }
}

fn rectangle(dc: u32, [x, y, w, h]: [i32; 4]) -> Call {
    Call::Rectangle { dc, x, y, w, h }
}

fn text(dc: u32, x: i32, y: i32, text: &str) -> Call {
    Call::text(dc, x, y, text.encode_utf16().collect())
}

fn blit(dc: u32, [x, y, w, h]: [i32; 4], source: u32, [sx, sy]: [i32; 2], code: u32) -> Call {
    Call::Blit { dc, x, y, w, h, source, sx, sy, code }
}

fn resize(width: u32, height: u32) -> Call {
    Call::Resize { width, height }
}

impl List {
    /// Selects a brush of this colour into the DC and deletes the brush. The DC
    /// keeps the colour.
    fn brush(&mut self, dc: u32, color: u32) {
        let brush = self.create(brush(color));
        self.add([select(dc, brush), delete(brush)]);
    }

    fn pen(&mut self, dc: u32, color: u32) {
        let pen = self.create(pen(color, 1));
        self.add([select(dc, pen), delete(pen)]);
    }

    /// A new memory DC and the bitmap that is selected into it.
    fn surface(&mut self, width: u32, height: u32) -> (u32, u32) {
        let dc = self.create(Call::CreateMemoryDc {});
        let bitmap = self.create(bitmap(width, height));
        self.add([select(dc, bitmap)]);
        (dc, bitmap)
    }
}

/// Resizes: larger, to the present sides, with a side of 0, refused, with the sides
/// exchanged, smaller. Bytes of the larger panel past the smaller one are kept.
fn panel(list: &mut List) {
    list.add([
        resize(3, 2),
        resize(24, 20),
        Call::PanelFill { word: 0xF81F },
        resize(24, 20),
        resize(0, 20),
        resize(24, 0),
        resize(0, u32::MAX),
        resize(4097, 1),
        resize(1, 4097),
        resize(u32::MAX, u32::MAX),
        resize(4096, 4096),
        resize(22, 22),
        resize(20, 24),
        Call::PanelFill { word: 0x07FF },
        resize(24, 16),
        Call::PanelFill { word: 0x0841 },
    ]);
}

/// All calls that draw on a DC. The blits are from another DC: under a code that
/// uses S, with an empty box, under a code that does not use S.
fn through(dc: u32, source: u32) -> [Call; 7] {
    let at = [20, 14, 2, 1];
    [
        fill(dc, at, PATINVERT),
        rectangle(dc, at),
        text(dc, 20, 14, "A"),
        text(dc, 20, 14, ""),
        blit(dc, at, source, [0, 0], SRCCOPY),
        blit(dc, [20, 14, 0, -1], source, [0, 0], SRCINVERT),
        blit(dc, at, source, [0, 0], PATCOPY),
    ]
}

/// Refusals 1 to 4 in their order: an absent DC, a DC without a surface, a DC whose
/// bitmap was deleted; each as target and as source.
fn refusals(list: &mut List) {
    let screen = GDI_SCREEN_DC;
    let none = list.create(Call::CreateMemoryDc {});
    let (gone, bitmap) = list.surface(2, 2);
    list.add(through(gone, gone));
    list.add([delete(bitmap)]);
    let made = list.create(brush(RED));
    let absent = [0, made, STOCK_WHITE_BRUSH, STOCK_DEFAULT_BITMAP, list.next, u32::MAX];
    for dc in absent {
        list.add(through(dc, screen));
        list.add(through(screen, dc));
    }
    for dc in [none, gone] {
        list.add(through(dc, screen));
        list.add(through(screen, dc));
        list.add(through(absent[0], dc));
        list.add(through(dc, absent[0]));
        list.add(through(dc, dc));
    }
    list.add([delete(none), delete(gone), delete(made)]);
}

/// Every table, each in its own pixel: as a fill, as a blit from an absent source,
/// which is refused if the table uses S, and as a blit.
fn tables(list: &mut List) {
    let (source, _) = list.surface(16, 16);
    list.brush(source, colorref(0x0F0F));
    list.add([fill(source, [0, 0, 16, 16], PATCOPY)]);
    for from in [None, Some(0), Some(source)] {
        let (dc, _) = list.surface(16, 16);
        list.brush(dc, colorref(0x3333));
        list.add([fill(dc, [0, 0, 16, 16], PATCOPY)]);
        list.brush(dc, colorref(0x00FF));
        for table in 0..256 {
            let (at, code) = ([table % 16, table / 16, 1, 1], (table as u32) << 16);
            list.add([match from {
                None => fill(dc, at, code),
                Some(from) => blit(dc, at, from, [at[0], at[1]], code),
            }]);
        }
    }
}

/// A COLORREF that packs to the word.
fn colorref(word: u16) -> u32 {
    let word = u32::from(word);
    (word & 0x1F) << 19 | (word >> 5 & 0x3F) << 10 | word >> 11 << 3
}

/// Boxes on a bitmap and on the panel: visible, cut at each side, not visible,
/// empty, at the ends of 32 bits. A rectangle makes two marks, one, or none.
fn boxes(list: &mut List) {
    let (dc, bitmap) = list.surface(8, 6);
    // A bitmap that is selected into the screen DC has no effect.
    list.add([select(GDI_SCREEN_DC, bitmap)]);
    for dc in [GDI_SCREEN_DC, dc] {
        list.brush(dc, BLUE);
        list.pen(dc, AMBER);
        list.add([
            rectangle(dc, [1, 1, 4, 3]),
            rectangle(dc, [-1, 3, 3, 9]),
            rectangle(dc, [6, -1, 9, 3]),
            rectangle(dc, [2, 2, 1, 1]),
            rectangle(dc, [30, 30, 2, 2]),
            rectangle(dc, [-2, 0, 2, 2]),
            rectangle(dc, [0, 0, 0, 2]),
            rectangle(dc, [0, 0, 2, -1]),
            rectangle(dc, [0, 0, i32::MIN, i32::MAX]),
        ]);
        list.brush(dc, GREEN);
        list.add([
            fill(dc, [1, 0, i32::MAX - 1, 1], PATINVERT),
            fill(dc, [0, 4, i32::MAX, 1], PATCOPY),
            fill(dc, [i32::MIN, i32::MIN, i32::MAX, i32::MAX], WHITENESS),
            fill(dc, [i32::MAX, 0, i32::MIN, 1], WHITENESS),
            fill(dc, [30, 0, 1, 6], BLACKNESS),
            fill(dc, [3, 0, 1, 0], BLACKNESS),
            fill(dc, [2, 3, 3, 2], DSTINVERT),
            blit(dc, [4, 1, 2, 2], u32::MAX, [9, 9], DSTINVERT),
            blit(dc, [-1, -1, 2, 2], 0, [0, 0], PATINVERT),
        ]);
    }
}

/// Three pixels in a row, moved right and left, on the panel and in a bitmap:
/// a a b, then a b b. Then blocks moved down, up and diagonally, between two
/// bitmaps, and between a bitmap and the panel.
fn overlaps(list: &mut List) {
    let (dc, _) = list.surface(3, 1);
    for (dc, y) in [(GDI_SCREEN_DC, 15), (dc, 0)] {
        for (x, color) in [(0, RED), (1, GREEN), (2, BLUE)] {
            list.brush(dc, color);
            list.add([fill(dc, [x, y, 1, 1], PATCOPY)]);
        }
        list.add([
            blit(dc, [1, y, 2, 1], dc, [0, y], SRCCOPY),
            blit(dc, [0, y, 2, 1], dc, [1, y], SRCCOPY),
            blit(dc, [1, y, 2, 1], dc, [0, y], SRCCOPY),
        ]);
    }
    let (block, _) = list.surface(4, 3);
    list.brush(block, AMBER);
    list.add([fill(block, [0, 0, 2, 1], PATCOPY), text(block, -1, -2, "X")]);
    list.add([
        blit(block, [1, 1, 3, 2], block, [0, 0], SRCCOPY),
        blit(block, [0, 0, 4, 2], block, [0, 1], SRCINVERT),
        blit(block, [0, 0, 4, 3], block, [0, 0], SRCAND),
        blit(block, [-1, 1, 9, 9], block, [0, -1], SRCCOPY),
        // To the earlier bitmap and back, to the panel and back.
        blit(dc, [0, 0, 1, 1], block, [3, 2], SRCCOPY),
        blit(block, [0, 2, 3, 1], dc, [0, 0], SRCINVERT),
        blit(GDI_SCREEN_DC, [10, 12, 4, 3], block, [0, 0], SRCCOPY),
        blit(block, [2, 0, 2, 2], GDI_SCREEN_DC, [0, 14], SRCCOPY),
        blit(GDI_SCREEN_DC, [8, 10, 6, 4], GDI_SCREEN_DC, [10, 12], SRCCOPY),
    ]);
}

/// Texts on 20 by 10: cut at each side, ended by unit 0, with units that have no
/// glyph, not visible, without a unit.
fn ink(list: &mut List) {
    let (dc, _) = list.surface(20, 10);
    list.add([text(dc, 0, 0, "!"), Call::SetTextColor { dc, color: AMBER }]);
    list.add([
        text(dc, -4, -1, "AB"),
        text(dc, 8, 1, "gh"),
        text(dc, 2, 6, "~\u{141}\u{7F}\u{1F600}"),
        text(dc, 14, 0, "i\0j"),
        text(dc, 0, 0, "\0Z"),
        text(dc, 0, 0, ""),
        text(dc, 100, 0, "far"),
        text(dc, i32::MIN, i32::MIN, "far"),
        Call::SetTextColor { dc: GDI_SCREEN_DC, color: 0xFF00_0000 | GREEN },
        text(GDI_SCREEN_DC, 6, 8, "ok"),
    ]);
}

/// Three drawn bitmaps. The second and then the first is deleted; the third moves
/// down with its colours and is drawn on again.
fn moves(list: &mut List) {
    let sides = [(3, 2), (5, 5), (8, 8)];
    let [first, second, third] = sides.map(|(width, height)| list.surface(width, height));
    for ((dc, _), color) in [(first, RED), (second, GREEN), (third, WHITE)] {
        list.brush(dc, color);
        list.pen(dc, BLUE);
        list.add([rectangle(dc, [0, 0, 8, 8]), rectangle(dc, [1, 1, 2, 2])]);
    }
    let (dc, _) = third;
    list.add([
        delete(second.1),
        text(dc, 2, 1, "D"),
        fill(second.0, [0, 0, 1, 1], DSTINVERT),
        remove(first.1),
        blit(dc, [4, 4, 4, 4], dc, [0, 0], SRCINVERT),
        blit(GDI_SCREEN_DC, [16, 2, 8, 8], dc, [0, 0], SRCCOPY),
        blit(GDI_SCREEN_DC, [16, 2, 8, 8], first.0, [0, 0], SRCCOPY),
    ]);
    // A new bitmap is black, also on bytes that another bitmap had.
    list.surface(2, 3);
}

/// The stock bitmap: filled, outlined, written on, and blitted both ways.
fn stock(list: &mut List) {
    let dc = list.create(Call::CreateMemoryDc {});
    list.add([
        text(dc, 0, 0, "."),
        select(dc, STOCK_DEFAULT_BITMAP),
        select(dc, STOCK_NULL_BRUSH),
        fill(dc, [0, 0, 1, 1], PATCOPY),
        rectangle(dc, [-1, -1, 3, 3]),
    ]);
    list.brush(dc, RED);
    list.add([
        rectangle(dc, [0, 0, 1, 1]),
        text(dc, -2, 0, "!"),
        text(dc, -2, 0, " "),
        fill(dc, [-3, -3, 9, 9], PATINVERT),
        blit(GDI_SCREEN_DC, [23, 0, 1, 1], dc, [0, 0], SRCCOPY),
        blit(GDI_SCREEN_DC, [22, 0, 2, 2], dc, [-1, 0], SRCINVERT),
        blit(dc, [0, 0, 1, 1], GDI_SCREEN_DC, [0, 15], SRCCOPY),
        blit(dc, [0, 0, 1, 1], dc, [0, 0], SRCCOPY),
        delete(STOCK_DEFAULT_BITMAP),
        remove(STOCK_DEFAULT_BITMAP),
        fill(dc, [0, 0, 1, 1], DSTINVERT),
    ]);
}
