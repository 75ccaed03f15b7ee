//! Calls that can be checked by hand.

use pocket_kernel::gdi::rop3::PATCOPY;
use pocket_kernel::gdi::{
    GDI_HANDLE_BASE, GDI_SCREEN_DC, STOCK_BLACK_PEN, STOCK_DEFAULT_BITMAP, STOCK_NULL_BRUSH,
    STOCK_SYSTEM_FONT, STOCK_WHITE_BRUSH,
};

use super::call::Call;
use super::device::MAX_OBJECTS;
use super::handle::STOCK;
use super::step::Step;

/// How many bytes of the store the examples of `room` need: two bitmaps with the
/// longest side, and 14 bytes.
pub const ROOM: u32 = 2 * 8192 + 14;

/// Every call that does not draw, every kind of answer, and the most objects that
/// there can be. At the end all objects are deleted.
pub fn steps() -> Vec<Step> {
    List::of(GDI_HANDLE_BASE, &[settings, selections, removals, crowd])
}

/// Sides above the limit, and bitmaps that just fit the store or just do not, on a
/// device with `ROOM` free bytes and this next handle. At the end four bytes of the
/// store are free, which a bitmap had before.
pub fn room(next: u32) -> Vec<Step> {
    let mut list = List::new(next);
    for side in [4097, 0x1_0000, 0x8000_0000, u32::MAX] {
        list.add([bitmap(side, 0), bitmap(0, side), bitmap(side, side)]);
    }
    list.add([bitmap(4096, 4096), bitmap(4096, 3), bitmap(3, 4096)]);
    let wide = list.create(bitmap(4096, 0));
    list.create(bitmap(0, 4096));
    list.add([bitmap(2, 4)]);
    let last = list.create(bitmap(1, 7));
    list.add([bitmap(0, 0), delete(wide), bitmap(4096, 2)]);
    // The other two have moved down; the new one follows them.
    list.create(bitmap(64, 64));
    list.add([bitmap(1, 1), remove(last)]);
    let before = list.create(bitmap(1, 2));
    // As many bytes are free as on a fresh device with a store of 12 bytes.
    list.add([bitmap(1, 6)]);
    let last = list.create(bitmap(0, 5));
    list.add([bitmap(1, 1)]);
    // A white bitmap at the end of the store moves down, and the bytes that it leaves become 0.
    let dc = list.create(Call::CreateMemoryDc {});
    let white = Call::PatternFill { dc, x: 0, y: 0, w: 1, h: 5, code: PATCOPY };
    list.add([select(dc, last), white, delete(before)]);
    list.steps
}

/// Steps, and the handle that the next create call returns.
pub struct List {
    pub steps: Vec<Step>,
    pub next: u32,
}

impl List {
    pub fn new(next: u32) -> Self {
        Self { steps: Vec::new(), next }
    }

    /// The steps of these parts, with a look after each part.
    pub fn of(next: u32, parts: &[fn(&mut List)]) -> Vec<Step> {
        let mut list = List::new(next);
        for part in parts {
            part(&mut list);
            list.look();
        }
        list.steps
    }

    pub fn add(&mut self, calls: impl IntoIterator<Item = Call>) {
        self.steps.extend(calls.into_iter().map(Step::Call));
    }

    pub fn look(&mut self) {
        self.steps.push(Step::Look);
    }

    /// Adds a create call that is accepted. Returns its handle.
    pub fn create(&mut self, call: Call) -> u32 {
        self.add([call]);
        self.next += 1;
        self.next - 1
    }
}

pub fn bitmap(width: u32, height: u32) -> Call {
    Call::CreateCompatibleBitmap { width, height }
}

pub fn brush(color: u32) -> Call {
    Call::CreateSolidBrush { color }
}

pub fn pen(color: u32, width: u32) -> Call {
    Call::CreatePen { color, width }
}

fn font(height: i32) -> Call {
    Call::CreateFont { height }
}

pub fn select(dc: u32, object: u32) -> Call {
    Call::Select { dc, object }
}

pub fn delete(handle: u32) -> Call {
    Call::Delete { handle }
}

pub fn remove(handle: u32) -> Call {
    Call::Remove { handle }
}

/// The four settings of a DC.
fn set(dc: u32, value: u32, transparent: u32) -> [Call; 4] {
    [
        Call::SetTextColor { dc, color: value },
        Call::SetTextAlign { dc, align: value + 1 },
        Call::SetBkColor { dc, color: value + 2 },
        Call::SetBkMode { dc, transparent },
    ]
}

/// Settings of the screen DC and of a created one, each set twice so that the
/// second answer shows the first value; then of handles that are no DC.
fn settings(list: &mut List) {
    list.add(set(GDI_SCREEN_DC, 0x0012_3456, 1));
    list.add(set(GDI_SCREEN_DC, 0xFFFF_FFF0, 1));
    let dc = list.create(Call::CreateMemoryDc {});
    list.add(set(dc, 0x00C0_C0C0, 1));
    list.add(set(dc, 0x8000_0000, 0));
    let made = list.create(brush(0));
    for absent in [0, made, STOCK_WHITE_BRUSH, STOCK_DEFAULT_BITMAP, list.next, u32::MAX] {
        list.add(set(absent, 7, 1));
    }
    list.add([delete(dc), delete(made)]);
    list.add(set(dc, 7, 1));
}

/// Every kind of object selected into both kinds of DC, for the first and the
/// second time; then handles that cannot be selected, and deleted objects.
fn selections(list: &mut List) {
    let dc = list.create(Call::CreateMemoryDc {});
    let first = [bitmap(0, 5), brush(0x0011_2233), pen(0xFF44_5566, 3), font(-12)];
    let second = [bitmap(3, 0), brush(0xFF00_0000), pen(0x0077_8899, 0), font(0)];
    let first = first.map(|call| list.create(call));
    let second = second.map(|call| list.create(call));
    let stock = [STOCK_DEFAULT_BITMAP, STOCK_NULL_BRUSH, STOCK_BLACK_PEN, STOCK_SYSTEM_FONT];
    for dc in [dc, GDI_SCREEN_DC] {
        for object in [first, second, stock].concat() {
            list.add([select(dc, object), select(dc, object)]);
        }
        for object in [dc, GDI_SCREEN_DC, 0, list.next] {
            list.add([select(dc, object)]);
        }
        // The object is deleted while it is selected; the DC keeps its handle and colour.
        list.add(first.map(|object| select(dc, object)));
    }
    for absent in [0, first[0], first[1], STOCK_WHITE_BRUSH, list.next] {
        list.add([select(absent, second[1])]);
    }
    list.add(first.map(delete));
    list.add(first.map(|object| select(dc, object)));
    list.add(second.map(|object| select(dc, object)));
    list.add([delete(dc), select(dc, second[1])]);
    list.add(second.map(delete));
}

/// Stock handles, which stay; then an object of every kind, removed twice.
fn removals(list: &mut List) {
    for stock in STOCK {
        list.add([delete(stock), remove(stock)]);
    }
    list.add([delete(0), remove(0), delete(list.next), remove(list.next)]);
    let dc = list.create(Call::CreateMemoryDc {});
    let kinds = [bitmap(2, 3), brush(0x00AB_CDEF), pen(1, u32::MAX), font(i32::MIN)];
    let objects = kinds.map(|call| list.create(call));
    list.add(objects.map(|object| select(dc, object)));
    list.add(set(dc, 0x0F0F_0F0F, 1));
    let fresh = list.create(Call::CreateMemoryDc {});
    for handle in objects.into_iter().chain([dc, fresh]) {
        list.add([remove(handle), remove(handle), delete(handle)]);
    }
}

/// The most objects that there can be, then a look, then one more of each kind.
fn crowd(list: &mut List) {
    let first = list.create(bitmap(2, 2));
    for number in 1..MAX_OBJECTS as u32 {
        list.create(brush(number));
    }
    let more = || [Call::CreateMemoryDc {}, bitmap(0, 0), brush(0), pen(0, 0), font(0)];
    list.add(more());
    list.add([bitmap(4096, 4096), bitmap(4097, 0)]);
    list.add([delete(first + 100), bitmap(4096, 4096)]);
    let last = list.create(Call::CreateMemoryDc {});
    list.add(more());
    list.look();
    list.add([select(last, first), select(last, first + 99), select(last, first + 100)]);
    list.add((first..=last).map(delete));
}
