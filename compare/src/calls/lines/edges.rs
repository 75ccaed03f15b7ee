//! Fixed scripts of lines and moves.

use pocket_kernel::gdi::{
    GDI_HANDLE_BASE, GDI_SCREEN_DC, STOCK_DEFAULT_BITMAP, STOCK_NULL_PEN, STOCK_WHITE_BRUSH,
    STOCK_WHITE_PEN,
};

use super::{LEAST, MOST};
use crate::calls::call::Call;
use crate::calls::examples::{bitmap, delete, pen, remove, select, List};
use crate::calls::form::Form;
use crate::calls::script::{Header, HEADER};
use crate::calls::step::{Step, LOOK};

/// A panel of 9 by 7 and a store with room for some bitmaps.
const SMALL: Header = Header { panel_len: 126, store_len: 2000, width: 9, height: 7, fill: 0xA5 };
/// A panel on which a star of lines can be seen.
const SQUARE: Header = Header { panel_len: 1922, width: 31, height: 31, ..SMALL };
/// The smallest panels: a pixel, a column, a row, a square.
const SIDES: [[u32; 2]; 4] = [[1, 1], [1, 3], [3, 1], [2, 2]];

/// Offsets of ends: one in each octant, with and without halves, on the axes and on
/// the diagonals.
const OFFSETS: [[i32; 2]; 10] =
    [[5, 2], [2, 1], [4, 1], [6, 3], [4, 2], [7, 3], [4, 0], [3, 3], [6, 5], [1, 0]];

/// The examples, the limits, the refusals in their order, and bad calls.
pub fn scripts() -> Vec<Vec<u8>> {
    let mut scripts = vec![
        script(SMALL, &[examples, refusals, marks, pens, kept, removals]),
        script(SQUARE, &[star]),
        script(SMALL, &[limits]),
        script(Header { width: 5, height: 4, ..SMALL }, &[regions]),
    ];
    scripts.extend(SIDES.map(|[width, height]| script(Header { width, height, ..SMALL }, &[all])));
    scripts.extend(bad());
    scripts
}

/// The script of these parts, with a look after each part.
fn script(header: Header, parts: &[fn(&mut List)]) -> Vec<u8> {
    let mut script = header.bytes_as(Form::Gdi2);
    let steps = List::of(GDI_HANDLE_BASE, parts);
    steps.iter().for_each(|step: &Step| step.write(&mut script));
    script
}

fn go(dc: u32, [x, y]: [i32; 2]) -> Call {
    Call::Move { dc, x, y }
}

fn line(dc: u32, [x, y]: [i32; 2]) -> Call {
    Call::Line { dc, x, y }
}

fn ground() -> Call {
    Call::PanelFill { word: 0x0841 }
}

impl List {
    /// A new memory DC with a white pen and a bitmap of these sides.
    fn memory(&mut self, width: u32, height: u32) -> u32 {
        let dc = self.create(Call::CreateMemoryDc {});
        let bitmap = self.create(bitmap(width, height));
        self.add([select(dc, bitmap), select(dc, STOCK_WHITE_PEN)]);
        dc
    }

    /// A line from one point to another, seen alone on the panel.
    fn alone(&mut self, from: [i32; 2], to: [i32; 2]) {
        self.add([ground(), go(GDI_SCREEN_DC, from), line(GDI_SCREEN_DC, to)]);
        self.look();
    }
}

/// The worked examples and lines of every octant, on the panel and on a bitmap, from
/// a point in the middle.
fn examples(list: &mut List) {
    let memory = list.memory(9, 7);
    list.add([select(GDI_SCREEN_DC, STOCK_WHITE_PEN)]);
    for dc in [GDI_SCREEN_DC, memory] {
        // From the position of a fresh DC.
        list.add([line(dc, [5, 2])]);
        list.look();
        list.add([go(dc, [0, 0]), line(dc, [-2, -5])]);
        list.look();
        list.add([go(dc, [8, 6]), line(dc, [6, 1]), line(dc, [6, 1])]);
        list.look();
        list.add([go(dc, [3, 3]), line(dc, [3, 3]), go(dc, [0, 0]), line(dc, [2, 1])]);
        list.look();
    }
    for [long, short] in OFFSETS {
        for [dx, dy] in [[long, short], [short, long]] {
            for [sx, sy] in [[1, 1], [1, -1], [-1, 1], [-1, -1]] {
                list.alone([4, 3], [4 + sx * dx, 3 + sy * dy]);
            }
        }
    }
}

/// A line from the middle of the panel to each point of a rim, and back.
fn star(list: &mut List) {
    list.add([select(GDI_SCREEN_DC, STOCK_WHITE_PEN)]);
    for along in -16..16 {
        for [dx, dy] in [[along, -16], [16, along], [-along, 16], [-16, -along]] {
            list.alone([15, 15], [15 + dx, 15 + dy]);
            list.alone([15 + dx, 15 + dy], [15, 15]);
        }
    }
}

/// Absent DCs, a DC without a bitmap and one whose bitmap was deleted, each with an
/// end in range and with ends out of range. The moves show that no refused call has
/// moved a position.
fn refusals(list: &mut List) {
    let bare = list.create(Call::CreateMemoryDc {});
    let gone = list.create(Call::CreateMemoryDc {});
    let deleted = list.create(bitmap(2, 2));
    list.add([select(gone, deleted), line(gone, [4, 5]), delete(deleted)]);
    let absent = [0, STOCK_WHITE_BRUSH, STOCK_DEFAULT_BITMAP, deleted, list.next, u32::MAX];
    let out = [LEAST - 1, MOST + 1, i32::MIN, i32::MAX, 0x1_0000, -0x1_0000];
    let ends = out.into_iter().flat_map(|out| [[out, 1], [1, out], [out, out]]);
    for end in ends.chain([[1, 1]]) {
        for dc in absent.into_iter().chain([bare, gone, GDI_SCREEN_DC]) {
            list.add([line(dc, end), go(dc, end), go(dc, [2, 3])]);
        }
    }
}

/// Lines that make one mark, and lines that make none; on the panel, on a bitmap and
/// on the stock bitmap.
fn marks(list: &mut List) {
    let memory = list.memory(3, 2);
    let stock = list.create(Call::CreateMemoryDc {});
    list.add([select(stock, STOCK_DEFAULT_BITMAP)]);
    for dc in [GDI_SCREEN_DC, memory, stock] {
        list.add([go(dc, [-3, 0]), line(dc, [-1, 0]), line(dc, [-1, 0]), line(dc, [0, 0])]);
        list.look();
        list.add([line(dc, [0, 0]), line(dc, [0, -1])]);
        list.look();
        list.add([line(dc, [-9, 9]), line(dc, [20, 1]), line(dc, [1, 20])]);
        list.look();
    }
}

/// A pen's width has no effect; a DC keeps the colour of a deleted pen; the null pen
/// paints black.
fn pens(list: &mut List) {
    for width in [0, 1, 2, u32::MAX] {
        let thick = list.create(pen(0x0012_34FF ^ width, width));
        list.add([select(GDI_SCREEN_DC, thick), delete(thick)]);
        list.alone([1, 1], [7, 4]);
    }
    list.add([select(GDI_SCREEN_DC, STOCK_NULL_PEN)]);
    list.alone([1, 1], [7, 4]);
    list.add([select(GDI_SCREEN_DC, STOCK_WHITE_PEN)]);
}

/// Other calls leave the position: settings, selections, drawings, a deleted bitmap,
/// a resize.
fn kept(list: &mut List) {
    let dc = list.create(Call::CreateMemoryDc {});
    let [first, second] = [bitmap(3, 3), bitmap(4, 1)].map(|call| list.create(call));
    list.add([select(dc, first), select(dc, STOCK_WHITE_PEN), line(dc, [2, 1])]);
    for dc in [dc, GDI_SCREEN_DC] {
        list.add([
            Call::SetTextAlign { dc, align: 6 },
            Call::Rectangle { dc, x: 0, y: 0, w: 2, h: 2 },
            Call::text(dc, 0, 0, vec![0x41]),
        ]);
    }
    list.add([select(dc, second), line(dc, [0, 0]), delete(second), line(dc, [3, 3])]);
    list.add([select(dc, first), line(dc, [0, 2])]);
    list.look();
    list.add([Call::Resize { width: 7, height: 9 }, line(GDI_SCREEN_DC, [6, 8])]);
    list.look();
    list.add([Call::Resize { width: 9, height: 7 }]);
}

/// A removed DC's position is part of the answer; a new DC is at (0, 0); the DC
/// behind a deleted one keeps its position; the screen DC stays.
fn removals(list: &mut List) {
    let dcs = [(); 3].map(|()| list.create(Call::CreateMemoryDc {}));
    for (at, dc) in (1..).zip(dcs) {
        list.add([go(dc, [-at, 100 * at])]);
    }
    list.add([delete(dcs[0])]);
    list.look();
    list.add([remove(dcs[2]), remove(dcs[2]), go(dcs[0], [1, 1]), remove(GDI_SCREEN_DC)]);
    let new = list.create(Call::CreateMemoryDc {});
    list.add([go(new, [LEAST, MOST]), remove(new), remove(dcs[1]), delete(GDI_SCREEN_DC)]);
}

/// Lines between all corners and middles of the range, and the panel; just past the
/// range they are refused.
fn limits(list: &mut List) {
    list.add([select(GDI_SCREEN_DC, STOCK_WHITE_PEN)]);
    let ends = [LEAST, LEAST + 1, -1, 0, 3, 8, MOST - 1, MOST];
    let points: Vec<[i32; 2]> = ends.iter().flat_map(|&x| ends.map(|y| [x, y])).collect();
    for (at, &from) in points.iter().enumerate() {
        list.add([ground(), go(GDI_SCREEN_DC, from)]);
        // Seven lines of each start, other ones of the next.
        for to in points.iter().skip(at % 9).step_by(9) {
            list.add([line(GDI_SCREEN_DC, *to), go(GDI_SCREEN_DC, from)]);
        }
        list.look();
    }
    for out in [LEAST - 1, MOST + 1] {
        list.add([line(GDI_SCREEN_DC, [out, 0]), line(GDI_SCREEN_DC, [0, out])]);
        list.add([go(GDI_SCREEN_DC, [out, 0]), go(GDI_SCREEN_DC, [0, out])]);
    }
}

/// Lines from each side of a panel of 5 by 4 to each side, near and far.
fn regions(list: &mut List) {
    list.add([select(GDI_SCREEN_DC, STOCK_WHITE_PEN)]);
    let (columns, rows) = ([-40, -3, 0, 2, 4, 7, 50], [-30, -2, 0, 1, 3, 5, 44]);
    let points: Vec<[i32; 2]> = columns.iter().flat_map(|&x| rows.map(|y| [x, y])).collect();
    for (at, &from) in points.iter().enumerate() {
        for to in points.iter().skip(at % 3).step_by(3) {
            list.alone(from, *to);
        }
    }
}

/// Every line between points near a panel of a few pixels.
fn all(list: &mut List) {
    list.add([select(GDI_SCREEN_DC, STOCK_WHITE_PEN)]);
    let near = || (-2..5).flat_map(|x| (-2..5).map(move |y| [x, y]));
    for from in near() {
        for to in near() {
            list.alone(from, to);
        }
    }
}

/// Each byte as the first byte of a call, with nothing after it; moves and lines cut
/// short, and whole in a `GDI1` script; headers cut short and refused.
fn bad() -> Vec<Vec<u8>> {
    let small = SMALL.bytes_as(Form::Gdi2);
    let mut scripts: Vec<Vec<u8>> = (0..HEADER).map(|len| small[..len].to_vec()).collect();
    scripts.extend((0..=u8::MAX).map(|byte| [&small[..], &[0x01, byte]].concat()));
    for call in [go(GDI_SCREEN_DC, [1, 2]), line(GDI_SCREEN_DC, [1, 2])] {
        let bytes = call.bytes();
        scripts.extend((1..=bytes.len()).map(|len| [&small[..], &bytes[..len]].concat()));
        scripts.push([&SMALL.bytes()[..], &[0x01], &bytes, &[0x01]].concat());
    }
    for header in [Header { width: 0, ..SMALL }, Header { store_len: u32::MAX, ..SMALL }] {
        scripts.push([header.bytes_as(Form::Gdi2), vec![LOOK, 0x01]].concat());
    }
    scripts
}

#[cfg(test)]
mod tests {
    use super::*;
    use crate::calls::printed;
    use crate::calls::script::{answered, LONGEST};
    use crate::calls::tally::Tally;

    #[test]
    fn the_fixed_scripts_have_everything() {
        let mut tally = Tally::new();
        for script in scripts() {
            assert!(script.len() <= LONGEST, "{}", script.len());
            answered(&script, &mut tally).expect("no sum overflows");
        }
        assert!(tally.lines().lines() > 10_000, "{tally}");
    }

    #[test]
    fn the_examples_print_their_positions() {
        let lines = printed(&script(SMALL, &[examples]));
        let begin = "open 0\n01 0 dead1000\n02 0 dead1001\n08 0 dead5720\n08 0 dead5707\n\
                     08 0 dead5707\n14 0\npanel 9 7 frames 1 ";
        assert!(lines.starts_with(begin), "{lines}");
        assert!(lines.contains(" 0 5 2\nobject dead1000 dc memory "), "{lines}");
        assert!(lines.contains("\n13 0 5 2\n14 0\n"), "{lines}");
    }

    #[test]
    fn refused_calls_keep_positions() {
        let lines = printed(&script(SMALL, &[refusals]));
        let refused = |number: &str| {
            let lines = lines.lines().filter(|line| line.starts_with("14 "));
            lines.filter(|line| line[3..] == *number).count()
        };
        // 18 ends out of range and one in range; 6 absent DCs, 2 without a surface, the screen DC.
        assert_eq!(["1", "2", "11", "0"].map(refused), [19 * 6, 19 * 2, 18, 2]);
        let moves = lines.lines().filter(|line| line.starts_with("13 0 "));
        let others = moves.filter(|line| *line != "13 0 2 3");
        // The first moves of the three DCs; after the line and moves that are in range, the position
        // is that of the end.
        assert_eq!(
            others.collect::<Vec<_>>(),
            ["13 0 0 0", "13 0 4 5", "13 0 0 0", "13 0 1 1", "13 0 1 1", "13 0 1 1", "13 0 1 1"]
        );
    }

    #[test]
    fn bad_calls_end_the_script() {
        let texts: Vec<String> = bad().iter().map(|script| printed(script)).collect();
        let count = |line: &str| texts.iter().filter(|text| text.contains(line)).count();
        assert_eq!(count("bad script\n"), HEADER);
        // All bytes but those of two steps without arguments, twelve of each call's beginnings, and
        // each call in a GDI1 script.
        assert_eq!(count("\nbad call\n"), 254 + 2 * 12 + 2);
        assert_eq!((count("open 6\n"), count("too large\n")), (1, 1));
    }
}
