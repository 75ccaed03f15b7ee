//! A device without the original: its record is a table's plain values. It loads,
//! saves, creates fonts, and fills whole surfaces with white.

use pocket_kernel::gdi::rop3::WHITENESS;
use pocket_kernel::gdi::{DcSurface, GdiState, GDI_HANDLE_BASE, GDI_SCREEN_DC};
use pocket_kernel::gdi::{STOCK_DEFAULT_BITMAP, STOCK_SYSTEM_FONT};

use super::record::Script;
use super::table::{Dc, Fields, Object, Table, FORM};
use super::tally::Tally;
use super::{fitting, saved, Unfit};
use crate::calls::call::Call;
use crate::calls::device::{MAX_OBJECTS, MAX_SIDE};
use crate::calls::line;
use crate::calls::lines::Point;
use crate::calls::original::free;
use crate::calls::outcome::{Answer, Outcome};
use crate::calls::script::{Answered, Header};
use crate::calls::step::Step;
use crate::crc::crc32;

pub struct Plain {
    table: Table,
    frames: u64,
    stock_dirty: bool,
    panel: Vec<u8>,
    store: Vec<u8>,
    fill: u8,
    /// Why the last load was refused, if it was.
    unfit: Option<Unfit>,
}

/// A fill of the whole surface of a DC with white.
pub fn white(dc: u32) -> Call {
    let side = MAX_SIDE as i32;
    Call::PatternFill { dc, x: 0, y: 0, w: side, h: side, code: WHITENESS }
}

impl Plain {
    /// A fresh device. The header is one that opens.
    pub fn open(header: &Header) -> Self {
        let memory = |len: u32, black: u64| {
            let mut memory = vec![header.fill; len as usize];
            memory[..black as usize].fill(0);
            memory
        };
        let fresh = GdiState::new();
        let screen = fresh.dc(GDI_SCREEN_DC).expect("the screen DC is stock");
        let table = Table {
            form: FORM,
            width: header.width,
            height: header.height,
            next: GDI_HANDLE_BASE,
            count: 0,
            screen: Dc::of(screen, Point::default()),
            objects: Vec::new(),
        };
        Self {
            frames: 0,
            stock_dirty: false,
            panel: memory(header.panel_len, table.panel_bytes()),
            store: memory(header.store_len, 2),
            table,
            fill: header.fill,
            unfit: None,
        }
    }

    /// Performs a call of those that it has.
    fn perform(&mut self, call: &Call) -> Outcome {
        let panel = [self.table.width, self.table.height];
        let answer = match call {
            Call::Load { bytes } => {
                let loaded = self.load(bytes.as_slice());
                self.unfit = loaded.err();
                loaded.map(|()| Answer::Nothing).map_err(u8::from)
            }
            Call::Save { room } => saved(&self.table, *room as usize, self.fill),
            Call::CreateFont { height } => self.create_font(*height).map(Answer::Number),
            Call::PatternFill { dc, code: WHITENESS, .. } => {
                self.whiten(*dc).map(|()| Answer::Nothing)
            }
            _ => unreachable!("{call} is not for this device"),
        };
        let (refusal, answer) = match answer {
            Ok(answer) => (0, answer),
            Err(number) => (number, Answer::refused(call, self.fill)),
        };
        Outcome { refusal, answer, changed: false, panel }
    }

    /// Loads a table: the panel and the store past the stock bitmap become black, and
    /// the panel has one mark more.
    fn load(&mut self, bytes: &[u8]) -> Result<(), Unfit> {
        self.table = fitting(bytes, self.panel.len(), self.store.len())?;
        self.panel[..self.table.panel_bytes() as usize].fill(0);
        self.store[2..].fill(0);
        self.frames = self.frames.wrapping_add(1);
        Ok(())
    }

    /// Creates a font, or refuses with 5. Its handle is the first free one.
    fn create_font(&mut self, height: i32) -> Result<u32, u8> {
        let Table { next, count, objects, .. } = &mut self.table;
        if objects.len() >= MAX_OBJECTS {
            return Err(5);
        }
        let handle = free(*next, |handle| objects.iter().any(|object| object.handle == handle));
        objects.push(Object { handle, fields: Fields::Font { height } });
        *count += 1;
        *next = handle.wrapping_add(1);
        Ok(handle)
    }

    /// Makes the surface of a DC white and marks it, or refuses: 1 no such DC, then 2
    /// no surface.
    fn whiten(&mut self, dc: u32) -> Result<(), u8> {
        if dc == GDI_SCREEN_DC {
            self.panel[..self.table.panel_bytes() as usize].fill(0xFF);
            self.frames = self.frames.wrapping_add(1);
            return Ok(());
        }
        let found = self.table.objects.iter().find(|object| object.handle == dc);
        let Some(Fields::Dc(dc)) = found.map(|object| &object.fields) else {
            return Err(1);
        };
        if !dc.present {
            return Err(2);
        }
        if dc.bitmap == STOCK_DEFAULT_BITMAP {
            self.store[..2].fill(0xFF);
            self.stock_dirty = true;
            return Ok(());
        }
        let (bitmap, mut start) = (dc.bitmap, 2);
        for Object { handle, fields } in &mut self.table.objects {
            let end = start + fields.pixel_bytes() as usize;
            if let (true, Fields::Bitmap { dirty, .. }) = (*handle == bitmap, fields) {
                self.store[start..end].fill(0xFF);
                *dirty = true;
                return Ok(());
            }
            start = end;
        }
        Err(2)
    }

    /// The state lines.
    fn state(&self) -> Vec<String> {
        let Table { width, height, next, count, ref screen, ref objects, .. } = self.table;
        let (frames, stock) = (self.frames, u8::from(self.stock_dirty));
        let mut lines = vec![format!(
            "panel {width} {height} frames {frames} next {next:08x} stock {stock} count {count}"
        )];
        let fields = line::dc_fields(&screen.original(DcSurface::Screen), Some(screen.position()));
        lines.push(format!("dc {GDI_SCREEN_DC:08x} {fields}"));
        lines.extend(objects.iter().map(|Object { handle, fields }| {
            let shown = line::object(&fields.object(), fields.position());
            format!("object {handle:08x} {shown}")
        }));
        let (panel, store) = (crc32(&self.panel), crc32(&self.store));
        lines.push(format!("crc {panel:08x} {store:08x}"));
        lines
    }
}

/// What is printed for a script.
pub fn answered(script: Script, tally: &mut Tally) -> Answered {
    let mut device = Plain::open(&script.header);
    let mut answered = Answered::begun("open 0".into());
    tally.begin();
    for (step, why) in script.steps {
        let lines = match &step {
            Step::Call(call) => {
                let outcome = device.perform(call);
                match call {
                    Call::Load { .. } => tally.load(why, device.unfit, script.short),
                    Call::Save { .. } => tally.save(outcome.refusal),
                    _ => tally.call(),
                }
                vec![format!("{:02x} {outcome}", call.byte())]
            }
            Step::Look => {
                tally.look();
                device.state()
            }
        };
        answered.add(step, lines);
    }
    answered.lines.extend(device.state());
    answered
}

/// A table with as large a panel as fits a memory of this length, and with bitmaps
/// for the whole store; and the DCs that draw on all of them and on the stock
/// bitmap.
pub fn painter(panel_len: u32, store_len: u32) -> (Table, Vec<u32>) {
    let sides = |words: u32| [words.min(MAX_SIDE), words / words.clamp(1, MAX_SIDE)];
    let [width, height] = sides(panel_len / 2);
    let mut left = store_len / 2 - 1;
    let mut objects = Vec::new();
    let mut dcs = vec![GDI_SCREEN_DC];
    let mut add = |fields| {
        let handle = 1 + objects.len() as u32;
        objects.push(Object { handle, fields });
        handle
    };
    let mut bitmaps = vec![STOCK_DEFAULT_BITMAP];
    while left > 0 {
        let [width, height] = sides(left);
        bitmaps.push(add(Fields::Bitmap { width, height, dirty: false }));
        left -= width * height;
    }
    let fresh = Plain::open(&Header { panel_len: 2, store_len: 2, width: 1, height: 1, fill: 0 });
    for bitmap in bitmaps {
        let dc =
            Dc { present: true, bitmap, font: STOCK_SYSTEM_FONT, ..fresh.table.screen.clone() };
        dcs.push(add(Fields::Dc(dc)));
    }
    let count = objects.len() as u32;
    (Table { width, height, count, objects, ..fresh.table }, dcs)
}

#[cfg(test)]
mod tests {
    use super::super::record::Why;
    use super::*;
    use crate::calls::form::Form;
    use crate::calls::printed;

    /// The same script by the original's device, as far as that can perform it.
    fn by_original(header: &Header, steps: &[Step]) -> String {
        let mut script = header.bytes_as(Form::Gdi2);
        steps.iter().for_each(|step| step.write(&mut script));
        printed(&script)
    }

    #[test]
    fn both_devices_print_the_same() {
        let header = Header { panel_len: 31, store_len: 77, width: 2, height: 3, fill: 0x5A };
        let (mut table, dcs) = painter(header.panel_len, header.store_len);
        // Handles that the original can give.
        let renamed = |handle| if handle < 99 { GDI_HANDLE_BASE + handle } else { handle };
        table.next = renamed(20);
        for object in &mut table.objects {
            object.handle = renamed(object.handle);
            if let Fields::Dc(dc) = &mut object.fields {
                dc.bitmap = renamed(dc.bitmap);
            }
        }
        let dcs = dcs.into_iter().map(renamed);
        let bytes = table.bytes();
        let mut steps = vec![Step::Look, Call::Save { room: 60 }.into()];
        steps.extend([Call::load(bytes.clone()).into(), Step::Look]);
        steps.extend(dcs.map(|dc| white(dc).into()));
        steps.extend([white(1).into(), Step::Look, Call::CreateFont { height: 5 }.into()]);
        let small = Table { width: 1, height: 2, ..table.clone() };
        for bytes in [bytes[1..].to_vec(), small.bytes(), table.bytes()] {
            steps.extend([Call::load(bytes).into(), Step::Look]);
        }
        let large = Table { width: 4, height: 4, ..table };
        steps.push(Call::load(large.bytes()).into());
        for room in [0, bytes.len() - 1, bytes.len(), bytes.len() + 9] {
            steps.push(Call::Save { room: room as u32 }.into());
        }
        let lines = by_original(&header, &steps);
        let steps = steps.into_iter().map(|step| (step, Why::Other)).collect();
        let script = Script { header, short: false, steps };
        assert_eq!(answered(script, &mut Tally::new()).text(), lines);
        for line in ["\n15 12\n", "\n15 7\n", "\n15 0\n", "\n16 13 0 ", "\n16 0 54 ", "\n0d 1\n"] {
            assert!(lines.contains(line), "{line}{lines}");
        }
    }

    #[test]
    fn a_painter_fills_everything() {
        for (panel_len, store_len) in [(2, 2), (3, 3), (2, 4), (30, 65), (20_003, 33_334)] {
            let header = Header { panel_len, store_len, width: 1, height: 1, fill: 1 };
            let (table, dcs) = painter(panel_len, store_len);
            let mut device = Plain::open(&header);
            assert_eq!(device.load(&table.bytes()), Ok(()));
            assert!(dcs.into_iter().all(|dc| device.whiten(dc) == Ok(())));
            let white = device.store.iter().filter(|byte| **byte == 0xFF).count();
            assert_eq!(white, device.store.len() / 2 * 2);
            assert!(device.stock_dirty && device.frames == 2);
            let white = device.panel.iter().filter(|byte| **byte == 0xFF).count();
            assert!(device.panel.len() - white < 2 * MAX_SIDE as usize);
        }
    }

    #[test]
    fn new_handles_after_the_last_one() {
        let header = Header { panel_len: 2, store_len: 2, width: 1, height: 1, fill: 0 };
        let mut device = Plain::open(&header);
        device.table.next = u32::MAX;
        let handles = [(); 3].map(|()| device.create_font(1));
        assert_eq!(handles, [Ok(u32::MAX), Ok(1), Ok(2)]);
    }
}
