//! The device: the original's objects and panel, with what the original does not
//! have: refusals, lent memories and the positions of DCs.

use std::mem::replace;

use pocket_kernel::framebuffer::Framebuffer;
use pocket_kernel::gdi::{Bitmap, Dc, GdiState, GDI_SCREEN_DC, STOCK_DEFAULT_BITMAP};

use super::call::Call;
use super::form::Form;
use super::line;
use super::lines::{Point, Positions};
use super::original::Original;
use super::outcome::{Answer, Outcome, Stop};
use super::paint::Place;
use crate::crc::crc32;
use crate::overflow::Overflow;

pub const MAX_SIDE: u32 = 4096;
pub const MAX_MEMORY: u64 = 33_554_432;
pub const MAX_OBJECTS: usize = 256;

pub struct Device {
    pub(super) original: Original,
    pub(super) panel: Framebuffer,
    /// The stock bitmap and the created objects in order of creation, which is the
    /// order of their pixels in the store. Empty after a refused open.
    pub(super) order: Vec<u32>,
    /// The lent memories. The pixels are in the original; only the other bytes are
    /// valid here.
    pub(super) panel_memory: Vec<u8>,
    pub(super) store: Vec<u8>,
    pub(super) positions: Positions,
    /// The form of the script, which decides whether positions are printed.
    form: Form,
    /// The byte that fills the output of a save before it.
    pub(super) fill: u8,
    /// Whether the present call has changed a pixel.
    pub(super) changed: bool,
    /// How many bitmaps deletions and removals have moved, and how many of them
    /// were not all black.
    pub moved: [u64; 2],
}

impl Device {
    /// The number with which open is refused, 0 if it is accepted: 6 a side, then 8
    /// a memory above the limit, then 7 a memory that is too short.
    pub fn open_refusal(panel_len: u64, store_len: u64, width: u32, height: u32) -> u8 {
        let side = |n| (1..=MAX_SIDE).contains(&n);
        if !(side(width) && side(height)) {
            6
        } else if panel_len.max(store_len) > MAX_MEMORY {
            8
        } else if panel_len < bytes_of(width, height) || store_len < 2 {
            7
        } else {
            0
        }
    }

    /// Opens a device on the lent memories, or returns the refusal.
    pub fn open(panel: Vec<u8>, store: Vec<u8>, width: u32, height: u32) -> (u8, Device) {
        let (panel_len, store_len) = (panel.len() as u64, store.len() as u64);
        let refusal = Self::open_refusal(panel_len, store_len, width, height);
        let (width, height) = if refusal == 0 { (width, height) } else { (0, 0) };
        let device = Device {
            original: Original::new(),
            panel: Framebuffer::new(width, height),
            order: if refusal == 0 { vec![STOCK_DEFAULT_BITMAP] } else { Vec::new() },
            panel_memory: panel,
            store,
            positions: Positions::new(),
            form: Form::Gdi1,
            fill: 0,
            changed: false,
            moved: [0; 2],
        };
        (refusal, device)
    }

    /// The same device for a script of this form.
    pub fn shown_as(self, form: Form) -> Device {
        Device { form, ..self }
    }

    /// The same device, with this byte in the output of a save before it.
    pub fn filled_with(self, fill: u8) -> Device {
        Device { fill, ..self }
    }

    /// The length of the panel memory.
    pub fn panel_len(&self) -> usize {
        self.panel_memory.len()
    }

    /// The length of the store.
    pub fn store_len(&self) -> usize {
        self.store.len()
    }

    pub fn gdi(&self) -> &GdiState {
        &self.original.gdi
    }

    pub(super) fn gdi_mut(&mut self) -> &mut GdiState {
        &mut self.original.gdi
    }

    /// The handles of the created objects, in order of creation.
    pub fn created(&self) -> &[u32] {
        self.order.get(1..).unwrap_or_default()
    }

    /// The next handle.
    pub fn next(&self) -> u32 {
        self.original.next
    }

    /// How many bytes of the store are free.
    pub fn left(&self) -> usize {
        self.store_len() - self.used()
    }

    /// Performs the call. If a sum of the original overflows, there is no outcome
    /// and the device is unchanged.
    pub fn perform(&mut self, call: &Call) -> Result<Outcome, Overflow> {
        let panel = self.sides(Place::Panel);
        self.changed = false;
        let (refusal, answer) = match self.attempt(call) {
            Ok(answer) => (0, answer),
            Err(Stop::Refused(number)) => (number, Answer::refused(call, self.fill)),
            Err(Stop::Overflow) => return Err(Overflow),
        };
        Ok(Outcome { refusal, answer, changed: self.changed, panel })
    }

    fn attempt(&mut self, call: &Call) -> Result<Answer, Stop> {
        Ok(match *call {
            Call::CreateMemoryDc {}
            | Call::CreateCompatibleBitmap { .. }
            | Call::CreateSolidBrush { .. }
            | Call::CreatePen { .. }
            | Call::CreateFont { .. } => Answer::Number(self.create(call)?),
            Call::Delete { handle } => Answer::Flag(self.taken(|gdi| gdi.delete(handle))),
            Call::Remove { handle } => {
                let position = self.shown_position(handle);
                Answer::Object(self.taken(|gdi| gdi.remove(handle)), position)
            }
            Call::Select { dc, object } => {
                Answer::Number(self.original.gdi.select_into(dc, object))
            }
            Call::SetTextColor { dc, color } => {
                Answer::Number(replace(&mut self.dc_mut(dc)?.text_color, color))
            }
            Call::SetTextAlign { dc, align } => {
                Answer::Number(replace(&mut self.dc_mut(dc)?.text_align, align))
            }
            Call::SetBkColor { dc, color } => {
                Answer::Number(replace(&mut self.dc_mut(dc)?.bk_color, color))
            }
            Call::SetBkMode { dc, transparent } => {
                Answer::Flag(replace(&mut self.dc_mut(dc)?.bk_transparent, transparent == 1))
            }
            Call::Move { dc, x, y } => Answer::Position(self.move_to(dc, Point { x, y })?),
            Call::Load { ref bytes } => {
                self.load(bytes.as_slice())?;
                Answer::Nothing
            }
            Call::Save { room } => self.save(room as usize)?,
            _ => self.draw(call)?,
        })
    }

    /// Creates an object, or refuses: 6 a side, then 5 too many objects, then 7 no
    /// room in the store.
    fn create(&mut self, call: &Call) -> Result<u32, u8> {
        let mut bytes = 0;
        if let Call::CreateCompatibleBitmap { width, height } = *call {
            if width.max(height) > MAX_SIDE {
                return Err(6);
            }
            bytes = bytes_of(width.max(1), height.max(1));
        }
        if self.created().len() >= MAX_OBJECTS {
            return Err(5);
        }
        if bytes > self.left() as u64 {
            return Err(7);
        }
        let handle = self.original.create(call);
        self.order.push(handle);
        Ok(handle)
    }

    /// Removes an object from the original's table. The pixels behind it in the
    /// store move down, and the bytes that they leave at the end become 0.
    fn taken<T>(&mut self, take: impl FnOnce(&mut GdiState) -> T) -> T {
        let used = self.used();
        let answer = take(&mut self.original.gdi);
        if let Some(at) = self.order.iter().position(|&handle| self.gdi().get(handle).is_none()) {
            let gone = self.order.remove(at);
            self.positions.forget(gone);
            let freed = self.used()..used;
            if !freed.is_empty() {
                let bitmaps =
                    self.order[at..].iter().filter_map(|&handle| self.gdi().bitmap(handle));
                let colored = |bitmap: &&Bitmap| bitmap.pixels.iter().any(|byte| *byte != 0);
                let moved = [bitmaps.clone().count(), bitmaps.filter(colored).count()];
                self.moved = [0, 1].map(|at| self.moved[at] + moved[at] as u64);
            }
            self.store[freed].fill(0);
        }
        answer
    }

    fn dc_mut(&mut self, dc: u32) -> Result<&mut Dc, u8> {
        self.original.gdi.dc_mut(dc).ok_or(1)
    }

    /// The position that is printed for an object: none if it is no DC, or if the
    /// script prints no positions.
    fn shown_position(&self, handle: u32) -> Option<Point> {
        let is_dc = self.gdi().dc(handle).is_some();
        (is_dc && self.form == Form::Gdi2).then(|| self.position(handle))
    }

    /// The pixels of all bitmaps in the store, without a gap.
    fn pixels(&self) -> impl Iterator<Item = &[u8]> {
        let bitmaps = self.order.iter().filter_map(|&handle| self.gdi().bitmap(handle));
        bitmaps.map(|bitmap| bitmap.pixels.as_slice())
    }

    /// How many bytes of the store are in use.
    fn used(&self) -> usize {
        self.pixels().map(<[u8]>::len).sum()
    }

    /// The panel as a P6 picture.
    pub fn picture(&self) -> Vec<u8> {
        self.panel.snapshot_ppm()
    }

    /// The whole panel memory.
    pub(super) fn panel_bytes(&self) -> Vec<u8> {
        let pixels = self.panel.pixels.as_slice();
        [pixels, &self.panel_memory[pixels.len()..]].concat()
    }

    /// The whole store.
    fn store_bytes(&self) -> Vec<u8> {
        let pixels: Vec<&[u8]> = self.pixels().collect();
        [pixels.concat().as_slice(), &self.store[self.used()..]].concat()
    }

    /// The present state lines: panel, screen DC, created objects, CRCs.
    pub fn state(&self) -> Vec<String> {
        let gdi = self.gdi();
        let screen = gdi.dc(GDI_SCREEN_DC).expect("the screen DC is stock");
        let stock = gdi.bitmap(STOCK_DEFAULT_BITMAP).expect("the bitmap is stock");
        let Framebuffer { width, height, frame_counter, .. } = self.panel;
        let fields = line::dc_fields(screen, self.shown_position(GDI_SCREEN_DC));
        let (next, dirty, count) = (self.next(), u8::from(stock.host_dirty), self.created().len());
        let mut lines = vec![
            format!(
                "panel {width} {height} frames {frame_counter} next {next:08x} stock {dirty} \
                 count {count}"
            ),
            format!("dc {GDI_SCREEN_DC:08x} {fields}"),
        ];
        for handle in self.created() {
            let object = gdi.get(*handle).expect("a created object is live");
            let shown = line::object(object, self.shown_position(*handle));
            lines.push(format!("object {handle:08x} {shown}"));
        }
        let (panel, store) = (crc32(&self.panel_bytes()), crc32(&self.store_bytes()));
        lines.push(format!("crc {panel:08x} {store:08x}"));
        lines
    }

    /// The state lines at the end of a script. Here the original itself gives its
    /// next handle.
    pub fn end(self) -> Vec<String> {
        let lines = self.state();
        self.original.confirm_next();
        lines
    }
}

/// How many bytes a surface of these sides has.
pub fn bytes_of(width: u32, height: u32) -> u64 {
    2 * u64::from(width) * u64::from(height)
}

#[cfg(test)]
mod tests {
    use super::*;

    /// A device with a panel of 1 by 1 and a store of this length, filled with 0xA5.
    fn device(store_len: usize) -> Device {
        let (refusal, device) = Device::open(vec![0xA5; 3], vec![0xA5; store_len], 1, 1);
        assert_eq!(refusal, 0);
        device
    }

    /// Performs the call. Returns its refusal and answer, as printed.
    fn perform(device: &mut Device, call: Call) -> String {
        device.perform(&call).expect("no sum overflows").to_string()
    }

    fn bitmap(device: &mut Device, width: u32, height: u32) -> String {
        perform(device, Call::CreateCompatibleBitmap { width, height })
    }

    #[test]
    fn open_asks_for_sides_limits_and_lengths() {
        let refusal = Device::open_refusal;
        assert_eq!(refusal(2, 2, 1, 1), 0);
        assert_eq!(refusal(MAX_MEMORY, MAX_MEMORY, 4096, 4096), 0);
        for (width, height) in [(0, 1), (1, 0), (4097, 1), (1, 4097), (u32::MAX, u32::MAX)] {
            assert_eq!(refusal(2, 2, width, height), 6);
            assert_eq!(refusal(MAX_MEMORY + 1, 0, width, height), 6);
        }
        assert_eq!(refusal(MAX_MEMORY + 1, 0, 1, 1), 8);
        assert_eq!(refusal(0, MAX_MEMORY + 1, 1, 1), 8);
        for (panel_len, store_len) in [(11, 2), (12, 1), (0, 0)] {
            assert_eq!(refusal(panel_len, store_len, 2, 3), 7);
        }
    }

    #[test]
    fn open_blackens_the_panel_and_the_stock_pixel() {
        let (refusal, device) = Device::open(vec![0xA5; 13], vec![0xA5; 4], 2, 3);
        assert_eq!(refusal, 0);
        assert_eq!(device.panel_bytes(), [[0; 12].as_slice(), &[0xA5]].concat());
        assert_eq!(device.store_bytes(), [0, 0, 0xA5, 0xA5]);
        let (refusal, device) = Device::open(vec![0xA5; 13], vec![0xA5; 1], 2, 3);
        assert_eq!(refusal, 7);
        assert_eq!(device.panel_bytes(), [0xA5; 13]);
        assert_eq!(device.store_bytes(), [0xA5]);
        let panel = device.state().swap_remove(0);
        assert_eq!(panel, "panel 0 0 frames 0 next dead1000 stock 0 count 0");
    }

    #[test]
    fn a_store_of_twelve_bytes() {
        assert_eq!(bitmap(&mut device(12), 0, 5), "0 dead1000");
        assert_eq!(bitmap(&mut device(12), 1, 6), "7 00000000");
        assert_eq!(bitmap(&mut device(12), 4097, 0), "6 00000000");
        let mut device = device(12);
        assert_eq!(bitmap(&mut device, 1, 6), "7 00000000");
        assert_eq!(bitmap(&mut device, 0, 4), "0 dead1000");
        assert_eq!(bitmap(&mut device, 2, 1), "7 00000000");
        assert_eq!(bitmap(&mut device, 0, 0), "0 dead1001");
        assert_eq!(perform(&mut device, Call::Remove { handle: 0xDEAD_1000 }), "0 bitmap 1 4 0");
    }

    #[test]
    fn refusals_of_creation_in_their_order() {
        let mut device = device(12);
        for _ in 0..MAX_OBJECTS {
            assert!(perform(&mut device, Call::CreateMemoryDc {}).starts_with("0 "));
        }
        assert_eq!(bitmap(&mut device, 4097, 1), "6 00000000");
        assert_eq!(bitmap(&mut device, 4096, 4096), "5 00000000");
        for call in [Call::CreateMemoryDc {}, Call::CreateFont { height: 1 }] {
            assert_eq!(perform(&mut device, call), "5 00000000");
        }
        assert_eq!(perform(&mut device, Call::Delete { handle: 0xDEAD_1000 }), "0 1");
        assert_eq!(bitmap(&mut device, 4096, 4096), "7 00000000");
        assert_eq!(bitmap(&mut device, 1, 1), "0 dead1100");
    }

    #[test]
    fn deletion_closes_the_gap() {
        let mut device = device(14);
        for side in [1, 2, 1] {
            bitmap(&mut device, side, 1);
        }
        for (handle, byte) in [(0xDEAD_1000, 1), (0xDEAD_1001, 2), (0xDEAD_1002, 3)] {
            device.gdi_mut().bitmap_mut(handle).unwrap().pixels.fill(byte);
        }
        assert_eq!(device.store_bytes(), [0, 0, 1, 1, 2, 2, 2, 2, 3, 3, 0xA5, 0xA5, 0xA5, 0xA5]);
        assert_eq!(perform(&mut device, Call::Delete { handle: 0xDEAD_1001 }), "0 1");
        assert_eq!(device.store_bytes(), [0, 0, 1, 1, 3, 3, 0, 0, 0, 0, 0xA5, 0xA5, 0xA5, 0xA5]);
        assert_eq!((device.moved, device.left()), ([1, 1], 8));
        bitmap(&mut device, 4, 1);
        assert_eq!(device.store_bytes(), [0, 0, 1, 1, 3, 3, 0, 0, 0, 0, 0, 0, 0, 0]);
        perform(&mut device, Call::Remove { handle: 0xDEAD_1000 });
        assert_eq!(device.store_bytes(), [0, 0, 3, 3, 0, 0, 0, 0, 0, 0, 0, 0, 0, 0]);
        assert_eq!(device.moved, [3, 2]);
    }

    #[test]
    fn settings_answer_the_old_value() {
        let mut device = device(2);
        let dc = GDI_SCREEN_DC;
        let color = |dc, color| Call::SetTextColor { dc, color };
        assert_eq!(perform(&mut device, color(dc, 7)), "0 00000000");
        assert_eq!(perform(&mut device, color(dc, 8)), "0 00000007");
        assert_eq!(perform(&mut device, color(STOCK_DEFAULT_BITMAP, 8)), "1 00000000");
        let mode = |dc, transparent| Call::SetBkMode { dc, transparent };
        assert_eq!(perform(&mut device, mode(dc, 1)), "0 0");
        assert_eq!(perform(&mut device, mode(dc, 0)), "0 1");
        assert_eq!(perform(&mut device, mode(0, 1)), "1 0");
    }
}
