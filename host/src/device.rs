//! A device: a record with its two memories.

use crate::call;
use crate::ffi::{HostCall, Reply};
use crate::object::{Area, Colorref, GdiObject, Handle, Point, Rgb565};
use crate::record::Record;
use crate::refusal::Refusal;
use crate::MAX_MEMORY;

/// A record with its panel memory and its pixel store. It owns the memories, or
/// borrows them as a `Device<&mut [u8]>`.
///
/// Each method below makes one call. A refused call changes no number and no
/// byte. [`Record`] has the accessors for objects and settings.
#[derive(Clone, Debug)]
pub struct Device<M = Box<[u8]>> {
    record: Record,
    panel: M,
    store: M,
}

impl Device {
    /// Opens a device with new memories of these lengths. The panel needs
    /// 2·width·height bytes of its memory. The store needs 2 bytes for the stock
    /// bitmap and 2·width·height for each created one.
    ///
    /// Refused with 6, 8 or 7; then there is no device.
    pub fn open(
        width: u32,
        height: u32,
        panel_len: usize,
        store_len: usize,
    ) -> Result<Device, Refusal> {
        // A length above the limit is refused, so that one byte above it will do.
        let memory = |len: usize| vec![0; len.min(MAX_MEMORY + 1)].into_boxed_slice();
        Device::open_on(width, height, memory(panel_len), memory(store_len))
    }
}

impl<M: AsRef<[u8]> + AsMut<[u8]>> Device<M> {
    /// Opens a device on these memories, as [`Device::open`] does. A refused open
    /// changes no byte of them.
    pub fn open_on(
        width: u32,
        height: u32,
        mut panel: M,
        mut store: M,
    ) -> Result<Device<M>, Refusal> {
        let mut record = Record::new();
        record.open(width, height, panel.as_mut(), store.as_mut())?;
        Ok(Device { record, panel, store })
    }

    /// A device from its record and its memories.
    pub fn from_parts(record: Record, panel: M, store: M) -> Device<M> {
        Device { record, panel, store }
    }

    /// The record, the panel memory and the store.
    pub fn into_parts(self) -> (Record, M, M) {
        (self.record, self.panel, self.store)
    }

    /// The record, the panel memory and the store, borrowed.
    pub(crate) fn parts_mut(&mut self) -> (&mut Record, &mut [u8], &mut [u8]) {
        (&mut self.record, self.panel.as_mut(), self.store.as_mut())
    }

    /// The record.
    pub fn record(&self) -> &Record {
        &self.record
    }

    /// The whole panel memory.
    pub fn panel(&self) -> &[u8] {
        self.panel.as_ref()
    }

    /// The whole pixel store.
    pub fn store(&self) -> &[u8] {
        self.store.as_ref()
    }

    /// The panel's pixels, row by row, as little-endian words.
    pub fn panel_pixels(&self) -> &[u8] {
        self.panel().get(self.record.panel_place()).unwrap_or(&[])
    }

    /// The pixels of the bitmap with this handle.
    pub fn bitmap_pixels(&self, handle: Handle) -> Option<&[u8]> {
        self.store().get(self.record.bitmap_place(handle)?)
    }

    /// The panel's width.
    pub fn width(&self) -> u32 {
        self.record.width()
    }

    /// The panel's height.
    pub fn height(&self) -> u32 {
        self.record.height()
    }

    /// How many dirty marks the panel has.
    pub fn frame_counter(&self) -> u64 {
        self.record.frame_counter()
    }

    /// The object with this handle, created or stock.
    pub fn get(&self, handle: Handle) -> Option<GdiObject> {
        self.record.get(handle)
    }

    /// Performs a call that is given as numbers.
    pub fn perform(&mut self, call: &HostCall, units: &[u16]) -> Reply {
        let (record, panel, store) = self.parts_mut();
        record.perform(call, units, panel, store)
    }

    /// Performs a call. Returns its answer, or its refusal.
    fn ask(&mut self, call: HostCall, units: &[u16]) -> Result<Reply, Refusal> {
        let reply = self.perform(&call, units);
        Refusal::check(reply.refusal).map(|()| reply)
    }

    fn create(&mut self, call: HostCall) -> Result<Handle, Refusal> {
        self.ask(call, &[]).map(|reply| Handle(reply.value))
    }

    fn draw(&mut self, call: HostCall) -> Result<(), Refusal> {
        self.ask(call, &[]).map(|_| ())
    }

    /// Creates a memory DC. It has no surface until a bitmap is selected into it.
    /// Refused with 5.
    pub fn create_memory_dc(&mut self) -> Result<Handle, Refusal> {
        self.create(HostCall { call: call::CREATE_MEMORY_DC, ..HostCall::default() })
    }

    /// Creates a black bitmap; a side of 0 becomes 1. Refused with 6, 5 or 7.
    pub fn create_compatible_bitmap(&mut self, width: u32, height: u32) -> Result<Handle, Refusal> {
        let call = call::CREATE_COMPATIBLE_BITMAP;
        self.create(HostCall { call, a: width, b: height, ..HostCall::default() })
    }

    /// Creates a brush. Refused with 5.
    pub fn create_solid_brush(&mut self, color: Colorref) -> Result<Handle, Refusal> {
        self.create(HostCall { call: call::CREATE_SOLID_BRUSH, a: color.0, ..HostCall::default() })
    }

    /// Creates a pen. Refused with 5.
    pub fn create_pen(&mut self, color: Colorref, width: u32) -> Result<Handle, Refusal> {
        let call = call::CREATE_PEN;
        self.create(HostCall { call, a: color.0, b: width, ..HostCall::default() })
    }

    /// Creates a font. Refused with 5.
    pub fn create_font(&mut self, height: i32) -> Result<Handle, Refusal> {
        self.create(HostCall { call: call::CREATE_FONT, h: height, ..HostCall::default() })
    }

    /// Deletes an object. Returns false for an absent handle. For a stock handle
    /// it returns true and keeps the object. Deleting a bitmap moves the bitmaps
    /// behind it in the store.
    pub fn delete(&mut self, handle: Handle) -> Result<bool, Refusal> {
        let call = HostCall { call: call::DELETE, a: handle.0, ..HostCall::default() };
        self.ask(call, &[]).map(|reply| reply.flag == 1)
    }

    /// Removes an object and returns its record; none for an absent or a stock
    /// handle. Removing a bitmap moves the bitmaps behind it in the store.
    pub fn remove(&mut self, handle: Handle) -> Result<Option<GdiObject>, Refusal> {
        let call = HostCall { call: call::REMOVE, a: handle.0, ..HostCall::default() };
        self.ask(call, &[]).map(|reply| reply.object())
    }

    /// Selects an object into a DC. Returns the handle of this kind that was
    /// selected before, [`Handle::STOCK_DEFAULT_BITMAP`] for a first bitmap; 0 if
    /// the object is absent or a DC, or if the DC is absent. The colour of a brush
    /// or pen is copied into the DC.
    pub fn select_into(&mut self, dc: Handle, object: Handle) -> Result<Handle, Refusal> {
        let call = call::SELECT_INTO;
        self.create(HostCall { call, dc: dc.0, a: object.0, ..HostCall::default() })
    }

    /// Sets a DC's text colour and returns the old one. Refused with 1.
    pub fn set_text_color(&mut self, dc: Handle, color: Colorref) -> Result<Colorref, Refusal> {
        self.set(call::SET_TEXT_COLOR, dc, color.0).map(|reply| Colorref(reply.value))
    }

    /// Sets a DC's text alignment and returns the old one. Refused with 1.
    pub fn set_text_align(&mut self, dc: Handle, align: u32) -> Result<u32, Refusal> {
        self.set(call::SET_TEXT_ALIGN, dc, align).map(|reply| reply.value)
    }

    /// Sets a DC's background colour and returns the old one. Refused with 1.
    pub fn set_bk_color(&mut self, dc: Handle, color: Colorref) -> Result<Colorref, Refusal> {
        self.set(call::SET_BK_COLOR, dc, color.0).map(|reply| Colorref(reply.value))
    }

    /// Sets whether a DC's background is transparent and returns the old mode.
    /// Refused with 1.
    pub fn set_bk_mode(&mut self, dc: Handle, transparent: bool) -> Result<bool, Refusal> {
        self.set(call::SET_BK_MODE, dc, transparent.into()).map(|reply| reply.flag == 1)
    }

    fn set(&mut self, call: u32, dc: Handle, a: u32) -> Result<Reply, Refusal> {
        self.ask(HostCall { call, dc: dc.0, a, ..HostCall::default() }, &[])
    }

    /// Fills a box under a raster code, one of [`rop3`](crate::rop3) or any other.
    /// The pattern is the brush colour; the source operand is 0. Refused with 1
    /// or 2.
    pub fn pattern_fill(&mut self, dc: Handle, area: Area, rop: u32) -> Result<(), Refusal> {
        self.draw(HostCall { a: rop, ..on(call::PATTERN_FILL, dc, area) })
    }

    /// Fills a box with the brush, then outlines it with the pen. Refused with 1
    /// or 2.
    pub fn rectangle(&mut self, dc: Handle, area: Area) -> Result<(), Refusal> {
        self.draw(on(call::RECTANGLE, dc, area))
    }

    /// Writes a text up to unit 0 or its end, in the text colour, without a
    /// background. Returns its advance, 6 for each unit. Refused with 1, 2 or 10.
    pub fn text_out(&mut self, dc: Handle, at: Point, units: &[u16]) -> Result<u32, Refusal> {
        self.ask(with_point(call::TEXT, dc, at), units).map(|reply| reply.value)
    }

    /// Fills the panel with one word.
    pub fn panel_fill(&mut self, color: Rgb565) -> Result<(), Refusal> {
        let a = color.0.into();
        self.draw(HostCall { call: call::PANEL_FILL, a, ..HostCall::default() })
    }

    /// Gives the panel new sides and makes it black. If a side is 0, or both are
    /// the present ones, it does nothing. Refused with 6 or 7.
    pub fn resize(&mut self, width: u32, height: u32) -> Result<(), Refusal> {
        self.draw(HostCall { call: call::RESIZE, a: width, b: height, ..HostCall::default() })
    }

    /// Blits from a place on a source DC to a box, under a raster code. The source
    /// pixels are those before the call. Under a code that does not use the source
    /// it is a pattern fill and does not look up the source. Refused with 1, 2, 3
    /// or 4.
    pub fn blit(
        &mut self,
        dc: Handle,
        area: Area,
        src: Handle,
        from: Point,
        rop: u32,
    ) -> Result<(), Refusal> {
        let call = on(call::BLIT, dc, area);
        self.draw(HostCall { src: src.0, a: rop, src_x: from.x, src_y: from.y, ..call })
    }

    /// Moves a DC's position and returns the old one. Refused with 1 or 11.
    pub fn move_to(&mut self, dc: Handle, to: Point) -> Result<Point, Refusal> {
        let reply = self.ask(with_point(call::MOVE_TO, dc, to), &[])?;
        Ok(Point { x: reply.x, y: reply.y })
    }

    /// Draws a line in the pen colour, one pixel thick, from a DC's position to a
    /// point, without that point. The position is then this point, also if no pixel
    /// of the line is on the surface. Refused with 1, 2 or 11; then the position
    /// stays.
    pub fn line_to(&mut self, dc: Handle, to: Point) -> Result<(), Refusal> {
        self.draw(with_point(call::LINE_TO, dc, to))
    }
}

/// A call on a DC that takes a point.
fn with_point(call: u32, dc: Handle, Point { x, y }: Point) -> HostCall {
    HostCall { call, dc: dc.0, x, y, ..HostCall::default() }
}

/// A drawing call on a DC.
fn on(call: u32, dc: Handle, Area { x, y, w, h }: Area) -> HostCall {
    HostCall { call, dc: dc.0, x, y, w, h, ..HostCall::default() }
}

impl Reply {
    /// The removed object, if there is one.
    pub fn object(&self) -> Option<GdiObject> {
        GdiObject::of(self.kind, &self.fields)
    }
}
