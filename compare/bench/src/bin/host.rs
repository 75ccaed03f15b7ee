//! Times whole calls on a device through the host library, the original's calls,
//! and the pixel work alone: the same drawing by the proved operation on lent
//! bytes. A line has no operation on lent bytes and is not in the original: its
//! pixel work is a plain loop from the specification's formula. Each round times all three, in alternating order, each on its own scene;
//! a row has the medians over the rounds. The answers, panels, bitmaps, snapshots
//! and frame counters must be equal. Every proved call checks the whole record;
//! the original has no such check.

#[path = "../plain.rs"]
mod plain;
#[path = "../proved.rs"]
#[allow(dead_code)]
mod proved;
#[path = "../timing.rs"]
mod timing;

use std::hint::black_box;
use std::time::Instant;

use pocket_kernel::font::draw_str_u16;
use pocket_kernel::framebuffer::{colorref_to_rgb565, Framebuffer};
use pocket_kernel::gdi::{rop3, GdiState, Surface, GDI_SCREEN_DC};
use ravinefork::{Area, Colorref, Device, Handle, Point, Refusal, Rgb565};

/// About how long each of them runs in a round, in nanoseconds, and the most calls
/// that it makes: fewer than there are handles before the stock ones.
const SLICE: f64 = 2e6;
const MOST: f64 = 8000.0;

const PANEL: [u32; 2] = [240, 320];
const RGBA: usize = (4 * PANEL[0] * PANEL[1]) as usize;
const BITMAP: [u32; 2] = [100, 100];
const AREA: [i32; 4] = [70, 110, 100, 100];
const TEXT_AT: [i32; 2] = [96, 150];
const TEXT: &str = "MODULE 6";
const LINE: [[i32; 2]; 2] = [[220, 250], [20, 130]];

/// What is called.
#[derive(Clone, Copy)]
enum Call {
    SetTextColor,
    Select,
    Brush,
    Bitmap,
    PanelFill,
    Resize,
    PatternFill,
    Rectangle,
    Blit,
    Text,
    Line,
    SnapshotRgba,
    SnapshotPpm,
}

/// The rows. Creating and deleting an object are two calls, and so are a move and a
/// line.
const ROWS: [(&str, Call); 13] = [
    ("set text colour", Call::SetTextColor),
    ("select", Call::Select),
    ("create a brush, delete it (both)", Call::Brush),
    ("create a bitmap 100×100, delete it (both)", Call::Bitmap),
    ("panel fill 240×320", Call::PanelFill),
    ("resize 240×320, 320×240", Call::Resize),
    ("pattern fill PATCOPY 100×100", Call::PatternFill),
    ("rectangle 100×100", Call::Rectangle),
    ("blit SRCCOPY 100×100", Call::Blit),
    ("text, 8 units", Call::Text),
    ("move, line of 200 pixels (both)", Call::Line),
    ("snapshot RGBA 240×320", Call::SnapshotRgba),
    ("snapshot PPM 240×320", Call::SnapshotPpm),
];

/// How many created objects there are during the call, with the one that it
/// creates.
const OBJECTS: [u32; 3] = [20, 64, 256];

/// The panel's sides after resize `i`: exchanged by the first one, restored by the
/// next.
fn sides(i: u32) -> [u32; 2] {
    let [width, height] = PANEL;
    black_box(if i % 2 == 0 { [height, width] } else { PANEL })
}

/// The answer for a snapshot: its length and its middle byte.
fn brief(snapshot: &[u8]) -> u32 {
    let snapshot = black_box(snapshot);
    256 * snapshot.len() as u32 + u32::from(snapshot[snapshot.len() / 2])
}

/// The handles that the calls use. They are those of the last created objects,
/// which are at the end of the record.
#[derive(Clone, Copy)]
struct Handles {
    dc: u32,
    bitmap: u32,
    brush: u32,
}

/// A scene: a panel of one colour, brushes, a memory DC, a bitmap in it with a
/// rectangle, and a brush.
trait Scene {
    fn new(brushes: u32) -> Self;
    /// Makes the call. Returns its answer.
    fn call(&mut self, call: Call, i: u32) -> u32;
}

/// The proved device, and its last snapshot.
struct Host {
    device: Device,
    handles: Handles,
    units: Vec<u16>,
    snapshot: Vec<u8>,
}

impl Host {
    fn made(brushes: u32) -> Result<Host, Refusal> {
        let [width, height] = PANEL;
        let mut device = Device::open(width, height, (2 * width * height) as usize, 1 << 20)?;
        device.panel_fill(Rgb565(0xA5C3))?;
        for i in 0..brushes {
            device.create_solid_brush(Colorref(i))?;
        }
        let dc = device.create_memory_dc()?;
        let bitmap = device.create_compatible_bitmap(BITMAP[0], BITMAP[1])?;
        device.select_into(dc, bitmap)?;
        device.rectangle(dc, Area { x: 10, y: 20, w: 80, h: 50 })?;
        let brush = device.create_solid_brush(Colorref(0x0012_3456))?;
        let handles = Handles { dc: dc.0, bitmap: bitmap.0, brush: brush.0 };
        let units = TEXT.encode_utf16().collect();
        Ok(Host { device, handles, units, snapshot: vec![0; RGBA] })
    }

    fn answer(&mut self, call: Call, i: u32) -> Result<u32, Refusal> {
        let device = &mut self.device;
        let (dc, screen) = (Handle(black_box(self.handles.dc)), Handle::GDI_SCREEN_DC);
        let [x, y, w, h] = AREA;
        let area = Area { x, y, w, h };
        Ok(match call {
            Call::SetTextColor => device.set_text_color(dc, Colorref(i))?.0,
            Call::Select => {
                let old = device.select_into(dc, Handle(self.handles.brush))?;
                self.handles.brush = old.0;
                old.0
            }
            Call::Brush => {
                let handle = device.create_solid_brush(Colorref(i))?;
                device.delete(black_box(handle))?;
                handle.0
            }
            Call::Bitmap => {
                let handle = device.create_compatible_bitmap(BITMAP[0], BITMAP[1])?;
                device.delete(black_box(handle))?;
                handle.0
            }
            Call::PanelFill => device.panel_fill(Rgb565(black_box(i as u16))).map(|()| 0)?,
            Call::Resize => {
                let [width, height] = sides(i);
                device.resize(width, height)?;
                device.width()
            }
            Call::PatternFill => {
                device.pattern_fill(screen, area, black_box(rop3::PATCOPY)).map(|()| 0)?
            }
            Call::Rectangle => device.rectangle(screen, black_box(area)).map(|()| 0)?,
            Call::Blit => {
                let from = Point { x: 0, y: 0 };
                device.blit(screen, area, dc, from, black_box(rop3::SRCCOPY)).map(|()| 0)?
            }
            Call::Text => {
                let at = Point { x: TEXT_AT[0], y: TEXT_AT[1] };
                device.text_out(screen, at, black_box(&self.units))?
            }
            Call::Line => {
                let [from, to] = black_box(LINE).map(|[x, y]| Point { x, y });
                device.move_to(screen, from)?;
                device.line_to(screen, to).map(|()| 0)?
            }
            Call::SnapshotRgba => {
                let panel = black_box(device.panel());
                device.record().snapshot_rgba8888_into(panel, &mut self.snapshot)?;
                brief(&self.snapshot)
            }
            Call::SnapshotPpm => {
                self.snapshot = black_box(device).snapshot_ppm()?;
                brief(&self.snapshot)
            }
        })
    }
}

impl Scene for Host {
    fn new(brushes: u32) -> Self {
        Host::made(brushes).expect("a device")
    }

    fn call(&mut self, call: Call, i: u32) -> u32 {
        self.answer(call, i).expect("an answer")
    }
}

/// The original's objects and panel, and its last snapshot.
struct Original {
    gdi: GdiState,
    panel: Framebuffer,
    handles: Handles,
    units: Vec<u16>,
    snapshot: Vec<u8>,
}

/// A DC's brush, pen and text colours, packed.
fn colors(gdi: &GdiState, dc: u32) -> [u16; 3] {
    let dc = gdi.dc(black_box(dc)).expect("the DC");
    [dc.brush_color, dc.pen_color, dc.text_color].map(colorref_to_rgb565)
}

impl Scene for Original {
    fn new(brushes: u32) -> Self {
        let mut panel = Framebuffer::new(PANEL[0], PANEL[1]);
        panel.fill(0xA5C3);
        let mut gdi = GdiState::new();
        (0..brushes).for_each(|i| _ = gdi.create_solid_brush(i));
        let dc = gdi.create_memory_dc();
        let bitmap = gdi.create_compatible_bitmap(BITMAP[0], BITMAP[1]);
        gdi.select_into(dc, bitmap);
        let [brush, pen, _] = colors(&gdi, dc);
        let mut surface = Surface::Bitmap(gdi.bitmap_mut(bitmap).expect("the bitmap"));
        surface.fill_rect(10, 20, 80, 50, brush);
        surface.stroke_rect(10, 20, 80, 50, pen);
        let brush = gdi.create_solid_brush(0x0012_3456);
        let handles = Handles { dc, bitmap, brush };
        let units = TEXT.encode_utf16().collect();
        Original { gdi, panel, handles, units, snapshot: vec![0; RGBA] }
    }

    fn call(&mut self, call: Call, i: u32) -> u32 {
        let Original { gdi, panel, handles, units, snapshot } = self;
        let dc = black_box(handles.dc);
        let [x, y, w, h] = AREA;
        match call {
            Call::SetTextColor => {
                let dc = gdi.dc_mut(dc).expect("the DC");
                std::mem::replace(&mut dc.text_color, i)
            }
            Call::Select => {
                handles.brush = gdi.select_into(dc, handles.brush);
                handles.brush
            }
            Call::Brush => {
                let handle = gdi.create_solid_brush(i);
                gdi.delete(black_box(handle));
                handle
            }
            Call::Bitmap => {
                let handle = gdi.create_compatible_bitmap(BITMAP[0], BITMAP[1]);
                gdi.delete(black_box(handle));
                handle
            }
            Call::PanelFill => {
                panel.fill(black_box(i as u16));
                0
            }
            Call::Resize => {
                let [width, height] = sides(i);
                panel.resize(width, height);
                panel.width
            }
            Call::PatternFill => {
                let [brush, ..] = colors(gdi, GDI_SCREEN_DC);
                let mut surface = Surface::Screen(panel);
                surface.fill_rect_rop(x, y, w, h, brush, black_box(rop3::PATCOPY));
                0
            }
            Call::Rectangle => {
                let [brush, pen, _] = colors(gdi, GDI_SCREEN_DC);
                let mut surface = Surface::Screen(panel);
                surface.fill_rect(x, y, w, h, brush);
                surface.stroke_rect(x, y, w, h, pen);
                0
            }
            Call::Blit => {
                let [brush, ..] = colors(gdi, GDI_SCREEN_DC);
                let source = gdi.dc(dc).and_then(|dc| dc.selected_bitmap);
                let bitmap = source.and_then(|handle| gdi.bitmap(handle)).expect("the bitmap");
                let (bytes, width, height) = (&bitmap.pixels, bitmap.width, bitmap.height);
                let rop = black_box(rop3::SRCCOPY);
                let mut surface = Surface::Screen(panel);
                surface.blit_from_bytes_rop(x, y, 0, 0, w, h, bytes, width, height, rop, brush);
                0
            }
            Call::Text => {
                let [_, _, color] = colors(gdi, GDI_SCREEN_DC);
                let mut surface = Surface::Screen(panel);
                let [x, y] = TEXT_AT;
                let advance = draw_str_u16(&mut surface, x, y, black_box(units), color);
                surface.mark_dirty();
                advance as u32
            }
            Call::Line => {
                // The original has no lines; this is for the check alone.
                let [_, pen, _] = colors(gdi, GDI_SCREEN_DC);
                let [from, to] = black_box(LINE);
                if plain::draw_line(&mut panel.pixels, PANEL, from, to, pen) {
                    panel.mark_dirty();
                }
                0
            }
            Call::SnapshotRgba => {
                black_box(panel).snapshot_rgba8888_into(snapshot);
                brief(snapshot)
            }
            Call::SnapshotPpm => {
                *snapshot = black_box(panel).snapshot_ppm();
                brief(snapshot)
            }
        }
    }
}

/// The pixel work alone: the proved operations on the panel's bytes.
struct Pixels {
    panel: proved::Surface,
    bitmap: Vec<u8>,
    colors: [u16; 3],
    units: Vec<u16>,
}

impl Pixels {
    /// Fills the whole panel.
    fn fill(&mut self, color: u16) {
        let [width, height] = [self.panel.width, self.panel.height].map(|side| side as i32);
        self.panel.fill_rect([0, 0, width, height], color);
    }
}

impl Scene for Pixels {
    fn new(brushes: u32) -> Self {
        let Original { gdi, panel, handles, units, .. } = Original::new(brushes);
        let bitmap = gdi.bitmap(handles.bitmap).expect("the bitmap").pixels.clone();
        let [width, height] = PANEL;
        let panel = proved::Surface { pixels: panel.pixels, width, height };
        Pixels { panel, bitmap, colors: colors(&gdi, GDI_SCREEN_DC), units }
    }

    fn call(&mut self, call: Call, i: u32) -> u32 {
        let [brush, pen, color] = self.colors;
        let [x, y, ..] = AREA;
        match call {
            Call::PanelFill => {
                self.fill(black_box(i as u16));
                0
            }
            Call::Resize => {
                [self.panel.width, self.panel.height] = sides(i);
                self.fill(0);
                self.panel.width
            }
            Call::PatternFill => {
                self.panel.fill_rect_rop(AREA, brush, black_box(rop3::PATCOPY));
                0
            }
            Call::Rectangle => {
                self.panel.fill_rect(AREA, brush);
                self.panel.stroke_rect(AREA, pen);
                0
            }
            Call::Blit => {
                let rop = black_box(rop3::SRCCOPY);
                self.panel.blit_at([x, y], &self.bitmap, BITMAP, rop, brush);
                0
            }
            Call::Text => {
                let [x, y] = TEXT_AT;
                self.panel.draw_str_u16(x, y, black_box(&self.units), color) as u32
            }
            Call::Line => {
                let [from, to] = black_box(LINE);
                plain::draw_line(&mut self.panel.pixels, PANEL, from, to, pen);
                0
            }
            _ => 0,
        }
    }
}

impl Call {
    /// Whether its pixel work is timed separately.
    fn draws(self) -> bool {
        use Call::*;
        matches!(self, PanelFill | Resize | PatternFill | Rectangle | Blit | Text | Line)
    }

    /// How many brushes a scene has at the start, in addition to the DC, the bitmap and
    /// the last brush.
    fn brushes(self, objects: u32) -> u32 {
        objects - if matches!(self, Call::Brush | Call::Bitmap) { 4 } else { 3 }
    }
}

/// The time of one call in nanoseconds, measured over `count` calls on a new scene.
fn time<S: Scene>(call: Call, brushes: u32, count: u32) -> f64 {
    let mut scene = S::new(brushes);
    let start = Instant::now();
    for i in 0..count {
        black_box(scene.call(call, i));
    }
    start.elapsed().as_nanos() as f64 / f64::from(count)
}

/// Makes the call a hundred times on each, with a rectangle and a text on the panel.
/// The answers, panels, bitmaps, snapshots and frame counters must be equal.
fn check(call: Call, brushes: u32) {
    let (mut host, mut original) = (Host::new(brushes), Original::new(brushes));
    let mut pixels = Pixels::new(brushes);
    for drawing in [Call::Rectangle, Call::Text] {
        host.call(drawing, 0);
        original.call(drawing, 0);
        pixels.call(drawing, 0);
    }
    for i in 0..100 {
        let answer = host.call(call, i);
        assert_eq!(answer, original.call(call, i), "the answers differ");
        let alone = pixels.call(call, i);
        assert!(!call.draws() || alone == answer, "the answers differ");
    }
    let (device, handles) = (&host.device, original.handles);
    assert!(device.panel() == original.panel.pixels, "the panels differ");
    assert!(pixels.panel.pixels == original.panel.pixels, "the panels differ");
    let [width, height] = [original.panel.width, original.panel.height];
    assert_eq!([device.width(), device.height()], [width, height], "the sides differ");
    assert!(host.snapshot == original.snapshot, "the snapshots differ");
    let bitmap = &original.gdi.bitmap(handles.bitmap).expect("the bitmap").pixels;
    assert!(device.bitmap_pixels(Handle(handles.bitmap)) == Some(bitmap), "the bitmaps differ");
    assert_eq!(device.frame_counter(), original.panel.frame_counter, "the marks differ");
    let theirs = original.gdi.dc(handles.dc).expect("the DC");
    let ours = device.record().dc(Handle(handles.dc)).expect("the DC");
    assert_eq!(ours.text_color.0, theirs.text_color, "the text colours differ");
    assert_eq!(ours.selected_brush.0, theirs.selected_brush, "the brushes differ");
    assert_eq!(ours.brush_color.0, theirs.brush_color, "the brushes differ");
}

/// The medians of the proved call, the original's call and the pixel work.
fn measure(call: Call, objects: u32, rounds: u32) -> [f64; 3] {
    let brushes = call.brushes(objects);
    check(call, brushes);
    let timers = [time::<Host>, time::<Original>, time::<Pixels>];
    let fitting = |once: f64| (SLICE / once.max(1.0)).clamp(1.0, MOST) as u32;
    let counts = timers.map(|timer| fitting(timer(call, brushes, 100)));
    let mut times = [const { Vec::new() }; 3];
    for round in 0..rounds as usize {
        for turn in 0..3 {
            let which = (round + turn) % 3;
            times[which].push(timers[which](call, brushes, counts[which]));
        }
    }
    times.map(timing::median)
}

fn main() {
    let rounds = timing::rounds("host");
    println!(
        "| call | objects | proved, ns | pixel work alone, ns | above it, ns | original, ns |"
    );
    println!("|---|---|---|---|---|---|");
    for (name, call) in ROWS {
        for objects in OBJECTS {
            let [ours, theirs, pixels] = measure(call, objects, rounds);
            let (alone, above) = match call.draws() {
                true => (format!("{pixels:.0}"), ours - pixels),
                false => ("–".into(), ours),
            };
            let theirs = match call {
                Call::Line => "–".into(),
                _ => format!("{theirs:.0}"),
            };
            println!("| {name} | {objects} | {ours:.0} | {alone} | {above:.0} | {theirs} |");
        }
    }
    println!("{rounds} rounds, medians; answers, pixels and marks equal");
}
