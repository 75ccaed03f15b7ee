//! Performs call scripts (docs/call-script.md) in both forms of the library: by
//! the methods of a device, and by calls as numbers on a record with its own
//! memories. The two must agree after each call.

use std::path::PathBuf;

use ravinefork::{
    call, Area, Colorref, Dc, DcSurface, Device, GdiObject, Handle, HostCall, Point, Record,
    Refusal, Reply, Rgb565,
};

/// The path of a file of the repository.
pub fn path(of: &str) -> PathBuf {
    PathBuf::from(concat!(env!("CARGO_MANIFEST_DIR"), "/..")).join(of)
}

/// The byte of a look. It is not a call.
const LOOK: u8 = 0x7F;
/// The bytes of a load and a save, and the most bytes that they have.
const LOAD: u8 = 0x15;
const SAVE: u8 = 0x16;
const MOST_BYTES: u32 = 16_384;

/// The form of a script, by its first bytes. A `GDI1` script has the calls up to a
/// blit, and its lines have no positions.
#[derive(Clone, Copy, PartialEq)]
enum Form {
    Gdi1,
    Gdi2,
}

impl Form {
    /// Reads the first bytes of a script.
    fn read(script: &[u8]) -> Option<(Form, &[u8])> {
        let gdi1 = script.strip_prefix(b"GDI1").map(|rest| (Form::Gdi1, rest));
        gdi1.or_else(|| script.strip_prefix(b"GDI2").map(|rest| (Form::Gdi2, rest)))
    }

    /// Whether a script of this form has the call.
    fn has(self, call: u32) -> bool {
        self == Form::Gdi2 || call <= call::BLIT
    }
}

/// The arguments of each call, from call 1 on.
const ARGUMENTS: [&[Field]; 20] = {
    use Field::*;
    [
        &[],
        &[A, B],
        &[A],
        &[A, B],
        &[H],
        &[A],
        &[A],
        &[Dc, A],
        &[Dc, A],
        &[Dc, A],
        &[Dc, A],
        &[Dc, A],
        &[Dc, X, Y, W, H, A],
        &[Dc, X, Y, W, H],
        &[Dc, X, Y],
        &[A],
        &[A, B],
        &[Dc, X, Y, W, H, Src, SrcX, SrcY, A],
        &[Dc, X, Y],
        &[Dc, X, Y],
    ]
};

/// A field of a call.
#[derive(Clone, Copy)]
enum Field {
    Dc,
    Src,
    A,
    B,
    X,
    Y,
    W,
    H,
    SrcX,
    SrcY,
}

fn number(script: &mut &[u8]) -> Option<u32> {
    let (bytes, rest) = script.split_first_chunk()?;
    *script = rest;
    Some(u32::from_be_bytes(*bytes))
}

/// Reads a call from the front of a script; none if it is a bad call.
fn read(form: Form, script: &mut &[u8]) -> Option<(HostCall, Vec<u16>)> {
    let (&byte, rest) = script.split_first()?;
    *script = rest;
    if !form.has(byte.into()) {
        return None;
    }
    let mut host = HostCall { call: byte.into(), ..HostCall::default() };
    for field in *ARGUMENTS.get(usize::from(byte).checked_sub(1)?)? {
        let n = number(script)?;
        match field {
            Field::Dc => host.dc = n,
            Field::Src => host.src = n,
            Field::A => host.a = n,
            Field::B => host.b = n,
            Field::X => host.x = n as i32,
            Field::Y => host.y = n as i32,
            Field::W => host.w = n as i32,
            Field::H => host.h = n as i32,
            Field::SrcX => host.src_x = n as i32,
            Field::SrcY => host.src_y = n as i32,
        }
    }
    let mut units = Vec::new();
    if host.call == call::TEXT {
        let count = number(script).filter(|&n| n <= 70_000)? as usize;
        let (bytes, rest) = script.split_at_checked(2 * count)?;
        *script = rest;
        units = bytes.chunks_exact(2).map(|pair| u16::from_be_bytes([pair[0], pair[1]])).collect();
    }
    Some((host, units))
}

fn object_line(form: Form, object: &GdiObject) -> String {
    match object {
        GdiObject::Dc(dc) => format!("dc {}", dc_line(form, dc)),
        GdiObject::Bitmap(bitmap) => {
            let dirty = u8::from(bitmap.host_dirty);
            format!("bitmap {} {} {dirty}", bitmap.width, bitmap.height)
        }
        GdiObject::Brush(brush) => format!("brush {:08x}", brush.color.0),
        GdiObject::Pen(pen) => format!("pen {:08x} {}", pen.color.0, pen.width),
        GdiObject::Font(font) => format!("font {}", font.height),
    }
}

fn dc_line(form: Form, dc: &Dc) -> String {
    let surface = match dc.surface {
        DcSurface::Screen => "screen",
        DcSurface::Memory => "memory",
    };
    let bitmap = dc.selected_bitmap.map_or("none".into(), |handle| handle.to_string());
    let [brush, pen, font] = [dc.selected_brush, dc.selected_pen, dc.selected_font];
    let colors = [dc.brush_color, dc.pen_color, dc.text_color].map(|c| format!("{:08x}", c.0));
    let [colors, align, bk] =
        [colors.join(" "), format!("{:08x}", dc.text_align), { format!("{:08x}", dc.bk_color.0) }];
    let transparent = u8::from(dc.bk_transparent);
    let position =
        if form == Form::Gdi2 { " ".to_owned() + &point(dc.position) } else { "".into() };
    format!("{surface} {bitmap} {brush} {pen} {font} {colors} {align} {bk} {transparent}{position}")
}

/// The refusal's number and the answer, or the answer's zero if it is refused.
fn line<T>(answer: Result<T, Refusal>, zero: T, shown: impl Fn(T) -> String) -> String {
    match answer {
        Ok(value) => format!("0 {}", shown(value)),
        Err(refusal) => format!("{} {}", refusal.number(), shown(zero)),
    }
}

fn hex(number: u32) -> String {
    format!("{number:08x}")
}

fn flag(flag: bool) -> String {
    u8::from(flag).to_string()
}

fn point(Point { x, y }: Point) -> String {
    format!("{x} {y}")
}

fn shown(form: Form, object: Option<GdiObject>) -> String {
    object.map_or("none".into(), |object| object_line(form, &object))
}

fn drawn(answer: Result<(), Refusal>) -> String {
    answer.err().map_or(0, Refusal::number).to_string()
}

/// Makes the call by the device's method and returns its line; none if there is no
/// such call.
fn by_method(form: Form, device: &mut Device, host: &HostCall, units: &[u16]) -> Option<String> {
    let &HostCall { a, b, x, y, w, h, src_x, src_y, .. } = host;
    let [dc, src, object] = [host.dc, host.src, a].map(Handle);
    let (area, color, from) = (Area { x, y, w, h }, Colorref(a), Point { x: src_x, y: src_y });
    let to = Point { x, y };
    let handle = |made| line(made, Handle(0), |handle| handle.to_string());
    let old = |old| line(old, Colorref(0), |color| hex(color.0));
    Some(match host.call {
        call::CREATE_MEMORY_DC => handle(device.create_memory_dc()),
        call::CREATE_COMPATIBLE_BITMAP => handle(device.create_compatible_bitmap(a, b)),
        call::CREATE_SOLID_BRUSH => handle(device.create_solid_brush(color)),
        call::CREATE_PEN => handle(device.create_pen(color, b)),
        call::CREATE_FONT => handle(device.create_font(h)),
        call::DELETE => line(device.delete(object), false, flag),
        call::REMOVE => line(device.remove(object), None, |object| shown(form, object)),
        call::SELECT_INTO => handle(device.select_into(dc, object)),
        call::SET_TEXT_COLOR => old(device.set_text_color(dc, color)),
        call::SET_TEXT_ALIGN => line(device.set_text_align(dc, a), 0, hex),
        call::SET_BK_COLOR => old(device.set_bk_color(dc, color)),
        call::SET_BK_MODE if a <= 1 => line(device.set_bk_mode(dc, a == 1), false, flag),
        call::PATTERN_FILL => drawn(device.pattern_fill(dc, area, a)),
        call::RECTANGLE => drawn(device.rectangle(dc, area)),
        call::TEXT => {
            let advance = device.text_out(dc, to, units);
            line(advance, 0, |advance| advance.to_string())
        }
        call::PANEL_FILL => drawn(device.panel_fill(Rgb565(u16::try_from(a).ok()?))),
        call::RESIZE => drawn(device.resize(a, b)),
        call::BLIT => drawn(device.blit(dc, area, src, from, a)),
        call::MOVE_TO => line(device.move_to(dc, to), Point::default(), point),
        call::LINE_TO => drawn(device.line_to(dc, to)),
        _ => return None,
    })
}

/// The line of an answer as numbers; none if there is no such call.
fn by_numbers(form: Form, call: u32, reply: &Reply) -> Option<String> {
    let Reply { refusal, value, flag, x, y, .. } = reply;
    if *refusal == Refusal::NO_CALL.number() {
        return None;
    }
    Some(match call {
        call::DELETE | call::SET_BK_MODE => format!("{refusal} {flag}"),
        call::REMOVE => format!("{refusal} {}", shown(form, reply.object())),
        call::MOVE_TO => format!("{refusal} {x} {y}"),
        call::TEXT => format!("{refusal} {value}"),
        call::PATTERN_FILL.. => format!("{refusal}"),
        _ => format!("{refusal} {value:08x}"),
    })
}

/// A device, and a record with its own memories.
struct Both {
    device: Device,
    record: Record,
    panel: Box<[u8]>,
    store: Box<[u8]>,
    /// The byte that fills the memories and outputs.
    fill: u8,
}

impl Both {
    /// Performs the call that is next in a script, in both forms. Returns its line;
    /// none if it is a bad call.
    fn perform(&mut self, form: Form, script: &mut &[u8]) -> Option<String> {
        let line = match *script {
            [byte @ (LOAD | SAVE), rest @ ..] if form == Form::Gdi2 => {
                let mut rest = rest;
                let count = number(&mut rest).filter(|&n| n <= MOST_BYTES)? as usize;
                let bytes = if *byte == LOAD { count } else { 0 };
                let (bytes, rest) = rest.split_at_checked(bytes)?;
                *script = rest;
                let line = if *byte == LOAD { self.load(bytes) } else { self.save(count) };
                format!("{byte:02x} {line}")
            }
            _ => {
                let (host, units) = read(form, script)?;
                let line = by_method(form, &mut self.device, &host, &units);
                let reply = self.record.perform(&host, &units, &mut self.panel, &mut self.store);
                assert_eq!(by_numbers(form, host.call, &reply), line, "{host:x?}");
                format!("{:02x} {}", host.call, line?)
            }
        };
        let numbers = self.device.record().as_numbers();
        assert!(self.record.as_numbers() == numbers, "the numbers differ after {line}");
        Some(line)
    }

    fn load(&mut self, bytes: &[u8]) -> String {
        let answer = self.device.load(bytes);
        assert_eq!(self.record.load(bytes, &mut self.panel, &mut self.store), answer);
        drawn(answer)
    }

    /// The refusal, the table's length and the CRC of an output of this length.
    fn save(&self, room: usize) -> String {
        let mut out = vec![self.fill; room];
        let answer = self.record.save_into(&mut out);
        let table = self.device.save().expect("a device in a script is sound");
        match answer {
            Ok(length) => assert_eq!(out[..length], table),
            Err(_) => assert!(room < table.len()),
        }
        line(answer, 0, |length| format!("{length} {:08x}", crc32(&out)))
    }

    /// The state lines, which must be the same in both forms.
    fn look(&self, form: Form) -> Vec<String> {
        let Both { device, record, panel, store, .. } = self;
        assert!(**panel == *device.panel() && **store == *device.store(), "the memories differ");
        state(form, record, panel, store)
    }
}

/// The state lines of a record and its memories.
fn state(form: Form, record: &Record, panel: &[u8], store: &[u8]) -> Vec<String> {
    let (width, height) = (record.width(), record.height());
    let (frames, next) = (record.frame_counter(), record.next_handle());
    let (stock, count) = (u8::from(record.stock_dirty()), record.count());
    let mut lines = vec![
        format!("panel {width} {height} frames {frames} next {next} stock {stock} count {count}"),
        format!("dc {} {}", Handle::GDI_SCREEN_DC, dc_line(form, &record.screen())),
    ];
    let objects = record.slots();
    lines.extend(objects.map(|s| format!("object {} {}", s.handle, object_line(form, &s.object))));
    lines.push(format!("crc {:08x} {:08x}", crc32(panel), crc32(store)));
    lines
}

/// What is printed for a script, and the number of its calls.
pub fn printed(script: &[u8]) -> (String, usize) {
    let (lines, calls) = lines(script);
    (lines.iter().flat_map(|line| [line, "\n"]).collect(), calls)
}

fn lines(script: &[u8]) -> (Vec<String>, usize) {
    let header = (|| {
        let (form, mut rest) = Form::read(script)?;
        let [panel, store, width, height] = [(); 4].map(|()| number(&mut rest));
        let (&fill, rest) = rest.split_first()?;
        Some((form, [panel?, store?, width?, height?], fill, rest))
    })();
    let Some((form, [panel_len, store_len, width, height], fill, mut rest)) =
        header.filter(|_| script.len() <= 1_048_576)
    else {
        return (vec!["bad script".into()], 0);
    };
    if panel_len > 1_048_576 || store_len > 4_194_304 {
        return (vec!["too large".into()], 0);
    }
    let memory = |len: u32| vec![fill; len as usize].into_boxed_slice();
    let (mut panel, mut store, mut record) =
        (memory(panel_len), memory(store_len), Record::default());
    let opened = record.open(width, height, &mut panel, &mut store);
    let device = Device::open_on(width, height, memory(panel_len), memory(store_len));
    let mut lines = vec![format!("open {}", drawn(opened))];
    let device = match device {
        Ok(device) => device,
        Err(refusal) => {
            assert_eq!(opened, Err(refusal));
            lines.extend(state(form, &record, &panel, &store));
            return (lines, 0);
        }
    };
    let (mut both, mut calls) = (Both { device, record, panel, store, fill }, 0);
    while let Some((&first, behind)) = rest.split_first() {
        if first == LOOK {
            lines.extend(both.look(form));
            rest = behind;
            continue;
        }
        let Some(line) = both.perform(form, &mut rest) else {
            lines.push("bad call".into());
            break;
        };
        lines.push(line);
        calls += 1;
    }
    lines.extend(both.look(form));
    (lines, calls)
}

/// The CRC-32 of the bytes, as in zlib and PNG.
pub fn crc32(bytes: &[u8]) -> u32 {
    let table: [u32; 256] = std::array::from_fn(|i| {
        (0..8).fold(i as u32, |c, _| if c & 1 == 1 { c >> 1 ^ 0xEDB8_8320 } else { c >> 1 })
    });
    !bytes.iter().fold(u32::MAX, |c, &byte| table[usize::from(c as u8 ^ byte)] ^ c >> 8)
}

/// Asserts that two texts have the same lines.
pub fn assert_lines(ours: &str, theirs: &str, of: &str) {
    for (i, (our, their)) in ours.lines().zip(theirs.lines()).enumerate() {
        assert_eq!(our, their, "{of}, line {}", i + 1);
    }
    assert_eq!(ours.len(), theirs.len(), "{of}: one has more lines");
}
