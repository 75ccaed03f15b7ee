//! Drawings: call scripts as readable text, with names for handles.

use std::collections::HashMap;
use std::str::FromStr;

use pocket_kernel::framebuffer::colorref_to_rgb565;

use super::call::Call;
use super::device::Device;
use super::form::Form;
use super::handle::STOCK;
use super::outcome::Answer;
use super::script::Header;
use crate::codes::CODES;
use crate::overflow::Overflow;

/// The names of `STOCK`.
const STOCK_NAMES: [&str; STOCK.len()] = [
    "screen",
    "white_brush",
    "ltgray_brush",
    "gray_brush",
    "black_brush",
    "null_brush",
    "white_pen",
    "black_pen",
    "null_pen",
    "dkgray_brush",
    "system_font",
    "default_bitmap",
];

/// The call script of a drawing. An error names the line.
pub fn drawing(text: &str) -> Result<Vec<u8>, String> {
    let mut drawing = Drawing::new();
    for (at, line) in text.lines().enumerate() {
        drawing.add(line).map_err(|error| format!("line {}: {error}", at + 1))?;
    }
    drawing.script().ok_or("nothing is opened".into())
}

/// A partly read drawing: its header and calls, and the device after the calls so
/// far.
struct Drawing {
    /// Before the open there is neither.
    opened: Option<(Header, Device)>,
    /// `GDI1` unless a call needs the other.
    form: Form,
    calls: Vec<u8>,
    names: HashMap<String, u32>,
}

impl Drawing {
    fn new() -> Self {
        let stock = STOCK_NAMES.iter().map(ToString::to_string).zip(STOCK);
        Self { opened: None, form: Form::Gdi1, calls: Vec::new(), names: stock.collect() }
    }

    /// The call script; none if nothing is opened.
    fn script(self) -> Option<Vec<u8>> {
        let (header, _) = self.opened?;
        Some([header.bytes_as(self.form), self.calls].concat())
    }

    /// Adds the call of a line.
    fn add(&mut self, line: &str) -> Result<(), String> {
        let words = words(line)?;
        match words[..] {
            [] => Ok(()),
            ["open", panel, store, width, height, fill] => {
                let [panel_len, store_len, width, height] = numbers([panel, store, width, height])?;
                self.open(Header { panel_len, store_len, width, height, fill: number(fill)? })
            }
            [name, "=", ref call @ ..] => match self.perform(call)? {
                Answer::Number(handle) if call[0].starts_with("create_") => self.name(name, handle),
                _ => Err(format!("{} makes no handle", call[0])),
            },
            _ => self.perform(&words).map(|_| ()),
        }
    }

    fn open(&mut self, header: Header) -> Result<(), String> {
        if self.opened.is_some() {
            return Err("a device is open".into());
        }
        if !header.is_served() {
            return Err("too large".into());
        }
        let (refusal, device) = header.open();
        if refusal != 0 {
            return Err(refused(refusal));
        }
        self.opened = Some((header, device));
        Ok(())
    }

    /// Adds a call and performs it on the device. Returns its answer.
    fn perform(&mut self, words: &[&str]) -> Result<Answer, String> {
        let call = self.call(words)?;
        let (_, device) = self.opened.as_mut().ok_or("no device is open")?;
        let outcome = device.perform(&call).map_err(|Overflow| "the original's sums overflow")?;
        if outcome.refusal != 0 {
            return Err(refused(outcome.refusal));
        }
        if !self.form.has(call.byte()) {
            self.form = Form::Gdi2;
        }
        call.write(&mut self.calls);
        Ok(outcome.answer)
    }

    fn name(&mut self, name: &str, handle: u32) -> Result<(), String> {
        if self.names.insert(name.into(), handle).is_some() {
            return Err(format!("{name} is a name already"));
        }
        Ok(())
    }

    fn handle(&self, name: &str) -> Result<u32, String> {
        self.names.get(name).copied().ok_or_else(|| format!("nothing is called {name}"))
    }

    #[rustfmt::skip]
    fn call(&self, words: &[&str]) -> Result<Call, String> {
        Ok(match *words {
            ["create_memory_dc"] => Call::CreateMemoryDc {},
            ["create_compatible_bitmap", width, height] => {
                Call::CreateCompatibleBitmap { width: number(width)?, height: number(height)? }
            }
            ["create_solid_brush", color] => Call::CreateSolidBrush { color: colorref(color)? },
            ["create_pen", color, width] => {
                Call::CreatePen { color: colorref(color)?, width: number(width)? }
            }
            ["create_font", height] => Call::CreateFont { height: number(height)? },
            ["delete", name] => Call::Delete { handle: self.handle(name)? },
            ["remove", name] => Call::Remove { handle: self.handle(name)? },
            ["select", dc, object] => {
                Call::Select { dc: self.handle(dc)?, object: self.handle(object)? }
            }
            ["set_text_color", dc, color] => {
                Call::SetTextColor { dc: self.handle(dc)?, color: colorref(color)? }
            }
            ["set_text_align", dc, align] => {
                Call::SetTextAlign { dc: self.handle(dc)?, align: number(align)? }
            }
            ["set_bk_color", dc, color] => {
                Call::SetBkColor { dc: self.handle(dc)?, color: colorref(color)? }
            }
            ["set_bk_mode", dc, mode @ ("0" | "1")] => {
                Call::SetBkMode { dc: self.handle(dc)?, transparent: number(mode)? }
            }
            ["pattern_fill", dc, x, y, w, h, code] => {
                let [x, y, w, h] = numbers([x, y, w, h])?;
                Call::PatternFill { dc: self.handle(dc)?, x, y, w, h, code: self::code(code)? }
            }
            ["rectangle", dc, x, y, w, h] => {
                let [x, y, w, h] = numbers([x, y, w, h])?;
                Call::Rectangle { dc: self.handle(dc)?, x, y, w, h }
            }
            ["text", dc, x, y, text] => {
                let text = text.strip_prefix('"').ok_or("a text is in quotes")?;
                let units = text.encode_utf16().collect();
                Call::text(self.handle(dc)?, number(x)?, number(y)?, units)
            }
            ["panel_fill", color] => {
                Call::PanelFill { word: colorref_to_rgb565(colorref(color)?).into() }
            }
            ["resize", width, height] => {
                Call::Resize { width: number(width)?, height: number(height)? }
            }
            ["blit", dc, x, y, w, h, source, sx, sy, code] => {
                let [x, y, w, h, sx, sy] = numbers([x, y, w, h, sx, sy])?;
                let (dc, source, code) =
                    (self.handle(dc)?, self.handle(source)?, self::code(code)?);
                Call::Blit { dc, x, y, w, h, source, sx, sy, code }
            }
            ["move_to", dc, x, y] => {
                Call::Move { dc: self.handle(dc)?, x: number(x)?, y: number(y)? }
            }
            ["line_to", dc, x, y] => {
                Call::Line { dc: self.handle(dc)?, x: number(x)?, y: number(y)? }
            }
            [name, ..] => return Err(format!("no call {name} with these arguments")),
            [] => return Err("no call".into()),
        })
    }
}

/// The words of a line without its comment. A text is one word, which keeps its
/// first quote.
fn words(line: &str) -> Result<Vec<&str>, String> {
    let mut words = Vec::new();
    let mut rest = line.trim_start();
    while !rest.is_empty() && !rest.starts_with('#') {
        let (word, behind) = if let Some(text) = rest.strip_prefix('"') {
            let end = 1 + text.find('"').ok_or("a quote is missing")?;
            (&rest[..end], &rest[end + 1..])
        } else {
            rest.split_at(rest.find(char::is_whitespace).unwrap_or(rest.len()))
        };
        words.push(word);
        rest = behind.trim_start();
    }
    Ok(words)
}

fn refused(number: u8) -> String {
    format!("refused with {number}")
}

fn number<T: FromStr>(word: &str) -> Result<T, String> {
    word.parse().map_err(|_| format!("{word} is no number here"))
}

fn numbers<T: FromStr + Copy + Default, const N: usize>(
    words: [&str; N],
) -> Result<[T; N], String> {
    let mut numbers = [T::default(); N];
    for (at, word) in words.iter().enumerate() {
        numbers[at] = number(word)?;
    }
    Ok(numbers)
}

/// The number that a fixed number of hexadecimal digits stand for.
fn hexadecimal(word: &str, digits: usize) -> Option<u32> {
    let good = word.len() == digits && word.bytes().all(|byte| byte.is_ascii_hexdigit());
    u32::from_str_radix(word, 16).ok().filter(|_| good)
}

/// The COLORREF of a colour, which is written red, green, blue.
fn colorref(word: &str) -> Result<u32, String> {
    let rgb = hexadecimal(word, 6).ok_or_else(|| format!("{word} is no colour"))?;
    Ok(rgb.swap_bytes() >> 8)
}

/// A raster code's name, or its eight digits.
fn code(word: &str) -> Result<u32, String> {
    let named = CODES.iter().find(|(name, _)| *name == word).map(|(_, code)| *code);
    named.or_else(|| hexadecimal(word, 8)).ok_or_else(|| format!("{word} is no raster code"))
}

#[cfg(test)]
mod tests {
    use super::*;

    const OPEN: &str = "open 9 40 2 2 165 # small\n\n";

    #[test]
    fn a_drawing_is_its_calls() {
        let text = "memory = create_memory_dc\n\
                    low = create_compatible_bitmap 3 2\n\
                    select memory low # now it has a surface\n\
                    red = create_solid_brush ff8001\n\
                    thin = create_pen 0000ff 1\n\
                    create_font -12\n\
                    set_text_color screen ffffff\n\
                    set_text_align memory 6\n\
                    set_bk_color memory 00ff00\n\
                    set_bk_mode memory 1\n\
                    pattern_fill screen -1 0 2 3 PATCOPY\n\
                    rectangle memory 0 0 3 2\n\
                    text memory 1 -2 \"a # b\" # ink\n\
                    panel_fill ff0000\n\
                    resize 1 4\n\
                    blit screen 0 0 1 1 memory 2 1 00cc0020\n\
                    select memory default_bitmap\n\
                    delete red\n\
                    remove low\n";
        let (screen, memory, low, red) = (0xDEAD_0DC0, 0xDEAD_1000, 0xDEAD_1001, 0xDEAD_1002);
        let (x, y, w, h) = (0, 0, 1, 1);
        let calls = [
            Call::CreateMemoryDc {},
            Call::CreateCompatibleBitmap { width: 3, height: 2 },
            Call::Select { dc: memory, object: low },
            Call::CreateSolidBrush { color: 0x0001_80FF },
            Call::CreatePen { color: 0x00FF_0000, width: 1 },
            Call::CreateFont { height: -12 },
            Call::SetTextColor { dc: screen, color: 0x00FF_FFFF },
            Call::SetTextAlign { dc: memory, align: 6 },
            Call::SetBkColor { dc: memory, color: 0x0000_FF00 },
            Call::SetBkMode { dc: memory, transparent: 1 },
            Call::PatternFill { dc: screen, x: -1, y: 0, w: 2, h: 3, code: 0x00F0_0021 },
            Call::Rectangle { dc: memory, x, y, w: 3, h: 2 },
            Call::text(memory, 1, -2, vec![0x61, 0x20, 0x23, 0x20, 0x62]),
            Call::PanelFill { word: 0xF800 },
            Call::Resize { width: 1, height: 4 },
            Call::Blit { dc: screen, x, y, w, h, source: memory, sx: 2, sy: 1, code: 0x00CC_0020 },
            Call::Select { dc: memory, object: 0xDEAD_5720 },
            Call::Delete { handle: red },
            Call::Remove { handle: low },
        ];
        let header = Header { panel_len: 9, store_len: 40, width: 2, height: 2, fill: 0xA5 };
        let mut script = header.bytes();
        calls.iter().for_each(|call| call.write(&mut script));
        assert_eq!(drawing(&format!("{OPEN}{text}")), Ok(script));
    }

    #[test]
    fn a_drawing_with_a_line_or_a_move_is_of_the_second_form() {
        let header = Header { panel_len: 9, store_len: 40, width: 2, height: 2, fill: 0xA5 };
        let dc = 0xDEAD_0DC0;
        let (go, line) = (Call::Move { dc, x: -1, y: 0 }, Call::Line { dc, x: 2, y: -3 });
        for (text, calls) in [
            ("resize 1 1\nmove_to screen -1 0", [Call::Resize { width: 1, height: 1 }, go.clone()]),
            ("line_to screen 2 -3\nmove_to screen -1 0", [line, go]),
        ] {
            let mut script = header.bytes_as(Form::Gdi2);
            calls.iter().for_each(|call| call.write(&mut script));
            assert_eq!(drawing(&format!("{OPEN}{text}")), Ok(script));
        }
    }

    #[test]
    fn a_wrong_line_is_named() {
        let wrong = [
            ("rectangle memory 0 0 1 1", "nothing is called memory"),
            ("rectangle screen 0 0 1 1.5", "1.5 is no number here"),
            ("rectangle screen 0 0 1", "no call rectangle with these arguments"),
            ("resize -1 2", "-1 is no number here"),
            ("resize 9 9", "refused with 7"),
            ("move_to screen 32768 0", "refused with 11"),
            ("line_to screen 0", "no call line_to with these arguments"),
            ("panel_fill ff00", "ff00 is no colour"),
            ("pattern_fill screen 0 0 1 1 COPY", "COPY is no raster code"),
            ("text screen 0 0 word", "a text is in quotes"),
            ("text screen 0 0 \"word", "a quote is missing"),
            ("set_bk_mode screen 2", "no call set_bk_mode with these arguments"),
            ("screen = create_memory_dc", "screen is a name already"),
            ("old = set_text_align screen 0", "set_text_align makes no handle"),
            ("name =", "no call"),
            ("open 8 2 2 2 0", "a device is open"),
            ("pattern_fill screen 1 0 2147483647 1 PATCOPY", "the original's sums overflow"),
        ];
        for (line, error) in wrong {
            assert_eq!(drawing(&format!("{OPEN}{line}\n")), Err(format!("line 3: {error}")));
        }
        assert_eq!(drawing("resize 1 1"), Err("line 1: no device is open".into()));
        assert_eq!(drawing("open 8 2 3 2 0"), Err("line 1: refused with 7".into()));
        assert_eq!(drawing("open 1048577 2 3 2 0"), Err("line 1: too large".into()));
        assert_eq!(drawing("# nothing"), Err("nothing is opened".into()));
    }
}
