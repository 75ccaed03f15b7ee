//! The calls of docs/call-script.md, as values and as bytes.

use crate::argument::{List, Units};
use crate::table::table;

/// How many units the longest text of a script has.
pub const MAX_UNITS: usize = 70_000;
/// How many bytes a load has at most, and the output of a save.
pub const MAX_BYTES: usize = 16_384;

table! {
    /// A call with its arguments.
    Call {
        0x01 "create memory DC" CreateMemoryDc {}
        0x02 "create compatible bitmap" CreateCompatibleBitmap { width: u32, height: u32 }
        0x03 "create solid brush" CreateSolidBrush { color: u32 }
        0x04 "create pen" CreatePen { color: u32, width: u32 }
        0x05 "create font" CreateFont { height: i32 }
        0x06 "delete" Delete { handle: u32 }
        0x07 "remove" Remove { handle: u32 }
        0x08 "select" Select { dc: u32, object: u32 }
        0x09 "set text colour" SetTextColor { dc: u32, color: u32 }
        0x0A "set text alignment" SetTextAlign { dc: u32, align: u32 }
        0x0B "set background colour" SetBkColor { dc: u32, color: u32 }
        0x0C "set background mode" SetBkMode { dc: u32, transparent: u32 }
        0x0D "pattern fill" PatternFill { dc: u32, x: i32, y: i32, w: i32, h: i32, code: u32 }
        0x0E "rectangle" Rectangle { dc: u32, x: i32, y: i32, w: i32, h: i32 }
        0x0F "text" Text { dc: u32, x: i32, y: i32, units: Units<u32> }
        0x10 "panel fill" PanelFill { word: u32 }
        0x11 "resize" Resize { width: u32, height: u32 }
        0x12 "blit" Blit {
            dc: u32, x: i32, y: i32, w: i32, h: i32,
            source: u32, sx: i32, sy: i32, code: u32
        }
        0x13 "move" Move { dc: u32, x: i32, y: i32 }
        0x14 "line" Line { dc: u32, x: i32, y: i32 }
        0x15 "load" Load { bytes: List<u32, u8> }
        0x16 "save" Save { room: u32 }
    }
}

impl Call {
    /// Reads a call from the front of a script; `None` if it is a bad call.
    pub fn read(script: &mut &[u8]) -> Option<Call> {
        let call = Call::read_any(script)?;
        let good = match call {
            Call::SetBkMode { transparent, .. } => transparent <= 1,
            Call::Text { ref units, .. } => units.as_slice().len() <= MAX_UNITS,
            Call::PanelFill { word } => word <= u16::MAX.into(),
            Call::Load { ref bytes } => bytes.as_slice().len() <= MAX_BYTES,
            Call::Save { room } => room as usize <= MAX_BYTES,
            _ => true,
        };
        good.then_some(call)
    }

    /// A text with these units.
    pub fn text(dc: u32, x: i32, y: i32, units: Vec<u16>) -> Call {
        let units = Units::new(units).expect("their number has 32 bits");
        Call::Text { dc, x, y, units }
    }

    /// A load of these bytes.
    pub fn load(bytes: Vec<u8>) -> Call {
        Call::Load { bytes: List::new(bytes).expect("their number has 32 bits") }
    }

    pub fn draws(&self) -> bool {
        is_drawing(self.byte())
    }

    /// The call as bytes.
    pub fn bytes(&self) -> Vec<u8> {
        let mut bytes = Vec::new();
        self.write(&mut bytes);
        bytes
    }
}

/// Whether the call with this byte draws, on a DC's surface or on the panel.
pub fn is_drawing(byte: u8) -> bool {
    matches!(byte, 0x0D..=0x12 | 0x14)
}

#[cfg(test)]
mod tests {
    use super::*;

    #[test]
    fn calls_are_written_and_read() {
        let call = Call::CreatePen { color: 0x0080_FF01, width: 7 };
        let bytes = [0x04, 0x00, 0x80, 0xFF, 0x01, 0, 0, 0, 7];
        assert_eq!(call.bytes(), bytes);
        assert_eq!(Call::read(&mut bytes.as_slice()), Some(call.clone()));
        assert_eq!(call.to_string(), "create pen, color 0x80ff01, width 7");
        assert_eq!(Call::CreateFont { height: -2 }.bytes(), [0x05, 0xFF, 0xFF, 0xFF, 0xFE]);
        assert_eq!(Call::CreateMemoryDc {}.bytes(), [0x01]);
        let line = Call::Line { dc: 1, x: -32_768, y: 2 };
        let bytes = [0x14, 0, 0, 0, 1, 0xFF, 0xFF, 0x80, 0, 0, 0, 0, 2];
        assert_eq!(line.bytes(), bytes);
        assert_eq!(Call::read(&mut bytes.as_slice()), Some(line));
        let load = Call::load(vec![0x10, 0xFF]);
        let bytes = [0x15, 0, 0, 0, 2, 0x10, 0xFF];
        assert_eq!(load.bytes(), bytes);
        assert_eq!(Call::read(&mut bytes.as_slice()), Some(load));
        let text = Call::text(1, -1, 2, vec![0x41, 0xD800]);
        let bytes = [
            [0x0F, 0, 0, 0, 1, 0xFF, 0xFF, 0xFF, 0xFF].as_slice(),
            &[0, 0, 0, 2, 0, 0, 0, 2, 0, 0x41, 0xD8, 0],
        ];
        assert_eq!(text.bytes(), bytes.concat());
        assert_eq!(Call::read(&mut bytes.concat().as_slice()), Some(text));
    }

    #[test]
    fn bad_calls_are_not_read() {
        let mode = |transparent| Call::SetBkMode { dc: 0, transparent }.bytes();
        let fill = |word| Call::PanelFill { word }.bytes();
        let text = |count| Call::text(0, 0, 0, vec![0; count]).bytes();
        let load = |count| Call::load(vec![0; count]).bytes();
        let save = |room| Call::Save { room }.bytes();
        let bad = [vec![], vec![0x00], vec![0x17], vec![0xFF], mode(2), mode(0x0100_0000)];
        let long = [fill(0x0001_0000), fill(0x8000_0000), text(MAX_UNITS + 1)];
        let more = [load(MAX_BYTES + 1), save(MAX_BYTES as u32 + 1), save(u32::MAX)];
        for bytes in bad.into_iter().chain(long).chain(more) {
            assert_eq!(Call::read(&mut bytes.as_slice()), None, "{bytes:?}");
        }
        let most = [load(0), load(MAX_BYTES), save(0), save(MAX_BYTES as u32)];
        for bytes in [mode(1), fill(0xFFFF), text(0), text(MAX_UNITS)].into_iter().chain(most) {
            assert!(Call::read(&mut bytes.as_slice()).is_some());
        }
        let text = Call::text(1, 2, 3, vec![4, 5]);
        let added =
            [Call::Move { dc: 1, x: 2, y: 3 }, Call::load(vec![1, 2]), Call::Save { room: 9 }];
        for call in [Call::Delete { handle: 1 }, text].into_iter().chain(added) {
            let bytes = call.bytes();
            for len in 0..bytes.len() {
                assert_eq!(Call::read(&mut &bytes[..len]), None);
            }
        }
    }
}
