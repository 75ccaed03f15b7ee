//! The cases of docs/primitive-cases.md, as values and as bytes.

use pocket_kernel::gdi::rop3::SRCCOPY;

use crate::argument::Units;
use crate::table::table;

/// The first bytes of a script; the mode, one byte, follows.
pub const MAGIC: &[u8; 4] = b"PRM2";
/// The length of the longest script.
pub const LONGEST: usize = 1_048_576;
pub const ANSWERS: u8 = 0;
pub const PICTURE: u8 = 1;

/// How many bytes the memory has that surfaces lie in.
pub const MEMORY: usize = 153_600;
/// The largest side of a surface.
pub const MAX_SIDE: u32 = 4096;
/// How many bytes the longest source has.
pub const MAX_SOURCE: u16 = 8192;
/// How many units the longest text has, a few more than an operation accepts.
pub const MAX_COUNT: u32 = 65_600;

table! {
    /// A case with its arguments.
    Case {
        0x01 "pack" Pack { colorref: u32 }
        0x02 "widen" Widen { word: u16 }
        0x03 "RGB555 to RGB565" From555 { word: u16 }
        0x04 "RGB565 to RGB555" To555 { word: u16 }
        0x05 "raster operation" Raster { code: u32, p: u16, s: u16, d: u16 }
        0x06 "glyph" Glyph { index: u8 }
        0x07 "sweep" Sweep { block: u8 }
        0x10 "surface" Surface { width: u16, height: u16, seed: u32 }
        0x11 "pattern fill" PatternFill { x: i32, y: i32, w: i32, h: i32, pattern: u16, code: u32 }
        0x12 "blit" Blit {
            dx: i32, dy: i32, sx: i32, sy: i32, w: i32, h: i32,
            src_w: u32, src_h: u32, src_len: u16, seed: u32,
            code: u32, pattern: u16
        }
        0x13 "blit within" BlitWithin {
            dx: i32, dy: i32, sx: i32, sy: i32, w: i32, h: i32,
            code: u32, pattern: u16
        }
        0x14 "character" Character { x: i32, y: i32, character: u32, color: u16 }
        0x15 "fill" Fill { x: i32, y: i32, w: i32, h: i32, color: u16 }
        0x16 "outline" Outline { x: i32, y: i32, w: i32, h: i32, color: u16 }
        0x17 "text" Text { x: i32, y: i32, color: u16, count: u32, stop: u32, units: Units<u8> }
        0x18 "lend" Lend { width: u32, height: u32, len: u32 }
        0x19 "blit between" BlitBetween {
            order: u8, width: u16, height: u16, src_w: u16, src_h: u16,
            dx: i32, dy: i32, sx: i32, sy: i32, w: i32, h: i32,
            code: u32, pattern: u16
        }
    }
}

impl Case {
    /// A copy between two surfaces: the order, the sides of both, and the box.
    pub fn copy_between(order: u8, sides: [u16; 4], at: [i32; 4], [w, h]: [i32; 2]) -> Case {
        let [width, height, src_w, src_h] = sides;
        let [dx, dy, sx, sy] = at;
        let (code, pattern) = (SRCCOPY, 0);
        #[rustfmt::skip]
        let case =
            Case::BlitBetween { order, width, height, src_w, src_h, dx, dy, sx, sy, w, h, code, pattern };
        case
    }

    /// Reads a case from the front of a script; `None` if it is a bad case.
    pub fn read(script: &mut &[u8]) -> Option<Case> {
        let case = Case::read_any(script)?;
        let good = match case {
            Case::Glyph { index } => index <= 94,
            Case::Surface { width, height, .. } => {
                sides(width, height) && bytes_of(width, height) <= MEMORY
            }
            Case::Blit { src_len, .. } => src_len <= MAX_SOURCE,
            Case::Text { count, ref units, .. } => {
                count <= MAX_COUNT && !units.as_slice().is_empty()
            }
            Case::Lend { len, .. } => len as usize <= MEMORY,
            Case::BlitBetween { order, width, height, src_w, src_h, .. } => {
                order <= 1
                    && sides(width, height)
                    && sides(src_w, src_h)
                    && bytes_of(width, height) + bytes_of(src_w, src_h) <= MEMORY
            }
            _ => true,
        };
        good.then_some(case)
    }

    /// The units that a text draws: those before unit 0 or the end.
    pub fn units_drawn(&self) -> usize {
        match *self {
            Case::Text { count, stop, ref units, .. } => {
                text(count, stop, units).iter().take_while(|unit| **unit != 0).count()
            }
            _ => 0,
        }
    }

    /// Whether the case draws, on lent bytes or within the memory.
    pub fn draws(&self) -> bool {
        (0x11..=0x19).contains(&self.byte()) && !matches!(self, Case::Lend { .. })
    }
}

/// Whether a surface may have these sides.
fn sides(width: u16, height: u16) -> bool {
    let side = |n| (1..=MAX_SIDE).contains(&u32::from(n));
    side(width) && side(height)
}

/// How many bytes a surface of these sides has.
pub fn bytes_of(width: u16, height: u16) -> usize {
    2 * usize::from(width) * usize::from(height)
}

/// The bytes of a surface or of a blit's source: black if the seed is 0, otherwise
/// words from the format's generator.
pub fn generated(len: usize, seed: u32) -> Vec<u8> {
    if seed == 0 {
        return vec![0; len];
    }
    let mut n = seed;
    let word = |_| {
        n = n.wrapping_mul(1_103_515_245).wrapping_add(12_345);
        ((n >> 16) as u16).to_le_bytes()
    };
    let mut bytes: Vec<u8> = (0..len.div_ceil(2)).flat_map(word).collect();
    bytes.truncate(len);
    bytes
}

/// The units of a text: `count` units, the given ones repeated, and 0 at `stop`.
pub fn text(count: u32, stop: u32, units: &Units<u8>) -> Vec<u16> {
    let round = units.as_slice().iter().cycle().copied();
    let text = (0..count).zip(round);
    text.map(|(at, unit)| if at == stop { 0 } else { unit }).collect()
}
