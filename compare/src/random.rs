//! Random operands: colours, raster codes, units of text.

use crate::codes::named;
use crate::rng::Rng;

/// Any number of 32 bits; half of the time its top byte is 0.
pub fn colorref(rng: &mut Rng) -> u32 {
    let top = if rng.one_in(2) { 0x00FF_FFFF } else { u32::MAX };
    rng.next() as u32 & top
}

/// An RGB565 word.
pub fn word(rng: &mut Rng) -> u16 {
    if rng.one_in(6) {
        rng.pick(&[0, 0xFFFF, 0xF800, 0x07E0, 0x001F, 0x8410, 0x7FFF, 0x8000])
    } else {
        rng.next() as u16
    }
}

/// A named code, a named code with bits outside the table changed, or any table.
pub fn code(rng: &mut Rng) -> u32 {
    let other_bits = rng.next() as u32 & 0xFF00_FFFF;
    match rng.below(8) {
        0..=2 => rng.pick(&named()),
        3 => rng.pick(&named()) & 0x00FF_0000 | other_bits,
        4 | 5 => (rng.below(256) as u32) << 16,
        _ => (rng.below(256) as u32) << 16 | other_bits,
    }
}

/// A unit, mostly one that has a glyph.
pub fn unit(rng: &mut Rng) -> u16 {
    match rng.below(24) {
        0 => rng.next() as u16,
        1 => rng.pick(&[0x1F, 0x20, 0x7E, 0x7F, 0x80, 0x0141, 0xD800, 0xDFFF, 0xFFFF]),
        2 if rng.one_in(3) => 0,
        _ => rng.between(0x21, 0x7E) as u16,
    }
}
