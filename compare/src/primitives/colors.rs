//! The original's answers to cases 01 to 07: colours, raster operations on
//! single words, glyphs.

use pocket_kernel::framebuffer::{colorref_to_rgb565, Framebuffer};
use pocket_kernel::gdi::{rgb555_to_rgb565, rgb565_to_rgb555, rop3};

use super::case::Case;
use crate::crc::crc32;

include!(concat!(env!("OUT_DIR"), "/glyphs.rs"));

/// The parts of the answer; `None` for another case.
pub fn answer(case: &Case) -> Option<String> {
    Some(match *case {
        Case::Pack { colorref } => digits(colorref_to_rgb565(colorref)),
        Case::Widen { word } => {
            let rgb = widened(&[word]);
            format!("{:02x}{:02x}{:02x}", rgb[0], rgb[1], rgb[2])
        }
        Case::From555 { word } => digits(rgb555_to_rgb565(word)),
        Case::To555 { word } => digits(rgb565_to_rgb555(word)),
        Case::Raster { code, p, s, d } => {
            let (uses_s, uses_d) = (rop3::uses_src(code), rop3::uses_dst(code));
            let result = digits(rop3::apply(code, p, s, d));
            format!("{result} {} {}", u8::from(uses_s), u8::from(uses_d))
        }
        Case::Glyph { index } => {
            format!("{:016x}", u64::from_be_bytes(GLYPHS[usize::from(index)]))
        }
        Case::Sweep { block } => sweep(block),
        _ => return None,
    })
}

fn digits(word: u16) -> String {
    format!("{word:04x}")
}

/// The sweep over 256 words: the block, then three CRCs.
fn sweep(block: u8) -> String {
    let words: Vec<u16> = (0..=255).map(|low| u16::from_be_bytes([block, low])).collect();
    let each = |convert: fn(u16) -> u16| -> Vec<u8> {
        words.iter().flat_map(|&word| convert(word).to_be_bytes()).collect()
    };
    let [rgb, from_555, to_555] = [widened(&words), each(rgb555_to_rgb565), each(rgb565_to_rgb555)]
        .map(|bytes| crc32(&bytes));
    format!("{block:02x} {rgb:08x} {from_555:08x} {to_555:08x}")
}

/// R, G and B of each word. The original's widening function is private, so they
/// are read from its two snapshots of a row of these words, which must agree.
fn widened(words: &[u16]) -> Vec<u8> {
    let mut row = Framebuffer::new(words.len() as u32, 1);
    row.pixels = words.iter().flat_map(|word| word.to_le_bytes()).collect();
    let ppm = row.snapshot_ppm();
    let rgb = &ppm[ppm.len() - 3 * words.len()..];
    let rgba: Vec<u8> = rgb.chunks(3).flat_map(|c| [c[0], c[1], c[2], 255]).collect();
    assert!(row.snapshot_rgba8888() == rgba, "the original's two snapshots differ");
    rgb.to_vec()
}

#[cfg(test)]
mod tests {
    use super::*;

    #[test]
    fn answers_of_the_published_examples() {
        let parts = |case| answer(&case).unwrap();
        assert_eq!(parts(Case::Pack { colorref: 0x00C0_C0C0 }), "c618");
        assert_eq!(parts(Case::Widen { word: 0x8410 }), "848284");
        assert_eq!(parts(Case::From555 { word: 0x0200 }), "0420");
        let b8 = Case::Raster { code: 0x00B8_0000, p: 0x00FF, s: 0x0F0F, d: 0x3333 };
        assert_eq!(parts(b8), "03f3 1 1");
        assert_eq!(parts(Case::Glyph { index: 33 }), "20508888f8888800");
    }
}
