//! The original's answer to each case.

use pocket_kernel::font::{draw_char, draw_str_u16};
use pocket_kernel::framebuffer::Framebuffer;
use pocket_kernel::gdi::Surface;

use super::canvas::Canvas;
use super::case::{generated, text, Case, MEMORY};
use super::colors;
use super::lent::Lent;
use crate::crc::crc32;
use crate::overflow::{caught, Overflow};

/// The memory, the surface, and the bytes that the operations are lent.
pub struct Original {
    memory: Vec<u8>,
    surface: Lent,
    lent: Lent,
    /// Whether the next operation draws on a panel. Panels and bitmaps alternate.
    panel: bool,
}

/// The outcome of a case.
#[derive(Default)]
pub struct Outcome {
    /// The answer, without the end of the line.
    pub line: String,
    /// The number of the refusal, 0 if it is accepted.
    pub refusal: u8,
    /// Whether a byte of the memory has changed.
    pub changed: bool,
    /// Whether a dirty mark was made.
    pub marked: bool,
    /// A text's advance.
    advance: i32,
}

/// The source of a blit.
struct Source {
    bytes: Vec<u8>,
    width: u32,
    height: u32,
}

impl Original {
    pub fn new() -> Self {
        let surface = Lent::surface(1, 1, 0);
        Self { memory: vec![0; MEMORY], surface, lent: surface, panel: true }
    }

    pub fn surface(&self) -> Lent {
        self.surface
    }

    /// The bytes that cases 11, 12 and 14 to 17 lend.
    pub fn lent(&self) -> Lent {
        self.lent
    }

    /// The surface as a P6 picture.
    pub fn picture(&self) -> Vec<u8> {
        let Lent { width, height, .. } = self.surface;
        let mut panel = Framebuffer::new(width, height);
        panel.pixels.copy_from_slice(&self.memory[self.surface.bytes()]);
        panel.snapshot_ppm()
    }

    /// Runs the case. After an overflow the memory is unchanged.
    pub fn answer(&mut self, case: &Case) -> Result<Outcome, Overflow> {
        let mut outcome = Outcome::default();
        let parts = if let Some(parts) = colors::answer(case) {
            parts
        } else if case.draws() {
            outcome = self.draw(case)?;
            self.drawn(case, &outcome)
        } else {
            self.lend(case);
            self.crc(self.lent)
        };
        outcome.line = format!("{:02x} {parts}", case.byte());
        Ok(outcome)
    }

    /// Makes a surface (case 10) or sets the lent bytes (case 18).
    fn lend(&mut self, case: &Case) {
        match *case {
            Case::Surface { width, height, seed } => {
                self.surface = Lent::surface(width, height, 0);
                self.lent = self.surface;
                let pixels = generated(self.surface.len, seed);
                self.memory[self.surface.bytes()].copy_from_slice(&pixels);
            }
            Case::Lend { width, height, len } => {
                self.lent = Lent { width, height, at: 0, len: len as usize };
            }
            _ => unreachable!("{case} lends nothing"),
        }
    }

    /// Makes the original draw on a copy of the lent bytes, unless it is refused.
    fn draw(&mut self, case: &Case) -> Result<Outcome, Overflow> {
        let target = self.target(case);
        let refusal = target.refusal(case);
        if refusal != 0 {
            return Ok(Outcome { refusal, ..Outcome::default() });
        }
        let before = &self.memory[target.bytes()];
        let canvas = if self.panel { Canvas::panel } else { Canvas::bitmap };
        let mut canvas = canvas(target.width, target.height, before.to_vec());
        let source = self.source(case);
        let advance = caught(|| operate(&mut canvas.surface(), case, source))?;
        let marked = canvas.marked();
        let after = canvas.into_pixels();
        let changed = before != after;
        self.memory[target.bytes()].copy_from_slice(&after);
        self.panel = !self.panel;
        Ok(Outcome { changed, marked, advance, ..Outcome::default() })
    }

    /// The bytes that the case draws on.
    pub fn target(&self, case: &Case) -> Lent {
        match *case {
            Case::BlitWithin { .. } => self.surface,
            Case::BlitBetween { .. } => between(case).0,
            _ => self.lent,
        }
    }

    /// A copy of the blit's source before the case; none for another case.
    fn source(&self, case: &Case) -> Source {
        let copy = |lent: Lent| Source {
            bytes: self.memory[lent.bytes()].to_vec(),
            width: lent.width,
            height: lent.height,
        };
        match *case {
            Case::Blit { src_w, src_h, src_len, seed, .. } => {
                let bytes = generated(src_len.into(), seed);
                Source { bytes, width: src_w, height: src_h }
            }
            Case::BlitWithin { .. } => copy(self.surface),
            Case::BlitBetween { .. } => copy(between(case).1),
            _ => Source { bytes: Vec::new(), width: 0, height: 0 },
        }
    }

    /// The parts of the answer to a case that draws.
    fn drawn(&self, case: &Case, outcome: &Outcome) -> String {
        let Outcome { refusal, advance, .. } = outcome;
        let mark = u8::from(outcome.marked);
        let crc = self.crc(self.shown(case));
        match case {
            Case::BlitWithin { .. } | Case::BlitBetween { .. } => format!("{mark} {crc}"),
            Case::Text { .. } => format!("{refusal:02x} {advance:08x} {crc}"),
            _ => format!("{refusal:02x} {mark} {crc}"),
        }
    }

    /// The bytes whose CRC is part of the answer: for case 19 those of both surfaces.
    fn shown(&self, case: &Case) -> Lent {
        match case {
            Case::BlitBetween { .. } => {
                let (target, source) = between(case);
                Lent { at: 0, len: target.len + source.len, ..target }
            }
            _ => self.target(case),
        }
    }

    fn crc(&self, lent: Lent) -> String {
        format!("{:08x}", crc32(&self.memory[lent.bytes()]))
    }
}

/// The target and the source of a blit between two surfaces. One is at the start
/// of the memory, the other directly behind it.
fn between(case: &Case) -> (Lent, Lent) {
    let Case::BlitBetween { order, width, height, src_w, src_h, .. } = *case else {
        unreachable!("{case} has no two surfaces");
    };
    if order == 0 {
        let target = Lent::surface(width, height, 0);
        (target, Lent::surface(src_w, src_h, target.len))
    } else {
        let source = Lent::surface(src_w, src_h, 0);
        (Lent::surface(width, height, source.len), source)
    }
}

/// Makes the original draw the case. Returns a text's advance, otherwise 0.
fn operate(surface: &mut Surface<'_>, case: &Case, source: Source) -> i32 {
    match *case {
        Case::PatternFill { x, y, w, h, pattern, code } => {
            surface.fill_rect_rop(x, y, w, h, pattern, code);
        }
        Case::Fill { x, y, w, h, color } => surface.fill_rect(x, y, w, h, color),
        Case::Outline { x, y, w, h, color } => surface.stroke_rect(x, y, w, h, color),
        Case::Blit { dx, dy, sx, sy, w, h, code, pattern, .. }
        | Case::BlitWithin { dx, dy, sx, sy, w, h, code, pattern }
        | Case::BlitBetween { dx, dy, sx, sy, w, h, code, pattern, .. } => {
            let Source { bytes, width, height } = source;
            surface.blit_from_bytes_rop(dx, dy, sx, sy, w, h, &bytes, width, height, code, pattern);
        }
        Case::Character { x, y, character, color } => {
            // Some numbers are no character; then there is nothing to draw.
            if let Some(character) = char::from_u32(character) {
                draw_char(surface, x, y, character, color);
            }
        }
        Case::Text { x, y, color, count, stop, ref units } => {
            return draw_str_u16(surface, x, y, &text(count, stop, units), color);
        }
        _ => unreachable!("{case} draws nothing"),
    }
    0
}

#[cfg(test)]
mod tests {
    use super::*;
    use crate::argument::Units;
    use pocket_kernel::gdi::rop3::SRCCOPY;

    /// The original with a surface of these sides and words.
    fn with_surface(width: u16, height: u16, words: &[u16]) -> Original {
        let mut original = Original::new();
        original.lend(&Case::Surface { width, height, seed: 0 });
        for (bytes, word) in original.memory.chunks_mut(2).zip(words) {
            bytes.copy_from_slice(&word.to_le_bytes());
        }
        original
    }

    fn words(original: &Original) -> Vec<u16> {
        let bytes = &original.memory[original.surface.bytes()];
        bytes.chunks(2).map(|word| u16::from_le_bytes([word[0], word[1]])).collect()
    }

    /// Runs the case on a black surface. Returns whether it made a mark, and the words
    /// after it.
    fn drawn(width: u16, height: u16, case: &Case) -> (bool, Vec<u16>) {
        let mut original = with_surface(width, height, &[]);
        let outcome = original.answer(case).unwrap();
        (outcome.marked, words(&original))
    }

    #[test]
    fn the_published_pictures() {
        let s: Vec<u16> =
            generated(18, 2).chunks(2).map(|word| u16::from_le_bytes([word[0], word[1]])).collect();
        let blit = |src_len| {
            let (dx, dy, sx, sy, w, h, src_w, src_h) = (-1, 1, 0, 0, 3, 3, 3, 3);
            let (seed, code, pattern) = (2, SRCCOPY, 0);
            Case::Blit { dx, dy, sx, sy, w, h, src_w, src_h, src_len, seed, code, pattern }
        };
        // 2 by 2 from (1, 0) of a source that is complete, lacks a byte, is empty.
        let picture = vec![0, 0, 0, 0, s[1], s[2], 0, 0, s[4], s[5], 0, 0];
        let first_row = vec![0, 0, 0, 0, s[1], s[2], 0, 0, 0, 0, 0, 0];
        assert_eq!(drawn(4, 3, &blit(12)), (true, picture));
        assert_eq!(drawn(4, 3, &blit(11)), (true, first_row));
        assert_eq!(drawn(4, 3, &blit(0)), (true, vec![0; 12]));
        let fill = Case::Fill { x: 4, y: 0, w: i32::MAX - 4, h: 3, color: 7 };
        assert_eq!(drawn(4, 3, &fill), (false, vec![0; 12]));
        let outline = Case::Outline { x: 10, y: 10, w: 1, h: 1, color: 7 };
        assert_eq!(drawn(4, 3, &outline), (true, vec![0; 12]));
        let a = Case::Character { x: -4, y: 0, character: 0x41, color: 7 };
        let column =
            |at: usize| if at.is_multiple_of(4) && (2..=6).contains(&(at / 4)) { 7 } else { 0 };
        assert_eq!(drawn(4, 8, &a), (false, (0..32).map(column).collect()));
    }

    #[test]
    fn an_overflow_is_no_answer_and_no_change() {
        let mut original = with_surface(4, 3, &[1; 12]);
        let fill = |x| Case::Fill { x, y: 0, w: i32::MAX, h: 3, color: 7 };
        assert!(original.answer(&fill(1)).is_err());
        assert_eq!(words(&original), [1; 12]);
        assert!(original.answer(&fill(0)).is_ok_and(|outcome| outcome.changed && outcome.marked));
        assert_eq!(words(&original), [7; 12]);
    }

    #[test]
    fn a_blit_within_the_surface_takes_the_pixels_before_it() {
        let mut original = with_surface(3, 1, &[0xA, 0xB, 0xC]);
        let (dx, dy, sx, sy, w, h) = (1, 0, 0, 0, 2, 1);
        let case = Case::BlitWithin { dx, dy, sx, sy, w, h, code: SRCCOPY, pattern: 0 };
        assert!(original.answer(&case).is_ok());
        assert_eq!(words(&original), [0xA, 0xA, 0xB]);
    }

    #[test]
    fn a_blit_between_two_surfaces_goes_either_way() {
        for (order, after) in [(0, [3, 2, 3]), (1, [1, 2, 1])] {
            let mut original = with_surface(3, 1, &[1, 2, 3]);
            let sides = if order == 0 { [2, 1, 1, 1] } else { [1, 1, 2, 1] };
            let case = Case::copy_between(order, sides, [0; 4], [1, 1]);
            assert!(original.answer(&case).is_ok_and(|outcome| outcome.marked));
            assert_eq!(words(&original), after);
        }
    }

    #[test]
    fn the_lent_bytes_are_those_of_the_last_lend() {
        let mut original = with_surface(2, 1, &[0, 0]);
        let fill = Case::Fill { x: 1, y: 0, w: 1, h: 1, color: 7 };
        let lend = |width, height, len| Case::Lend { width, height, len };
        let mut refusal = |case: &Case| original.answer(case).map(|outcome| outcome.refusal);
        assert_eq!(refusal(&lend(3, 1, 4)), Ok(0));
        assert_eq!(refusal(&fill), Ok(8));
        assert_eq!(refusal(&lend(1, 2, 4)), Ok(0));
        assert_eq!(refusal(&fill), Ok(0));
        assert_eq!(words(&original), [0, 0]);
        assert!(original.answer(&lend(2, 1, 4)).is_ok());
        assert!(original.answer(&fill).is_ok());
        assert_eq!(words(&original), [0, 7]);
    }

    #[test]
    fn a_text_answers_its_advance_and_marks_nothing() {
        let mut original = with_surface(12, 8, &[0; 96]);
        let units = Units::new(vec![0x41, 0xD800]).unwrap();
        let text =
            |count, stop| Case::Text { x: 0, y: 0, color: 1, count, stop, units: units.clone() };
        let outcome = original.answer(&text(3, u32::MAX)).unwrap();
        assert!(outcome.line.starts_with("17 00 00000012 ") && outcome.changed && !outcome.marked);
        let outcome = original.answer(&text(3, 1)).unwrap();
        assert!(outcome.line.starts_with("17 00 00000006 "));
        let outcome = original.answer(&text(65_536, u32::MAX)).unwrap();
        assert!(outcome.line.starts_with("17 0a 00000000 ") && !outcome.changed);
    }
}
