//! Counts of the drawing calls: where they were cut, which surfaces they used, and
//! with what result.

use std::fmt;

use pocket_kernel::font::{GLYPH_H, GLYPH_W};
use pocket_kernel::gdi::{rop3, STOCK_DEFAULT_BITMAP};

use super::call::Call;
use super::device::{bytes_of, Device};
use super::outcome::Outcome;
use super::paint::{drawn, Place};
use crate::clip::{boxed, cuts, moved, Axis, Stretch, CUTS, MOVES};
use crate::counts::Counts;

pub struct Drawn {
    cuts: Counts<5>,
    /// Blits under a code that uses S, by their surfaces.
    blits: Counts<5>,
    /// Such blits from or to the stock bitmap.
    stock: u64,
    /// Such blits within one surface that draw a pixel, by direction.
    moves: Counts<6>,
    /// Blits under a code that does not use S.
    without_source: u64,
    /// Rectangles by the number of their marks.
    rectangles: Counts<3>,
    texts: Counts<3>,
    resizes: Counts<7>,
}

impl Drawn {
    pub fn new() -> Self {
        let [down, up, right, left, onto_itself] = MOVES;
        Self {
            cuts: Counts::new(CUTS),
            blits: Counts::new([
                "panel to panel",
                "panel to bitmap",
                "bitmap to panel",
                "bitmap to another",
                "within a bitmap",
            ]),
            stock: 0,
            moves: Counts::new([down, up, right, left, onto_itself, "apart"]),
            without_source: 0,
            rectangles: Counts::new(["2", "1", "0"]),
            texts: Counts::new(["0", "some", "over 65535"]),
            resizes: Counts::new([
                "smaller",
                "as large",
                "larger",
                "to 0",
                "to the present size",
                "refused 6",
                "refused 7",
            ]),
        }
    }

    /// Counts a drawing call, with the device after it.
    pub fn count(&mut self, call: &Call, outcome: &Outcome, device: &Device) {
        match *call {
            Call::Text { ref units, .. } if matches!(outcome.refusal, 0 | 10) => {
                self.texts.add(match drawn(units.as_slice()) {
                    0 => "0",
                    1..=65_535 => "some",
                    _ => "over 65535",
                });
            }
            Call::Resize { width, height } => self.resizes.add(resized(outcome, [width, height])),
            _ => {}
        }
        if outcome.refusal == 0 {
            self.count_seen(call, outcome, device);
        }
    }

    /// Counts an accepted call by its visible part.
    fn count_seen(&mut self, call: &Call, outcome: &Outcome, device: &Device) {
        let seen = seen(call, device);
        if let (true, Some(seen)) = (outcome.changed, &seen) {
            let cuts = cuts(seen);
            CUTS.iter().zip(cuts).filter(|(_, cut)| *cut).for_each(|(name, _)| self.cuts.add(name));
        }
        match *call {
            Call::Rectangle { w, h, .. } => {
                let outlined = w > 0 && h > 0;
                let marks = usize::from(seen.is_some()) + usize::from(outlined);
                self.rectangles.add(["0", "1", "2"][marks]);
            }
            Call::Blit { dc, source, code, .. } => match (device.place(dc), device.place(source)) {
                (Ok(target), Ok(source)) if rop3::uses_src(code) => {
                    self.count_blit(target, source, seen.as_ref());
                }
                _ => self.without_source += 1,
            },
            _ => {}
        }
    }

    fn count_blit(&mut self, target: Place, source: Place, seen: Option<&[Axis; 2]>) {
        self.blits.add(match (source, target) {
            (Place::Panel, Place::Panel) => "panel to panel",
            (Place::Panel, _) => "panel to bitmap",
            (_, Place::Panel) => "bitmap to panel",
            _ if source == target => "within a bitmap",
            _ => "bitmap to another",
        });
        let stock = Place::Bitmap(STOCK_DEFAULT_BITMAP);
        self.stock += u64::from(source == stock || target == stock);
        if let (true, Some(seen)) = (source == target, seen) {
            self.moves.add(moved(seen).map_or("apart", |at| MOVES[at]));
        }
    }

    /// The least of all counts that must be above 0, except that of texts that are
    /// too long.
    #[cfg(test)]
    pub fn least(&self) -> u64 {
        let counts = [
            self.cuts.least(),
            self.blits.least(),
            self.moves.least(),
            self.rectangles.least(),
            self.resizes.least(),
            self.texts.of("0"),
            self.texts.of("some"),
            self.stock,
            self.without_source,
        ];
        counts.into_iter().min().unwrap_or_default()
    }
}

/// The visible part of the box of an accepted drawing on a DC's surface.
fn seen(call: &Call, device: &Device) -> Option<[Axis; 2]> {
    let sides = |dc| device.place(dc).ok().map(|place| device.sides(place));
    let (dc, stretches) = match *call {
        Call::Blit { dc, x, y, w, h, source, sx, sy, code } if rop3::uses_src(code) => {
            let [width, height] = sides(source)?;
            (dc, [Stretch::taken(x, sx, w, width), Stretch::taken(y, sy, h, height)])
        }
        Call::PatternFill { dc, x, y, w, h, .. }
        | Call::Rectangle { dc, x, y, w, h }
        | Call::Blit { dc, x, y, w, h, .. } => {
            (dc, [Stretch::plain(x, w.into()), Stretch::plain(y, h.into())])
        }
        Call::Text { dc, x, y, ref units } => {
            // The last column of a glyph has no ink.
            let advance = i64::from(GLYPH_W) * drawn(units.as_slice()) as i64;
            (dc, [Stretch::plain(x, advance - 1), Stretch::plain(y, GLYPH_H.into())])
        }
        _ => return None,
    };
    boxed(stretches, sides(dc)?)
}

/// The kind of a resize, by its result.
fn resized(outcome: &Outcome, [width, height]: [u32; 2]) -> &'static str {
    let old = bytes_of(outcome.panel[0], outcome.panel[1]);
    match outcome.refusal {
        6 => "refused 6",
        7 => "refused 7",
        _ if width == 0 || height == 0 => "to 0",
        _ if [width, height] == outcome.panel => "to the present size",
        _ if bytes_of(width, height) < old => "smaller",
        _ if bytes_of(width, height) == old => "as large",
        _ => "larger",
    }
}

impl fmt::Display for Drawn {
    fn fmt(&self, f: &mut fmt::Formatter<'_>) -> fmt::Result {
        writeln!(f, "cut, and changed a pixel: {}", self.cuts)?;
        writeln!(f, "blits: {}", self.blits)?;
        let (stock, without) = (self.stock, self.without_source);
        writeln!(f, "  from or to the stock bitmap: {stock}; codes without source: {without}")?;
        writeln!(f, "  within one surface: {}", self.moves)?;
        writeln!(f, "rectangles by marks: {}", self.rectangles)?;
        writeln!(f, "texts by units: {}", self.texts)?;
        write!(f, "resizes: {}", self.resizes)
    }
}
