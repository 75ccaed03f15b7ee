//! The fixed sample, which the gate runs.

use super::case::Case;
use super::examples;
use super::random;
use super::script::Script;
use super::tally::Tally;
use crate::codes::named;
use crate::rng::Rng;

/// Patterns, sources and destinations: each of the eight combinations of bits alone,
/// all of them in one word, and other words.
const OPERANDS: [[u16; 3]; 16] = [
    [0x0000, 0x0000, 0x0000],
    [0x0000, 0x0000, 0xFFFF],
    [0x0000, 0xFFFF, 0x0000],
    [0x0000, 0xFFFF, 0xFFFF],
    [0xFFFF, 0x0000, 0x0000],
    [0xFFFF, 0x0000, 0xFFFF],
    [0xFFFF, 0xFFFF, 0x0000],
    [0xFFFF, 0xFFFF, 0xFFFF],
    [0x00FF, 0x0F0F, 0x3333],
    [0x0F0F, 0x3333, 0x5555],
    [0xAAAA, 0xCCCC, 0xF0F0],
    [0xF800, 0x07E0, 0x001F],
    [0x8001, 0x4002, 0xC003],
    [0x1234, 0x5678, 0x9ABC],
    [0xDEF0, 0x0FED, 0xCBA9],
    [0x8765, 0x4321, 0xBEEF],
];

/// Channel values at which a bit that packing keeps changes; every three of them.
const CHANNELS: [u32; 8] = [0, 4, 7, 8, 127, 128, 252, 255];
/// More channel values, tried one channel at a time.
const MORE_CHANNELS: [u32; 9] = [1, 3, 131, 132, 191, 192, 247, 248, 251];

pub fn sample() -> (Script, Tally) {
    let mut cases = Vec::new();
    cases.extend((0..=255).map(|block| Case::Sweep { block }));
    cases.extend((0..=94).map(|index| Case::Glyph { index }));
    packing(&mut cases);
    words(&mut cases);
    raster(&mut cases);
    examples::add(&mut cases);
    let (mut script, mut tally) = (Script::new(), Tally::default());
    for case in &cases {
        script.push(case.clone(), &mut tally);
    }
    assert_eq!(script.cases, cases, "the original has an answer to each of these");
    random::add(&mut script, 1, 1500, random::DRAWING, &mut tally);
    (script, tally)
}

fn packing(cases: &mut Vec<Case>) {
    let mut pack = |colorref| cases.push(Case::Pack { colorref });
    for r in CHANNELS {
        for g in CHANNELS {
            for b in CHANNELS {
                pack(b << 16 | g << 8 | r);
            }
        }
    }
    for value in MORE_CHANNELS {
        for shift in [0, 8, 16] {
            pack(value << shift);
            pack(0x00FF_FFFF & !(0xFF << shift) | value << shift);
        }
    }
    pack(0x00C0_C0C0);
    pack(0xFF00_0000);
    let mut rng = Rng::new(1);
    for _ in 0..64 {
        pack(rng.next() as u32 | 1 << 31);
    }
}

/// Single words, in addition to the sweeps over all words.
fn words(cases: &mut Vec<Case>) {
    let words = [0x0000, 0xFFFF, 0x8410, 0x7BEF, 0x0020, 0xF800, 0x07E0, 0x001F];
    cases.extend(words.map(|word| Case::Widen { word }));
    cases.extend([0x0200, 0x0000, 0x7FFF, 0x8000, 0xFFFF].map(|word| Case::From555 { word }));
    cases.extend([0x0420, 0x0020, 0x07E0, 0xFFFF].map(|word| Case::To555 { word }));
}

/// Every table and every named code with all operands; then codes whose bits
/// outside the table differ.
fn raster(cases: &mut Vec<Case>) {
    let mut apply = |code, [p, s, d]: [u16; 3]| cases.push(Case::Raster { code, p, s, d });
    for code in (0..256).map(|table| table << 16).chain(named()) {
        for operands in OPERANDS {
            apply(code, operands);
        }
    }
    for code in named() {
        for other in [0x8000_0000, 0x4000_0000, 0x0100_0000, 0x0000_0001, 0x0000_FFFF] {
            apply(code ^ other, OPERANDS[8]);
        }
    }
    let mut rng = Rng::new(2);
    for _ in 0..256 {
        let operands = [0; 3].map(|_: u16| rng.next() as u16);
        apply(rng.next() as u32, operands);
    }
}
