//! Random scripts with an error: bad headers, refused opens, bad calls.

use pocket_kernel::gdi::{rop3, GDI_SCREEN_DC, STOCK_WHITE_BRUSH};

use super::call::{Call, MAX_UNITS};
use super::form::Form;
use super::script::{Header, HEADER, MOST_PANEL, MOST_STORE};
use super::step::{begins_step, Step};
use crate::rng::Rng;

/// The script of these steps in this form, sometimes with an error.
pub fn spoil(rng: &mut Rng, form: Form, header: Header, steps: &[Step]) -> Vec<u8> {
    let header = match rng.below(32) {
        0 => too_large(rng, header),
        1..=3 => refused(rng, header),
        _ => header,
    };
    let mut script = header.bytes_as(form);
    steps.iter().for_each(|step| step.write(&mut script));
    match rng.below(32) {
        0 => script.truncate(rng.below(HEADER as u64) as usize),
        1 => {
            let at = rng.below(4) as usize;
            script[at] ^= 1 << rng.below(8);
        }
        2..=6 => end(rng, form, &mut script),
        _ => {}
    }
    script
}

/// A header that asks for more memory than the program accepts, with which open
/// would or would not be refused.
fn too_large(rng: &mut Rng, mut header: Header) -> Header {
    let more = rng.pick(&[0, 1, 0x0100_0000]);
    match rng.below(4) {
        0 => header.panel_len = MOST_PANEL + 1 + more,
        1 => header.store_len = MOST_STORE + 1 + more,
        2 => header.panel_len = u32::MAX,
        _ => (header.store_len, header.width) = (u32::MAX, 0),
    }
    header
}

/// A header that open refuses: for a side, a short memory, or both.
fn refused(rng: &mut Rng, mut header: Header) -> Header {
    let side = rng.pick(&[0, 4097, 0x1_0001, 0x8000_0000, u32::MAX]);
    match rng.below(8) {
        0 => header.width = side,
        1 => header.height = side,
        2 => (header.width, header.height) = (side, side),
        3 => (header.width, header.store_len) = (side, 1),
        4 => (header.width, header.height) = (4096, rng.pick(&[4096, 129])),
        5 => header.store_len = rng.below(2) as u32,
        6 => (header.panel_len, header.store_len) = (0, 0),
        _ => header.panel_len = 2 * header.width * header.height - 1,
    }
    header
}

/// Ends the script with a bad call, mostly followed by bytes that must not be read.
fn end(rng: &mut Rng, form: Form, script: &mut Vec<u8>) {
    let high = rng.pick(&[0x0001_0000, 0x0100_0000, 0x8000_0000, 0xFFFF_0000]);
    match rng.below(16) {
        0..=4 => script.push(unknown(rng, form)),
        5..=8 => {
            let transparent = rng.pick(&[2, 3, 0x100, 0x0001_0000, u32::MAX]);
            Call::SetBkMode { dc: GDI_SCREEN_DC, transparent }.write(script);
        }
        9 | 10 => Call::PanelFill { word: high | rng.next() as u32 & 0xFFFF }.write(script),
        11 if rng.one_in(8) => {
            let count = MAX_UNITS as i64 + rng.between(1, 3);
            Call::text(GDI_SCREEN_DC, 0, 0, vec![0x41; count as usize]).write(script);
        }
        _ => return cut_short(rng, form, script),
    }
    for _ in 0..rng.below(4) {
        Call::CreateMemoryDc {}.write(script);
    }
}

/// A byte that is no call of this form and no look, often a low one.
fn unknown(rng: &mut Rng, form: Form) -> u8 {
    let unknown: Vec<u8> = (0..=u8::MAX).filter(|byte| !begins_step(form, *byte)).collect();
    let most = if rng.one_in(2) { 8 } else { unknown.len() };
    rng.pick(&unknown[..most])
}

/// Adds a call that lacks its last bytes.
fn cut_short(rng: &mut Rng, form: Form, script: &mut Vec<u8>) {
    let dc = GDI_SCREEN_DC;
    let (x, y, w, h, sx, sy, code) = (0, 0, 2, 2, 0, 1, rop3::SRCCOPY);
    let call = match rng.below(7) {
        0 => Call::CreateFont { height: 3 },
        1 => Call::Select { dc, object: STOCK_WHITE_BRUSH },
        2 => Call::SetBkMode { dc, transparent: 1 },
        3 => Call::Rectangle { dc, x, y, w, h },
        4 => Call::PanelFill { word: 0xFFFF },
        5 => Call::Blit { dc, x, y, w, h, source: dc, sx, sy, code },
        _ => Call::text(dc, x, y, vec![0x41, 0x42]),
    };
    let call = match form {
        Form::Gdi2 if rng.one_in(2) => Call::Line { dc, x: w, y: h },
        _ => call,
    };
    let bytes = call.bytes();
    let len = 1 + rng.below(bytes.len() as u64 - 1);
    script.extend_from_slice(&bytes[..len as usize]);
}

#[cfg(test)]
mod tests {
    use super::*;
    use crate::calls::printed;

    const HEADER: Header = Header { panel_len: 9, store_len: 40, width: 2, height: 2, fill: 1 };

    #[test]
    fn what_is_spoilt_is_bad() {
        let mut rng = Rng::new(1);
        for _ in 0..200 {
            assert_eq!(printed(&too_large(&mut rng, HEADER).bytes()), "too large\n");
            let lines = printed(&refused(&mut rng, HEADER).bytes());
            assert!(lines.starts_with("open 6\n") || lines.starts_with("open 7\n"), "{lines}");
            for form in Form::ALL {
                let mut script = HEADER.bytes_as(form);
                end(&mut rng, form, &mut script);
                let lines = printed(&script);
                assert!(lines.starts_with("open 0\nbad call\npanel 2 2 "), "{script:?}");
            }
        }
    }
}
