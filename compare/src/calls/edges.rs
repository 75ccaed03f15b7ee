//! Short scripts at the limits of the format.

use pocket_kernel::gdi::rop3::{DSTINVERT, SRCCOPY};
use pocket_kernel::gdi::GDI_SCREEN_DC;

use super::call::{Call, MAX_UNITS};
use super::paint::drawn;
use super::script::{Header, MOST_PANEL, MOST_STORE};
use super::step::LOOK;

/// A header whose memories have the least length that open accepts.
const SMALL: Header = Header { panel_len: 8, store_len: 2, width: 2, height: 2, fill: 0xA5 };

/// Headers, calls and opens that are just accepted, or just not.
pub fn scripts() -> Vec<Vec<u8>> {
    let mut scripts = vec![twelve_bytes(), long_texts()];
    scripts.extend(headers().iter().map(Header::bytes));
    let small = SMALL.bytes();
    scripts.extend((0..small.len()).map(|len| small[..len].to_vec()));
    scripts.extend((0..4).map(|at| [&small[..at], b"i", &small[at + 1..]].concat()));
    // Each byte as the first byte of a call, with nothing after it.
    scripts.extend((0..=u8::MAX).map(|byte| [&small[..], &[0x01, byte]].concat()));
    scripts.extend(looks());
    for call in with_arguments() {
        let bytes = call.bytes();
        let cut = &bytes[..bytes.len() - 1];
        scripts.extend([&bytes, cut].map(|bytes| [&small[..], bytes].concat()));
    }
    for bad in [Call::text(GDI_SCREEN_DC, 0, 0, vec![0x41; MAX_UNITS + 1]), panel_fill(0x0001_0000)]
    {
        scripts.push([&small[..], &bad.bytes(), &[0x01]].concat());
    }
    scripts
}

fn panel_fill(word: u32) -> Call {
    Call::PanelFill { word }
}

/// Looks before all calls, twice in a row, between calls and after them; directly
/// before a bad call and after it; the look's byte as an argument; looks where no
/// device is open.
fn looks() -> Vec<Vec<u8>> {
    let fill = panel_fill(0x7F7F).bytes();
    let steps = [
        vec![LOOK],
        [&[LOOK, LOOK, 0x01, LOOK, LOOK], fill.as_slice(), &[LOOK], &fill, &[LOOK, LOOK]].concat(),
        vec![0x01, LOOK, 0x00, LOOK],
        vec![LOOK, 0x13],
        [&[LOOK], &fill[..4]].concat(),
        vec![0x03, LOOK, LOOK, LOOK, LOOK],
        vec![0x03, LOOK, LOOK, LOOK],
    ];
    let mut scripts = steps.map(|steps| [SMALL.bytes(), steps].concat()).to_vec();
    let refused = Header { width: 0, ..SMALL };
    let too_large = Header { store_len: u32::MAX, ..SMALL };
    scripts.extend([refused, too_large].map(|header| [header.bytes(), vec![LOOK]].concat()));
    scripts
}

/// The most units that are accepted, and one more; unit 0 after that many, and
/// before. The last unit that is drawn is visible.
fn long_texts() -> Vec<u8> {
    let header = Header { panel_len: 2 * 24 * 8, width: 24, height: 8, ..SMALL };
    let mut script = header.bytes();
    Call::SetTextColor { dc: GDI_SCREEN_DC, color: 0x00FF_FFFF }.write(&mut script);
    for (count, stop) in [(65_535, None), (65_536, None), (65_536, Some(65_535)), (65_536, Some(5))]
    {
        let mut units = [0x41, 0x7F, 0x7E].repeat(22_000)[..count].to_vec();
        if let Some(stop) = stop {
            units[stop] = 0;
        }
        let drawn = drawn(&units) as i32;
        Call::text(GDI_SCREEN_DC, 6 - 6 * drawn, 0, units).write(&mut script);
    }
    Call::text(GDI_SCREEN_DC, 12, 0, vec![0; MAX_UNITS]).write(&mut script);
    Call::text(0, 12, 0, vec![0x41; MAX_UNITS]).write(&mut script);
    script
}

/// The specification's example: what fits a store of 12 bytes, and what does not.
fn twelve_bytes() -> Vec<u8> {
    let mut script = Header { store_len: 12, ..SMALL }.bytes();
    for (width, height) in [(1, 6), (4097, 1), (0, 5), (0, 0)] {
        Call::CreateCompatibleBitmap { width, height }.write(&mut script);
    }
    script
}

fn headers() -> Vec<Header> {
    let mut headers = vec![
        SMALL,
        Header { panel_len: 7, ..SMALL },
        Header { panel_len: 0, ..SMALL },
        Header { store_len: 1, ..SMALL },
        Header { store_len: 0, ..SMALL },
        Header { panel_len: MOST_PANEL + 1, ..SMALL },
        Header { store_len: MOST_STORE + 1, ..SMALL },
        Header { panel_len: u32::MAX, width: 0, ..SMALL },
        Header { panel_len: MOST_PANEL, store_len: MOST_STORE, width: 4096, height: 128, fill: 1 },
        Header { panel_len: MOST_PANEL, store_len: MOST_STORE, width: 4096, height: 129, fill: 1 },
    ];
    for side in [0, 4097, 0x1_0000, 0x8000_0000, u32::MAX] {
        headers.push(Header { width: side, ..SMALL });
        headers.push(Header { height: side, ..SMALL });
        headers.push(Header { width: side, height: side, panel_len: 0, store_len: 0, fill: 0 });
    }
    headers
}

/// Each call that has arguments; then background modes and panel fills out of
/// range.
fn with_arguments() -> Vec<Call> {
    let (x, y, w, h, sx, sy) = (0, 1, 2, 1, 0, 0);
    let (dc, color) = (GDI_SCREEN_DC, 0x0102_0304);
    let mut calls = vec![
        Call::CreateCompatibleBitmap { width: 1, height: 1 },
        Call::CreateSolidBrush { color },
        Call::CreatePen { color, width: 1 },
        Call::CreateFont { height: -1 },
        Call::Delete { handle: dc },
        Call::Remove { handle: dc },
        Call::Select { dc, object: 0xDEAD_5702 },
        Call::SetTextColor { dc, color },
        Call::SetTextAlign { dc, align: 6 },
        Call::SetBkColor { dc, color },
        Call::SetBkMode { dc, transparent: 1 },
        Call::PatternFill { dc, x, y, w, h, code: DSTINVERT },
        Call::Rectangle { dc, x, y, w, h },
        Call::text(dc, x, y, vec![0x41, 0x42]),
        panel_fill(0xFFFF),
        Call::Resize { width: 1, height: 4 },
        Call::Blit { dc, x, y, w, h, source: dc, sx, sy, code: SRCCOPY },
    ];
    let modes = [2, 0x100, 0x0100_0000, u32::MAX];
    calls.extend(modes.map(|transparent| Call::SetBkMode { dc, transparent }));
    calls.extend([0x0001_0000, 0x0100_FFFF, 0x8000_0000].map(panel_fill));
    calls
}

#[cfg(test)]
mod tests {
    use super::*;
    use crate::calls::printed;

    #[test]
    fn every_beginning_and_end_occurs() {
        let texts: Vec<String> = scripts().iter().map(|script| printed(script)).collect();
        for line in ["open 0\n", "open 6\n", "open 7\n", "bad script\n", "too large\n"] {
            assert!(texts.iter().any(|text| text.starts_with(line)), "{line}");
        }
        let bad = texts.iter().filter(|text| text.contains("\nbad call\n"));
        assert_eq!(bad.count(), 254 + 4 + 17 + 2 * (4 + 3) + 2);
        let twelve = "open 0\n02 7 00000000\n02 6 00000000\n02 0 dead1000\n02 7 00000000\npanel ";
        assert!(texts[0].starts_with(twelve), "{}", texts[0]);
        let long = "open 0\n09 0 00000000\n0f 0 393210\n0f 10 0\n0f 0 393210\n0f 0 30\n0f 0 0\n\
                    0f 1 0\npanel 24 8 frames 3 ";
        assert!(texts[1].starts_with(long), "{}", texts[1]);
    }

    #[test]
    fn looks_at_the_edges() {
        let states = |script: &Vec<u8>| printed(script).matches("\npanel ").count();
        let states: Vec<usize> = looks().iter().map(states).collect();
        assert_eq!(states, [2, 8, 2, 2, 2, 1, 1, 1, 0]);
    }
}
