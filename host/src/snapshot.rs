//! Snapshots of the panel, as RGBA bytes and as a P6 picture.

#![allow(unsafe_code)]

use crate::device::Device;
use crate::record::Record;
use crate::refusal::Refusal;
use crate::MAX_SIDE;

#[rustfmt::skip]
#[link(name = "host", kind = "static")]
extern "C" {
    fn ravinefork_snapshot_rgba8888(numbers: *const u32, numbers_len: usize, panel: *const u8, panel_len: usize, out: *mut u8, out_len: usize) -> u32;
    fn ravinefork_snapshot_ppm(numbers: *const u32, numbers_len: usize, panel: *const u8, panel_len: usize, out: *mut u8, out_len: usize) -> u32;
    fn ravinefork_ppm_len(width: u32, height: u32) -> usize;
}

/// The length of a P6 picture of these sides, also where a side is 0; 0 if a side
/// is above [`MAX_SIDE`].
pub fn ppm_len(width: u32, height: u32) -> usize {
    // SAFETY: it takes and returns numbers only.
    unsafe { ravinefork_ppm_len(width, height) }
}

/// How many RGBA bytes a panel of these sides has; 0 if a side is above
/// [`MAX_SIDE`].
pub fn rgba8888_len(width: u32, height: u32) -> usize {
    match (width, height) {
        (0..=MAX_SIDE, 0..=MAX_SIDE) => width as usize * height as usize * 4,
        _ => 0,
    }
}

impl Record {
    /// Writes the panel's pixels as red, green, blue and 255, row by row. The
    /// output must have 4·width·height bytes. Refused with 9 or 8; then the output
    /// is unchanged.
    pub fn snapshot_rgba8888_into(&self, panel: &[u8], out: &mut [u8]) -> Result<(), Refusal> {
        let numbers = self.as_numbers();
        // SAFETY: each pointer and length is that of a slice. The function writes to `out` alone,
        // which is a mutable slice, so that it overlaps neither of the others. It keeps no pointer.
        Refusal::check(unsafe {
            ravinefork_snapshot_rgba8888(
                numbers.as_ptr(),
                numbers.len(),
                panel.as_ptr(),
                panel.len(),
                out.as_mut_ptr(),
                out.len(),
            )
        })
    }

    /// Writes the panel as a P6 picture. The output must have [`ppm_len`] bytes.
    /// Refused with 9 or 8; then the output is unchanged.
    pub fn snapshot_ppm_into(&self, panel: &[u8], out: &mut [u8]) -> Result<(), Refusal> {
        let numbers = self.as_numbers();
        // SAFETY: as in `snapshot_rgba8888_into`.
        Refusal::check(unsafe {
            ravinefork_snapshot_ppm(
                numbers.as_ptr(),
                numbers.len(),
                panel.as_ptr(),
                panel.len(),
                out.as_mut_ptr(),
                out.len(),
            )
        })
    }
}

impl<M: AsRef<[u8]> + AsMut<[u8]>> Device<M> {
    /// The panel's pixels as red, green, blue and 255, row by row. Refused with
    /// 9 or 8.
    pub fn snapshot_rgba8888(&self) -> Result<Vec<u8>, Refusal> {
        let mut out = vec![0; rgba8888_len(self.width(), self.height())];
        self.record().snapshot_rgba8888_into(self.panel(), &mut out)?;
        Ok(out)
    }

    /// The panel as a P6 picture. Refused with 9 or 8.
    pub fn snapshot_ppm(&self) -> Result<Vec<u8>, Refusal> {
        let mut out = vec![0; ppm_len(self.width(), self.height())];
        self.record().snapshot_ppm_into(self.panel(), &mut out)?;
        Ok(out)
    }
}

#[cfg(test)]
mod tests {
    use super::*;
    use crate::{rop3, Area, Handle, Rgb565};

    /// A panel of two pixels: a red one, and one with all its bits inverted.
    fn two() -> Device {
        let mut device = Device::open(2, 1, 4, 2).expect("a device");
        device.panel_fill(Rgb565(0xF800)).expect("a fill");
        let area = Area { x: 1, y: 0, w: 1, h: 1 };
        device.pattern_fill(Handle::GDI_SCREEN_DC, area, rop3::DSTINVERT).expect("a fill");
        device
    }

    #[test]
    fn pictures() {
        let device = two();
        let ppm = device.snapshot_ppm().expect("a picture");
        assert_eq!(ppm, b"P6\n2 1\n255\n\xFF\0\0\0\xFF\xFF");
        let rgba = device.snapshot_rgba8888().expect("a picture");
        assert_eq!(rgba, [0xFF, 0, 0, 0xFF, 0, 0xFF, 0xFF, 0xFF]);
    }

    #[test]
    fn lengths() {
        let sides = [(2, 1, 17), (240, 320, 15 + 3 * 76_800), (4096, 4096, 17 + 3 * 16_777_216)];
        for (width, height, len) in sides.into_iter().chain([(0, 5, 11), (0, 0, 11)]) {
            assert_eq!(ppm_len(width, height), len);
        }
        for (width, height) in [(4097, 1), (1, 4097), (u32::MAX, u32::MAX)] {
            assert_eq!((ppm_len(width, height), rgba8888_len(width, height)), (0, 0));
        }
    }

    #[test]
    fn refusals() {
        let device = two();
        let record = device.record();
        for len in [0, 7, 9] {
            let mut out = vec![0x5A; len];
            let refused = record.snapshot_rgba8888_into(device.panel(), &mut out);
            assert_eq!(refused, Err(Refusal::LENGTH));
            assert_eq!(out, vec![0x5A; len]);
        }
        let refused = record.snapshot_ppm_into(&[0; 3], &mut [0; 17]);
        assert_eq!(refused, Err(Refusal::LENGTH));
        let refused = Record::new().snapshot_ppm_into(&[0; 4], &mut [0; 17]);
        assert_eq!(refused, Err(Refusal::UNSOUND_RECORD));
    }
}
