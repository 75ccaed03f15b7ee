//! Snapshots are equal to the original's, byte for byte.

use pocket_kernel::framebuffer::Framebuffer;
use ravinefork::Device;

/// Pixels from a fixed rule; 65,536 in a row hold every word once.
fn pixels(count: usize, first: usize) -> Vec<u8> {
    (0..count).flat_map(|i| ((first + 40_503 * i) as u16).to_le_bytes()).collect()
}

#[test]
fn pictures_are_the_originals() {
    let sides = [(1, 1), (1, 9), (10, 1), (99, 101), (240, 320), (256, 256), (1000, 3), (3, 4096)];
    for (at, (width, height)) in sides.into_iter().enumerate() {
        let count = width as usize * height as usize;
        let device = Device::open(width, height, 2 * count + 6, 2).expect("a device");
        let mut original = Framebuffer::new(width, height);
        original.pixels = pixels(count, 977 * at);
        let (record, mut panel, store) = device.into_parts();
        panel[..2 * count].copy_from_slice(&original.pixels);
        let device = Device::from_parts(record, panel, store);

        let rgba = device.snapshot_rgba8888().expect("a picture");
        assert!(rgba == original.snapshot_rgba8888(), "RGBA of {width} by {height}");
        let ppm = device.snapshot_ppm().expect("a picture");
        assert!(ppm == original.snapshot_ppm(), "P6 of {width} by {height}");
    }
}
