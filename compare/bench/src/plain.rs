//! A line as a plain loop from the specification's formula: a division and a clip
//! test for each pixel.

/// Draws a line on the words of a surface of these sides, without its end. Returns
/// whether it drew a pixel.
pub fn draw_line(
    pixels: &mut [u8],
    [width, height]: [u32; 2],
    [x0, y0]: [i32; 2],
    [x1, y1]: [i32; 2],
    color: u16,
) -> bool {
    let (dx, dy) = (i64::from(x1) - i64::from(x0), i64::from(y1) - i64::from(y0));
    let (a, b) = (dx.abs(), dy.abs());
    let mut drawn = false;
    for i in 0..a.max(b) {
        let (along_x, along_y) =
            if a >= b { (i, (2 * i * b + a) / (2 * a)) } else { ((2 * i * a + b) / (2 * b), i) };
        let x = i64::from(x0) + along_x * dx.signum();
        let y = i64::from(y0) + along_y * dy.signum();
        if (0..i64::from(width)).contains(&x) && (0..i64::from(height)).contains(&y) {
            let at = 2 * (y * i64::from(width) + x) as usize;
            pixels[at..at + 2].copy_from_slice(&color.to_le_bytes());
            drawn = true;
        }
    }
    drawn
}
