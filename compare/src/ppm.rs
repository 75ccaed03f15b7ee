//! Compares the program `ppm` with the original's `snapshot_ppm`, on good and
//! damaged inputs, and reads its pictures with Netpbm where that is installed.

use pocket_kernel::framebuffer::Framebuffer;

use crate::program::{self, hexadecimal, Progress};
use crate::rng::Rng;

/// The longest side that the program accepts.
const LONGEST_SIDE: u16 = 144;

/// What the program writes for an input that is not a picture.
const NO_PICTURE: &[u8] = b"no picture\n";

/// Compares the fixed inputs and `count` random ones. True if every byte is equal;
/// otherwise it prints the first difference.
pub fn run(program: &str, count: u64, seed: u64) -> Result<bool, String> {
    let netpbm = program::run("pamtopnm", &due(&picture(1, 1, 0))).is_ok();
    let mut rng = Rng::new(seed);
    let mut pictures = 0;
    let mut progress = Progress::new(count, "pictures");
    let edges = edges();
    let fixed = edges.len();
    let random = (0..count).map(|_| random(&mut rng));
    for (at, input) in edges.into_iter().chain(random).enumerate() {
        if !compare(program, &input, netpbm)? {
            return Ok(false);
        }
        pictures += u64::from(sides(&input).is_some());
        progress.show((at + 1).saturating_sub(fixed) as u64);
    }
    let inputs = fixed as u64 + count;
    let read = if netpbm { "read back by Netpbm" } else { "not read back: no Netpbm here" };
    println!("{inputs} inputs compared, {pictures} of them pictures, {read}: every byte equal");
    Ok(true)
}

/// The sides of the picture that an input holds; `None` if it holds none.
fn sides(input: &[u8]) -> Option<(u32, u32)> {
    let [a, b, c, d, pixels @ ..] = input else { return None };
    let (width, height) = (u16::from_be_bytes([*a, *b]), u16::from_be_bytes([*c, *d]));
    let served = |side| (1..=LONGEST_SIDE).contains(&side);
    let exact = pixels.len() == 2 * usize::from(width) * usize::from(height);
    (served(width) && served(height) && exact).then_some((width.into(), height.into()))
}

/// What the program must write: the original's picture of the pixels, or `no
/// picture`.
fn due(input: &[u8]) -> Vec<u8> {
    let Some((width, height)) = sides(input) else { return NO_PICTURE.into() };
    let mut panel = Framebuffer::new(width, height);
    panel.pixels.copy_from_slice(&input[4..]);
    panel.snapshot_ppm()
}

fn compare(program: &str, input: &[u8], netpbm: bool) -> Result<bool, String> {
    let output = program::run(program, input).map_err(|error| format!("{program}: {error}"))?;
    let due = due(input);
    let difference = program::byte_difference(&due, &output.stdout);
    if difference.is_some() || !output.status.success() {
        println!("{}", difference.unwrap_or("every byte equal".into()));
        println!("ended     {}\ninput     {}", output.status, hexadecimal(input));
        return Ok(false);
    }
    if netpbm && sides(input).is_some() && !read_back(&output.stdout)? {
        println!("Netpbm reads another picture\ninput     {}", hexadecimal(input));
        return Ok(false);
    }
    Ok(true)
}

/// Whether Netpbm reads the picture correctly. `pamtopnm` reads it and writes it
/// again, which must give the same bytes.
fn read_back(picture: &[u8]) -> Result<bool, String> {
    let read = program::run("pamtopnm", picture).map_err(|error| format!("pamtopnm: {error}"))?;
    Ok(read.status.success() && read.stdout == picture)
}

/// An input with these sides, whose pixels count up from a word.
fn picture(width: u16, height: u16, first: u16) -> Vec<u8> {
    let words = (0..usize::from(width) * usize::from(height)).map(|i| first.wrapping_add(i as u16));
    let sides = [width.to_be_bytes(), height.to_be_bytes()].concat();
    sides.into_iter().chain(words.flat_map(u16::to_le_bytes)).collect()
}

/// The fixed inputs: damaged ones, and pictures whose sides or bytes are at a
/// limit.
fn edges() -> Vec<Vec<u8>> {
    let example = [0x00, 0x02, 0x00, 0x01, 0x00, 0xF8, 0x1F, 0x00];
    let mut inputs: Vec<Vec<u8>> = (0..=example.len()).map(|n| example[..n].to_vec()).collect();
    for (width, height) in [(0, 0), (0, 1), (1, 0), (0, 144), (144, 0), (145, 1), (1, 145)] {
        inputs.push(picture(width, height, 0x1234));
    }
    for side in [256, 512, 0x0100 + 144, 0x8000, 0xFFFF] {
        inputs.push(picture(side, 1, 0));
        inputs.push(picture(1, side, 0));
    }
    for (width, height) in [(1, 1), (9, 10), (10, 9), (99, 100), (100, 99), (144, 144), (1, 144)] {
        let whole = picture(width, height, 0xF81F);
        inputs.push(whole[..whole.len() - 1].to_vec());
        inputs.push([&whole[..], &[0]].concat());
        inputs.push([&whole[..], b"trailing rubbish\n"].concat());
        inputs.push(whole);
    }
    // Samples that look like white space and digits, directly after the header; every word.
    inputs.push([&[0, 1, 0, 1][..], &0x0841u16.to_le_bytes()].concat());
    inputs.push([&[0, 1, 0, 1][..], &0x3186u16.to_le_bytes()].concat());
    inputs.extend((0..4).map(|k| picture(128, 128, k << 14)));
    inputs
}

/// A random input: mostly a picture, sometimes a damaged one.
fn random(rng: &mut Rng) -> Vec<u8> {
    let most = rng.pick(&[4, 20, i64::from(LONGEST_SIDE)]);
    let (width, height) = (rng.between(1, most) as u16, rng.between(1, most) as u16);
    let mut input = picture(width, height, 0);
    input[4..].iter_mut().for_each(|byte| *byte = rng.next() as u8);
    if rng.one_in(8) {
        let at = rng.below(4) as usize;
        input[at] ^= 1 << rng.below(8);
    }
    if rng.one_in(8) {
        let length = rng.below(input.len() as u64 + 3) as usize;
        input.resize(length, 0);
    }
    input
}

#[cfg(test)]
mod tests {
    use super::*;

    #[test]
    fn the_example_is_written() {
        let input = [0x00, 0x02, 0x00, 0x01, 0x00, 0xF8, 0x1F, 0x00];
        assert_eq!(due(&input), b"P6\n2 1\n255\n\xFF\x00\x00\x00\x00\xFF");
    }

    #[test]
    fn pictures_are_told_from_others() {
        assert_eq!(sides(&picture(144, 1, 0)), Some((144, 1)));
        assert_eq!(sides(&picture(145, 1, 0)), None);
        assert_eq!(sides(&picture(1, 0, 0)), None);
        assert_eq!(sides(&picture(2, 3, 0)[..15]), None);
        assert_eq!(sides(&[picture(2, 3, 0), vec![0]].concat()), None);
        assert_eq!(due(&[]), NO_PICTURE);
    }
}
