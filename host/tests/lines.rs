//! Lines and positions: lines are compared pixel by pixel with a loop from the
//! formula, on the panel and on a bitmap, with their marks and positions.

#[allow(dead_code)]
mod random;

use random::Random;
use ravinefork::{
    Area, Colorref, Device, Handle, Point, Record, Refusal, Rgb565, MAX_POSITION, MIN_POSITION,
};

const SCREEN_DC: Handle = Handle::GDI_SCREEN_DC;
/// The sides of the panel and of the bitmap.
const PANEL: [i32; 2] = [24, 16];
const BITMAP: [i32; 2] = [9, 31];
/// The ground, and red as the pen packs it.
const GROUND: u16 = 0x07E0;
const RED: u16 = 0xF800;

/// A green device with a red pen in the screen DC and in a memory DC that has a
/// bitmap; the memory DC and the bitmap.
fn device() -> Result<(Device, Handle, Handle), Refusal> {
    let [width, height] = PANEL.map(|side| side as u32);
    let mut device = Device::open(width, height, 2 * 24 * 16, 1024)?;
    let pen = device.create_pen(Colorref(0x0000_00FF), 5)?;
    let green = device.create_solid_brush(Colorref(0x0000_FF00))?;
    let dc = device.create_memory_dc()?;
    let bitmap = device.create_compatible_bitmap(BITMAP[0] as u32, BITMAP[1] as u32)?;
    device.select_into(dc, bitmap)?;
    device.panel_fill(Rgb565(GROUND))?;
    device.select_into(dc, green)?;
    device.pattern_fill(dc, Area { x: 0, y: 0, w: 9, h: 31 }, ravinefork::rop3::PATCOPY)?;
    for dc in [SCREEN_DC, dc] {
        device.select_into(dc, pen)?;
    }
    Ok((device, dc, bitmap))
}

/// The pixels of a line, without its end.
fn pixels(from: Point, to: Point) -> Vec<[i64; 2]> {
    let [x0, y0, x1, y1] = [from.x, from.y, to.x, to.y].map(i64::from);
    let (dx, dy) = (x1 - x0, y1 - y0);
    let (a, b) = (dx.abs(), dy.abs());
    let along = |i: i64, major: i64, minor: i64| (2 * i * minor + major) / (2 * major);
    let at = |i: i64| match a >= b {
        true => [x0 + i * dx.signum(), y0 + along(i, a, b) * dy.signum()],
        false => [x0 + along(i, b, a) * dx.signum(), y0 + i * dy.signum()],
    };
    (0..a.max(b)).map(at).collect()
}

/// Draws the line on the words of a surface. Returns whether it drew a pixel.
fn draw(words: &mut [u16], [width, height]: [i32; 2], from: Point, to: Point) -> bool {
    let mut drawn = false;
    for [x, y] in pixels(from, to) {
        if (0..width.into()).contains(&x) && (0..height.into()).contains(&y) {
            words[(y * i64::from(width) + x) as usize] = RED;
            drawn = true;
        }
    }
    drawn
}

fn words(bytes: &[u8]) -> Vec<u16> {
    bytes.chunks_exact(2).map(|pair| u16::from_le_bytes([pair[0], pair[1]])).collect()
}

fn position(device: &Device, dc: Handle) -> Point {
    device.record().dc(dc).expect("a DC").position
}

#[test]
fn the_worked_examples() {
    let lines: [([i32; 2], &[[i64; 2]]); 4] = [
        ([5, 2], &[[0, 0], [1, 0], [2, 1], [3, 1], [4, 2]]),
        ([-2, -5], &[[0, 0], [0, -1], [-1, -2], [-1, -3], [-2, -4]]),
        ([2, 1], &[[0, 0], [1, 1]]),
        ([0, 0], &[]),
    ];
    for (offset, expected) in lines {
        let (mut device, ..) = device().expect("a device");
        let from = Point { x: 7, y: 8 };
        let to = Point { x: 7 + offset[0], y: 8 + offset[1] };
        assert_eq!(device.move_to(SCREEN_DC, from), Ok(Point { x: 0, y: 0 }));
        let before = device.frame_counter();
        assert_eq!(device.line_to(SCREEN_DC, to), Ok(()));
        assert_eq!(device.frame_counter() - before, u64::from(!expected.is_empty()));
        assert_eq!(position(&device, SCREEN_DC), to);
        let red = words(device.panel()).into_iter().enumerate().filter(|(_, word)| *word == RED);
        let mut red: Vec<[i64; 2]> =
            red.map(|(at, _)| [at as i64 % 24 - 7, at as i64 / 24 - 8]).collect();
        red.sort();
        let mut expected = expected.to_vec();
        expected.sort();
        assert_eq!(red, expected);
    }
}

#[test]
fn lines_are_those_of_the_formula() {
    let mut random = Random::new(11);
    let (mut drawn, mut unseen) = (0, 0);
    for _ in 0..25 {
        let (mut device, dc, bitmap) = device().expect("a device");
        let mut panel = words(device.panel_pixels());
        let mut store = words(device.bitmap_pixels(bitmap).expect("a bitmap"));
        for _ in 0..40 {
            let to = Point { x: coordinate(&mut random), y: coordinate(&mut random) };
            let on_screen = random.below(2) == 0;
            let target = if on_screen { SCREEN_DC } else { dc };
            let (from, frames) = (position(&device, target), device.frame_counter());
            if random.below(4) == 0 {
                assert_eq!(device.move_to(target, to), Ok(from));
                assert_eq!(device.frame_counter(), frames);
            } else {
                assert_eq!(device.line_to(target, to), Ok(()));
                let seen = match on_screen {
                    true => draw(&mut panel, PANEL, from, to),
                    false => draw(&mut store, BITMAP, from, to),
                };
                assert_eq!(device.frame_counter() - frames, u64::from(seen && on_screen));
                (drawn, unseen) = (drawn + u32::from(seen), unseen + u32::from(!seen));
            }
            assert_eq!(position(&device, target), to);
            assert!(words(device.panel_pixels()) == panel, "{from:?} to {to:?}");
            let bytes = device.bitmap_pixels(bitmap).expect("a bitmap");
            assert!(words(bytes) == store, "{from:?} to {to:?}");
        }
    }
    println!("{drawn} lines drawn, {unseen} not on the surface");
    assert!(drawn > 300 && unseen > 60, "{drawn}, {unseen}");
}

/// A coordinate on the surfaces, near them, anywhere or at the ends of the range.
fn coordinate(random: &mut Random) -> i32 {
    match random.below(12) {
        0 => random.of(&[MIN_POSITION, MIN_POSITION + 1, MAX_POSITION - 1, MAX_POSITION]),
        1 => MIN_POSITION + random.below(65_536) as i32,
        2..=4 => random.below(80) as i32 - 30,
        _ => random.below(24) as i32,
    }
}

#[test]
fn a_line_marks_a_bitmap_once_it_draws_a_pixel() {
    let mut device = Device::open(1, 1, 2, 1024).expect("a device");
    let dc = device.create_memory_dc().expect("a DC");
    let bitmap = device.create_compatible_bitmap(3, 3).expect("a bitmap");
    device.select_into(dc, bitmap).expect("a selection");
    let dirty = |device: &Device| device.record().bitmap(bitmap).expect("a bitmap").host_dirty;
    let steps = [([-5, 0], false), ([-1, 1], false), ([-1, 1], false), ([0, 1], false)];
    device.move_to(dc, Point { x: -5, y: -5 }).expect("a move");
    for ([x, y], marked) in steps.into_iter().chain([([-9, 1], true)]) {
        assert_eq!(device.line_to(dc, Point { x, y }), Ok(()));
        assert_eq!(dirty(&device), marked, "{x}, {y}");
    }
    assert_eq!(device.frame_counter(), 0);
}

#[test]
fn a_refused_call_leaves_the_position() {
    let (mut device, dc, _) = device().expect("a device");
    let bare = device.create_memory_dc().expect("a DC");
    let stays = Point { x: -7, y: 9 };
    for dc in [SCREEN_DC, dc, bare] {
        device.move_to(dc, stays).expect("a move");
    }
    let before = device.clone();
    for out in [MIN_POSITION - 1, MAX_POSITION + 1, i32::MIN, i32::MAX] {
        for to in [Point { x: out, y: 0 }, Point { x: 0, y: out }, Point { x: out, y: out }] {
            for dc in [SCREEN_DC, dc] {
                assert_eq!(device.move_to(dc, to), Err(Refusal::POSITION));
                assert_eq!(device.line_to(dc, to), Err(Refusal::POSITION));
                assert_eq!(position(&device, dc), stays);
            }
            assert_eq!(device.move_to(bare, to), Err(Refusal::POSITION));
            // 1 and 2 are asked before 11.
            assert_eq!(device.line_to(bare, to), Err(Refusal::NO_SURFACE));
            assert_eq!(device.move_to(Handle(1), to), Err(Refusal::NO_DC));
            assert_eq!(device.line_to(Handle(1), to), Err(Refusal::NO_DC));
            assert_eq!(position(&device, bare), stays);
        }
    }
    let inside = Point { x: 1, y: 1 };
    assert_eq!(device.line_to(bare, inside), Err(Refusal::NO_SURFACE));
    assert_eq!(device.record().as_numbers(), before.record().as_numbers());
    assert_eq!((device.panel(), device.store()), (before.panel(), before.store()));
    // The ends of the range are accepted, on every DC.
    for x in [MIN_POSITION, MAX_POSITION] {
        for y in [MIN_POSITION, MAX_POSITION] {
            let end = Point { x, y };
            assert_eq!(device.move_to(bare, end).map(|_| position(&device, bare)), Ok(end));
            for dc in [SCREEN_DC, dc] {
                assert_eq!(device.line_to(dc, end), Ok(()));
                assert_eq!(device.move_to(dc, end), Ok(end));
            }
        }
    }
}

#[test]
fn each_dc_has_its_own_position() {
    let (mut device, dc, _) = device().expect("a device");
    let (here, there) = (Point { x: 1, y: 2 }, Point { x: -3, y: 4 });
    device.move_to(dc, here).expect("a move");
    let other = device.create_memory_dc().expect("a DC");
    assert_eq!(position(&device, other), Point { x: 0, y: 0 });
    device.move_to(other, there).expect("a move");
    assert_eq!(
        [SCREEN_DC, dc, other].map(|dc| position(&device, dc)),
        [Point { x: 0, y: 0 }, here, there]
    );
    // A deleted DC's position goes with it; that of the DC behind it stays.
    device.delete(dc).expect("a deletion");
    assert_eq!(position(&device, other), there);
    // No other call moves a position.
    device.rectangle(SCREEN_DC, Area { x: 1, y: 1, w: 3, h: 3 }).expect("a rectangle");
    device.resize(16, 24).expect("a resize");
    assert_eq!(position(&device, SCREEN_DC), Point { x: 0, y: 0 });
    // The position is part of the record, and is compared with it.
    let record = device.record().clone();
    device.move_to(other, here).expect("a move");
    assert_ne!(*device.record(), record);
    assert_eq!(Record::from_numbers(record.as_numbers()), record);
}
