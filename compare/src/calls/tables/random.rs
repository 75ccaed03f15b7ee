//! Random tables of sound records.

use pocket_kernel::gdi::STOCK_DEFAULT_BITMAP;

use super::table::{Dc, Fields, Object, Table, FORM};
use crate::calls::device::{MAX_OBJECTS, MAX_SIDE};
use crate::calls::handle::STOCK;
use crate::calls::lines::{LEAST, MOST};
use crate::random::colorref;
use crate::records::handles;
use crate::rng::Rng;

/// The kinds of objects.
pub const KINDS: [&str; 5] = ["DC", "bitmap", "brush", "pen", "font"];

/// The table of a random record: mostly of a few objects, sometimes of one kind.
pub fn table(rng: &mut Rng) -> Table {
    let count = match rng.below(96) {
        0 => MAX_OBJECTS as i64,
        1..=6 => 0,
        7..=16 => 1,
        17..=70 => rng.between(2, 4),
        71..=90 => rng.between(5, 12),
        _ => rng.between(13, 60),
    };
    let kind = rng.one_in(8).then(|| rng.pick(&KINDS));
    with(rng, count as usize, kind)
}

/// The table of a random record with this many objects, all of one kind if it is
/// given.
pub fn with(rng: &mut Rng, count: usize, kind: Option<&str>) -> Table {
    let handles = handles(rng, count);
    let objects: Vec<Object> = handles
        .iter()
        .map(|&handle| {
            let kind = kind.unwrap_or_else(|| rng.pick(&KINDS));
            Object { handle, fields: fields(rng, kind, &handles) }
        })
        .collect();
    let small = (rng.between(1, 9) as u32, rng.between(1, 9) as u32);
    let long = rng.pick(&[(MAX_SIDE, 1), (1, MAX_SIDE), (MAX_SIDE, 7), (1, 1)]);
    let (width, height) = if rng.one_in(24) { long } else { small };
    Table {
        form: FORM,
        width,
        height,
        next: next(rng, &handles),
        count: count as u32,
        screen: dc(rng, &handles),
        objects,
    }
}

/// The next handle: any number, a live or stock handle, or one at the ends of 32
/// bits.
fn next(rng: &mut Rng, handles: &[u32]) -> u32 {
    match rng.below(5) {
        0 => rng.pick(&[0, 1, u32::MAX - 1, u32::MAX]),
        1 => rng.pick(&STOCK),
        2 | 3 if !handles.is_empty() => rng.pick(handles).wrapping_add(rng.below(2) as u32),
        _ => rng.next() as u32,
    }
}

fn fields(rng: &mut Rng, kind: &str, handles: &[u32]) -> Fields {
    match kind {
        "DC" => Fields::Dc(dc(rng, handles)),
        "bitmap" => {
            let small = (rng.between(1, 5) as u32, rng.between(1, 5) as u32);
            let long = rng.pick(&[(MAX_SIDE, 1), (1, MAX_SIDE)]);
            // Few, so that 256 bitmaps fit a small store.
            let (width, height) = if rng.one_in(64) { long } else { small };
            Fields::Bitmap { width, height, dirty: rng.one_in(2) }
        }
        "brush" => Fields::Brush { color: colorref(rng) },
        "pen" => Fields::Pen { color: colorref(rng), width: rng.next() as u32 >> rng.below(32) },
        _ => Fields::Font { height: rng.next() as i32 >> rng.below(32) },
    }
}

fn dc(rng: &mut Rng, handles: &[u32]) -> Dc {
    let bitmap = match rng.below(6) {
        0 => None,
        1 => Some(STOCK_DEFAULT_BITMAP),
        2 => Some(rng.pick(&[0, 1, u32::MAX])),
        _ => Some(handle(rng, handles)),
    };
    Dc {
        present: bitmap.is_some(),
        bitmap: bitmap.unwrap_or(0),
        brush: handle(rng, handles),
        pen: handle(rng, handles),
        font: handle(rng, handles),
        brush_color: colorref(rng),
        pen_color: colorref(rng),
        text_color: colorref(rng),
        align: rng.next() as u32,
        bk_color: colorref(rng),
        transparent: rng.one_in(2),
        x: coordinate(rng),
        y: coordinate(rng),
    }
}

/// A handle in a DC's field: of an object of any kind, stock, or of none.
fn handle(rng: &mut Rng, handles: &[u32]) -> u32 {
    match rng.below(3) {
        0 => rng.pick(&STOCK),
        1 if !handles.is_empty() => rng.pick(handles),
        _ => rng.next() as u32,
    }
}

fn coordinate(rng: &mut Rng) -> i32 {
    match rng.below(3) {
        0 => rng.pick(&[LEAST, -1, 0, MOST]),
        _ => rng.between(LEAST.into(), MOST.into()) as i32,
    }
}

#[cfg(test)]
mod tests {
    use super::super::decode::decoded;
    use super::*;

    #[test]
    fn tables_are_sound() {
        let mut rng = Rng::new(1);
        let tables: Vec<Table> = (0..400).map(|_| table(&mut rng)).collect();
        for table in &tables {
            let bytes = table.bytes();
            assert_eq!(bytes.len(), table.bits().div_ceil(8));
            assert_eq!(decoded(&bytes).as_ref(), Ok(table));
        }
        let sizes = [0, 1, MAX_OBJECTS]
            .map(|size| tables.iter().filter(|table| table.objects.len() == size).count());
        assert!(sizes.into_iter().all(|count| count > 0), "{sizes:?}");
    }
}
