//! Bytes that are no table because of one rule, and damaged tables.

use super::decode::{decoded, Broken};
use super::table::{Dc, Fields, Object, Table};
use crate::calls::call::MAX_BYTES;
use crate::calls::device::{MAX_OBJECTS, MAX_SIDE};
use crate::calls::handle::STOCK;
use crate::calls::lines::{LEAST, MOST};
use crate::records::handles;
use crate::rng::Rng;

/// Coordinates out of range, mostly by one.
const OUT: [i32; 7] = [LEAST - 1, MOST + 1, LEAST - 1, MOST + 1, 0x1_0000, i32::MIN, i32::MAX];
/// Sides out of range: the least and the greatest that 13 bits hold, and one more
/// than the longest.
const SIDES: [u32; 3] = [0, MAX_SIDE + 1, 0x1FFF];

/// The bytes with one bit changed.
pub fn flipped(bytes: &[u8], bit: usize) -> Vec<u8> {
    let mut bytes = bytes.to_vec();
    bytes[bit / 8] ^= 0x80 >> (bit % 8);
    bytes
}

/// Bytes that are a table but for one rule, with that rule: each rule that the
/// table's objects allow, at least once.
pub fn broken(rng: &mut Rng, table: &Table) -> Vec<(Broken, Vec<u8>)> {
    let mut all = Vec::new();
    let mut add = |rule, bytes: Vec<u8>| {
        assert_eq!(decoded(&bytes), Err(rule), "{bytes:x?}");
        all.push((rule, bytes));
    };
    heads(rng, table, &mut add);
    counts(rng, table, &mut add);
    objects(rng, table, &mut add);
    dcs(rng, table, &mut add);
    ends(rng, table, &mut add);
    all
}

/// The form and the panel's sides.
fn heads(rng: &mut Rng, table: &Table, add: &mut impl FnMut(Broken, Vec<u8>)) {
    for form in [0, 2, rng.between(3, 15) as u32] {
        add("form", Table { form, ..table.clone() }.bytes());
    }
    for side in SIDES {
        add("panel side", Table { width: side, ..table.clone() }.bytes());
        add("panel side", Table { height: side, ..table.clone() }.bytes());
    }
}

/// A count above 256, with as many objects or not; one more object than there are,
/// one fewer, none.
fn counts(rng: &mut Rng, table: &Table, add: &mut impl FnMut(Broken, Vec<u8>)) {
    let counted = |count| Table { count, ..table.clone() }.bytes();
    let over = MAX_OBJECTS + 1;
    add("count", counted(rng.between(over as i64, 511) as u32));
    let mut full = Table { count: over as u32, ..table.clone() };
    full.objects.resize(over, Object { handle: 0, fields: Fields::Brush { color: 1 } });
    for (object, handle) in full.objects.iter_mut().zip(handles(rng, over)) {
        object.handle = handle;
    }
    add("count", full.bytes());
    if table.objects.len() < MAX_OBJECTS {
        add("cut", counted(table.count + 1));
        add("cut", counted(MAX_OBJECTS as u32));
    }
    if !table.objects.is_empty() {
        add("longer", counted(table.count - 1));
        add("longer", counted(0));
    }
}

/// Kinds above 4, handles that no object may have, and sides of bitmaps.
fn objects(rng: &mut Rng, table: &Table, add: &mut impl FnMut(Broken, Vec<u8>)) {
    let count = table.objects.len();
    if count == 0 {
        return;
    }
    let mut any = || rng.below(count as u64) as usize;
    for kind in [5, 6, 7] {
        let (at, mut bytes) = (any(), table.bytes());
        let start = table.start(at);
        for bit in 0..3 {
            let byte = &mut bytes[(start + bit) / 8];
            let mask = 0x80 >> ((start + bit) % 8);
            *byte = if kind >> (2 - bit) & 1 == 1 { *byte | mask } else { *byte & !mask };
        }
        add("kind", bytes);
    }
    let named = |at: usize, handle| {
        let mut table = table.clone();
        table.objects[at].handle = handle;
        table.bytes()
    };
    add("handle 0", named(any(), 0));
    let places = [any(), any()];
    for at in places {
        add("stock handle", named(at, rng.pick(&STOCK)));
    }
    if count > 1 {
        let at = 1 + rng.below(count as u64 - 1) as usize;
        add("doubled handle", named(at, table.objects[at - 1].handle));
        add("doubled handle", named(0, table.objects[count - 1].handle));
    }
    let bitmaps = (0..count).filter(|at| table.objects[*at].fields.pixel_bytes() > 0);
    if let Some(at) = bitmaps.last() {
        for side in SIDES {
            for wide in [true, false] {
                let mut table = table.clone();
                if let Fields::Bitmap { width, height, .. } = &mut table.objects[at].fields {
                    *(if wide { width } else { height }) = side;
                }
                add("bitmap side", table.bytes());
            }
        }
    }
}

/// An absent bitmap with a handle, and positions out of range, of the screen DC and
/// of the last created one.
fn dcs(rng: &mut Rng, table: &Table, add: &mut impl FnMut(Broken, Vec<u8>)) {
    let created = table.objects.iter().rposition(|object| object.fields.position().is_some());
    for at in [None, created] {
        let mut changed = |rule, change: &dyn Fn(&mut Dc)| {
            let mut table = table.clone();
            match at.map(|at: usize| &mut table.objects[at].fields) {
                Some(Fields::Dc(dc)) => change(dc),
                _ => change(&mut table.screen),
            }
            add(rule, table.bytes());
        };
        let handle = rng.next() as u32 | 1;
        for handle in [1, handle, rng.pick(&STOCK)] {
            changed("absent bitmap", &|dc| (dc.present, dc.bitmap) = (false, handle));
        }
        let out = rng.pick(&OUT);
        changed("position", &|dc| dc.x = out);
        changed("position", &|dc| dc.y = out);
        changed("position", &|dc| (dc.x, dc.y) = (LEAST - 1, MOST + 1));
    }
}

/// Each filling bit, a cut table, and one with bytes behind it.
fn ends(rng: &mut Rng, table: &Table, add: &mut impl FnMut(Broken, Vec<u8>)) {
    let bytes = table.bytes();
    for bit in table.bits()..8 * bytes.len() {
        add("filling", flipped(&bytes, bit));
    }
    let some = rng.below(bytes.len() as u64) as usize;
    for len in [0, 1, some, bytes.len() - 1] {
        add("cut", bytes[..len].to_vec());
    }
    let most = (MAX_BYTES - bytes.len()).min(300) as i64;
    for len in [1, rng.between(2, most) as usize] {
        for byte in [0, rng.between(1, 255) as u8] {
            add("longer", [bytes.as_slice(), &vec![byte; len]].concat());
        }
    }
}

#[cfg(test)]
mod tests {
    use super::super::decode::RULES;
    use super::super::random;
    use super::*;
    use crate::counts::Counts;

    #[test]
    fn every_rule_is_broken() {
        let (mut rng, mut rules) = (Rng::new(1), Counts::new(RULES));
        for count in [0, 1, 2, 9, 256] {
            let table = random::with(&mut rng, count, None);
            broken(&mut rng, &table).iter().for_each(|(rule, _)| rules.add(rule));
        }
        assert!(rules.least() > 2, "{rules}");
    }
}
