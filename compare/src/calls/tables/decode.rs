//! Which bytes are a table, by the specification's rules one by one.

use pocket_kernel::gdi::is_stock_handle;

use super::table::{Dc, Fields, Object, Table, FORM};
use crate::calls::device::{MAX_OBJECTS, MAX_SIDE};

/// The rules, by what breaks them.
pub const RULES: [&str; 13] = [
    "form",
    "panel side",
    "count",
    "kind",
    "handle 0",
    "stock handle",
    "doubled handle",
    "bitmap side",
    "absent bitmap",
    "position",
    "filling",
    "cut",
    "longer",
];

/// The name of a rule that is broken.
pub type Broken = &'static str;

/// Bytes that are read bit by bit.
struct Bits<'a> {
    bytes: &'a [u8],
    at: usize,
}

impl Bits<'_> {
    /// The number in the next bits, 32 at most.
    fn take(&mut self, bits: usize) -> Result<u32, Broken> {
        let end = self.at + bits;
        let bytes = self.bytes.get(self.at / 8..end.div_ceil(8)).ok_or("cut")?;
        let number = bytes.iter().fold(0, |all, byte| all << 8 | u64::from(*byte));
        self.at = end;
        let number = number >> (end.next_multiple_of(8) - end);
        Ok((number & ((1 << bits) - 1)) as u32)
    }

    fn flag(&mut self) -> Result<bool, Broken> {
        Ok(self.take(1)? == 1)
    }

    fn signed(&mut self) -> Result<i32, Broken> {
        Ok(self.take(32)? as i32)
    }

    fn side(&mut self, rule: Broken) -> Result<u32, Broken> {
        let side = self.take(13)?;
        if !(1..=MAX_SIDE).contains(&side) {
            return Err(rule);
        }
        Ok(side)
    }

    fn dc(&mut self) -> Result<Dc, Broken> {
        let dc = Dc {
            present: self.flag()?,
            bitmap: self.take(32)?,
            brush: self.take(32)?,
            pen: self.take(32)?,
            font: self.take(32)?,
            brush_color: self.take(32)?,
            pen_color: self.take(32)?,
            text_color: self.take(32)?,
            align: self.take(32)?,
            bk_color: self.take(32)?,
            transparent: self.flag()?,
            x: self.signed()?,
            y: self.signed()?,
        };
        if !dc.present && dc.bitmap != 0 {
            return Err("absent bitmap");
        }
        if !dc.position().is_position() {
            return Err("position");
        }
        Ok(dc)
    }

    fn object(&mut self) -> Result<Object, Broken> {
        let kind = self.take(3)?;
        let handle = self.take(32)?;
        let fields = match kind {
            0 => Fields::Dc(self.dc()?),
            1 => Fields::Bitmap {
                width: self.side("bitmap side")?,
                height: self.side("bitmap side")?,
                dirty: self.flag()?,
            },
            2 => Fields::Brush { color: self.take(32)? },
            3 => Fields::Pen { color: self.take(32)?, width: self.take(32)? },
            4 => Fields::Font { height: self.signed()? },
            _ => return Err("kind"),
        };
        match handle {
            0 => Err("handle 0"),
            _ if is_stock_handle(handle) => Err("stock handle"),
            _ => Ok(Object { handle, fields }),
        }
    }

    /// The bits behind the last object: fewer than eight, and all 0.
    fn filling(&mut self) -> Result<(), Broken> {
        let left = 8 * self.bytes.len() - self.at;
        if left >= 8 {
            return Err("longer");
        }
        if self.take(left)? != 0 {
            return Err("filling");
        }
        Ok(())
    }
}

/// The table that the bytes are, or the first rule that they break.
pub fn decoded(bytes: &[u8]) -> Result<Table, Broken> {
    let mut bits = Bits { bytes, at: 0 };
    let form = bits.take(4)?;
    if form != FORM {
        return Err("form");
    }
    let (width, height) = (bits.side("panel side")?, bits.side("panel side")?);
    let (next, count) = (bits.take(32)?, bits.take(9)?);
    if count as usize > MAX_OBJECTS {
        return Err("count");
    }
    let screen = bits.dc()?;
    let objects = (0..count).map(|_| bits.object()).collect::<Result<Vec<_>, _>>()?;
    bits.filling()?;
    let mut handles: Vec<u32> = objects.iter().map(|object| object.handle).collect();
    handles.sort_unstable();
    if handles.windows(2).any(|pair| pair[0] == pair[1]) {
        return Err("doubled handle");
    }
    Ok(Table { form, width, height, next, count, screen, objects })
}

#[cfg(test)]
mod tests {
    use super::super::table::tests::{fresh, fresh_dc};
    use super::*;

    fn with(objects: Vec<Object>) -> Table {
        Table { count: objects.len() as u32, objects, ..fresh() }
    }

    #[test]
    fn tables_are_written_and_read() {
        let dc = Dc { present: true, bitmap: 0, x: -32_768, y: 32_767, ..fresh_dc() };
        let kinds = [
            Fields::Dc(dc.clone()),
            Fields::Bitmap { width: 1, height: 4096, dirty: false },
            Fields::Brush { color: u32::MAX },
            Fields::Pen { color: 0, width: 1 },
            Fields::Font { height: i32::MIN },
        ];
        let object = |(at, fields): (usize, &Fields)| Object {
            handle: u32::MAX - at as u32,
            fields: fields.clone(),
        };
        for from in 0..=kinds.len() {
            let objects = kinds[from..].iter().enumerate().map(object).collect();
            let table = Table { screen: dc.clone(), next: 0, ..with(objects) };
            assert_eq!(decoded(&table.bytes()), Ok(table));
        }
        let all = (1..=256).map(|handle| Object { handle, fields: kinds[0].clone() }).collect();
        let table = with(all);
        assert_eq!(table.bytes().len(), 12_502);
        assert_eq!(decoded(&table.bytes()), Ok(table));
    }

    #[test]
    fn numbers_are_taken_across_bytes() {
        let mut bits = Bits { bytes: &[0x12, 0x34, 0x56, 0x78, 0x9A, 0xBC], at: 0 };
        assert_eq!(bits.take(4), Ok(1));
        assert_eq!(bits.take(32), Ok(0x2345_6789));
        assert_eq!((bits.take(0), bits.take(1), bits.take(11)), (Ok(0), Ok(1), Ok(0x2BC)));
        assert_eq!((bits.take(0), bits.take(1)), (Ok(0), Err("cut")));
    }

    #[test]
    fn every_cut_and_longer_table_is_none() {
        let table = with(vec![Object { handle: 1, fields: Fields::Dc(fresh_dc()) }]).bytes();
        for len in 0..table.len() {
            assert_eq!(decoded(&table[..len]), Err("cut"));
        }
        for byte in [0, 1, 0xFF] {
            assert_eq!(decoded(&[table.as_slice(), &[byte]].concat()), Err("longer"));
        }
    }
}
