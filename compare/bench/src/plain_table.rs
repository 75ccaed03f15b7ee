//! Saved tables as a plain encoder and decoder, field by field from the
//! specification's list.

use std::collections::HashSet;

use ravinefork::{Handle, DC, MAX_OBJECTS, MAX_SIDE, SCREEN, SLOT, SLOTS};

/// How many bits the fields of a DC and of the other kinds have. A DC's surface is
/// not saved.
const DC_BITS: [usize; DC - 1] = [1, 32, 32, 32, 32, 32, 32, 32, 32, 32, 1, 32, 32];
const BITS: [&[usize]; 5] = [&DC_BITS, &[13, 13, 1], &[32], &[32, 32], &[32]];

/// What a table holds, as a record's numbers.
#[derive(Clone, Debug, PartialEq)]
pub struct Table {
    pub width: u32,
    pub height: u32,
    pub next: u32,
    pub screen: [u32; DC],
    /// The created objects: handle, kind, fields.
    pub slots: Vec<[u32; SLOT]>,
}

/// Bits that are being packed.
struct Writer {
    bytes: Vec<u8>,
    /// The bits that do not fill a byte yet, and their number.
    rest: u64,
    len: usize,
}

impl Writer {
    fn put(&mut self, bits: usize, number: u32) {
        self.rest = self.rest << bits | u64::from(number);
        self.len += bits;
        while self.len >= 8 {
            self.len -= 8;
            self.bytes.push((self.rest >> self.len) as u8);
        }
    }

    fn put_all(&mut self, bits: &[usize], numbers: &[u32]) {
        bits.iter().zip(numbers).for_each(|(&bits, &number)| self.put(bits, number));
    }
}

/// Bits that are being read.
struct Reader<'a> {
    bytes: &'a [u8],
    at: usize,
}

impl Reader<'_> {
    fn take(&mut self, bits: usize) -> Option<u32> {
        let end = self.at + bits;
        let bytes = self.bytes.get(self.at / 8..end.div_ceil(8))?;
        let number = bytes.iter().fold(0, |all, &byte| all << 8 | u64::from(byte));
        self.at = end;
        Some((number >> (end.next_multiple_of(8) - end) & ((1 << bits) - 1)) as u32)
    }

    fn take_all(&mut self, bits: &[usize], numbers: &mut [u32]) -> Option<()> {
        for (&bits, number) in bits.iter().zip(numbers) {
            *number = self.take(bits)?;
        }
        Some(())
    }

    fn side(&mut self) -> Option<u32> {
        self.take(13).filter(is_side)
    }

    /// A DC's numbers, with this surface.
    fn dc(&mut self, surface: u32, numbers: &mut [u32]) -> Option<()> {
        numbers[0] = surface;
        self.take_all(&DC_BITS, &mut numbers[1..])?;
        let in_range = |number: u32| (-32_768..=32_767).contains(&(number as i32));
        let absent = numbers[1] == 0 && numbers[2] != 0;
        (!absent && in_range(numbers[12]) && in_range(numbers[13])).then_some(())
    }

    fn slot(&mut self) -> Option<[u32; SLOT]> {
        let mut slot = [0; SLOT];
        (slot[1], slot[0]) = (self.take(3)?, self.take(32)?);
        let bits = BITS.get(slot[1] as usize)?;
        match slot[1] {
            0 => self.dc(1, &mut slot[2..])?,
            _ => self.take_all(bits, &mut slot[2..])?,
        }
        let sides = slot[1] != 1 || is_side(&slot[2]) && is_side(&slot[3]);
        (sides && slot[0] != 0 && !is_stock(slot[0])).then_some(slot)
    }
}

fn is_side(side: &u32) -> bool {
    (1..=MAX_SIDE).contains(side)
}

fn is_stock(handle: u32) -> bool {
    let handles = [Handle::GDI_SCREEN_DC, Handle::STOCK_SYSTEM_FONT, Handle::STOCK_DEFAULT_BITMAP];
    (0xDEAD_5701..=0xDEAD_5709).contains(&handle) || handles.contains(&Handle(handle))
}

impl Table {
    /// The table of a record's numbers.
    pub fn of(numbers: &[u32]) -> Table {
        let slots = numbers[SLOTS..].chunks_exact(SLOT).take(numbers[8] as usize);
        Table {
            width: numbers[2],
            height: numbers[3],
            next: numbers[6],
            screen: numbers[SCREEN..SLOTS].try_into().expect("the numbers of a DC"),
            slots: slots.map(|slot| slot.try_into().expect("the numbers of a slot")).collect(),
        }
    }

    pub fn encode(&self) -> Vec<u8> {
        let mut bits = Writer { bytes: Vec::new(), rest: 0, len: 0 };
        bits.put_all(&[4, 13, 13], &[1, self.width, self.height]);
        bits.put_all(&[32, 9], &[self.next, self.slots.len() as u32]);
        bits.put_all(&DC_BITS, &self.screen[1..]);
        for slot in &self.slots {
            bits.put(3, slot[1]);
            bits.put(32, slot[0]);
            let surface = usize::from(slot[1] == 0);
            bits.put_all(BITS[slot[1] as usize], &slot[2 + surface..]);
        }
        let missing = (8 - bits.len) % 8;
        bits.put(missing, 0);
        bits.bytes
    }

    /// The table that the bytes are, if they are one.
    pub fn decode(bytes: &[u8]) -> Option<Table> {
        let mut bits = Reader { bytes, at: 0 };
        bits.take(4).filter(|&form| form == 1)?;
        let (width, height, next) = (bits.side()?, bits.side()?, bits.take(32)?);
        let count = bits.take(9).filter(|&count| count as usize <= MAX_OBJECTS)?;
        let mut screen = [0; DC];
        bits.dc(0, &mut screen)?;
        let slots: Vec<_> = (0..count).map(|_| bits.slot()).collect::<Option<_>>()?;
        let handles: HashSet<u32> = slots.iter().map(|slot| slot[0]).collect();
        let left = 8 * bytes.len() - bits.at;
        let whole = left < 8 && bits.take(left) == Some(0) && handles.len() == slots.len();
        whole.then_some(Table { width, height, next, screen, slots })
    }
}
