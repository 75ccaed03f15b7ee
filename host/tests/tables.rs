//! Saved tables: what a save writes, what a load leaves, and what is refused with
//! nothing changed.

mod random;

use random::Random;
use ravinefork::{
    rop3, Area, Bitmap, Colorref, Device, GdiObject, Handle, Point, Record, Refusal, Rgb565, Slot,
    MAX_OBJECTS, MAX_TABLE,
};

const SCREEN_DC: Handle = Handle::GDI_SCREEN_DC;
const ALL: Area = Area { x: 0, y: 0, w: 40, h: 40 };

/// The head and the screen DC, a created DC, a bitmap, a brush, a pen, a font: their
/// bits in a table.
const FRESH: usize = 425;
const BITS: [usize; 5] = [35 + 354, 35 + 27, 35 + 32, 35 + 64, 35 + 32];

/// A device with a panel of 4 by 3 and an object of each kind, on whose surfaces
/// nothing is black. The memories are filled first, so that bytes past the pixels
/// can be told.
fn device(panel_len: usize, store_len: usize) -> Result<Device, Refusal> {
    let memory = |len| vec![0x5A; len].into_boxed_slice();
    let mut device = Device::open_on(4, 3, memory(panel_len), memory(store_len))?;
    let dc = device.create_memory_dc()?;
    let bitmap = device.create_compatible_bitmap(3, 5)?;
    let brush = device.create_solid_brush(Colorref(0x0012_3456))?;
    let pen = device.create_pen(Colorref(0x00AB_CDEF), 7)?;
    let font = device.create_font(-9)?;
    let stock = device.create_memory_dc()?;
    for (dc, object) in [(dc, bitmap), (dc, brush), (SCREEN_DC, pen), (SCREEN_DC, font)] {
        device.select_into(dc, object)?;
    }
    device.select_into(stock, Handle::STOCK_DEFAULT_BITMAP)?;
    device.set_text_align(dc, 0x8000_0001)?;
    device.set_bk_mode(SCREEN_DC, true)?;
    device.move_to(dc, Point { x: -32_768, y: 32_767 })?;
    for dc in [SCREEN_DC, dc, stock] {
        device.pattern_fill(dc, ALL, rop3::WHITENESS)?;
    }
    Ok(device)
}

/// Whether two devices have the same numbers and bytes.
fn same(one: &Device, other: &Device) -> bool {
    one.record().as_numbers() == other.record().as_numbers()
        && (one.panel(), one.store()) == (other.panel(), other.store())
}

/// The number in some bits of a table, most significant first.
fn field(table: &[u8], at: usize, bits: usize) -> u64 {
    (at..at + bits).fold(0, |all, bit| all << 1 | u64::from(table[bit / 8] >> (7 - bit % 8) & 1))
}

#[test]
fn the_table_of_a_fresh_device() {
    let table = Device::open(240, 320, 2 * 240 * 320, 2).and_then(|d| d.save()).expect("a table");
    assert_eq!((table.len(), table[0] >> 4), (FRESH.div_ceil(8), 1));
    let head = [(4, 13, 240), (17, 13, 320), (30, 32, 0xDEAD_1000), (62, 9, 0)];
    let brush = [(71, 1, 0), (72, 32, 0), (104, 32, 0xDEAD_5701), (136, 32, 0xDEAD_5707)];
    let colors = [(168, 32, 0xDEAD_5710), (200, 32, 0x00FF_FFFF), (232, 64, 0), (296, 32, 0)];
    let others = [(328, 32, 0x00FF_FFFF), (360, 1, 0), (361, 64, 0), (425, 7, 0)];
    for (at, bits, number) in [head, brush, colors, others].concat() {
        assert_eq!(field(&table, at, bits), number, "bit {at}");
    }
}

#[test]
fn a_round_trip() {
    let saved = device(30, 64).expect("a device");
    let table = saved.save().expect("a table");
    let bits = FRESH + BITS.iter().sum::<usize>() + BITS[0];
    assert_eq!(table.len(), bits.div_ceil(8));
    // A device with other lengths, other sides and other objects.
    let mut other = Device::open(7, 2, 40, 100).expect("a device");
    other.create_compatible_bitmap(5, 5).expect("a bitmap");
    other.panel_fill(Rgb565(0x1234)).expect("a fill");
    let frames = other.frame_counter();
    assert_eq!(other.load(&table), Ok(()));
    assert_eq!(other.save().as_ref(), Ok(&table));
    let (ours, theirs) = (other.record(), saved.record());
    assert_eq!((ours.width(), ours.height(), ours.next_handle()), (4, 3, theirs.next_handle()));
    assert_eq!(ours.screen(), theirs.screen());
    assert!(ours.slots().eq(theirs.slots()) && ours.count() == 6);
    // Lengths, counter and the stock bitmap's mark are those of the other device.
    assert_eq!((ours.panel_len(), ours.store_len()), (40, 100));
    assert_eq!((ours.frame_counter(), ours.stock_dirty()), (frames + 1, false));
    assert!(theirs.stock_dirty());
}

#[test]
fn pixels_turn_black_except_the_stock_bitmap() {
    let mut device = device(31, 65).expect("a device");
    let table = device.save().expect("a table");
    device.resize(3, 5).expect("a resize");
    device.panel_fill(Rgb565(0xFFFF)).expect("a fill");
    let frames = device.frame_counter();
    assert_eq!(device.load(&table), Ok(()));
    // 4 by 3 pixels of the panel are black, the bytes past them are kept.
    assert_eq!(device.panel()[..24], [0; 24]);
    assert_eq!(device.panel()[24..], [0xFF, 0xFF, 0xFF, 0xFF, 0xFF, 0xFF, 0x5A]);
    assert_eq!(device.store()[..2], [0xFF; 2]);
    assert!(device.store()[2..].iter().all(|&byte| byte == 0));
    assert_eq!(device.frame_counter(), frames + 1);
    assert!(device.record().stock_dirty());
    let bitmap = device.record().bitmap(Handle(Handle::GDI_HANDLE_BASE.0 + 1));
    assert_eq!(bitmap, Some(Bitmap { width: 3, height: 5, host_dirty: true }));
}

#[test]
fn bytes_that_are_no_table() {
    let mut device = device(30, 64).expect("a device");
    let table = device.save().expect("a table");
    let before = device.clone();
    let mut wrong: Vec<Vec<u8>> = (0..table.len()).map(|len| table[..len].to_vec()).collect();
    wrong.extend([0, 1, 0xFF].map(|byte| [table.as_slice(), &[byte]].concat()));
    wrong.push([table.as_slice(), &table].concat());
    wrong.push(vec![0; MAX_TABLE]);
    let flipped = |bits: &[usize]| {
        let mut table = table.clone();
        bits.iter().for_each(|bit| table[bit / 8] ^= 0x80 >> (bit % 8));
        table
    };
    // The form, the count, a present bitmap that is said to be absent, the filling bits.
    let end = FRESH + BITS.iter().sum::<usize>() + BITS[0];
    let bits = (0..4).chain(62..71).chain([FRESH + 35]).chain(end..8 * table.len());
    wrong.extend(bits.map(|bit| flipped(&[bit])));
    // Sides 0; each coordinate of the DC's position, which are the ends of the range, one past it.
    wrong.extend([flipped(&[14]), flipped(&[28, 29])]);
    let x = FRESH + 35 + 290;
    wrong.extend([x, x + 32].map(|at| flipped(&(at + 16..at + 32).collect::<Vec<_>>())));
    for bytes in wrong {
        assert_eq!(device.load(&bytes), Err(Refusal::TABLE), "{bytes:x?}");
        assert!(same(&device, &before), "{bytes:x?}");
    }
}

#[test]
fn a_load_asks_9_8_12_then_7() {
    let saved = device(30, 64).expect("a device");
    let table = saved.save().expect("a table");
    // The panel needs 24 bytes, the stock bitmap and the other one 32.
    for (panel_len, store_len, refusal) in [
        (24, 32, None),
        (23, 32, Some(Refusal::TOO_SHORT)),
        (24, 31, Some(Refusal::TOO_SHORT)),
        (2, 2, Some(Refusal::TOO_SHORT)),
        (25, 33, None),
    ] {
        let mut other = Device::open(1, 1, panel_len, store_len).expect("a device");
        let before = other.clone();
        assert_eq!(other.load(&table[1..]), Err(Refusal::TABLE));
        assert!(same(&other, &before));
        assert_eq!(other.load(&table).err(), refusal, "{panel_len}, {store_len}");
        assert_eq!(same(&other, &before), refusal.is_some());
    }
    let mut record = saved.record().clone();
    assert_eq!(record.load(&[], &mut [0; 31], &mut [0; 64]), Err(Refusal::LENGTH));
    assert_eq!(Record::new().load(&[], &mut [0; 31], &mut []), Err(Refusal::UNSOUND_RECORD));
}

#[test]
fn an_output_that_is_too_short_or_long() {
    let device = device(30, 64).expect("a device");
    let table = device.save().expect("a table");
    for len in [0, 1, table.len() - 1] {
        let mut out = vec![0x77; len];
        assert_eq!(device.record().save_into(&mut out), Err(Refusal::OUTPUT_TOO_SHORT));
        assert_eq!(out, vec![0x77; len]);
    }
    for more in [0, 1, 900] {
        let mut out = vec![0x77; table.len() + more];
        assert_eq!(device.record().save_into(&mut out), Ok(table.len()));
        assert_eq!(out, [table.as_slice(), &vec![0x77; more]].concat());
    }
    assert_eq!(Record::new().save_into(&mut []), Err(Refusal::UNSOUND_RECORD));
}

#[test]
fn the_longest_table() {
    let mut device = Device::open(1, 1, 2, 2).expect("a device");
    for at in 0..MAX_OBJECTS as i32 {
        let dc = device.create_memory_dc().expect("a DC");
        device.move_to(dc, Point { x: at, y: -at }).expect("a move");
    }
    let table = device.save().expect("a table");
    assert_eq!(table.len(), MAX_TABLE);
    let mut other = Device::open(1, 1, 2, 2).expect("a device");
    assert_eq!(other.load(&table), Ok(()));
    assert_eq!(other.frame_counter(), 1);
    assert!(other.record().slots().eq(device.record().slots()));
    assert_eq!(other.create_font(1), Err(Refusal::TOO_MANY_OBJECTS));
}

#[test]
fn a_screen_dc_that_says_memory_is_the_screen_s_after_a_load() {
    let (record, panel, store) = device(30, 64).expect("a device").into_parts();
    let mut numbers = record.into_numbers();
    numbers[ravinefork::SCREEN] = 1;
    let mut device = Device::from_parts(Record::from_numbers(numbers), panel, store);
    let table = device.save().expect("a table");
    assert_eq!(device.load(&table), Ok(()));
    assert_eq!(device.record().screen().surface, ravinefork::DcSurface::Screen);
}

#[test]
fn loaded_objects_work() {
    let mut other = Device::open(1, 1, 30, 64).expect("a device");
    let table = device(30, 64).and_then(|device| device.save()).expect("a table");
    other.load(&table).expect("a table");
    let [dc, bitmap, brush] = [0, 1, 2].map(|i| Handle(Handle::GDI_HANDLE_BASE.0 + i));
    let area = Area { x: 0, y: 0, w: 1, h: 1 };
    assert_eq!(other.pattern_fill(dc, area, rop3::PATCOPY), Ok(()));
    let pixels = other.bitmap_pixels(bitmap).expect("a bitmap");
    assert_eq!(pixels[..4], [0xA2, 0x51, 0, 0]);
    assert_eq!(other.move_to(dc, Point { x: 1, y: 2 }), Ok(Point { x: -32_768, y: 32_767 }));
    assert_eq!(other.select_into(dc, Handle::STOCK_GRAY_BRUSH), Ok(brush));
    assert_eq!(other.delete(bitmap), Ok(true));
    assert_eq!(other.rectangle(dc, area), Err(Refusal::NO_SURFACE));
    assert_eq!(other.create_font(1), Ok(Handle(Handle::GDI_HANDLE_BASE.0 + 6)));
}

#[test]
fn random_devices() {
    let mut random = Random::new(2);
    let mut bitmaps = 0;
    for _ in 0..300 {
        let (panel_len, store_len) = (1800, 4000);
        let mut device =
            Device::open(1 + random.below(30), 1 + random.below(30), panel_len, store_len)
                .expect("a device");
        for _ in 0..random.below(120) {
            device.perform(&random.call(), &[0x41]);
        }
        let table = device.save().expect("a table");
        let mut other = Device::open(1, 1, panel_len, store_len).expect("a device");
        assert_eq!(other.load(&table), Ok(()));
        assert_eq!(other.save(), Ok(table));
        let (ours, theirs) = (other.record(), device.record());
        assert_eq!((ours.width(), ours.height()), (theirs.width(), theirs.height()));
        assert_eq!((ours.screen(), ours.count()), (theirs.screen(), theirs.count()));
        assert!(ours.slots().eq(theirs.slots()));
        assert!(other.panel_pixels().iter().all(|&byte| byte == 0));
        let bitmap = |slot: &Slot| matches!(slot.object, GdiObject::Bitmap(_));
        bitmaps += theirs.slots().filter(bitmap).count();
    }
    assert!(bitmaps > 100, "{bitmaps} bitmaps");
}
