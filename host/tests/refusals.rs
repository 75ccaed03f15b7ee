//! What is refused, and with which number. A refused call changes nothing; a
//! refused open writes the record and changes no byte. And what the accessors
//! read.

use pocket_kernel::gdi::{self, GdiState};
use ravinefork::{
    call, rop3, Area, Bitmap, Brush, Colorref, Dc, DcSurface, Device, Font, GdiObject, Handle,
    HostCall, Pen, Point, Record, Refusal, Reply, Rgb565, Slot, DC, MAX_MEMORY, MAX_TABLE, RECORD,
    SCREEN, SLOT, SLOTS,
};

const SCREEN_DC: Handle = Handle::GDI_SCREEN_DC;
const AREA: Area = Area { x: 0, y: 0, w: 2, h: 2 };
const AT: Point = Point { x: 0, y: 0 };
/// A point that no position can be.
const FAR: Point = Point { x: 32_768, y: 0 };

/// A device with a panel of 4 by 3 in 30 bytes, a store of 64 bytes, and an object
/// of each kind: a DC with a bitmap, a brush, a pen and a font.
fn device() -> (Device, [Handle; 5]) {
    let mut device = Device::open(4, 3, 30, 64).expect("a device");
    let handles = [
        device.create_memory_dc(),
        device.create_compatible_bitmap(3, 5),
        device.create_solid_brush(Colorref(0x0012_3456)),
        device.create_pen(Colorref(0x00AB_CDEF), 7),
        device.create_font(-9),
    ]
    .map(|made| made.expect("an object"));
    device.select_into(handles[0], handles[1]).expect("a selection");
    (device, handles)
}

/// Every call once.
fn calls() -> Vec<HostCall> {
    let dc = SCREEN_DC.0;
    let of = |call| HostCall { call, dc, src: dc, a: 1, b: 1, w: 2, h: 2, ..HostCall::default() };
    (call::CREATE_MEMORY_DC..=call::LINE_TO).map(of).collect()
}

fn refused(number: u32) -> Reply {
    Reply { refusal: number, value: 0, flag: 0, x: 0, y: 0, kind: 5, fields: [0; DC] }
}

/// Asserts that every call on these numbers, a load and a save are refused with
/// this number and change nothing.
fn all_refused(numbers: &[u32], number: u32, of: &str) {
    let lens = [30, 64].map(|len| (0..len).collect::<Vec<u8>>());
    tables_refused(numbers, number, &lens, of);
    for call in calls() {
        let mut record = Record::from_numbers(numbers);
        let [mut panel, mut store] = lens.clone();
        let reply = record.perform(&call, &[0x41], &mut panel, &mut store);
        assert_eq!(reply, refused(number), "{of}: {call:?}");
        assert_eq!(record.as_numbers(), numbers, "{of}: {call:?}");
        assert_eq!([panel, store], lens, "{of}: {call:?}");
    }
}

/// Asserts that a load on these numbers and memories, of a table or of other bytes,
/// is refused with this number and changes nothing; and so is a save if the record
/// is unsound.
fn tables_refused(numbers: &[u32], number: u32, lens: &[Vec<u8>; 2], of: &str) {
    let table = Device::open(1, 1, 2, 2).and_then(|fresh| fresh.save()).expect("a table");
    for bytes in [table.as_slice(), &table[1..], &[]] {
        let mut record = Record::from_numbers(numbers);
        let [mut panel, mut store] = lens.clone();
        let answer = record.load(bytes, &mut panel, &mut store);
        assert_eq!(answer.map_err(Refusal::number), Err(number), "{of}: load");
        assert_eq!(record.as_numbers(), numbers, "{of}: load");
        assert_eq!([panel, store], *lens, "{of}: load");
    }
    if number == 9 {
        for len in [0, MAX_TABLE] {
            let mut out = vec![0x5A; len];
            let answer = Record::from_numbers(numbers).save_into(&mut out);
            assert_eq!(answer, Err(Refusal::UNSOUND_RECORD), "{of}: save");
            assert_eq!(out, vec![0x5A; len], "{of}: save");
        }
    }
}

/// Calls every accessor; none may panic, whatever the numbers are.
fn read_all(record: &Record) {
    for handle in (0..300).map(|i| Handle(Handle::GDI_HANDLE_BASE.0.wrapping_add(i))) {
        _ = (record.get(handle), record.dc(handle), record.bitmap_place(handle));
    }
    _ = (record.panel_place(), record.bitmap(Handle::STOCK_DEFAULT_BITMAP));
    _ = format!("{record:?}");
    let lent: Device<Vec<u8>> = Device::from_parts(record.clone(), vec![0; 3], vec![0; 1]);
    _ = (lent.panel_pixels(), lent.bitmap_pixels(Handle::GDI_HANDLE_BASE));
}

#[test]
fn numbers_that_are_no_record() {
    let (device, _) = device();
    let good = device.record().as_numbers().to_vec();
    let wrong = |changes: &[(usize, u32)], number, of: &str| {
        let mut numbers = good.clone();
        changes.iter().for_each(|&(i, n)| numbers[i] = n);
        all_refused(&numbers, number, of);
        read_all(&Record::from_numbers(numbers));
    };
    for len in [0, 1, 8, SLOTS - 1, SLOTS, RECORD - 1] {
        all_refused(&good[..len], 9, "too few numbers");
        read_all(&Record::from_numbers(&good[..len]));
    }
    all_refused(&[good.as_slice(), &[0]].concat(), 9, "a number too many");
    for flag in [2, u32::MAX] {
        wrong(&[(7, flag)], 9, "the stock bitmap's mark");
        wrong(&[(9, flag)], 9, "the screen DC's surface");
        wrong(&[(10, flag)], 9, "the screen DC's bitmap");
        wrong(&[(20, flag)], 9, "the screen DC's mode");
        wrong(&[(SLOTS + 2, flag)], 9, "a DC's surface");
        wrong(&[(SLOTS + 3, flag)], 9, "a DC's bitmap");
        wrong(&[(SLOTS + 13, flag)], 9, "a DC's mode");
        wrong(&[(SLOTS + SLOT + 4, flag)], 9, "a bitmap's mark");
    }
    wrong(&[(11, 1)], 9, "the handle of a bitmap that is absent");
    for count in [257, 258, u32::MAX] {
        wrong(&[(8, count)], 9, "the count");
    }
    for slot in 0..5 {
        for kind in [5, 6, 256, u32::MAX] {
            wrong(&[(SLOTS + SLOT * slot + 1, kind)], 9, "the kind");
        }
    }
    // Each number past the fields of a bitmap, a brush, a pen and a font.
    for (slot, fields) in [(1, 3), (2, 1), (3, 2), (4, 1)] {
        for past in fields..DC {
            wrong(&[(SLOTS + SLOT * slot + 2 + past, 1)], 9, "a number past the fields");
        }
    }
}

#[test]
fn records_that_are_unsound() {
    let (device, [_, bitmap, ..]) = device();
    let good = device.record().as_numbers().to_vec();
    let slot = |i| SLOTS + SLOT * i;
    let cases = [
        (0, MAX_MEMORY as u32 + 1, "panel memory above the limit"),
        (0, 23, "panel memory too short"),
        (1, MAX_MEMORY as u32 + 1, "store above the limit"),
        (1, 31, "store too short"),
        (2, 0, "panel width"),
        (2, 4097, "panel width"),
        (3, 0, "panel height"),
        (3, u32::MAX, "panel height"),
        (8, 6, "a vacant slot counted"),
        (slot(0), 0, "handle 0"),
        (slot(0), bitmap.0, "a handle that two have"),
        (slot(4), Handle::STOCK_NULL_PEN.0, "a stock handle"),
        (slot(0) + 2, 0, "a created screen DC"),
        (slot(1) + 2, 0, "a bitmap's width"),
        (slot(1) + 3, 4097, "a bitmap's height"),
    ];
    for (i, number, of) in cases {
        let mut numbers = good.clone();
        numbers[i] = number;
        all_refused(&numbers, 9, of);
        read_all(&Record::from_numbers(numbers));
    }
    positions_that_are_unsound(&good);
    all_refused(&vec![0; RECORD], 9, "zeros");
    all_refused(&vec![u32::MAX; RECORD], 9, "ones");
    read_all(&Record::from_numbers(vec![u32::MAX; RECORD]));
    // The numbers past the last object may hold anything.
    let mut numbers = good;
    numbers[slot(5)..].fill(u32::MAX);
    let mut record = Record::from_numbers(numbers);
    let reply = record.perform(&calls()[0], &[], &mut [0; 30], &mut [0; 64]);
    assert_eq!(reply, Reply { value: Handle::GDI_HANDLE_BASE.0 + 5, ..refused(0) });
    assert_eq!(record.count(), 6);
}

/// Positions of the screen DC and of a created DC, each coordinate out of range at
/// each end, refuse every call and the snapshots. Those at the ends do not.
fn positions_that_are_unsound(good: &[u32]) {
    let places = [(SCREEN, "the screen DC's position"), (SLOTS + 2, "a DC's position")];
    for (at, of) in places.into_iter().flat_map(|(dc, of)| [(dc + 12, of), (dc + 13, of)]) {
        for coordinate in [-32_769, 32_768, 0x1_0000, i32::MIN, i32::MAX] {
            let mut numbers = good.to_vec();
            numbers[at] = coordinate as u32;
            all_refused(&numbers, 9, of);
            let record = Record::from_numbers(numbers);
            read_all(&record);
            let snapshot = record.snapshot_rgba8888_into(&[0; 30], &mut [0; 48]);
            assert_eq!(snapshot, Err(Refusal::UNSOUND_RECORD), "{of}");
        }
        for coordinate in [-32_768, -1, 32_767] {
            let mut numbers = good.to_vec();
            numbers[at] = coordinate as u32;
            let mut record = Record::from_numbers(numbers);
            let reply = record.perform(&calls()[0], &[], &mut [0; 30], &mut [0; 64]);
            assert_eq!(reply.refusal, 0, "{of} {coordinate}");
        }
    }
}

#[test]
fn numbers_that_are_no_call() {
    let (device, _) = device();
    let of = |call, a| HostCall { call, dc: SCREEN_DC.0, a, ..HostCall::default() };
    let none = [of(0, 0), of(21, 0), of(255, 0), of(u32::MAX, 0), of(call::SET_BK_MODE, 2)];
    let more = [of(call::SET_BK_MODE, u32::MAX), of(call::PANEL_FILL, 0x1_0000)];
    for call in none.into_iter().chain(more).chain([of(call::PANEL_FILL, u32::MAX)]) {
        let mut after = device.clone();
        assert_eq!(after.perform(&call, &[]), refused(255), "{call:?}");
        assert_eq!(after.record().as_numbers(), device.record().as_numbers());
        assert_eq!((after.panel(), after.store()), (device.panel(), device.store()));
        // The call is refused before the record is checked.
        let mut record = Record::from_numbers([]);
        assert_eq!(record.perform(&call, &[], &mut [], &mut []), refused(255));
    }
}

#[test]
fn memories_of_another_length() {
    let (device, _) = device();
    let numbers = device.record().as_numbers();
    for (panel_len, store_len) in [(29, 64), (31, 64), (30, 63), (30, 65), (0, 0), (64, 30)] {
        let memories = [vec![0x5A; panel_len], vec![0xA5; store_len]];
        tables_refused(numbers, 8, &memories, "another length");
        for call in calls() {
            let mut record = device.record().clone();
            let (mut panel, mut store) = (vec![0x5A; panel_len], vec![0xA5; store_len]);
            let reply = record.perform(&call, &[0x41], &mut panel, &mut store);
            assert_eq!(reply, refused(8), "{call:?}");
            assert_eq!(record.as_numbers(), numbers);
            assert!(panel.iter().all(|&byte| byte == 0x5A));
            assert!(store.iter().all(|&byte| byte == 0xA5));
        }
    }
}

#[test]
fn open() {
    let refusal = |w, h, panel, store| Device::open(w, h, panel, store).err();
    assert_eq!(refusal(4, 3, 24, 2), None);
    assert_eq!(refusal(4096, 1, 8192, 2), None);
    assert_eq!(refusal(1, 1, MAX_MEMORY, MAX_MEMORY), None);
    for (w, h) in [(0, 1), (1, 0), (4097, 1), (1, 4097), (u32::MAX, u32::MAX)] {
        assert_eq!(refusal(w, h, 64, 64), Some(Refusal::SIDE));
        assert_eq!(refusal(w, h, usize::MAX, usize::MAX), Some(Refusal::SIDE));
    }
    for (panel, store) in [(MAX_MEMORY + 1, 0), (0, MAX_MEMORY + 1), (usize::MAX, usize::MAX)] {
        assert_eq!(refusal(4, 3, panel, store), Some(Refusal::LENGTH));
    }
    for (panel, store) in [(23, 2), (24, 1), (0, 0)] {
        assert_eq!(refusal(4, 3, panel, store), Some(Refusal::TOO_SHORT));
    }
}

#[test]
fn a_refused_open_leaves_a_record_without_a_device() {
    let mut fresh = Record::new();
    fresh.open(1, 1, &mut [0; 2], &mut [0; 2]).expect("a device");
    let mut head = fresh.as_numbers()[..SLOTS].to_vec();
    // Lengths and sides are 0; the other numbers are those of a fresh device.
    head[..4].fill(0);
    let refusals = [(0, 3, 23, Refusal::SIDE), (4, 3, 23, Refusal::TOO_SHORT)];
    let too_long = (4, 3, MAX_MEMORY + 1, Refusal::LENGTH);
    for (width, height, panel_len, refusal) in refusals.into_iter().chain([too_long]) {
        let (mut panel, mut store) = (vec![0x5A; panel_len], [0xA5; 4]);
        let mut record = Record::from_numbers(vec![7; RECORD]);
        assert_eq!(record.open(width, height, &mut panel, &mut store), Err(refusal));
        assert!(panel.iter().all(|&byte| byte == 0x5A) && store == [0xA5; 4]);
        assert_eq!(record.as_numbers()[..SLOTS], head);
        assert!(record.as_numbers()[SLOTS..].iter().all(|&number| number == 7));
        assert_eq!((record.panel_len(), record.store_len()), (0, 0));
        assert_eq!((record.width(), record.height(), record.count()), (0, 0, 0));
        assert_eq!((record.frame_counter(), record.next_handle()), (0, Handle::GDI_HANDLE_BASE));
        all_refused(record.as_numbers(), 9, "after a refused open");
    }
}

#[test]
fn an_open_on_another_number_of_numbers_changes_nothing() {
    let (mut panel, mut store) = ([0x5A; 24], [0xA5; 4]);
    for len in [0, RECORD - 1, RECORD + 1] {
        let mut record = Record::from_numbers(vec![7; len]);
        assert_eq!(record.open(1, 1, &mut panel, &mut store), Err(Refusal::UNSOUND_RECORD));
        assert_eq!(record.as_numbers(), vec![7; len]);
        assert_eq!((panel, store), ([0x5A; 24], [0xA5; 4]));
    }
}

#[test]
fn an_accepted_open_blackens_the_panel_and_the_stock_pixel_only() {
    let (mut panel, mut store) = ([0x5A; 30], [0xA5; 4]);
    let device =
        Device::open_on(4, 3, panel.as_mut_slice(), store.as_mut_slice()).expect("a device");
    assert_eq!(device.panel_pixels(), [0; 24]);
    assert_eq!(device.bitmap_pixels(Handle::STOCK_DEFAULT_BITMAP), Some([0; 2].as_slice()));
    assert_eq!(panel[24..], [0x5A; 6]);
    assert_eq!(store, [0, 0, 0xA5, 0xA5]);
}

#[test]
fn each_refusal_of_a_call() {
    let (mut device, [dc, bitmap, brush, ..]) = device();
    let bare = device.create_memory_dc().expect("a DC");
    let before = device.clone();
    let none = Handle(1);
    // 1: no such DC.
    for handle in [none, Handle(0), bitmap, brush, Handle::STOCK_DEFAULT_BITMAP] {
        assert_eq!(device.set_text_color(handle, Colorref(1)), Err(Refusal::NO_DC));
        assert_eq!(device.set_text_align(handle, 1), Err(Refusal::NO_DC));
        assert_eq!(device.set_bk_color(handle, Colorref(1)), Err(Refusal::NO_DC));
        assert_eq!(device.set_bk_mode(handle, true), Err(Refusal::NO_DC));
        assert_eq!(device.pattern_fill(handle, AREA, rop3::PATCOPY), Err(Refusal::NO_DC));
        assert_eq!(device.rectangle(handle, AREA), Err(Refusal::NO_DC));
        assert_eq!(device.text_out(handle, AT, &[0x41]), Err(Refusal::NO_DC));
        assert_eq!(device.blit(handle, AREA, none, AT, rop3::SRCCOPY), Err(Refusal::NO_DC));
        assert_eq!(device.move_to(handle, FAR), Err(Refusal::NO_DC));
        assert_eq!(device.line_to(handle, FAR), Err(Refusal::NO_DC));
    }
    // 2: no surface.
    assert_eq!(device.pattern_fill(bare, AREA, rop3::PATCOPY), Err(Refusal::NO_SURFACE));
    assert_eq!(device.rectangle(bare, AREA), Err(Refusal::NO_SURFACE));
    assert_eq!(device.text_out(bare, AT, &[0x41; 65_536]), Err(Refusal::NO_SURFACE));
    assert_eq!(device.blit(bare, AREA, none, AT, rop3::SRCCOPY), Err(Refusal::NO_SURFACE));
    assert_eq!(device.line_to(bare, FAR), Err(Refusal::NO_SURFACE));
    // 3 and 4: the same for the source, unless the code does not use it.
    let source = device.blit(dc, AREA, none, AT, rop3::SRCCOPY);
    assert_eq!(source, Err(Refusal::NO_SOURCE_DC));
    let source = device.blit(dc, AREA, bare, AT, rop3::SRCCOPY);
    assert_eq!(source, Err(Refusal::NO_SOURCE_SURFACE));
    assert_eq!(device.clone().blit(dc, AREA, none, AT, rop3::PATINVERT), Ok(()));
    // 6 a side; 7 with 32 of 64 bytes in use.
    assert_eq!(device.create_compatible_bitmap(4097, 0), Err(Refusal::SIDE));
    assert_eq!(device.create_compatible_bitmap(1, u32::MAX), Err(Refusal::SIDE));
    assert_eq!(device.create_compatible_bitmap(1, 17), Err(Refusal::TOO_SHORT));
    assert_eq!(device.resize(4097, 1), Err(Refusal::SIDE));
    assert_eq!(device.resize(4, 4), Err(Refusal::TOO_SHORT));
    // 11: a position out of range.
    assert_eq!(device.move_to(bare, FAR), Err(Refusal::POSITION));
    assert_eq!(device.line_to(dc, FAR), Err(Refusal::POSITION));
    // 10: a text that is too long.
    assert_eq!(device.text_out(dc, AT, &[0x41; 65_536]), Err(Refusal::TEXT_TOO_LONG));
    // No refused call has changed anything.
    assert_eq!(device.record().as_numbers(), before.record().as_numbers());
    assert_eq!((device.panel(), device.store()), (before.panel(), before.store()));
    // The largest that is accepted.
    assert_eq!(device.text_out(dc, AT, &[0x41; 65_535]), Ok(6 * 65_535));
    let stopped = [[0x41; 65_535].as_slice(), &[0; 9]].concat();
    assert_eq!(device.text_out(dc, AT, &stopped), Ok(6 * 65_535));
    assert_eq!((device.resize(0, 9999), device.resize(5, 3)), (Ok(()), Ok(())));
    let tall = device.create_compatible_bitmap(0, 16).expect("as much as is left");
    let sides = Bitmap { width: 1, height: 16, host_dirty: false };
    assert_eq!(device.get(tall), Some(GdiObject::Bitmap(sides)));
}

#[test]
fn the_257th_object() {
    let mut device = Device::open(1, 1, 2, 2 + 2 * 256).expect("a device");
    for i in 0..256 {
        let handle = Handle(Handle::GDI_HANDLE_BASE.0 + i);
        assert_eq!(device.create_compatible_bitmap(1, 1), Ok(handle));
    }
    let before = device.clone();
    // 6 before 5, 5 before 7.
    assert_eq!(device.create_compatible_bitmap(4097, 1), Err(Refusal::SIDE));
    assert_eq!(device.create_compatible_bitmap(9, 9), Err(Refusal::TOO_MANY_OBJECTS));
    assert_eq!(device.create_memory_dc(), Err(Refusal::TOO_MANY_OBJECTS));
    assert_eq!(device.create_solid_brush(Colorref(0)), Err(Refusal::TOO_MANY_OBJECTS));
    assert_eq!(device.create_pen(Colorref(0), 1), Err(Refusal::TOO_MANY_OBJECTS));
    assert_eq!(device.create_font(1), Err(Refusal::TOO_MANY_OBJECTS));
    assert_eq!(device.record().as_numbers(), before.record().as_numbers());
    // The last bitmap is at the store's end; when the first is deleted, it moves.
    let last = Handle(Handle::GDI_HANDLE_BASE.0 + 255);
    assert_eq!(device.record().bitmap_place(last), Some(512..514));
    assert_eq!(device.delete(Handle::GDI_HANDLE_BASE), Ok(true));
    assert_eq!(device.record().bitmap_place(last), Some(510..512));
    assert_eq!(device.create_font(1), Ok(Handle(last.0 + 1)));
}

#[test]
fn removed_objects() {
    let (mut device, [dc, bitmap, brush, pen, font]) = device();
    device.set_text_color(dc, Colorref(5)).expect("a setting");
    device.set_text_align(dc, 6).expect("a setting");
    device.set_bk_color(dc, Colorref(7)).expect("a setting");
    device.set_bk_mode(dc, true).expect("a setting");
    device.select_into(dc, brush).expect("a selection");
    device.select_into(dc, pen).expect("a selection");
    device.select_into(dc, font).expect("a selection");
    device.rectangle(dc, AREA).expect("a rectangle");
    device.line_to(dc, Point { x: -5, y: 32_767 }).expect("a line");
    let record = Dc {
        surface: DcSurface::Memory,
        selected_bitmap: Some(bitmap),
        selected_brush: brush,
        selected_pen: pen,
        selected_font: font,
        brush_color: Colorref(0x0012_3456),
        pen_color: Colorref(0x00AB_CDEF),
        text_color: Colorref(5),
        text_align: 6,
        bk_color: Colorref(7),
        bk_transparent: true,
        position: Point { x: -5, y: 32_767 },
    };
    let objects = [
        (dc, GdiObject::Dc(record)),
        (bitmap, GdiObject::Bitmap(Bitmap { width: 3, height: 5, host_dirty: true })),
        (brush, GdiObject::Brush(Brush { color: Colorref(0x0012_3456) })),
        (pen, GdiObject::Pen(Pen { color: Colorref(0x00AB_CDEF), width: 7 })),
        (font, GdiObject::Font(Font { height: -9 })),
    ];
    let slots = objects.map(|(handle, object)| Slot { handle, object });
    assert_eq!(device.record().slots().collect::<Vec<_>>(), slots);
    assert_eq!(device.record().slot(5), None);
    for (handle, object) in objects {
        assert_eq!(device.get(handle), Some(object));
        assert_eq!(device.remove(handle), Ok(Some(object)));
        assert_eq!(device.get(handle), None);
        assert_eq!(device.remove(handle), Ok(None));
        assert_eq!(device.delete(handle), Ok(false));
    }
    assert_eq!(device.record().count(), 0);
    assert!(device.store().iter().all(|&byte| byte == 0));
    assert_eq!(device.remove(SCREEN_DC), Ok(None));
    assert_eq!(device.delete(SCREEN_DC), Ok(true));
}

#[test]
fn counters_go_round() {
    let (device, _) = device();
    let (record, panel, store) = device.into_parts();
    let mut numbers = record.into_numbers();
    numbers[4..7].copy_from_slice(&[u32::MAX - 1, u32::MAX, u32::MAX - 1]);
    let mut device = Device::from_parts(Record::from_numbers(numbers), panel, store);
    assert_eq!(device.frame_counter(), u64::MAX - 1);
    for frames in [u64::MAX, 0, 1] {
        device.panel_fill(Rgb565(1)).expect("a fill");
        assert_eq!(device.frame_counter(), frames);
    }
    // A rectangle makes two marks.
    let (record, panel, store) = device.into_parts();
    let mut numbers = record.into_numbers();
    numbers[4..6].fill(u32::MAX);
    let mut device = Device::from_parts(Record::from_numbers(numbers), panel, store);
    device.rectangle(SCREEN_DC, AREA).expect("a rectangle");
    assert_eq!(device.frame_counter(), 1);
    // The low half of the counter goes round and adds 1 to the high half.
    let (record, panel, store) = device.into_parts();
    let mut numbers = record.into_numbers();
    numbers[4..6].copy_from_slice(&[u32::MAX, 6]);
    let mut device = Device::from_parts(Record::from_numbers(numbers), panel, store);
    device.panel_fill(Rgb565(1)).expect("a fill");
    assert_eq!(device.frame_counter(), 7 << 32);
    // Handles skip 0.
    for (handle, next) in [(u32::MAX - 1, u32::MAX), (u32::MAX, 0), (1, 2)] {
        assert_eq!(device.create_font(0), Ok(Handle(handle)));
        assert_eq!(device.record().next_handle(), Handle(next));
    }
}

#[test]
fn handles_pass_those_that_are_taken() {
    let (device, [dc, ..]) = device();
    let (record, panel, store) = device.into_parts();
    let numbers = record.into_numbers();
    let next = |from: u32| {
        let mut numbers = numbers.clone();
        numbers[6] = from;
        let record = Record::from_numbers(numbers);
        Device::from_parts(record, panel.clone(), store.clone()).create_font(0)
    };
    assert_eq!(next(0xDEAD_5700), Ok(Handle(0xDEAD_5700)));
    assert_eq!(next(0xDEAD_5701), Ok(Handle(0xDEAD_570A)));
    assert_eq!(next(SCREEN_DC.0), Ok(Handle(SCREEN_DC.0 + 1)));
    assert_eq!(next(dc.0), Ok(Handle(dc.0 + 5)));
}

#[test]
fn stock_objects_are_the_original_s() {
    let original = GdiState::new();
    let device = Device::open(1, 1, 2, 2).expect("a device");
    let stock = (0..=u32::from(u16::MAX)).map(|low| 0xDEAD_0000 | low);
    let mut found = 0;
    for handle in stock.filter(|&handle| gdi::is_stock_handle(handle)) {
        let ours = device.get(Handle(handle)).expect("a stock object");
        match (original.get(handle).expect("a stock object"), ours) {
            (gdi::GdiObject::Dc(theirs), GdiObject::Dc(dc)) => {
                assert_eq!((dc.surface, dc.selected_bitmap), (DcSurface::Screen, None));
                assert_eq!(dc.selected_brush.0, theirs.selected_brush);
                assert_eq!(dc.selected_pen.0, theirs.selected_pen);
                assert_eq!(dc.selected_font.0, theirs.selected_font);
                assert_eq!(dc.brush_color.0, theirs.brush_color);
                assert_eq!(dc.pen_color.0, theirs.pen_color);
                assert_eq!(
                    (dc.text_color.0, dc.text_align),
                    (theirs.text_color, theirs.text_align)
                );
                assert_eq!((dc.bk_color.0, dc.bk_transparent), (theirs.bk_color, false));
                // The original has no positions.
                assert_eq!(dc.position, Point { x: 0, y: 0 });
            }
            (gdi::GdiObject::Bitmap(theirs), GdiObject::Bitmap(bitmap)) => {
                assert_eq!((bitmap.width, bitmap.height), (theirs.width, theirs.height));
                assert!(!bitmap.host_dirty);
            }
            (gdi::GdiObject::Brush(theirs), GdiObject::Brush(brush)) => {
                assert_eq!(brush.color.0, theirs.color);
            }
            (gdi::GdiObject::Pen(theirs), GdiObject::Pen(pen)) => {
                assert_eq!((pen.color.0, pen.width), (theirs.color, theirs.width));
            }
            (gdi::GdiObject::Font(theirs), GdiObject::Font(font)) => {
                assert_eq!(font.height, theirs.height);
            }
            (theirs, ours) => panic!("{handle:08x}: {ours:?} for {theirs:?}"),
        }
        found += 1;
    }
    assert_eq!(found, 12);
    assert_eq!(device.get(Handle(0)), None);
}

#[test]
fn raster_codes_are_the_original_s() {
    macro_rules! same {
        ($($code:ident)*) => { $(assert_eq!(rop3::$code, gdi::rop3::$code);)* };
    }
    same!(BLACKNESS NOTSRCERASE NOTSRCCOPY SRCERASE DSTINVERT PATINVERT SRCINVERT SRCAND);
    same!(MERGEPAINT MERGECOPY SRCCOPY SRCPAINT PATCOPY PATPAINT WHITENESS);
}

#[test]
fn refusals_tell_their_meaning() {
    let told = |number| Refusal::new(number).map(|refusal| refusal.to_string());
    assert_eq!(told(10).as_deref(), Some("refused with 10: a text has over 65,535 units"));
    assert_eq!(told(255).as_deref(), Some("refused with 255: no such call"));
    assert_eq!(told(20).as_deref(), Some("refused with 20: no refusal of this library"));
    let meanings: std::collections::BTreeSet<_> =
        (1..=13).chain([255]).map(|number| Refusal::new(number)?.meaning()).collect();
    assert!(meanings.len() == 14 && !meanings.contains(&None), "{meanings:?}");
}

#[test]
fn refusal_0_cannot_be_made() {
    assert_eq!(Refusal::new(0), None);
    let numbers = [1, 10, 255, u32::MAX];
    assert_eq!(numbers.map(|number| Refusal::new(number).map(Refusal::number)), numbers.map(Some));
    // So a result needs no more room than the number.
    assert_eq!(size_of::<Result<(), Refusal>>(), size_of::<u32>());
}

/// What this answers in a thread with so many KiB of stack.
fn with_stack(
    kib: usize,
    work: impl FnOnce() -> Result<(), Refusal> + Send,
) -> Result<(), Refusal> {
    std::thread::scope(|scope| {
        let small = std::thread::Builder::new().stack_size(kib * 1024);
        small.spawn_scoped(scope, work).expect("a thread").join().expect("no fault")
    })
}

#[test]
fn a_call_needs_less_than_32_kib_of_stack() {
    let (mut device, [dc, ..]) = device();
    let calls = calls();
    let drawn = with_stack(32, || {
        for call in &calls {
            device.perform(call, &[0x41; 9]);
        }
        device.blit(SCREEN_DC, AREA, dc, AT, 0x00B8_074A)?;
        device.blit(dc, AREA, dc, Point { x: 1, y: 1 }, rop3::SRCCOPY)?;
        device.save()?;
        device.remove(dc).map(|_| ())
    });
    assert_eq!(drawn, Ok(()));
}

#[test]
fn a_load_needs_less_than_48_kib_of_stack() {
    let (mut device, _) = device();
    let table = device.save().expect("a table");
    assert_eq!(with_stack(48, || device.load(&table)), Ok(()));
}
