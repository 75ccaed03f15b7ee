//! Makes every call on each of the committed records (docs/record-cases.md), loads a
//! table into it and saves it. The refusals are those of the specification's list, and a refused call changes
//! nothing. The screen DC draws on the panel whatever its surface field holds.
//! Records are equal if the numbers up to the last object are.

use std::fs;

use ravinefork::{
    call, rop3, Area, DcSurface, Device, Handle, HostCall, Point, Record, Refusal, DC, MAX_TABLE,
    RECORD, SCREEN, SLOT, SLOTS,
};

const FOLDER: &str = concat!(env!("CARGO_MANIFEST_DIR"), "/../crates/records");

/// The surface number of a memory DC.
const MEMORY: u32 = 1;

/// Reads numbers from the front of the stream.
struct Stream<'a>(&'a [u8]);

impl Stream<'_> {
    fn number(&mut self, bytes: usize) -> u64 {
        let (number, rest) = self.0.split_at(bytes);
        self.0 = rest;
        number.iter().fold(0, |all, &byte| all << 8 | u64::from(byte))
    }

    /// A number of the record; none if it needs more than 32 bits.
    fn wide(&mut self) -> Option<u32> {
        self.number(8).try_into().ok()
    }

    fn word(&mut self) -> u32 {
        self.number(4) as u32
    }

    /// A slot: a handle, a kind and the object's numbers.
    fn slot(&mut self) -> [u32; SLOT] {
        let mut slot = [0; SLOT];
        slot[0] = self.word();
        slot[1] = self.number(1) as u32;
        let bytes: &[usize] = match slot[1] {
            0 => &[1, 1, 4, 4, 4, 4, 4, 4, 4, 4, 4, 1, 4, 4],
            1 => &[4, 4, 1],
            3 => &[4, 4],
            _ => &[4],
        };
        for (field, &bytes) in slot[2..].iter_mut().zip(bytes) {
            *field = self.number(bytes) as u32;
        }
        if slot[1] == 0 && slot[3] == 0 {
            slot[4] = 0;
        }
        slot
    }

    /// A record's numbers and the lent lengths; no numbers if one of them needs
    /// more than 32 bits.
    fn record(&mut self) -> (Option<Vec<u32>>, [usize; 2]) {
        let lengths = [self.wide(), self.wide()];
        let sides = [self.word(), self.word()];
        let frames = self.number(8);
        let (next, stock) = (self.word(), self.number(1) as u32);
        let screen = screen(self.number(1) as u32, [self.word(), self.word()]);
        let count = self.wide();
        let slots: Vec<_> = (0..self.number(2)).map(|_| self.slot()).collect();
        let lent = [self.word(), self.word()].map(|len| len as usize);
        let numbers = (|| {
            let frames = [frames as u32, (frames >> 32) as u32];
            let mut numbers = vec![lengths[0]?, lengths[1]?, sides[0], sides[1]];
            numbers.extend([frames[0], frames[1], next, stock, count?]);
            numbers.extend(screen);
            numbers.extend(slots.concat());
            // Vacant slots: handle 0, a brush of colour 0.
            let vacant = (0..SLOT).map(|i| if i == 1 { 2 } else { 0 }).cycle();
            numbers.extend(vacant.take(RECORD - numbers.len()));
            Some(numbers)
        })();
        (numbers, lent)
    }
}

/// The screen DC of a fresh device, with this surface and position.
fn screen(surface: u32, position: [u32; 2]) -> [u32; DC] {
    let mut record = Record::new();
    record.open(1, 1, &mut [0; 2], &mut [0; 2]).expect("a device");
    let mut screen: [u32; DC] =
        record.as_numbers()[SCREEN..SLOTS].try_into().expect("the numbers of a DC");
    screen[0] = surface;
    screen[12..].copy_from_slice(&position);
    screen
}

/// Whether the call below makes the first pixel of the screen DC's surface black.
fn blackens(call: u32) -> bool {
    matches!(call, call::PATTERN_FILL | call::RECTANGLE | call::BLIT)
}

/// Loads the table of a fresh device into the record, and saves the record. A save
/// takes no memory, so it is not refused with 8.
fn load_and_save(numbers: &[u32], memories: &[Vec<u8>; 2], number: &str) {
    let fresh = Device::open(1, 1, 2, 2).and_then(|device| device.save()).expect("a table");
    let mut record = Record::from_numbers(numbers);
    let [mut panel, mut store] = memories.clone();
    let loaded = record.load(&fresh, &mut panel, &mut store);
    assert_eq!(loaded.err().map_or(0, Refusal::number).to_string(), number, "load");
    if loaded.is_err() {
        assert!(record.as_numbers() == numbers && [panel, store] == *memories, "load");
    }
    let mut out = vec![0x5A; MAX_TABLE];
    let saved = Record::from_numbers(numbers).save_into(&mut out);
    assert_eq!(saved.err(), (number == "9").then_some(Refusal::UNSOUND_RECORD), "save");
    assert!(saved.is_ok() || out == vec![0x5A; MAX_TABLE], "save");
}

#[test]
fn the_sample() {
    let bytes = fs::read(format!("{FOLDER}/stdin")).expect("the records");
    let lines = fs::read_to_string(format!("{FOLDER}/stdout")).expect("their lines");
    let mut stream = Stream(bytes.strip_prefix(b"REC2").expect("records"));
    let (mut tried, mut wide, mut memory_screens) = (0, 0, 0);
    for (i, line) in lines.lines().enumerate() {
        let (numbers, [panel_len, store_len]) = stream.record();
        let number = line.strip_prefix(&format!("record {i} ")).expect("the record's line");
        let Some(numbers) = numbers else {
            assert_eq!(number, "9", "{line}: a number needs more than 32 bits");
            wide += 1;
            continue;
        };
        let memories = [vec![0x5A; panel_len], vec![0xA5; store_len]];
        for call in call::CREATE_MEMORY_DC..=call::LINE_TO {
            let dc = Handle::GDI_SCREEN_DC.0;
            let call =
                HostCall { call, dc, src: dc, a: 1, b: 1, w: 9, h: 9, ..HostCall::default() };
            let mut record = Record::from_numbers(numbers.as_slice());
            let [mut panel, mut store] = memories.clone();
            let reply = record.perform(&call, &[0x41], &mut panel, &mut store);
            let refusal = if matches!(reply.refusal, 8 | 9) { reply.refusal } else { 0 };
            assert_eq!(refusal.to_string(), number, "{line}: {call:?}");
            assert_eq!(record.as_numbers()[SCREEN], numbers[SCREEN], "{line}: {call:?}");
            if number == "0" && blackens(call.call) {
                assert!(panel[..2] == [0; 2], "{line}: {call:?} does not paint the panel");
                assert!(store == memories[1], "{line}: {call:?} paints the store");
            }
            if reply.refusal != 0 {
                assert!(record.as_numbers() == numbers, "{line}: {call:?} changed the record");
                assert!([panel, store] == memories, "{line}: {call:?} changed a memory");
            }
        }
        load_and_save(&numbers, &memories, number);
        memory_screens += u32::from(number == "0" && numbers[SCREEN] == MEMORY);
        tried += 1;
    }
    assert!(stream.0.is_empty());
    assert!(memory_screens > 0, "no sound record has a screen DC that says memory");
    println!("{tried} records, and {wide} with numbers of more than 32 bits");
}

#[test]
fn a_screen_dc_that_says_memory_paints_the_panel() {
    let dc = Handle::GDI_SCREEN_DC;
    let mut device = Device::open(2, 2, 8, 10).expect("a device");
    let bitmap = device.create_compatible_bitmap(2, 2).expect("a bitmap");
    device.select_into(dc, bitmap).expect("a selection");
    let (record, panel, store) = device.into_parts();
    let mut numbers = record.into_numbers();
    numbers[SCREEN] = MEMORY;
    let mut device = Device::from_parts(Record::from_numbers(numbers), panel, store);
    let column = Area { x: 0, y: 0, w: 1, h: 2 };
    assert_eq!(device.pattern_fill(dc, column, rop3::WHITENESS), Ok(()));
    assert_eq!(device.panel(), [0xFF, 0xFF, 0, 0, 0xFF, 0xFF, 0, 0]);
    // It is the source of a blit as well.
    let corner = Area { x: 1, y: 1, w: 1, h: 1 };
    assert_eq!(device.blit(dc, corner, dc, Point { x: 0, y: 0 }, rop3::SRCCOPY), Ok(()));
    assert_eq!(device.panel(), [0xFF, 0xFF, 0, 0, 0xFF, 0xFF, 0xFF, 0xFF]);
    assert_eq!(device.store(), [0; 10]);
    assert_eq!(device.frame_counter(), 2);
    let screen = device.record().screen();
    assert_eq!((screen.surface, screen.selected_bitmap), (DcSurface::Memory, Some(bitmap)));
}

#[test]
fn equal_records() {
    let mut device = Device::open(2, 2, 8, 10).expect("a device");
    device.create_compatible_bitmap(2, 2).expect("a bitmap");
    device.create_font(-9).expect("a font");
    let record = device.record();
    let numbers = record.as_numbers();
    let used = SLOTS + SLOT * record.count();
    let with = |i: usize, number| {
        let mut numbers = numbers.to_vec();
        numbers[i] = number;
        Record::from_numbers(numbers)
    };
    // The numbers past the last object are not compared.
    for (i, &number) in numbers.iter().enumerate().skip(used) {
        assert!(with(i, !number) == *record, "number {i}");
    }
    let mut other = numbers.to_vec();
    other[used..].fill(u32::MAX);
    assert_eq!(Record::from_numbers(other), *record);
    // Every number up to there is compared.
    for (i, &number) in numbers.iter().enumerate().take(used) {
        assert!(with(i, !number) != *record, "number {i}");
        assert!(with(i, number ^ 1) != *record, "number {i}");
    }
    // Numbers that are no record are compared whole.
    assert_ne!(Record::from_numbers(&numbers[..used]), *record);
    assert_ne!(Record::from_numbers(&numbers[..RECORD - 1]), *record);
    let longer = |last| Record::from_numbers([numbers, &[last]].concat());
    assert!(longer(0) == longer(0) && longer(0) != longer(1) && longer(0) != *record);
    let count = 8;
    let many = |last| {
        let mut numbers = with(count, 257).into_numbers();
        numbers[RECORD - 1] = last;
        Record::from_numbers(numbers)
    };
    assert!(many(0) == many(0) && many(0) != many(1));
}
