//! What a device shows does not depend on what its memories held before it was
//! opened, nor on pixels that were drawn over.

mod random;

use random::Random;
use ravinefork::snapshot::{ppm_len, rgba8888_len};
use ravinefork::{call, Handle, HostCall, Record, Refusal, Reply, MAX_TABLE, RECORD};

/// Rounds, and calls in each.
const ROUNDS: u32 = 300;
const CALLS: u32 = 80;

/// A flat device: what a caller keeps.
#[derive(Clone)]
struct Flat {
    record: Record,
    panel: Vec<u8>,
    store: Vec<u8>,
}

impl Flat {
    /// Random numbers, and memories of these lengths with random bytes.
    fn anything(random: &mut Random, panel_len: usize, store_len: usize) -> Flat {
        let numbers: Vec<u32> = (0..RECORD).map(|_| random.number()).collect();
        Flat {
            record: Record::from_numbers(numbers),
            panel: bytes(random, panel_len),
            store: bytes(random, store_len),
        }
    }

    fn open(&mut self, width: u32, height: u32) -> Result<(), Refusal> {
        self.record.open(width, height, &mut self.panel, &mut self.store)
    }

    fn perform(&mut self, host: &HostCall, units: &[u16]) -> Reply {
        self.record.perform(host, units, &mut self.panel, &mut self.store)
    }

    fn save(&self) -> Result<Vec<u8>, Refusal> {
        let mut table = vec![0; MAX_TABLE];
        let length = self.record.save_into(&mut table)?;
        table.truncate(length);
        Ok(table)
    }

    fn load(&mut self, table: &[u8]) -> Result<(), Refusal> {
        self.record.load(table, &mut self.panel, &mut self.store)
    }

    /// Both snapshots, into outputs that held random bytes.
    fn snapshots(&self, random: &mut Random) -> Result<(Vec<u8>, Vec<u8>), Refusal> {
        let (width, height) = (self.record.width(), self.record.height());
        let mut rgba = bytes(random, rgba8888_len(width, height));
        let mut ppm = bytes(random, ppm_len(width, height));
        self.record.snapshot_rgba8888_into(&self.panel, &mut rgba)?;
        self.record.snapshot_ppm_into(&self.panel, &mut ppm)?;
        Ok((rgba, ppm))
    }

    /// The pixels of the stock bitmap and of every created one, by handle.
    fn bitmaps(&self) -> Vec<(u32, Vec<u8>)> {
        let created = self.record.slots().map(|slot| slot.handle);
        let all = std::iter::once(Handle::STOCK_DEFAULT_BITMAP).chain(created);
        let pixels = |handle| Some(self.store[self.record.bitmap_place(handle)?].to_vec());
        all.filter_map(|handle| Some((handle.0, pixels(handle)?))).collect()
    }
}

fn bytes(random: &mut Random, count: usize) -> Vec<u8> {
    (0..count).map(|_| random.below(256) as u8).collect()
}

/// A random call; one in three creates or selects a bitmap, one in six draws a line
/// on the panel or on the first DC.
fn next_call(random: &mut Random) -> (HostCall, Vec<u16>) {
    let base = Handle::GDI_HANDLE_BASE.0;
    let mut host = random.call();
    match random.below(6) {
        0 => {
            host.call = call::CREATE_COMPATIBLE_BITMAP;
            (host.a, host.b) = (random.below(12), random.below(12));
        }
        1 => {
            host.call = call::SELECT_INTO;
            (host.dc, host.a) = (base, base + random.below(9));
        }
        2 => {
            host.call = call::LINE_TO;
            host.dc = random.of(&[Handle::GDI_SCREEN_DC.0, base]);
            [host.x, host.y] = [random.position(), random.position()];
        }
        _ => {}
    }
    let units = (0..random.below(9)).map(|_| random.below(160) as u16).collect();
    (host, units)
}

#[test]
fn whatever_the_memories_held() {
    let mut random = Random::new(16);
    let (mut opened, mut accepted, mut pictures, mut created) = (0, 0, 0, 0);
    let (mut moves, mut lines, mut loads) = (0, 0, 0);
    for _ in 0..ROUNDS {
        let (width, height) = (random.below(30), 1 + random.below(30));
        let panel_len = (2 * width * height + random.below(40)) as usize;
        let store_len = random.below(3000) as usize;
        let mut one = Flat::anything(&mut random, panel_len, store_len);
        let mut other = Flat::anything(&mut random, panel_len, store_len);
        let number = one.open(width, height);
        assert_eq!(number, other.open(width, height));
        opened += u32::from(number.is_ok());
        let mut tables = vec![Vec::new()];
        for _ in 0..CALLS {
            if random.below(20) == 0 {
                let table = one.save();
                assert_eq!(table, other.save());
                tables.extend(table);
                let table = &tables[random.below(tables.len() as u32) as usize];
                let answer = one.load(table);
                assert_eq!(answer, other.load(table));
                loads += u32::from(answer.is_ok());
            }
            let (host, units) = next_call(&mut random);
            let reply = one.perform(&host, &units);
            assert_eq!(reply, other.perform(&host, &units), "{host:?}");
            accepted += u32::from(reply.refusal == 0);
            moves += u32::from(reply.refusal == 0 && host.call == call::MOVE_TO);
            lines += u32::from(reply.refusal == 0 && host.call == call::LINE_TO);
            // The records are equal; the numbers past the last object may differ.
            assert_eq!(one.record, other.record, "{host:?}");
            // After a refused open there is no device, and so no pixel.
            assert!(number.is_err() || one.bitmaps() == other.bitmaps(), "{host:?}");
            let picture = one.snapshots(&mut random);
            assert_eq!(picture, other.snapshots(&mut random), "{host:?}");
            pictures +=
                u32::from(picture.is_ok_and(|(rgba, _)| rgba.iter().any(|&b| b != 0 && b != 255)));
        }
        created += one.bitmaps().len() - 1;
    }
    println!("{opened} opened, {accepted} calls accepted, {pictures} pictures with a colour, {created} bitmaps, {moves} moves, {lines} lines, {loads} loads");
    assert!(opened < ROUNDS && opened > ROUNDS / 2, "{opened}");
    assert!(
        accepted > ROUNDS * CALLS / 3 && pictures > ROUNDS * CALLS / 4 && created > 500,
        "{accepted}, {pictures}, {created}"
    );
    assert!(moves > 100 && lines > 1000 && loads > 300, "{moves}, {lines}, {loads}");
}

#[test]
fn a_panel_painted_over() {
    let mut random = Random::new(61);
    let mut differed = 0;
    for _ in 0..ROUNDS {
        let (width, height) = (1 + random.below(30), 1 + random.below(30));
        let size = (2 * width * height) as usize;
        let mut one = Flat::anything(&mut random, size, 64);
        one.open(width, height).expect("a device");
        let mut other = one.clone();
        // The two devices differ in the pixels of the panel and in nothing else.
        for byte in 0..size {
            one.panel[byte] = random.below(256) as u8;
            other.panel[byte] = random.below(256) as u8;
        }
        // After blits within the panel some of its pixels still differ; after a fill none does.
        for _ in 0..4 {
            let host = HostCall {
                dc: Handle::GDI_SCREEN_DC.0,
                src: Handle::GDI_SCREEN_DC.0,
                call: call::BLIT,
                ..random.call()
            };
            assert_eq!(one.perform(&host, &[]), other.perform(&host, &[]), "{host:?}");
        }
        differed += u32::from(one.snapshots(&mut random) != other.snapshots(&mut random));
        let fill =
            HostCall { call: call::PANEL_FILL, a: random.below(0x1_0000), ..HostCall::default() };
        assert_eq!(one.perform(&fill, &[]), other.perform(&fill, &[]));
        for _ in 0..CALLS / 4 {
            let (host, units) = next_call(&mut random);
            assert_eq!(one.perform(&host, &units), other.perform(&host, &units), "{host:?}");
            assert_eq!(one.snapshots(&mut random), other.snapshots(&mut random), "{host:?}");
        }
        assert_eq!(one.record.as_numbers(), other.record.as_numbers());
    }
    assert!(differed > ROUNDS * 9 / 10, "{differed}");
}
