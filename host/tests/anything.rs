//! Calls with any numbers as record and call, and loads of any bytes: there is no
//! fault, no byte outside the lent memories changes, a refused call changes nothing,
//! and an accepted call leaves a sound record.

mod random;

use random::Random;
use ravinefork::{
    call, Colorref, Device, HostCall, Record, Refusal, MAX_TABLE, SCREEN, SLOT, SLOTS,
};

/// Rounds, and calls on each record.
const ROUNDS: u32 = 400;
const CALLS: u32 = 60;

/// Bytes around each lent memory.
const AROUND: usize = 64;

/// A device with a few objects: its record and its memories.
fn device(random: &mut Random) -> Result<(Record, Vec<u8>, Vec<u8>), Refusal> {
    let (width, height) = (1 + random.below(30), 1 + random.below(30));
    let panel_len = (2 * width * height + random.below(900)) as usize;
    let store_len = (2 + random.below(3000)) as usize;
    let mut device = Device::open(width, height, panel_len, store_len)?;
    let dc = device.create_memory_dc()?;
    for _ in 0..random.below(8) {
        match random.below(5) {
            0 => _ = device.create_memory_dc()?,
            1 => _ = device.create_solid_brush(Colorref(random.number()))?,
            2 => _ = device.create_pen(Colorref(random.number()), 1)?,
            3 => _ = device.create_font(random.coordinate())?,
            _ => {
                // The store may be full.
                if let Ok(bitmap) =
                    device.create_compatible_bitmap(random.below(20), random.below(20))
                {
                    device.select_into(dc, bitmap)?;
                }
            }
        }
    }
    let (record, panel, store) = device.into_parts();
    Ok((record, panel.into(), store.into()))
}

/// The memory between bytes that must not change.
fn guarded(memory: &[u8]) -> Vec<u8> {
    [&[0x77; AROUND], memory, &[0x77; AROUND]].concat()
}

fn inner(memory: &mut [u8]) -> &mut [u8] {
    let end = memory.len() - AROUND;
    &mut memory[AROUND..end]
}

fn is_guarded(memory: &[u8]) -> bool {
    let around = [&memory[..AROUND], &memory[memory.len() - AROUND..]];
    around.concat().iter().all(|&byte| byte == 0x77)
}

#[test]
fn any_numbers() {
    let mut random = Random::new(1);
    let mut counts = std::collections::BTreeMap::new();
    let mut positioned = [0; 2];
    for _ in 0..ROUNDS {
        let (mut record, panel, store) = device(&mut random).expect("a device");
        let (mut panel, mut store) = (guarded(&panel), guarded(&store));
        for _ in 0..CALLS {
            let mut numbers = record.as_numbers().to_vec();
            if random.below(4) == 0 {
                for _ in 0..=random.below(2) {
                    let end = random.of(&[SCREEN, SLOTS, SLOTS + SLOT, SLOTS + 7 * SLOT]);
                    numbers[random.below(end as u32) as usize] = random.number();
                }
            }
            let units: Vec<u16> = (0..random.below(9)).map(|_| random.below(160) as u16).collect();
            let host = random.call();
            let before = (panel.clone(), store.clone());
            let mut after = Record::from_numbers(numbers.as_slice());
            let (lent_panel, lent_store) = (inner(&mut panel), inner(&mut store));
            let reply = after.perform(&host, &units, lent_panel, lent_store);
            *counts.entry(reply.refusal).or_insert(0) += 1;
            let at = [call::MOVE_TO, call::LINE_TO].iter().position(|&call| call == host.call);
            if let (0, Some(at)) = (reply.refusal, at) {
                positioned[at] += 1;
            }
            assert!(is_guarded(&panel) && is_guarded(&store), "{host:?}");
            if reply.refusal != 0 {
                assert!(after.as_numbers() == numbers, "{host:?}, {reply:?}");
                assert!((&panel, &store) == (&before.0, &before.1), "{host:?}, {reply:?}");
            } else {
                let look = HostCall { call: call::DELETE, ..HostCall::default() };
                let lent = (inner(&mut panel), inner(&mut store));
                let reply = after.clone().perform(&look, &[], lent.0, lent.1);
                assert_eq!((reply.refusal, reply.flag), (0, 0), "after {host:?}");
                assert_eq!(after.slots().count(), after.count());
                record = after;
            }
        }
    }
    println!("{counts:?}");
    let all = [0, 1, 2, 3, 4, 6, 7, 8, 9, 11, 255];
    assert!(all.iter().all(|number| counts.contains_key(number)), "{counts:?}");
    assert!(positioned.iter().all(|&accepted| accepted > 100), "moves and lines: {positioned:?}");
}

/// A table that is often damaged, cut, lengthened or replaced by other bytes.
fn damaged(random: &mut Random, mut table: Vec<u8>) -> Vec<u8> {
    for _ in 0..random.below(3) {
        let bit = random.below(8 * table.len() as u32) as usize;
        table[bit / 8] ^= 0x80 >> (bit % 8);
    }
    match random.below(8) {
        0 => table.truncate(random.below(table.len() as u32) as usize),
        1 => table.extend((0..random.below(60)).map(|_| random.of(&[0, 0, 0xFF]))),
        2 => table.fill_with(|| random.below(256) as u8),
        _ => {}
    }
    table
}

#[test]
fn any_bytes() {
    let mut random = Random::new(3);
    let mut counts = std::collections::BTreeMap::new();
    for _ in 0..ROUNDS {
        let (saved, ..) = device(&mut random).expect("a device");
        let (mut record, panel, store) = device(&mut random).expect("a device");
        let (mut panel, mut store) = (guarded(&panel), guarded(&store));
        for _ in 0..CALLS {
            let mut table = vec![0x77; MAX_TABLE];
            let length = saved.save_into(&mut table).expect("a table");
            assert!(table[length..].iter().all(|&byte| byte == 0x77));
            table.truncate(length);
            let bytes = damaged(&mut random, table);
            let before = (record.clone(), panel.clone(), store.clone());
            let answer = record.load(&bytes, inner(&mut panel), inner(&mut store));
            *counts.entry(answer.err().map(Refusal::number)).or_insert(0) += 1;
            assert!(is_guarded(&panel) && is_guarded(&store), "{bytes:x?}");
            if answer.is_err() {
                assert!(record.as_numbers() == before.0.as_numbers(), "{bytes:x?}");
                assert!((&panel, &store) == (&before.1, &before.2), "{bytes:x?}");
            } else {
                let mut again = vec![0; bytes.len()];
                assert_eq!(record.save_into(&mut again), Ok(bytes.len()), "{bytes:x?}");
                assert!(again == bytes, "{bytes:x?}");
                assert_eq!(record.slots().count(), record.count());
            }
        }
    }
    println!("{counts:?}");
    assert!([None, Some(7), Some(12)].iter().all(|answer| counts[answer] > 1000), "{counts:?}");
}
