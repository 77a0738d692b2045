//! Prints how long calls on the map of the largest volume take, and the read of a good copy beside a bare SHA-256 sum.
#![tactic(auto)]

use bank_core::{Bank, MemBank};
use block_map::BlockMap;
use mirror_io::{CopyOf, CopySeen, read_block};
use mp_base::{Group, Key, MemFault, Name, Place, Pointer};
use sha2::{Digest, Sha256};
use std::alloc::Global;
use std::process::ExitCode;
use std::time::Instant;

/// The blocks of the largest volume.
const BLOCKS: u64 = 262_144;
/// The sectors of each of its two tops.
const SECTORS: [u64; 2] = [140_000, 140_000];

/// What went wrong.
#[derive(Drop)]
enum Failed {
    Memory,
    Clock,
    Wrong,
}

impl From<MemFault> for Failed {
    fn from(_: MemFault) -> Failed {
        Failed::Memory
    }
}

/// Prints the nanoseconds of one of so many calls since the start.
fn print_each(rt: &HostRuntime, what: &str, start: &Instant, calls: u64) -> Result<(), Failed> {
    let Ok(spent) = start.elapsed(rt) else {
        return Err(Failed::Clock);
    };
    let each = spent.as_nanos().checked_div(calls as u128).unwrap_or(0);
    let _ = println!(rt; "{what}: {each} ns a call");
    Ok(())
}

fn clock(rt: &HostRuntime) -> Result<Instant, Failed> {
    Instant::now(rt).map_err(|_| Failed::Clock)
}

/// Puts a block at this place into the map, where both are there.
fn put(map: &mut BlockMap, index: u64, place: Place) -> bool {
    let key = Key { level: 0, index };
    if !map.has_key(key) || !map.has_place(place) {
        return false;
    }
    let pointer = Pointer {
        place,
        birth: Group(1),
        sum: [7; 32],
    };
    map.set(key, pointer);
    true
}

/// Whether a block is in the map.
fn has(map: &BlockMap, index: u64) -> bool {
    let key = Key { level: 0, index };
    map.has_key(key) && map.get(key).is_some()
}

/// Takes places until so many are left.
fn leave(map: &mut BlockMap, left: u64) {
    for _ in 0..SECTORS[0] + SECTORS[1] {
        if map.free_count() <= left || map.alloc().is_none() {
            return;
        }
    }
}

/// Gives a place back, where it is one.
fn gives(map: &mut BlockMap, place: Place) -> bool {
    let is_place = map.has_place(place);
    if is_place {
        map.give_place(place);
    }
    is_place
}

/// Gives a place back, and whether it is the next that is given out.
fn gives_back(map: &mut BlockMap, place: Place) -> bool {
    gives(map, place) && map.alloc() == Some(place)
}

/// Each block gets the least place, in a row, and is found again.
fn fills(rt: &HostRuntime, map: &mut BlockMap) -> Result<(), Failed> {
    let start = clock(rt)?;
    for index in 0..BLOCKS {
        let Some(place) = map.alloc() else {
            return Err(Failed::Wrong);
        };
        if !put(map, index, place) {
            return Err(Failed::Wrong);
        }
    }
    print_each(rt, "alloc and set, blocks in a row", &start, BLOCKS)?;
    let start = clock(rt)?;
    for index in 0..BLOCKS {
        if !has(map, index) {
            return Err(Failed::Wrong);
        }
    }
    print_each(rt, "get", &start, BLOCKS)
}

/// Places are given out and back on a volume of which one place in a hundred is free, and then two.
fn gives_out(rt: &HostRuntime, map: &mut BlockMap) -> Result<(), Failed> {
    leave(map, 2_800);
    let start = clock(rt)?;
    for _ in 0..100_000u64 {
        let Some(place) = map.alloc() else {
            return Err(Failed::Wrong);
        };
        if !gives(map, place) {
            return Err(Failed::Wrong);
        }
    }
    print_each(rt, "alloc and give_place, 99 percent full", &start, 100_000)?;
    leave(map, 0);
    let ends = [
        Place { top: 0, sector: 0 },
        Place { top: 1, sector: SECTORS[1] - 1 },
    ];
    let start = clock(rt)?;
    for _ in 0..50_000u64 {
        if !gives_back(map, ends[0]) || !gives_back(map, ends[1]) {
            return Err(Failed::Wrong);
        }
    }
    print_each(rt, "give_place and alloc, a full volume, each end in turn", &start, 100_000)
}

/// The pages above 4,096 addresses are counted.
fn pages(rt: &HostRuntime, map: &BlockMap) -> Result<(), Failed> {
    let mut addrs = [0; 4096];
    for i in 0..4096 {
        addrs[i] = 64 * i as u64;
    }
    let start = clock(rt)?;
    for _ in 0..100u64 {
        if map.dirty_pages(&addrs) == 0 {
            return Err(Failed::Wrong);
        }
    }
    print_each(rt, "dirty_pages of 4,096 addresses", &start, 100)
}

/// The copy of the block, on the first device.
const COPIES: [CopyOf; 1] = [CopyOf {
    dev: 0,
    lacks: false,
    readable: true,
}];

/// Whether the block is read.
fn is_read(bank: &mut MemBank, sum: &[u8; 32], out: &mut [u8; 4096], seen: &mut [CopySeen; 1]) -> bool {
    if bank.sectors(0) == 0 {
        return false;
    }
    read_block(bank, &COPIES, 0, sum, out, seen).is_ok()
}

/// A block is read whose first copy is good, and its bytes are summed alone.
fn reads(rt: &HostRuntime) -> Result<(), Failed> {
    let alloc = rt.alloc();
    let mut bank = MemBank::new(alloc);
    let Ok(name) = Name::new(alloc, b"a") else {
        return Err(Failed::Memory);
    };
    let image = vec![in alloc; 5u8; 4096].map_err(|_| Failed::Memory)?;
    bank.add_image(name, 1, image, Vec::new(alloc))?;
    let block = [5u8; 4096];
    let sum: [u8; 32] = Sha256::digest(block);
    let mut out = [0u8; 4096];
    let mut seen = [CopySeen::NotTried];
    let start = clock(rt)?;
    for _ in 0..200u64 {
        if Sha256::digest(block) != sum {
            return Err(Failed::Wrong);
        }
    }
    print_each(rt, "SHA-256 of 4,096 bytes", &start, 200)?;
    let start = clock(rt)?;
    for _ in 0..200u64 {
        if !is_read(&mut bank, &sum, &mut out, &mut seen) {
            return Err(Failed::Wrong);
        }
    }
    print_each(rt, "read_block of a good first copy", &start, 200)
}

fn measures(rt: &HostRuntime) -> Result<(), Failed> {
    let mut map = BlockMap::new(rt.alloc(), BLOCKS, &SECTORS)?;
    fills(rt, &mut map)?;
    gives_out(rt, &mut map)?;
    pages(rt, &map)?;
    for _ in 0..5 {
        reads(rt)?;
    }
    Ok(())
}

fn main(rt: HostRuntime) -> ExitCode {
    ExitCode::from(if measures(&rt).is_ok() { 0 } else { 1 })
}
