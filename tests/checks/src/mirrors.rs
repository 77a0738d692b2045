//! That a read of a block finds the good copy and rewrites the wrong ones, whatever fails.
ghost use Rattle.std.specs.Prelude.{◌≡◌, true, get_or};
ghost use Rattle.bank_core.specs.MemBank.{bank_size};
ghost use Rattle.mirror_io.specs.Copies.{AreApart, AreWithin};

use bank_core::{Bank, Fault, MemBank};
use mirror_io::{CopyOf, CopySeen, Judge, read_block, read_good, write_block};
use mp_base::{MemFault, Name};
use sha2::{Digest, Sha256};
use std::alloc::Global;
use std::test::Fail;

/// Adds a device of one sector, all of whose bytes are this one, to a bank that made no call.
fn add(bank: &mut MemBank, alloc: Global, number: usize, byte: u8) -> Result<bool, MemFault> {
    let text = [b'a' + (number / 10 % 10) as u8, b'0' + (number % 10) as u8];
    let Ok(name) = Name::new(alloc, &text) else {
        return Ok(false);
    };
    if bank.device_count() >= 64 || bank.place() != 0 {
        return Ok(false);
    }
    bank.add_image(name, 1, vec![in alloc; byte; 4096]?, Vec::new(alloc))?;
    Ok(true)
}

/// A bank whose devices each have one block, of bytes that are all the same.
fn bank_of(alloc: Global, blocks: &[u8]) -> Result<MemBank, MemFault> {
    let mut bank = MemBank::new(alloc);
    for number in 0..blocks.len() {
        add(&mut bank, alloc, number, blocks[number])?;
    }
    Ok(bank)
}

/// Whether the copies are on the devices 0, 1 and so on, in order, each of which has a sector.
fn are_in_order(bank: &MemBank, copies: &[CopyOf]) -> bool
    ensures apart { result ≡ true → AreApart copies.now }
    ensures within { result ≡ true → AreWithin (bank_size bank.now) copies.now 0 }
{
    for i in 0..copies.len() {
        if copies[i].dev as usize != i || bank.sectors(copies[i].dev) == 0 {
            return false;
        }
    }
    true
}

/// Whether a read of the block of ones answers so, shows this of its copies, and is the last of so many calls.
fn reads(
    bank: &mut MemBank,
    copies: &[CopyOf],
    good: bool,
    shown: &[CopySeen],
    calls: u64,
) -> bool {
    let mut seen = [CopySeen::NotTried; 32];
    if copies.len() > 32 || !are_in_order(bank, copies) {
        return false;
    }
    let block = [1; 4096];
    let mut out = [0; 4096];
    let seen = &mut seen[..copies.len()];
    let read = read_block(bank, copies, 0, &Sha256::digest(block), &mut out, seen);
    read.is_ok() == good && (out == block || !good) && *seen == *shown && bank.place() == calls
}

/// A copy on this device that has the block.
fn copy_on(dev: u32) -> CopyOf {
    CopyOf {
        dev,
        lacks: false,
        readable: true,
    }
}

/// A copy on this device that owes the block.
fn owing_on(dev: u32) -> CopyOf {
    CopyOf {
        dev,
        lacks: true,
        readable: true,
    }
}

#[test]
fn the_last_of_32_copies_answers_and_the_others_are_rewritten(rt: HostRuntime) -> Result<(), Fail> {
    let mut blocks = [0; 32];
    blocks[31] = 1;
    let mut bank = bank_of(rt.alloc(), &blocks)?;
    let mut copies = [copy_on(0); 32];
    for dev in 0..32 {
        copies[dev] = copy_on(dev as u32);
    }
    let mut shown = [CopySeen::Healed; 32];
    shown[31] = CopySeen::Good;
    assert!(rt; reads(&mut bank, &copies, true, &shown, 63));
    shown = [CopySeen::NotTried; 32];
    shown[0] = CopySeen::Good;
    assert!(rt; reads(&mut bank, &copies, true, &shown, 64));
    Ok(())
}

#[test]
fn copies_that_owe_the_block_come_last_and_are_not_rewritten(rt: HostRuntime) -> Result<(), Fail> {
    let away = CopyOf {
        dev: 2,
        lacks: false,
        readable: false,
    };
    let copies = [owing_on(0), copy_on(1), away, owing_on(3), copy_on(4)];
    let mut shown = [
        CopySeen::Mismatch,
        CopySeen::Healed,
        CopySeen::NotReadable,
        CopySeen::Good,
        CopySeen::Healed,
    ];
    let mut bank = bank_of(rt.alloc(), &[0, 0, 1, 1, 0])?;
    assert!(rt; reads(&mut bank, &copies, true, &shown, 6));
    shown[1] = CopySeen::Mismatch;
    shown[3] = CopySeen::Mismatch;
    shown[4] = CopySeen::Mismatch;
    let mut bank = bank_of(rt.alloc(), &[0, 0, 1, 0, 0])?;
    assert!(rt; reads(&mut bank, &copies, false, &shown, 4));
    Ok(())
}

/// A bank of three devices, of which the last has the block of ones, and whose call at this place fails.
fn failing_at(alloc: Global, place: u64) -> Result<MemBank, MemFault> {
    let mut bank = bank_of(alloc, &[0, 0, 1])?;
    for dev in 0..3 {
        bank.fail(dev, place, place, Fault::Failed)?;
    }
    Ok(bank)
}

#[test]
fn a_read_goes_on_where_any_of_its_calls_fails(rt: HostRuntime) -> Result<(), Fail> {
    let copies = [copy_on(0), copy_on(1), copy_on(2)];
    for (place, good, shown, calls) in [
        (
            0,
            true,
            [CopySeen::Failed, CopySeen::Healed, CopySeen::Good],
            4,
        ),
        (
            1,
            true,
            [CopySeen::Healed, CopySeen::Failed, CopySeen::Good],
            4,
        ),
        (
            2,
            false,
            [CopySeen::Mismatch, CopySeen::Mismatch, CopySeen::Failed],
            3,
        ),
        (
            3,
            true,
            [CopySeen::Mismatch, CopySeen::Healed, CopySeen::Good],
            5,
        ),
        (
            4,
            true,
            [CopySeen::Healed, CopySeen::Mismatch, CopySeen::Good],
            5,
        ),
        (
            5,
            true,
            [CopySeen::Healed, CopySeen::Healed, CopySeen::Good],
            5,
        ),
    ] {
        let mut bank = failing_at(rt.alloc(), place)?;
        assert!(rt; reads(&mut bank, &copies, good, &shown, calls));
    }
    Ok(())
}

/// Whether a write to three devices shows this of them.
fn writes(bank: &mut MemBank, shown: [bool; 3]) -> bool {
    if bank.sectors(0) == 0 || bank.sectors(1) == 0 || bank.sectors(2) == 0 {
        return false;
    }
    let mut done = [false; 3];
    write_block(bank, &[0, 1, 2], 0, &[1; 4096], &mut done);
    done == shown && bank.place() == 3
}

#[test]
fn a_write_goes_on_where_any_of_its_calls_fails(rt: HostRuntime) -> Result<(), Fail> {
    for place in 0..4 {
        let mut bank = failing_at(rt.alloc(), place)?;
        assert!(rt; writes(&mut bank, [place != 0, place != 1, place != 2]));
    }
    Ok(())
}

/// Blocks that begin with the least byte that is left are good, and each byte is taken once.
#[derive(Drop)]
struct Rising {
    least: u8,
}

impl Judge for Rising {
    ghost Good = { λ rising bytes. get_or bytes 0 0 ≡ rising.least };

    ghost Behind = { λ rising bytes behind. behind.least ≡ (rising.least + 1) % 256 };

    fn takes(&mut self, bytes: &[u8]) -> bool {
        if bytes[0] != self.least {
            return false;
        }
        self.least = self.least.wrapping_add(1);
        true
    }
}

/// Whether a read by this judge answers so, and shows this of its two copies.
fn reads_rising(bank: &mut MemBank, judge: &mut Rising, good: bool, shown: [CopySeen; 2]) -> bool {
    let copies = [copy_on(0), copy_on(1)];
    if !are_in_order(bank, &copies) {
        return false;
    }
    let (mut out, mut seen) = ([0; 4096], [CopySeen::NotTried; 2]);
    let read = read_good(bank, &copies, 0, judge, &mut out, &mut seen);
    read.is_ok() == good && seen == shown
}

#[test]
fn a_judge_goes_on_behind_the_bytes_that_it_took(rt: HostRuntime) -> Result<(), Fail> {
    let mut bank = bank_of(rt.alloc(), &[1, 0])?;
    let mut judge = Rising { least: 0 };
    let healed = [CopySeen::Healed, CopySeen::Good];
    assert!(rt; reads_rising(&mut bank, &mut judge, true, healed) && judge.least == 1);
    let wrong = [CopySeen::Mismatch, CopySeen::Mismatch];
    assert!(rt; reads_rising(&mut bank, &mut judge, false, wrong) && judge.least == 1);
    Ok(())
}
