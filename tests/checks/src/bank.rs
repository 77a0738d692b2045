//! What a bank in memory shows of its calls, of what was planned for them, and after a crash.
use bank_core::{Bank, CallKind, Damage, Fault, ImageChoice, MemBank, SECTOR_BYTES};
use mp_base::Name;
use std::alloc::Global;
use std::process::Abort;
use std::test::Fail;

/// A bank has at most so many devices.
const MOST_DEVICES: usize = 64;

const CHOICES: [ImageChoice; 5] = [
    ImageChoice::Old,
    ImageChoice::New,
    ImageChoice::Zeros,
    ImageChoice::Noise(7),
    ImageChoice::Mixed(7),
];

/// Adds a device of eight sectors.
fn add(rt: &impl Abort, alloc: Global, bank: &mut MemBank, name: &[u8]) -> Result<(), Fail> {
    assert!(rt; bank.device_count() < MOST_DEVICES);
    assert_eq!(rt; bank.place(), 0);
    bank.add(Name::new(alloc, name)?, 8)?;
    Ok(())
}

/// Writes one sector of this byte.
#[tactic(auto, unfolding(bank_core::specs::Disk::sector_size))]
fn write(
    rt: &impl Abort,
    alloc: Global,
    bank: &mut MemBank,
    dev: u32,
    at: u64,
    byte: u8,
) -> Result<Result<(), Fault>, Fail> {
    let bytes = vec![in alloc; byte; SECTOR_BYTES]?;
    assert!(rt; at < bank.sectors(dev));
    Ok(bank.write(dev, at, &bytes))
}

/// The byte that a read of one sector gives in all its places.
#[tactic(auto, unfolding(bank_core::specs::Disk::sector_size))]
fn read(rt: &impl Abort, alloc: Global, bank: &mut MemBank, dev: u32, at: u64) -> Result<u8, Fail> {
    let mut bytes = vec![in alloc; 0xee; SECTOR_BYTES]?;
    assert!(rt; at < bank.sectors(dev));
    assert_eq!(rt; bank.read(dev, at, &mut bytes), Ok(()));
    only_byte(rt, &bytes)
}

/// The byte that a crash leaves of one sector in all its places.
#[tactic(auto, unfolding(bank_core::specs::Disk::sector_size))]
fn image(
    rt: &impl Abort,
    alloc: Global,
    bank: &MemBank,
    moment: u64,
    choice: ImageChoice,
    dev: u32,
    at: u64,
) -> Result<u8, Fail> {
    let mut bytes = vec![in alloc; 0xee; SECTOR_BYTES]?;
    assert!(rt; at < bank.sectors(dev));
    assert!(rt; moment <= bank.place());
    bank.image(moment, dev, at, choice, &mut bytes);
    only_byte(rt, &bytes)
}

/// The bank that goes on after a crash.
fn crashed(
    rt: &impl Abort,
    alloc: Global,
    bank: &MemBank,
    moment: u64,
    choice: ImageChoice,
) -> Result<MemBank, Fail> {
    assert!(rt; moment <= bank.place());
    Ok(bank.after_crash(alloc, moment, choice)?)
}

fn only_byte(rt: &impl Abort, bytes: &[u8]) -> Result<u8, Fail> {
    let first = *bytes.first().ok_or("no byte")?;
    assert!(rt; bytes.iter().all(|byte| *byte == first));
    Ok(first)
}

fn flush(rt: &impl Abort, bank: &mut MemBank, dev: u32) {
    assert!(rt; 0 < bank.sectors(dev));
    assert_eq!(rt; bank.flush(dev), Ok(()));
}

#[test]
fn only_a_flushed_write_is_there_after_each_crash(rt: HostRuntime) -> Result<(), Fail> {
    let alloc = rt.alloc();
    let mut bank = MemBank::new(alloc);
    add(&rt, alloc, &mut bank, b"a")?;
    add(&rt, alloc, &mut bank, b"b")?;
    assert_eq!(rt; write(&rt, alloc, &mut bank, 1, 3, 5)?, Ok(()));
    flush(&rt, &mut bank, 1);
    assert_eq!(rt; write(&rt, alloc, &mut bank, 1, 3, 6)?, Ok(()));
    assert_eq!(rt; read(&rt, alloc, &mut bank, 1, 3)?, 6);
    for choice in CHOICES {
        assert_eq!(rt; image(&rt, alloc, &bank, 2, choice, 1, 3)?, 5);
        assert_eq!(rt; image(&rt, alloc, &bank, 4, choice, 1, 4)?, 0);
    }
    for (moment, choice, want) in [
        (0, ImageChoice::New, 0),
        (1, ImageChoice::Old, 0),
        (1, ImageChoice::New, 5),
        (3, ImageChoice::Old, 5),
        (3, ImageChoice::New, 6),
        (3, ImageChoice::Zeros, 0),
    ] {
        assert_eq!(rt;
            image(&rt, alloc, &bank, moment, choice, 1, 3)?,
            want,
            "at {moment}"
        );
        let mut again = crashed(&rt, alloc, &bank, moment, choice)?;
        assert_eq!(rt; again.place(), 0);
        assert_eq!(rt; again.find(&Name::new(alloc, b"b")?)?, Some(1));
        assert_eq!(rt; read(&rt, alloc, &mut again, 1, 3)?, want, "after {moment}");
    }
    Ok(())
}

#[test]
fn calls_fail_and_sectors_are_damaged_as_planned(rt: HostRuntime) -> Result<(), Fail> {
    let alloc = rt.alloc();
    let mut bank = MemBank::new(alloc);
    for _ in 0..MOST_DEVICES {
        let name = format!(in alloc; "d{}", bank.device_count())?;
        add(&rt, alloc, &mut bank, name.as_bytes())?;
    }
    assert_eq!(rt; bank.find(&Name::new(alloc, b"d63")?)?, Some(63));
    bank.fail(63, 0, 0, Fault::Gone)?;
    bank.damage(
        3,
        Damage {
            dev: 62,
            from: 1,
            to: 2,
            fill: 0xdd,
        },
    )?;
    // A write that failed is read, and no flush makes it stable.
    assert_eq!(rt; write(&rt, alloc, &mut bank, 63, 0, 5)?, Err(Fault::Gone));
    assert_eq!(rt; bank.fault_count(63), 1);
    assert_eq!(rt; bank.fault_count(62), 0);
    assert_eq!(rt; read(&rt, alloc, &mut bank, 63, 0)?, 5);
    flush(&rt, &mut bank, 63);
    assert_eq!(rt; image(&rt, alloc, &bank, 3, ImageChoice::Old, 63, 0)?, 0);
    // Damage comes with its call, and a write that was flushed heals it.
    assert_eq!(rt; read(&rt, alloc, &mut bank, 62, 2)?, 0xdd);
    assert_eq!(rt; write(&rt, alloc, &mut bank, 62, 2, 6)?, Ok(()));
    assert_eq!(rt; read(&rt, alloc, &mut bank, 62, 2)?, 0xdd);
    flush(&rt, &mut bank, 62);
    assert_eq!(rt; read(&rt, alloc, &mut bank, 62, 2)?, 6);
    let mut again = crashed(&rt, alloc, &bank, bank.place(), ImageChoice::Zeros)?;
    assert_eq!(rt; read(&rt, alloc, &mut again, 62, 0)?, 0);
    assert_eq!(rt; read(&rt, alloc, &mut again, 62, 1)?, 0xdd);
    assert_eq!(rt; read(&rt, alloc, &mut again, 62, 2)?, 6);
    let first = bank.calls().first().ok_or("no call")?;
    assert_eq!(rt; first.kind, CallKind::Write);
    assert_eq!(rt; first.fault, Some(Fault::Gone));
    assert_eq!(rt; bank.calls().len(), 8);
    assert!(rt; bank.tells());
    assert!(rt; again.tells());
    Ok(())
}
