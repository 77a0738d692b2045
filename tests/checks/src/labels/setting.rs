//! Banks, members and records of these tests.
ghost use Rattle.std.specs.Prelude.{◌≡◌, ℕ, true, ◌≤◌, slice_get, Some};
ghost use Rattle.bank_core.specs.MemBank.{bank_size};
ghost use Rattle.label_store.specs.Seats.{AreSeated, AreApart};

use super::blobs::{Blob, TestRule, is_headed, is_sealed};
use bank_core::{Bank, Fault, ImageChoice, MemBank, SECTOR_BYTES};
use label_store::{Found, LEAST_SECTORS, Member, commit_record, identity, newest, stamp};
use mp_base::{Guid, Name};
use std::alloc::Global;
use std::process::Abort;
use std::test::Fail;

pub(crate) const POOL: Guid = Guid(7);

/// The members of the pool, on devices of 320 and of 400 sectors.
pub(crate) const MEMBERS: [Member; 2] = [
    Member {
        dev: 0,
        guid: Guid(1),
    },
    Member {
        dev: 1,
        guid: Guid(2),
    },
];

pub(crate) const CHOICES: [ImageChoice; 7] = [
    ImageChoice::Old,
    ImageChoice::New,
    ImageChoice::Zeros,
    ImageChoice::Noise(5),
    ImageChoice::Mixed(1),
    ImageChoice::Mixed(2),
    ImageChoice::Mixed(3),
];

/// The choice for this moment: moments one after another go through all of them.
pub(crate) fn choice_at(moment: u64) -> ImageChoice {
    CHOICES[(moment % CHOICES.len() as u64) as usize]
}

/// A bank of two blank devices.
pub(crate) fn blank_bank(rt: &impl Abort, alloc: Global) -> Result<MemBank, Fail> {
    let mut bank = MemBank::new(alloc);
    for (name, sectors) in [(b"a", 320), (b"b", 400)] {
        assert!(rt; bank.device_count() < 64);
        assert!(rt; bank.place() == 0);
        bank.add(Name::new(alloc, name)?, sectors)?;
    }
    Ok(bank)
}

/// The bank after a crash behind this many calls. It has no calls yet.
pub(crate) fn crashed(
    rt: &impl Abort,
    alloc: Global,
    bank: &MemBank,
    moment: u64,
    choice: ImageChoice,
) -> Result<MemBank, Fail> {
    assert!(rt; moment <= bank.place());
    Ok(bank.after_crash(alloc, moment, choice)?)
}

/// Whether each of these devices has room for labels.
fn have_room(bank: &MemBank, devs: &[u32]) -> bool
    ensures { result ≡ true → (i dev : ℕ) → slice_get devs.now i ≡ Some dev → 320 ≤ bank_size bank.now dev }
{
    devs.iter().all(|dev| bank.sectors(*dev) >= LEAST_SECTORS)
}

fn are_seated(bank: &MemBank, members: &[Member]) -> bool
    ensures { result ≡ true → AreSeated (bank_size bank.now) members.now }
{
    members.iter().all(|m| bank.sectors(m.dev) >= LEAST_SECTORS)
}

/// Whether these are at most two members, on different devices.
fn are_apart(members: &[Member]) -> bool
    ensures { result ≡ true → AreApart members.now }
{
    members.len() < 2 || (members.len() == 2 && members[0].dev != members[1].dev)
}

/// Whether the device says that it is this member of the pool.
pub(crate) fn identify(
    rt: &impl Abort,
    bank: &mut MemBank,
    dev: u32,
    member: Guid,
) -> Result<bool, Fault> {
    assert!(rt; bank.sectors(dev) >= LEAST_SECTORS);
    identity(bank, dev, POOL, member)
}

pub(crate) fn stamp_as(
    rt: &impl Abort,
    bank: &mut MemBank,
    dev: u32,
    member: Guid,
) -> Result<(), Fault> {
    assert!(rt; bank.sectors(dev) >= LEAST_SECTORS);
    stamp(bank, dev, POOL, member)
}

/// Fills the rings of a device but for their first slots, in which stamps are. These bytes name a number
/// above the last one, so a search passes them without a sum. Of a slot of zeros it takes one, and here
/// that is most of what it costs.
pub(crate) fn fill_rings(
    rt: &impl Abort,
    alloc: Global,
    bank: &mut MemBank,
    dev: u32,
) -> Result<(), Fail> {
    let sectors = bank.sectors(dev);
    assert!(rt; sectors >= LEAST_SECTORS);
    let filling = vec![in alloc; 0xff; 31 * SECTOR_BYTES]?;
    for label in [0, 64, sectors - 128, sectors - 64] {
        bank.write(dev, label + 33, &filling)?;
    }
    Ok(bank.flush(dev)?)
}

/// A bank of the stamped members, with filled rings.
pub(crate) fn stamped_bank(rt: &impl Abort, alloc: Global) -> Result<MemBank, Fail> {
    let mut bank = blank_bank(rt, alloc)?;
    for m in MEMBERS {
        stamp_as(rt, &mut bank, m.dev, m.guid)?;
        fill_rings(rt, alloc, &mut bank, m.dev)?;
    }
    Ok(bank)
}

/// Makes a round, and answers its results.
pub(crate) fn commit(
    rt: &impl Abort,
    alloc: Global,
    bank: &mut MemBank,
    members: &[Member],
    blob: &Blob,
) -> Result<Vec<bool>, Fail> {
    let mut results = vec![in alloc; false; members.len()]?;
    assert!(rt; are_seated(bank, members));
    assert!(rt; are_apart(members));
    assert!(rt; 1 <= blob.number.0 && blob.number.0 <= 1 << 62);
    assert!(rt; is_sealed(alloc, &blob.bytes, blob.length)?);
    assert!(rt; is_headed(alloc, &blob.bytes[..blob.length], POOL, blob.number)?);
    commit_record::<MemBank, TestRule>(
        bank,
        members,
        POOL,
        blob.number,
        &blob.bytes,
        blob.length,
        &mut results,
    );
    Ok(results)
}

/// A bank on which a whole round of this record was made.
pub(crate) fn bank_with(rt: &impl Abort, alloc: Global, blob: &Blob) -> Result<MemBank, Fail> {
    let mut bank = stamped_bank(rt, alloc)?;
    let results = commit(rt, alloc, &mut bank, &MEMBERS, blob)?;
    assert_eq!(rt; results.as_slice(), [true, true].as_slice());
    Ok(bank)
}

/// The newest record of the pool named tank.
pub(crate) fn find(
    rt: &impl Abort,
    alloc: Global,
    bank: &mut MemBank,
    devs: &[u32],
) -> Result<Option<Found>, Fail> {
    find_named(rt, alloc, bank, devs, b"tank")
}

pub(crate) fn find_named(
    rt: &impl Abort,
    alloc: Global,
    bank: &mut MemBank,
    devs: &[u32],
    name: &[u8],
) -> Result<Option<Found>, Fail> {
    assert!(rt; have_room(bank, devs));
    let name = Name::new(alloc, name)?;
    Ok(newest::<MemBank, TestRule>(alloc, bank, devs, &name)?)
}

/// Whether this record was found, with its number, its pool and its bytes.
pub(crate) fn is_found(found: &Option<Found>, blob: &Blob) -> bool {
    match found {
        Some(found) => {
            found.number == blob.number
                && found.pool == POOL
                && found.blob.as_slice() == blob.config()
        }
        None => false,
    }
}
