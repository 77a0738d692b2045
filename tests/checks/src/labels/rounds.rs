//! Rounds that a crash or a failed call ends.
use super::blobs::Blob;
use super::setting::{MEMBERS, bank_with, choice_at, commit, crashed, find, is_found};
use bank_core::{Fault, ImageChoice, MemBank};
use label_store::Found;
use std::alloc::Global;
use std::process::Abort;
use std::test::Fail;

/// The calls of a round over two members: three of each in the first phase, five in the second, three in
/// the third.
const CALLS: u64 = 22;

/// Moments of each phase, and the one at which the first member's uberblocks are flushed and the second
/// has none.
const MOMENTS: [u64; 5] = [5, 10, 11, 15, 20];

/// Where the third phase begins.
const THIRD: u64 = 16;

/// The calls of one member.
const PART_CALLS: usize = 11;

/// Where the uberblocks of each member begin, and how many calls they and their flush are.
const UBERBLOCKS_AT: [u64; 2] = [6, 11];

const UBERBLOCK_CALLS: u64 = 5;

/// Records of numbers 1 and 2 of one and of two sectors.
fn old_and_new(alloc: Global) -> Result<(Blob, Blob), Fail> {
    Ok((
        Blob::new(alloc, 1, b'o', 80)?,
        Blob::new(alloc, 2, b'n', 5000)?,
    ))
}

/// Which record is to be found.
#[derive(Clone, Copy, Debug, PartialEq, Eq)]
enum Wanted {
    Old,
    New,
    Either,
}

fn is_wanted(found: &Option<Found>, old: &Blob, new: &Blob, wanted: Wanted) -> bool {
    match wanted {
        Wanted::Old => is_found(found, old),
        Wanted::New => is_found(found, new),
        Wanted::Either => is_found(found, old) || is_found(found, new),
    }
}

/// What a crash leaves while the uberblocks of a member are pending, where the first of them was written.
fn wanted_between(choice: ImageChoice) -> Wanted {
    match choice {
        ImageChoice::New => Wanted::New,
        ImageChoice::Mixed(_) => Wanted::Either,
        _ => Wanted::Old,
    }
}

/// What a crash leaves of a member whose uberblocks begin at this call.
fn wanted_after(moment: u64, uberblocks_at: u64, choice: ImageChoice) -> Wanted {
    if moment <= uberblocks_at {
        return Wanted::Old;
    }
    if moment - uberblocks_at >= UBERBLOCK_CALLS {
        return Wanted::New;
    }
    wanted_between(choice)
}

#[test]
fn a_round_stopped_at_any_call_leaves_the_old_or_the_new_record(
    rt: HostRuntime,
) -> Result<(), Fail> {
    let alloc = rt.alloc();
    let (old, new) = old_and_new(alloc)?;
    let mut bank = bank_with(&rt, alloc, &old)?;
    let begin = bank.place();
    let results = commit(&rt, alloc, &mut bank, &MEMBERS, &new)?;
    assert_eq!(rt; results.as_slice(), [true, true].as_slice());
    assert_eq!(rt; bank.place() - begin, CALLS);
    for moment in MOMENTS {
        let choice = choice_at(moment);
        let mut left = crashed(&rt, alloc, &bank, begin + moment, choice)?;
        let first = wanted_after(moment, UBERBLOCKS_AT[0], choice);
        let second = wanted_after(moment, UBERBLOCKS_AT[1], choice);
        for (dev, wanted) in [(0, first), (1, second)] {
            let alone = find(&rt, alloc, &mut left, &[dev])?;
            assert!(rt;
                is_wanted(&alone, &old, &new, wanted),
                "{dev} at {moment} with {choice:?}"
            );
        }
        // where they differ, the first is ahead
        if first != second {
            let both = find(&rt, alloc, &mut left, &[0, 1])?;
            assert!(rt;
                is_wanted(&both, &old, &new, first),
                "at {moment} with {choice:?}"
            );
        }
    }
    Ok(())
}

/// Makes a round of which the call at this place fails, and answers its results.
fn failing_round(
    rt: &impl Abort,
    alloc: Global,
    bank: &mut MemBank,
    place: u64,
    new: &Blob,
) -> Result<Vec<bool>, Fail> {
    bank.fail(0, place, place, Fault::Failed)?;
    bank.fail(1, place, place, Fault::Gone)?;
    commit(rt, alloc, bank, &MEMBERS, new)
}

/// The device whose call failed.
fn failed_device(bank: &MemBank) -> Option<u32> {
    bank.calls()
        .iter()
        .find(|call| call.fault.is_some())
        .map(|call| call.dev)
}

/// Whether no call was made on the device behind this place.
fn ends_at(bank: &MemBank, dev: u32, place: u64) -> bool {
    bank.calls()
        .iter()
        .enumerate()
        .all(|(i, call)| call.dev != dev || i as u64 <= place)
}

fn calls_on(bank: &MemBank, dev: u32) -> usize {
    bank.calls().iter().filter(|call| call.dev == dev).count()
}

/// What a crash leaves of a member whose call at this place failed.
fn wanted_of_failed(place: u64, choice: ImageChoice) -> Wanted {
    if place < UBERBLOCKS_AT[0] {
        return Wanted::Old;
    }
    if place >= THIRD {
        return Wanted::New;
    }
    wanted_between(choice)
}

#[test]
fn a_member_whose_call_fails_leaves_the_round(rt: HostRuntime) -> Result<(), Fail> {
    let alloc = rt.alloc();
    let (old, new) = old_and_new(alloc)?;
    let mut begun = bank_with(&rt, alloc, &old)?;
    for place in (0..CALLS).step_by(7) {
        let mut bank = crashed(&rt, alloc, &begun, begun.place(), ImageChoice::Noise(2))?;
        let results = failing_round(&rt, alloc, &mut bank, place, &new)?;
        let dev = failed_device(&bank).ok_or("no call failed")?;
        assert!(rt; dev < 2);
        let other = 1 - dev;
        assert_eq!(rt;
            results.as_slice(),
            [dev != 0, dev != 1].as_slice(),
            "at {place}"
        );
        assert_eq!(rt; (bank.fault_count(dev), bank.fault_count(other)), (1, 0));
        assert!(rt; ends_at(&bank, dev, place), "at {place}");
        assert_eq!(rt; calls_on(&bank, other), PART_CALLS, "at {place}");
        let choice = choice_at(place);
        let mut left = crashed(&rt, alloc, &bank, bank.place(), choice)?;
        let found = find(&rt, alloc, &mut left, &[other])?;
        assert!(rt; is_found(&found, &new), "at {place} with {choice:?}");
        let alone = find(&rt, alloc, &mut left, &[dev])?;
        let wanted = wanted_of_failed(place, choice);
        assert!(rt;
            is_wanted(&alone, &old, &new, wanted),
            "at {place} with {choice:?}"
        );
    }
    // a round has no more calls than these
    let end = begun.place() + CALLS;
    let results = failing_round(&rt, alloc, &mut begun, end, &new)?;
    assert_eq!(rt; results.as_slice(), [true, true].as_slice());
    assert_eq!(rt; failed_device(&begun), None);
    Ok(())
}
