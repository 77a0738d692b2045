//! Wipes and marks of spare devices over a bank in memory: stopped at each moment, and failed at each call.
use super::blobs::Blob;
use super::setting::{bank_with, choice_at, crashed, find, identify, is_found};
use bank_core::{Bank, Fault, ImageChoice, MemBank};
use label_store::{LEAST_SECTORS, identity, mark_spare, wipe};
use mp_base::Guid;
use std::alloc::Global;
use std::process::Abort;
use std::test::Fail;

/// How the records are taken from a device, and in how many calls.
#[derive(Clone, Copy)]
enum Clearing {
    Wipe,
    Mark,
}

const CLEARINGS: [(Clearing, u64); 2] = [(Clearing::Wipe, 5), (Clearing::Mark, 9)];

fn clear(rt: &impl Abort, bank: &mut MemBank, how: Clearing) -> Result<(), Fault> {
    assert!(rt; bank.sectors(0) >= LEAST_SECTORS);
    match how {
        Clearing::Wipe => wipe(bank, 0),
        Clearing::Mark => mark_spare(bank, 0),
    }
}

/// Whether the device has the identity of a spare one.
fn is_spare(rt: &impl Abort, bank: &mut MemBank) -> Result<bool, Fault> {
    assert!(rt; bank.sectors(0) >= LEAST_SECTORS);
    identity(bank, 0, Guid(0), Guid(0))
}

#[test]
fn a_stop_in_a_wipe_or_a_mark_leaves_the_old_record_or_none(rt: HostRuntime) -> Result<(), Fail> {
    let alloc = rt.alloc();
    let blob = Blob::new(alloc, 1, b'o', 80)?;
    for (how, calls) in CLEARINGS {
        let mut bank = bank_with(&rt, alloc, &blob)?;
        let begin = bank.place();
        assert_eq!(rt; clear(&rt, &mut bank, how), Ok(()));
        assert_eq!(rt; bank.place() - begin, calls);
        assert!(rt; bank.tells());
        for moment in [0, 4] {
            let choice = choice_at(moment);
            let mut left = crashed(&rt, alloc, &bank, begin + moment, choice)?;
            let found = find(&rt, alloc, &mut left, &[0])?;
            let is_old = is_found(&found, &blob);
            assert!(rt; is_old || found.is_none(), "at {moment}");
            assert!(rt; is_old || moment > 0, "at {moment}");
        }
        let mut left = crashed(&rt, alloc, &bank, bank.place(), ImageChoice::Zeros)?;
        assert!(rt; find(&rt, alloc, &mut left, &[0])?.is_none());
        // the other member has it still
        assert!(rt; is_found(&find(&rt, alloc, &mut left, &[1])?, &blob));
        let is_mark = matches!(how, Clearing::Mark);
        assert_eq!(rt; is_spare(&rt, &mut left), Ok(is_mark));
        assert_eq!(rt; identify(&rt, &mut left, 0, Guid(1)), Ok(false));
    }
    Ok(())
}

#[test]
fn a_wipe_or_a_mark_stops_at_its_first_failed_call(rt: HostRuntime) -> Result<(), Fail> {
    let alloc = rt.alloc();
    let blob = Blob::new(alloc, 1, b'o', 80)?;
    for (how, calls) in CLEARINGS {
        for place in (0..calls).step_by(5) {
            let mut bank = bank_with(&rt, alloc, &blob)?;
            let failing = bank.place() + place;
            bank.fail(0, failing, failing, Fault::Gone)?;
            assert_eq!(rt; clear(&rt, &mut bank, how), Err(Fault::Gone), "at {place}");
            assert_eq!(rt; bank.place(), failing + 1);
            assert_eq!(rt; bank.fault_count(0), 1);
            assert_eq!(rt; bank.fault_count(1), 0);
            let choice = choice_at(place);
            let mut left = crashed(&rt, alloc, &bank, failing + 1, choice)?;
            let found = find(&rt, alloc, &mut left, &[0])?;
            assert!(rt; is_found(&found, &blob) || found.is_none(), "at {place}");
        }
    }
    Ok(())
}
