//! Identities and stamps over a bank in memory.
use super::blobs::Blob;
use super::setting::{
    bank_with, blank_bank, crashed, fill_rings, find, identify, stamp_as, stamped_bank,
};
use bank_core::{Fault, ImageChoice};
use mp_base::Guid;
use std::test::Fail;

#[test]
fn a_stamp_gives_an_identity_once_it_is_flushed(rt: HostRuntime) -> Result<(), Fail> {
    let alloc = rt.alloc();
    let mut bank = blank_bank(&rt, alloc)?;
    stamp_as(&rt, &mut bank, 0, Guid(2))?;
    assert_eq!(rt; identify(&rt, &mut bank, 0, Guid(2)), Ok(true));
    assert_eq!(rt; identify(&rt, &mut bank, 0, Guid(3)), Ok(false));
    assert_eq!(rt; identify(&rt, &mut bank, 1, Guid(2)), Ok(false));
    // nine calls: four of zeros, four uberblocks and the flush
    for (moment, flushed) in [(8, false), (9, true)] {
        let mut left = crashed(&rt, alloc, &bank, moment, ImageChoice::Noise(1))?;
        assert_eq!(rt; identify(&rt, &mut left, 0, Guid(2)), Ok(flushed));
    }
    Ok(())
}

#[test]
fn a_stamp_takes_every_record_from_the_device(rt: HostRuntime) -> Result<(), Fail> {
    let alloc = rt.alloc();
    let mut bank = bank_with(&rt, alloc, &Blob::new(alloc, 1, b'o', 80)?)?;
    stamp_as(&rt, &mut bank, 0, Guid(3))?;
    assert!(rt; find(&rt, alloc, &mut bank, &[0])?.is_none());
    assert!(rt; find(&rt, alloc, &mut bank, &[0, 1])?.is_some());
    assert_eq!(rt; identify(&rt, &mut bank, 0, Guid(1)), Ok(false));
    assert_eq!(rt; identify(&rt, &mut bank, 0, Guid(3)), Ok(true));
    Ok(())
}

#[test]
fn a_stamp_stops_at_its_first_failed_call(rt: HostRuntime) -> Result<(), Fail> {
    let alloc = rt.alloc();
    for place in 0..9 {
        let mut bank = blank_bank(&rt, alloc)?;
        bank.fail(0, place, place, Fault::Gone)?;
        assert_eq!(rt; stamp_as(&rt, &mut bank, 0, Guid(2)), Err(Fault::Gone));
        assert_eq!(rt; bank.place(), place + 1);
    }
    let mut bank = blank_bank(&rt, alloc)?;
    bank.fail(0, 9, 9, Fault::Gone)?;
    assert_eq!(rt; stamp_as(&rt, &mut bank, 0, Guid(2)), Ok(()));
    assert_eq!(rt; bank.place(), 9);
    Ok(())
}

#[test]
fn a_search_ends_with_the_ring_that_gives_the_identity(rt: HostRuntime) -> Result<(), Fail> {
    let alloc = rt.alloc();
    let mut bank = stamped_bank(&rt, alloc)?;
    // the reads of the first rings fail
    for failing in 0..5u64 {
        let begin = bank.place();
        for place in begin..begin + failing {
            bank.fail(1, place, place, Fault::Failed)?;
        }
        let (found, calls) = if failing < 4 {
            (Ok(true), failing + 1)
        } else {
            (Err(Fault::Failed), 4)
        };
        assert_eq!(rt;
            identify(&rt, &mut bank, 1, Guid(2)),
            found,
            "{failing} failing"
        );
        assert_eq!(rt; bank.place() - begin, calls);
    }
    Ok(())
}

#[test]
fn an_identity_is_missed_only_where_every_ring_was_read(rt: HostRuntime) -> Result<(), Fail> {
    let alloc = rt.alloc();
    let mut bank = blank_bank(&rt, alloc)?;
    fill_rings(&rt, alloc, &mut bank, 0)?;
    for ring in 0..4 {
        let begin = bank.place();
        bank.fail(0, begin + ring, begin + ring, Fault::Gone)?;
        bank.fail(0, begin + ring + 1, begin + 3, Fault::Failed)?;
        assert_eq!(rt;
            identify(&rt, &mut bank, 0, Guid(2)),
            Err(Fault::Gone),
            "ring {ring}"
        );
        assert_eq!(rt; bank.place() - begin, 4);
    }
    let begin = bank.place();
    assert_eq!(rt; identify(&rt, &mut bank, 0, Guid(2)), Ok(false));
    assert_eq!(rt; bank.place() - begin, 4);
    Ok(())
}
