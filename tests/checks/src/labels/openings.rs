//! Which record an opening finds.
use super::blobs::Blob;
use super::setting::{
    MEMBERS, blank_bank, commit, fill_rings, find, find_named, is_found, stamped_bank,
};
use bank_core::{Fault, MemBank};
use std::alloc::Global;
use std::process::Abort;
use std::test::Fail;

/// A bank on which each device has a record of its own.
fn bank_of_two(
    rt: &impl Abort,
    alloc: Global,
    first: &Blob,
    second: &Blob,
) -> Result<MemBank, Fail> {
    let mut bank = stamped_bank(rt, alloc)?;
    let results = commit(rt, alloc, &mut bank, &MEMBERS[..1], first)?;
    assert_eq!(rt; results.as_slice(), [true].as_slice());
    let results = commit(rt, alloc, &mut bank, &MEMBERS[1..], second)?;
    assert_eq!(rt; results.as_slice(), [true].as_slice());
    Ok(bank)
}

#[test]
fn of_two_devices_with_one_number_the_first_is_taken(rt: HostRuntime) -> Result<(), Fail> {
    let alloc = rt.alloc();
    let first = Blob::new(alloc, 5, b'a', 5000)?;
    let second = Blob::new(alloc, 5, b'b', 80)?;
    let mut bank = bank_of_two(&rt, alloc, &first, &second)?;
    let found = find(&rt, alloc, &mut bank, &[0, 1])?;
    assert!(rt; is_found(&found, &first));
    let found = find(&rt, alloc, &mut bank, &[1, 0])?;
    assert!(rt; is_found(&found, &second));
    Ok(())
}

#[test]
fn the_greatest_number_is_taken_of_the_devices_that_answer(rt: HostRuntime) -> Result<(), Fail> {
    let alloc = rt.alloc();
    let lower = Blob::new(alloc, 31, b'a', 80)?;
    let greater = Blob::new(alloc, 33, b'b', 80)?;
    let mut bank = bank_of_two(&rt, alloc, &lower, &greater)?;
    for devs in [[0, 1], [1, 0]] {
        let before = bank.place();
        let found = find(&rt, alloc, &mut bank, &devs)?;
        assert!(rt; is_found(&found, &greater));
        // each label has two reads
        assert_eq!(rt; bank.place() - before, 16);
    }
    // where one read fails, three labels are left
    for read in 0..8 {
        let place = bank.place() + read;
        bank.fail(1, place, place, Fault::Failed)?;
        let found = find(&rt, alloc, &mut bank, &[1])?;
        assert!(rt; is_found(&found, &greater), "read {read}");
        assert_eq!(rt; bank.fault_count(1), read + 1);
    }
    let begin = bank.place();
    bank.fail(1, begin, begin + 15, Fault::Gone)?;
    let found = find(&rt, alloc, &mut bank, &[0, 1])?;
    assert!(rt; is_found(&found, &lower));
    Ok(())
}

#[test]
fn nothing_is_found_where_no_record_of_the_name_is_read(rt: HostRuntime) -> Result<(), Fail> {
    let alloc = rt.alloc();
    // the rings of the first device are zeros
    let mut blank = blank_bank(&rt, alloc)?;
    fill_rings(&rt, alloc, &mut blank, 1)?;
    assert!(rt; find(&rt, alloc, &mut blank, &[0, 1])?.is_none());
    let mut bank = stamped_bank(&rt, alloc)?;
    assert!(rt; find(&rt, alloc, &mut bank, &[0, 1])?.is_none());
    let blob = Blob::new(alloc, 1, b'o', 80)?;
    let results = commit(&rt, alloc, &mut bank, &MEMBERS, &blob)?;
    assert_eq!(rt; results.as_slice(), [true, true].as_slice());
    assert!(rt; find_named(&rt, alloc, &mut bank, &[0, 1], b"tanks")?.is_none());
    assert!(rt; find(&rt, alloc, &mut bank, &[])?.is_none());
    assert!(rt; find(&rt, alloc, &mut bank, &[0])?.is_some());
    let begin = bank.place();
    bank.fail(0, begin, begin + 7, Fault::Gone)?;
    assert!(rt; find(&rt, alloc, &mut bank, &[0])?.is_none());
    Ok(())
}
