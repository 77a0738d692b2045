//! What a bank answers over the system's files: how devices are found and held, and what becomes of a file that others
//! change. No contract tells what such a file holds.
use bank_core::{Bank, Fault, FindFault, MOST_SECTORS, SECTOR_BYTES};
use bank_files::{FileBank, Host, Unheld};
use mp_base::Name;
use std::alloc::Global;
use std::cell::Cell;
use std::fs::{File, OpenOptions};
use std::os::unix::fs::symlink;
use std::process::Abort;
use std::rt::HostRuntime;
use std::test::Fail;
use std::{fs, io};

/// The system's files. It counts what a bank tells of devices that another program holds.
#[derive(Drop)]
struct System<'r> {
    rt: &'r HostRuntime,
    held: Cell<u64>,
}

impl<'r> System<'r> {
    fn new(rt: &'r HostRuntime) -> System<'r> {
        System {
            rt,
            held: Cell::new(0),
        }
    }
}

impl<'r> Host for System<'r> {
    type File = File;

    fn open(&self, path: &str) -> io::Result<File> {
        OpenOptions::new()
            .read(true)
            .write(true)
            .open(self.rt, path)
    }

    fn tell(&self, _name: &Name, why: &Unheld) {
        if let Unheld::ByAnother = why {
            self.held.set(self.held.get().saturating_add(1));
        }
    }
}

/// A file of so many bytes, of which each has the number of its sector.
fn make(rt: &HostRuntime, path: &str, bytes: usize) -> Result<(), Fail> {
    let mut held = Vec::new(rt.alloc());
    for i in 0..bytes {
        held.push(u8::try_from(i / SECTOR_BYTES)?)?;
    }
    fs::write(rt, path, held.as_slice())?;
    Ok(())
}

fn find(
    alloc: Global,
    bank: &mut impl Bank,
    word: &str,
) -> Result<Result<Option<u32>, FindFault>, Fail> {
    let name = Name::new(alloc, word.as_bytes()).map_err(|_| "no name")?;
    Ok(bank.find(&name))
}

/// Writes one sector of this byte.
#[tactic(auto, unfolding(bank_core::specs::Disk::sector_size))]
fn write(
    rt: &impl Abort,
    alloc: Global,
    bank: &mut impl Bank,
    dev: u32,
    at: u64,
    byte: u8,
) -> Result<Result<(), Fault>, Fail> {
    let bytes = vec![in alloc; byte; SECTOR_BYTES]?;
    assert!(rt; at < bank.sectors(dev));
    Ok(bank.write(dev, at, &bytes))
}

/// The byte that one sector has in all its places.
#[tactic(auto, unfolding(bank_core::specs::Disk::sector_size))]
fn read(
    rt: &impl Abort,
    alloc: Global,
    bank: &mut impl Bank,
    dev: u32,
    at: u64,
) -> Result<Result<u8, Fault>, Fail> {
    let mut bytes = vec![in alloc; 0xee; SECTOR_BYTES]?;
    assert!(rt; at < bank.sectors(dev));
    if let Err(fault) = bank.read(dev, at, &mut bytes) {
        return Ok(Err(fault));
    }
    let first = *bytes.first().ok_or("no byte")?;
    assert!(rt; bytes.iter().all(|byte| *byte == first));
    Ok(Ok(first))
}

fn flush(rt: &impl Abort, bank: &mut impl Bank, dev: u32) -> Result<(), Fault> {
    assert!(rt; 0 < bank.sectors(dev));
    bank.flush(dev)
}

#[test]
fn devices_are_found_in_their_folder(rt: HostRuntime) -> Result<(), Fail> {
    let alloc = rt.alloc();
    let folder = "bank_files_found";
    let _ = fs::remove_dir_all(&rt, folder);
    fs::create_dir(&rt, folder)?;
    make(&rt, "bank_files_found/a", 3 * SECTOR_BYTES + 100)?;
    make(&rt, "bank_files_found/short", SECTOR_BYTES - 1)?;
    make(&rt, "bank_files_found/real", 2 * SECTOR_BYTES)?;
    symlink(&rt, "real", "bank_files_found/link")?;
    fs::create_dir(&rt, "bank_files_found/dir")?;
    File::create(&rt, "bank_files_found/long")?.set_len((MOST_SECTORS + 1) * 4096)?;
    let system = System::new(&rt);
    let mut bank = FileBank::new(&system, alloc, format!(in alloc; "{folder}")?)?;
    for (word, found, sectors) in [
        ("a", Some(0u32), 3u64),
        ("late", None, 0),
        ("short", None, 0),
        ("link", Some(3), 2),
        ("long", Some(4), MOST_SECTORS),
        ("a", Some(0), 3),
    ] {
        assert_eq!(rt; find(alloc, &mut bank, word)?, Ok(found), "{word}");
        if let Some(dev) = found {
            assert_eq!(rt; bank.sectors(dev), sectors, "{word}");
        }
    }
    let failed = Err(FindFault::Fault(Fault::Failed));
    assert_eq!(rt; find(alloc, &mut bank, "dir")?, failed);
    assert_eq!(rt; bank.lookup_fault_count(), 1);
    // a name keeps the place that it got while its file was missing
    make(&rt, "bank_files_found/late", SECTOR_BYTES)?;
    assert_eq!(rt; find(alloc, &mut bank, "late")?, Ok(Some(1)));
    for i in 6..64 {
        let word = format!(in alloc; "none{i}")?;
        assert_eq!(rt; find(alloc, &mut bank, word.as_str())?, Ok(None));
    }
    assert_eq!(rt; find(alloc, &mut bank, "real")?, Ok(None));
    assert_eq!(rt; bank.lookup_fault_count(), 1);
    fs::remove_dir_all(&rt, folder)?;
    Ok(())
}

#[test]
fn a_file_that_shrinks_or_vanishes_is_gone(rt: HostRuntime) -> Result<(), Fail> {
    let alloc = rt.alloc();
    let folder = "bank_files_gone";
    let _ = fs::remove_dir_all(&rt, folder);
    fs::create_dir(&rt, folder)?;
    make(&rt, "bank_files_gone/a", 4 * SECTOR_BYTES)?;
    make(&rt, "bank_files_gone/b", 4 * SECTOR_BYTES)?;
    let system = System::new(&rt);
    let mut bank = FileBank::new(&system, alloc, format!(in alloc; "{folder}")?)?;
    assert_eq!(rt; find(alloc, &mut bank, "a")?, Ok(Some(0)));
    assert_eq!(rt; find(alloc, &mut bank, "b")?, Ok(Some(1)));
    assert_eq!(rt; write(&rt, alloc, &mut bank, 0, 2, 7)?, Ok(()));
    assert_eq!(rt; flush(&rt, &mut bank, 0), Ok(()));
    for (at, byte) in [(0u64, 0u8), (1, 1), (2, 7), (3, 3)] {
        assert_eq!(rt; read(&rt, alloc, &mut bank, 0, at)?, Ok(byte));
        assert_eq!(rt; read(&rt, alloc, &mut bank, 1, at)?, Ok(at as u8));
    }
    assert_eq!(rt; bank.fault_count(0), 0);
    let held = fs::read(&rt, "bank_files_gone/a")?;
    assert_eq!(rt; held.len(), 4 * SECTOR_BYTES);
    assert_eq!(rt; held.get(2 * SECTOR_BYTES).copied(), Some(7));
    let shrunk = 3 * SECTOR_BYTES + 5;
    OpenOptions::new()
        .write(true)
        .open(&rt, "bank_files_gone/a")?
        .set_len(shrunk as u64)?;
    let gone = Err(Fault::Gone);
    assert_eq!(rt; read(&rt, alloc, &mut bank, 0, 3)?, Err(Fault::Gone));
    assert_eq!(rt; write(&rt, alloc, &mut bank, 0, 3, 9)?, gone);
    assert_eq!(rt; flush(&rt, &mut bank, 0), gone);
    assert_eq!(rt; read(&rt, alloc, &mut bank, 0, 2)?, Ok(7));
    assert_eq!(rt; bank.fault_count(0), 3);
    assert_eq!(rt; fs::read(&rt, "bank_files_gone/a")?.len(), shrunk);
    fs::remove_file(&rt, "bank_files_gone/b")?;
    assert_eq!(rt; flush(&rt, &mut bank, 1), gone);
    assert_eq!(rt; bank.fault_count(1), 1);
    fs::remove_dir_all(&rt, folder)?;
    Ok(())
}

#[test]
fn a_device_is_held_by_one_bank_under_one_name(rt: HostRuntime) -> Result<(), Fail> {
    let alloc = rt.alloc();
    let folder = "bank_files_held";
    let _ = fs::remove_dir_all(&rt, folder);
    fs::create_dir(&rt, folder)?;
    make(&rt, "bank_files_held/a", 2 * SECTOR_BYTES)?;
    make(&rt, "bank_files_held/empty", 0)?;
    symlink(&rt, "a", "bank_files_held/b")?;
    fs::hard_link(&rt, "bank_files_held/a", "bank_files_held/c")?;
    let system = System::new(&rt);
    let failed = Err(FindFault::Fault(Fault::Failed));
    let mut second = FileBank::new(&system, alloc, format!(in alloc; "{folder}")?)?;
    {
        let mut first = FileBank::new(&system, alloc, format!(in alloc; "{folder}")?)?;
        // one file has one name; under another one it's missing, which is no fault
        for (word, found) in [("b", Some(0u32)), ("a", None), ("c", None), ("empty", None)] {
            assert_eq!(rt; find(alloc, &mut first, word)?, Ok(found), "{word}");
        }
        assert_eq!(rt; first.lookup_fault_count(), 0);
        assert_eq!(rt; system.held.get(), 0);
        // another bank is as another program: it finds nothing, which is told and counted
        for (word, faults) in [("a", 1u64), ("c", 2)] {
            assert_eq!(rt; find(alloc, &mut second, word)?, failed, "{word}");
            assert_eq!(rt; second.lookup_fault_count(), faults);
            assert_eq!(rt; system.held.get(), faults);
        }
        // a file that is no device isn't kept open
        assert_eq!(rt; find(alloc, &mut second, "empty")?, Ok(None));
        assert_eq!(rt; write(&rt, alloc, &mut first, 0, 1, 7)?, Ok(()));
    }
    // the lock goes with the bank that had it
    assert_eq!(rt; find(alloc, &mut second, "a")?, Ok(Some(0)));
    assert_eq!(rt; read(&rt, alloc, &mut second, 0, 1)?, Ok(7));
    assert_eq!(rt; find(alloc, &mut second, "c")?, Ok(None));
    assert_eq!(rt; second.lookup_fault_count(), 2);
    fs::remove_dir_all(&rt, folder)?;
    Ok(())
}
