//! What a bank answers where a call of the system on a device's file fails, ends early, is short or is interrupted: each
//! call in turn. No file of the system tells what it holds, so contracts alone don't refuse a body that makes nothing of
//! such an answer over those files.
use bank_core::{Bank, Fault, FindFault, SECTOR_BYTES};
use bank_files::{FileBank, FileId, Host, HostFile, Unheld};
use mp_base::Name;
use std::alloc::Global;
use std::cell::Cell;
use std::fs;
use std::fs::{File, OpenOptions, TryLockError};
use std::io::{self, ErrorKind};
use std::os::fd::{AsRawFd, RawFd};
use std::process::Abort;
use std::rt::HostRuntime;
use std::test::Fail;

/// The most bytes that one call moves: two sectors are three pieces.
const PIECE: usize = 3000;

/// What a planned call does in place of its work.
#[derive(Clone, Copy, Debug, PartialEq, Eq)]
enum Trouble {
    /// It fails, and moves nothing.
    Fails,
    /// It moves nothing, as at the end of the file.
    Ends,
    /// It moves one byte.
    Short,
    /// A signal interrupts it, and it moves nothing.
    Interrupted,
}

/// Which call meets trouble, counted from 1, and how many calls there were since it was planned.
#[derive(Drop)]
struct Plan {
    trouble: Cell<Trouble>,
    at: Cell<u64>,
    calls: Cell<u64>,
}

impl Plan {
    /// A plan where nothing meets trouble.
    fn new() -> Plan {
        Plan {
            trouble: Cell::new(Trouble::Fails),
            at: Cell::new(0),
            calls: Cell::new(0),
        }
    }

    /// From now on the call `at` meets trouble; 0 is none.
    fn set(&self, trouble: Trouble, at: u64) {
        self.trouble.set(trouble);
        self.at.set(at);
        self.calls.set(0);
    }

    /// How many bytes one call of at most so many moves.
    fn piece(&self, most: usize) -> io::Result<usize> {
        self.calls.set(self.calls.get().saturating_add(1));
        if self.calls.get() != self.at.get() {
            return Ok(most.min(PIECE));
        }
        match self.trouble.get() {
            Trouble::Fails => Err(ErrorKind::Other.into()),
            Trouble::Ends => Ok(0),
            Trouble::Short => Ok(most.min(1)),
            Trouble::Interrupted => Err(ErrorKind::Interrupted.into()),
        }
    }

    /// What a call that moves no bytes answers: 0 in place of a number where it ends early.
    fn number(&self, answer: u64) -> io::Result<u64> {
        match self.piece(PIECE)? {
            0 => Ok(0),
            _ => Ok(answer),
        }
    }
}

/// The system's files under a plan. It counts what it's told of devices that can't be locked.
#[derive(Drop)]
struct Planned<'r> {
    rt: &'r HostRuntime,
    plan: &'r Plan,
    unlocked: Cell<u64>,
}

impl<'r> Planned<'r> {
    fn new(rt: &'r HostRuntime, plan: &'r Plan) -> Planned<'r> {
        Planned {
            rt,
            plan,
            unlocked: Cell::new(0),
        }
    }
}

#[derive(Drop)]
struct PlannedFile<'r> {
    file: File,
    plan: &'r Plan,
}

impl<'r> Host for Planned<'r> {
    type File = PlannedFile<'r>;

    fn open(&self, path: &str) -> io::Result<PlannedFile<'r>> {
        let file = OpenOptions::new()
            .read(true)
            .write(true)
            .open(self.rt, path)?;
        Ok(PlannedFile {
            file,
            plan: self.plan,
        })
    }

    fn tell(&self, _name: &Name, why: &Unheld) {
        if let Unheld::NoLock(_) = why {
            self.unlocked.set(self.unlocked.get().saturating_add(1));
        }
    }
}

impl<'r> AsRawFd for PlannedFile<'r> {
    fn as_raw_fd(&self) -> RawFd {
        self.file.as_raw_fd()
    }
}

impl<'r> HostFile for PlannedFile<'r> {
    ghost use Rattle.bank_files.specs.Told.{nothing};

    ghost told = { λ file. nothing };

    fn id(&self) -> io::Result<FileId> {
        self.plan.number(0)?;
        HostFile::id(&self.file)
    }

    fn links(&self) -> io::Result<u64> {
        let links = HostFile::links(&self.file)?;
        self.plan.number(links)
    }

    fn try_lock(&self) -> Result<(), TryLockError> {
        if let Err(error) = self.plan.number(0) {
            return Err(TryLockError::Error(error));
        }
        HostFile::try_lock(&self.file)
    }

    fn try_clone(&self) -> io::Result<PlannedFile<'r>> {
        Ok(PlannedFile {
            file: HostFile::try_clone(&self.file)?,
            plan: self.plan,
        })
    }

    fn end(&mut self) -> io::Result<u64> {
        let end = self.file.end()?;
        self.plan.number(end)
    }

    fn read_at(&mut self, at: u64, out: &mut [u8]) -> io::Result<usize> {
        let most = self.plan.piece(out.len())?;
        HostFile::read_at(&mut self.file, at, &mut out[..most])
    }

    fn write_at(&mut self, at: u64, bytes: &[u8]) -> io::Result<usize> {
        let most = self.plan.piece(bytes.len())?;
        HostFile::write_at(&mut self.file, at, &bytes[..most])
    }

    fn sync(&mut self) -> io::Result<()> {
        self.plan.number(0)?;
        self.file.sync()
    }
}

/// The sectors of the file, of which each byte is the number of its sector.
const SECTORS: u64 = 4;

/// The byte that is written.
const NEW: u8 = 9;

/// The sectors that are read and written: 1 and 2.
const FIRST: u64 = 1;

const TWO_SECTORS: usize = 2 * SECTOR_BYTES;

fn make(rt: &HostRuntime, path: &str) -> Result<(), Fail> {
    let mut held = Vec::new(rt.alloc());
    for sector in 0..SECTORS {
        held.extend_from_slice(&[sector as u8; 4096])?;
    }
    fs::write(rt, path, held.as_slice())?;
    Ok(())
}

/// Whether all bytes of each sector are these.
fn holds(bytes: &[u8], sectors: &[u8]) -> bool {
    bytes.len() % SECTOR_BYTES == 0
        && bytes.len() / SECTOR_BYTES == sectors.len()
        && bytes
            .iter()
            .enumerate()
            .all(|(i, byte)| sectors.get(i / SECTOR_BYTES) == Some(byte))
}

fn find<B: Bank>(alloc: Global, bank: &mut B) -> Result<Result<Option<u32>, FindFault>, Fail> {
    let name = Name::new(alloc, b"a").map_err(|_| "no name")?;
    Ok(bank.find(&name))
}

#[tactic(auto, unfolding(bank_core::specs::Disk::sector_size))]
fn read<B: Bank>(rt: &impl Abort, bank: &mut B, out: &mut [u8; TWO_SECTORS]) -> Result<(), Fault> {
    assert!(rt; FIRST + 2 <= bank.sectors(0));
    bank.read(0, FIRST, out)
}

#[tactic(auto, unfolding(bank_core::specs::Disk::sector_size))]
fn write<B: Bank>(rt: &impl Abort, bank: &mut B) -> Result<(), Fault> {
    assert!(rt; FIRST + 2 <= bank.sectors(0));
    bank.write(0, FIRST, &[NEW; TWO_SECTORS])
}

fn flush<B: Bank>(rt: &impl Abort, bank: &mut B) -> Result<(), Fault> {
    assert!(rt; 0 < bank.sectors(0));
    bank.flush(0)
}

#[test]
fn each_call_of_a_read_is_the_devices(rt: HostRuntime) -> Result<(), Fail> {
    let alloc = rt.alloc();
    let folder = "bank_files_reads";
    let _ = fs::remove_dir_all(&rt, folder);
    fs::create_dir(&rt, folder)?;
    make(&rt, "bank_files_reads/a")?;
    let plan = Plan::new();
    let host = Planned::new(&rt, &plan);
    let mut bank = FileBank::new(&host, alloc, format!(in alloc; "{folder}")?)?;
    assert_eq!(rt; find(alloc, &mut bank)?, Ok(Some(0)));
    let mut faults = 0u64;
    // two sectors are three calls
    for (trouble, at, wanted, calls) in [
        (Trouble::Fails, 1u64, Err(Fault::Failed), 1u64),
        (Trouble::Fails, 2, Err(Fault::Failed), 2),
        (Trouble::Fails, 3, Err(Fault::Failed), 3),
        (Trouble::Fails, 4, Ok(()), 3),
        (Trouble::Ends, 1, Err(Fault::Gone), 1),
        (Trouble::Ends, 2, Err(Fault::Gone), 2),
        (Trouble::Ends, 3, Err(Fault::Gone), 3),
        (Trouble::Short, 1, Ok(()), 4),
        (Trouble::Short, 2, Ok(()), 4),
        (Trouble::Short, 3, Ok(()), 4),
        (Trouble::Interrupted, 1, Ok(()), 4),
        (Trouble::Interrupted, 2, Ok(()), 4),
        (Trouble::Interrupted, 3, Ok(()), 4),
    ] {
        plan.set(trouble, at);
        let mut out = [0xee; TWO_SECTORS];
        assert_eq!(rt; read(&rt, &mut bank, &mut out), wanted, "{trouble:?} {at}");
        assert_eq!(rt; plan.calls.get(), calls, "{trouble:?} {at}");
        faults = faults.saturating_add(u64::from(wanted.is_err()));
        assert_eq!(rt; bank.fault_count(0), faults, "{trouble:?} {at}");
        assert!(rt; wanted.is_err() || holds(&out, &[1, 2]), "{trouble:?} {at}");
    }
    fs::remove_dir_all(&rt, folder)?;
    Ok(())
}

#[test]
fn each_call_of_a_write_is_the_devices(rt: HostRuntime) -> Result<(), Fail> {
    let alloc = rt.alloc();
    let folder = "bank_files_writes";
    let _ = fs::remove_dir_all(&rt, folder);
    fs::create_dir(&rt, folder)?;
    make(&rt, "bank_files_writes/a")?;
    let plan = Plan::new();
    let host = Planned::new(&rt, &plan);
    let mut bank = FileBank::new(&host, alloc, format!(in alloc; "{folder}")?)?;
    assert_eq!(rt; find(alloc, &mut bank)?, Ok(Some(0)));
    let mut faults = 0u64;
    // the file's end is the first call, and two sectors are three more
    for (trouble, at, wanted, calls) in [
        (Trouble::Fails, 1u64, Err(Fault::Failed), 1u64),
        (Trouble::Fails, 2, Err(Fault::Failed), 2),
        (Trouble::Fails, 3, Err(Fault::Failed), 3),
        (Trouble::Fails, 4, Err(Fault::Failed), 4),
        (Trouble::Fails, 5, Ok(()), 4),
        (Trouble::Ends, 1, Err(Fault::Gone), 1),
        (Trouble::Ends, 2, Err(Fault::Failed), 2),
        (Trouble::Ends, 3, Err(Fault::Failed), 3),
        (Trouble::Ends, 4, Err(Fault::Failed), 4),
        (Trouble::Short, 2, Ok(()), 5),
        (Trouble::Short, 3, Ok(()), 5),
        (Trouble::Short, 4, Ok(()), 5),
        (Trouble::Interrupted, 1, Err(Fault::Failed), 1),
        (Trouble::Interrupted, 2, Ok(()), 5),
        (Trouble::Interrupted, 3, Ok(()), 5),
        (Trouble::Interrupted, 4, Ok(()), 5),
    ] {
        make(&rt, "bank_files_writes/a")?;
        plan.set(trouble, at);
        assert_eq!(rt; write(&rt, &mut bank), wanted, "{trouble:?} {at}");
        assert_eq!(rt; plan.calls.get(), calls, "{trouble:?} {at}");
        faults = faults.saturating_add(u64::from(wanted.is_err()));
        assert_eq!(rt; bank.fault_count(0), faults, "{trouble:?} {at}");
        let held = fs::read(&rt, "bank_files_writes/a")?;
        let is_written = holds(held.as_slice(), &[0, NEW, NEW, 3]);
        assert!(rt; wanted.is_err() || is_written, "{trouble:?} {at}");
    }
    fs::remove_dir_all(&rt, folder)?;
    Ok(())
}

#[test]
fn each_call_of_a_flush_is_the_devices_for_good(rt: HostRuntime) -> Result<(), Fail> {
    let alloc = rt.alloc();
    let folder = "bank_files_flushes";
    let _ = fs::remove_dir_all(&rt, folder);
    fs::create_dir(&rt, folder)?;
    make(&rt, "bank_files_flushes/a")?;
    let plan = Plan::new();
    let host = Planned::new(&rt, &plan);
    // the file's end, its names and the sync
    for (trouble, at, wanted, calls) in [
        (Trouble::Fails, 1u64, Err(Fault::Failed), 1u64),
        (Trouble::Fails, 2, Err(Fault::Failed), 2),
        (Trouble::Fails, 3, Err(Fault::Failed), 3),
        (Trouble::Fails, 4, Ok(()), 3),
        (Trouble::Ends, 1, Err(Fault::Gone), 1),
        (Trouble::Ends, 2, Err(Fault::Gone), 2),
        (Trouble::Interrupted, 1, Err(Fault::Failed), 1),
        (Trouble::Interrupted, 2, Err(Fault::Failed), 2),
        (Trouble::Interrupted, 3, Err(Fault::Failed), 3),
    ] {
        plan.set(trouble, 0);
        let mut bank = FileBank::new(&host, alloc, format!(in alloc; "{folder}")?)?;
        assert_eq!(rt; find(alloc, &mut bank)?, Ok(Some(0)));
        plan.set(trouble, at);
        assert_eq!(rt; flush(&rt, &mut bank), wanted, "{trouble:?} {at}");
        assert_eq!(rt; plan.calls.get(), calls, "{trouble:?} {at}");
        // the system would answer the next one as if all were well
        plan.set(trouble, 0);
        assert_eq!(rt; flush(&rt, &mut bank), wanted, "{trouble:?} {at}");
        assert_eq!(rt;
            plan.calls.get(),
            if wanted.is_err() { 0 } else { 3 },
            "{trouble:?} {at}"
        );
        assert_eq!(rt;
            bank.fault_count(0),
            if wanted.is_err() { 2 } else { 0 },
            "{trouble:?} {at}"
        );
    }
    fs::remove_dir_all(&rt, folder)?;
    Ok(())
}

#[test]
fn each_call_of_a_look_up_is_counted(rt: HostRuntime) -> Result<(), Fail> {
    let alloc = rt.alloc();
    let folder = "bank_files_look_ups";
    let _ = fs::remove_dir_all(&rt, folder);
    fs::create_dir(&rt, folder)?;
    make(&rt, "bank_files_look_ups/a")?;
    let plan = Plan::new();
    let host = Planned::new(&rt, &plan);
    let failed = Err(FindFault::Fault(Fault::Failed));
    let mut unlocked = 0u64;
    // which file it is, its lock and its end
    for (trouble, at, wanted) in [
        (Trouble::Fails, 1u64, failed),
        (Trouble::Fails, 2, failed),
        (Trouble::Fails, 3, failed),
        (Trouble::Interrupted, 1, failed),
        (Trouble::Interrupted, 2, failed),
        (Trouble::Interrupted, 3, failed),
        (Trouble::Ends, 3, Ok(None)),
    ] {
        let mut bank = FileBank::new(&host, alloc, format!(in alloc; "{folder}")?)?;
        plan.set(trouble, at);
        assert_eq!(rt; find(alloc, &mut bank)?, wanted, "{trouble:?} {at}");
        assert_eq!(rt; plan.calls.get(), at, "{trouble:?} {at}");
        assert_eq!(rt;
            bank.lookup_fault_count(),
            u64::from(wanted.is_err()),
            "{trouble:?} {at}"
        );
        unlocked = unlocked.saturating_add(u64::from(at == 2));
        assert_eq!(rt; host.unlocked.get(), unlocked, "{trouble:?} {at}");
        // a file that wasn't taken isn't held
        plan.set(trouble, 0);
        assert_eq!(rt; find(alloc, &mut bank)?, Ok(Some(0)), "{trouble:?} {at}");
    }
    fs::remove_dir_all(&rt, folder)?;
    Ok(())
}
