//! Uberblocks: their bytes against bytes from outside, and which sectors are none.
use super::blobs::Blob;
use super::setting::{POOL, blank_bank, fill_rings, find, identify, is_found};
use bank_core::{Bank, MemBank, SECTOR_BYTES};
use label_store::{Uberblock, read_uberblock, write_uberblock};
use mp_base::{Group, Guid};
use sha2::{Digest, Sha256};
use std::alloc::Global;
use std::process::Abort;
use std::test::Fail;

const GOOD: Uberblock = Uberblock {
    pool: POOL,
    member: Guid(2),
    number: Group(3),
    length: 100,
    sum: [9; 32],
};

fn sector_of(u: &Uberblock) -> [u8; SECTOR_BYTES] {
    let mut sector = [0; SECTOR_BYTES];
    write_uberblock(u, &mut sector);
    sector
}

/// Makes the last sum right.
fn seal(sector: &mut [u8; SECTOR_BYTES]) {
    let sum = Sha256::digest(&sector[..4064]);
    sector[4064..].copy_from_slice(&sum);
}

/// The uberblock that names this configuration.
fn naming(blob: &Blob) -> Uberblock {
    Uberblock {
        number: blob.number,
        length: blob.length as u64,
        sum: Sha256::digest(blob.config()),
        ..GOOD
    }
}

fn has_at(sector: &[u8], at: usize, bytes: &[u8]) -> bool {
    at <= sector.len() && sector[at..].starts_with(bytes)
}

#[test]
fn an_uberblock_has_its_fields_where_the_format_says(rt: HostRuntime) {
    let sector = sector_of(&GOOD);
    for (at, word) in [
        (0, b"\x00\x00\x00\x00\x00\xba\xb1\x0c"),
        (8, b"\x00\x00\x00\x00\x00\x00\x00\x01"),
        (16, b"\x00\x00\x00\x00\x00\x00\x00\x07"),
        (24, b"\x00\x00\x00\x00\x00\x00\x00\x02"),
        (32, b"\x00\x00\x00\x00\x00\x00\x00\x03"),
        (40, b"\x00\x00\x00\x00\x00\x00\x00\x64"),
    ] {
        assert!(rt; has_at(&sector, at, word), "at {at}");
    }
    assert!(rt; has_at(&sector, 48, &[9; 32]));
    assert!(rt; has_at(&sector, 80, &[0; 3984]));
    assert!(rt; read_uberblock(&sector) == Some(GOOD));
}

#[tactic(auto, unfolding(bank_core::specs::Disk::sector_size))]
fn put(rt: &impl Abort, bank: &mut MemBank, at: u64, bytes: &[u8]) -> Result<(), Fail> {
    assert!(rt; !bytes.is_empty() && bytes.len() % SECTOR_BYTES == 0);
    assert!(rt; at < 100 && bytes.len() / SECTOR_BYTES < 100 && bank.sectors(0) > 200);
    Ok(bank.write(0, at, bytes)?)
}

/// Whether one of these sectors counts as an uberblock: by itself, for the identity of a device in whose
/// ring they are, and for its record where the configuration stands in label 0.
fn is_one_taken(
    rt: &impl Abort,
    alloc: Global,
    bank: &mut MemBank,
    sectors: &[u8],
    blob: &Blob,
) -> Result<bool, Fail> {
    put(rt, bank, 4, &blob.bytes)?;
    put(rt, bank, 41, sectors)?;
    let taken = sectors
        .chunks(SECTOR_BYTES)
        .any(|sector| read_uberblock(sector).is_some());
    assert_eq!(rt; identify(rt, bank, 0, GOOD.member), Ok(taken));
    let found = find(rt, alloc, bank, &[0])?;
    assert_eq!(rt; is_found(&found, blob), taken);
    assert_eq!(rt; found.is_some(), taken);
    Ok(taken)
}

/// Sectors that are nearly this uberblock or one of number 0, and are none.
fn wrong_sectors(rt: &impl Abort, alloc: Global, u: &Uberblock) -> Result<Vec<u8>, Fail> {
    let mut wrong = Vec::new(alloc);
    for (length, sum) in [(80, [0; 32]), (0, [9; 32])] {
        let sector = sector_of(&Uberblock {
            number: Group(0),
            length,
            sum,
            ..GOOD
        });
        assert!(rt;
            read_uberblock(&sector).is_none(),
            "number 0, length {length}"
        );
        wrong.extend_from_slice(&sector)?;
    }
    // the two ends of the magic, of the version and of the zeros, each with the last sum made right
    for (at, byte) in [(0, 1), (7, 0), (8, 1), (15, 2), (80, 1), (4063, 1)] {
        let mut sector = sector_of(u);
        assert!(rt; at < SECTOR_BYTES);
        sector[at] = byte;
        seal(&mut sector);
        assert!(rt; read_uberblock(&sector).is_none(), "byte {at}");
        wrong.extend_from_slice(&sector)?;
    }
    let mut sector = sector_of(u);
    sector[4095] ^= 1;
    assert!(rt; read_uberblock(&sector).is_none());
    wrong.extend_from_slice(&sector)?;
    Ok(wrong)
}

#[test]
fn an_uberblock_with_a_field_out_of_range_is_not_correct(rt: HostRuntime) -> Result<(), Fail> {
    let alloc = rt.alloc();
    let mut bank = blank_bank(&rt, alloc)?;
    fill_rings(&rt, alloc, &mut bank, 0)?;
    for (number, length, taken) in [
        (1, 80, true),
        (1 << 62, 80, true),
        ((1 << 62) + 1, 80, false),
        (u64::MAX, 80, false),
        (1, 114_688, true),
        (1, 114_689, false),
        (0, 80, false),
    ] {
        let blob = Blob::new(alloc, number, b'u', length)?;
        let sector = sector_of(&naming(&blob));
        assert_eq!(rt;
            is_one_taken(&rt, alloc, &mut bank, &sector, &blob)?,
            taken,
            "number {number}, length {length}"
        );
    }
    let blob = Blob::new(alloc, 3, b'u', 80)?;
    let wrong = wrong_sectors(&rt, alloc, &naming(&blob))?;
    assert!(rt; !is_one_taken(&rt, alloc, &mut bank, &wrong, &blob)?);
    Ok(())
}
