//! Openings of devices that hold an older record and newer bytes which break a rule of configurations. Both sums of
//! these are right, that of the bytes and that of the uberblock which names them: by a rule that takes any bytes they
//! are found. So the rule of configurations alone decides, and the older record is found.
use super::by_hand::{self, Leaf, MIRROR, Spelled};
use super::fields::{REFUSED_HEADS, REFUSED_SPARES, REFUSED_VDEVS, Row, changed, two_leaves};
use bank_core::{Bank, MemBank, SECTOR_BYTES};
use label_store::{
    BlobRule, Found, Head, Member, Uberblock, commit_record, newest, write_uberblock,
};
use mp_base::{Group, Guid, MemFault, Name};
use pool_config::decode;
use sha2::{Digest, Sha256};
use std::alloc::Global;
use std::process::Abort;
use std::test::Fail;

const POOL: Guid = Guid(77);

const NAME: &[u8] = b"tank";

const OLDER: Group = Group(8);

const NEWER: Group = Group(9);

/// The sectors of each device, and where its labels begin.
const SECTORS: u64 = 320;

const LABELS: [u64; 4] = [0, 64, SECTORS - 128, SECTORS - 64];

/// The labels that a round writes first.
const EVEN: &[u64] = &[LABELS[0], LABELS[2]];

/// The members of the pool, each on its device.
const MEMBERS: [Member; 2] = [
    Member {
        dev: 0,
        guid: Guid(2),
    },
    Member {
        dev: 1,
        guid: Guid(3),
    },
];

/// Whole configurations, and no other bytes.
struct ConfigRule;

impl BlobRule for ConfigRule {
    ghost use Rattle.checks.specs.Heads.{head_of};

    ghost head_of = { head_of };

    fn reads(alloc: Global, bytes: &[u8]) -> Result<Option<Head>, MemFault> {
        Ok(decode(alloc, bytes)?.map(|config| Head {
            pool: config.pool,
            name: config.name,
            number: config.number,
        }))
    }
}

/// Any bytes, as if they told the pool and the newer number.
struct AnyRule;

impl BlobRule for AnyRule {
    ghost use Rattle.checks.specs.Heads.{newer_head};

    ghost head_of = { newer_head };

    fn reads(alloc: Global, _bytes: &[u8]) -> Result<Option<Head>, MemFault> {
        match Name::new(alloc, NAME) {
            Ok(name) => Ok(Some(Head {
                pool: POOL,
                name,
                number: NEWER,
            })),
            Err(_) => Err(MemFault),
        }
    }
}

/// A valid configuration of the older number.
fn older(alloc: Global) -> Result<Spelled, Fail> {
    let mut spelled = Spelled::new(alloc);
    spelled.head(&by_hand::Head {
        pool: POOL.0,
        name: NAME,
        blocks: 16,
        number: OLDER.0,
        next_guid: 4,
        birth: 0,
        top: 0,
        sector: 0,
        sum: 0,
    })?;
    spelled.count(1)?;
    spelled.number(64)?;
    spelled.inner(MIRROR, 1, 2)?;
    for (guid, name) in [(2, b"a"), (3, b"b")] {
        spelled.leaf(&Leaf {
            guid,
            name,
            flags: 0,
            log: &[],
        })?;
    }
    spelled.count(0)?;
    Ok(spelled)
}

/// The bytes, with zeros to the end of their last sector.
fn in_sectors(alloc: Global, bytes: &[u8]) -> Result<Vec<u8>, Fail> {
    let mut whole = Vec::from_slice(alloc, bytes)?;
    whole.resize(bytes.len().next_multiple_of(SECTOR_BYTES), 0)?;
    Ok(whole)
}

/// A bank of two devices behind a round of the older record on both. Where nothing was written bytes of 255 stand,
/// which are no uberblock by their number alone, so that no sum is made for them.
fn bank_of_older(rt: &impl Abort, alloc: Global) -> Result<MemBank, Fail> {
    let mut bank = MemBank::new(alloc);
    for name in [b"a", b"b"] {
        let first = vec![in alloc; 255; SECTORS as usize * SECTOR_BYTES]?;
        bank.add_image(Name::new(alloc, name)?, SECTORS, first, Vec::new(alloc))?;
    }
    let spelled = older(alloc)?;
    let blob = in_sectors(alloc, spelled.as_slice())?;
    let mut results = [false; 2];
    commit_record::<MemBank, ConfigRule>(
        &mut bank,
        &MEMBERS,
        POOL,
        OLDER,
        &blob,
        spelled.as_slice().len(),
        &mut results,
    );
    assert_eq!(rt; results, [true; 2]);
    Ok(bank)
}

/// Puts these bytes into the configuration parts of some labels of a member, and into all its rings the uberblock that
/// gives them the newer number, with their length and their sum. All of it is flushed.
fn put_newer(
    alloc: Global,
    bank: &mut MemBank,
    member: Member,
    newer: &[u8],
    into: &[u64],
) -> Result<(), Fail> {
    let part = in_sectors(alloc, newer)?;
    for at in into {
        bank.write(member.dev, at + 4, &part)?;
    }
    let mut sector = [0; SECTOR_BYTES];
    write_uberblock(
        &Uberblock {
            pool: POOL,
            member: member.guid,
            number: NEWER,
            length: newer.len() as u64,
            sum: Sha256::digest(newer),
        },
        &mut sector,
    );
    for at in LABELS {
        bank.write(member.dev, at + 32 + NEWER.0, &sector)?;
    }
    Ok(bank.flush(member.dev)?)
}

/// The newest record that the devices hold by this rule.
fn find<R: BlobRule>(
    alloc: Global,
    bank: &mut MemBank,
    devs: &[u32],
) -> Result<Option<Found>, Fail> {
    let name = Name::new(alloc, NAME)?;
    Ok(newest::<MemBank, R>(alloc, bank, devs, &name)?)
}

/// Whether the record of these bytes was found, with its number and its pool.
fn is_found(found: &Option<Found>, number: Group, bytes: &[u8]) -> bool {
    match found {
        Some(found) => {
            found.number == number && found.pool == POOL && found.blob.as_slice() == bytes
        }
        None => false,
    }
}

/// Whether the older record is found on these devices, and by a rule that takes any bytes the newer ones.
fn is_older_found(
    alloc: Global,
    bank: &mut MemBank,
    devs: &[u32],
    newer: &[u8],
) -> Result<bool, Fail> {
    let by_rule = find::<ConfigRule>(alloc, bank, devs)?;
    let by_sums = find::<AnyRule>(alloc, bank, devs)?;
    Ok(is_found(&by_rule, OLDER, older(alloc)?.as_slice()) && is_found(&by_sums, NEWER, newer))
}

/// Each change of a valid newer configuration, on one device with the older record: as a round leaves it that is
/// stopped before its third phase.
fn hide_nothing(rt: &impl Abort, alloc: Global, rows: &[Row]) -> Result<(), Fail> {
    let mut bank = bank_of_older(rt, alloc)?;
    let valid = two_leaves(alloc)?;
    for (what, at, put) in rows {
        let newer = changed(alloc, valid.as_slice(), *at, put)?;
        put_newer(alloc, &mut bank, MEMBERS[0], &newer, EVEN)?;
        assert!(rt; is_older_found(alloc, &mut bank, &[0], &newer)?, "{what}");
    }
    Ok(())
}

#[test]
fn a_newer_record_is_found_where_its_configuration_is_valid(rt: HostRuntime) -> Result<(), Fail> {
    let alloc = rt.alloc();
    let mut bank = bank_of_older(&rt, alloc)?;
    let old = older(alloc)?;
    let found = find::<ConfigRule>(alloc, &mut bank, &[0])?;
    assert!(rt; is_found(&found, OLDER, old.as_slice()));
    let valid = two_leaves(alloc)?;
    put_newer(alloc, &mut bank, MEMBERS[0], valid.as_slice(), EVEN)?;
    for devs in [[0, 1], [1, 0]] {
        let found = find::<ConfigRule>(alloc, &mut bank, &devs)?;
        assert!(rt; is_found(&found, NEWER, valid.as_slice()));
    }
    Ok(())
}

#[test]
fn heads_outside_the_rules_hide_no_older_record(rt: HostRuntime) -> Result<(), Fail> {
    hide_nothing(&rt, rt.alloc(), REFUSED_HEADS)
}

#[test]
fn vdevs_outside_the_rules_hide_no_older_record(rt: HostRuntime) -> Result<(), Fail> {
    hide_nothing(&rt, rt.alloc(), REFUSED_VDEVS)
}

#[test]
fn spares_outside_the_rules_hide_no_older_record(rt: HostRuntime) -> Result<(), Fail> {
    hide_nothing(&rt, rt.alloc(), REFUSED_SPARES)
}

#[test]
fn fronts_and_longer_bytes_hide_no_record_of_the_other_device(rt: HostRuntime) -> Result<(), Fail> {
    let alloc = rt.alloc();
    let mut bank = bank_of_older(&rt, alloc)?;
    let mut longer = two_leaves(alloc)?;
    longer.byte(0)?;
    for length in [1, 41, 93, 115, 179, 186, 188] {
        let newer = longer.as_slice().get(..length).unwrap_or(&[]);
        put_newer(alloc, &mut bank, MEMBERS[1], newer, &LABELS)?;
        for devs in [[0, 1], [1, 0]] {
            assert!(rt;
                is_older_found(alloc, &mut bank, &devs, newer)?,
                "{length} bytes"
            );
        }
    }
    Ok(())
}
