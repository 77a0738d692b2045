//! A configuration of 32 leaves in 8 tops with 4,096 ranges and 16 spares, all of whose names and numbers are
//! as long as they may be.
use super::by_hand::{Head, LEAF, Leaf, MIRROR, REPLACING, SPARE, Spelled};
use pool_config::{Config, PART_BYTES, decode, encode_into};
use std::alloc::Global;
use std::test::Fail;

const TOPS: u64 = 8;

const SPARES: u8 = 16;

const LAST: u64 = 1 << 62;

/// The ranges of each of the 32 leaves.
const RANGES: u64 = 128;

/// The vdevs of each top: a spare vdev over a replacing one, and a leaf.
const TREE: [(u8, u8); 7] = [
    (MIRROR, 2),
    (SPARE, 2),
    (REPLACING, 2),
    (LEAF, 0),
    (LEAF, 0),
    (LEAF, 0),
    (LEAF, 0),
];

/// 153 bytes before the tops' number and 4 of it; for each top 8 of its sectors and 10 for each of its inner
/// vdevs; 79 for each leaf and 16 for each range; 4 of the spares' number and 65 for each spare.
const BYTES: usize = 153 + 4 + 8 * (8 + 3 * 10) + 32 * 79 + 4_096 * 16 + 4 + 16 * 65;

/// A name of 64 bytes of which the first tells a place.
fn long_name(place: u8) -> [u8; 64] {
    let mut name = [b'z'; 64];
    name[0] = b'a' + place % 16;
    name[63] = b'0' + place / 16 % 10;
    name
}

/// Ranges of one group each, the last of which is the last group that there is.
fn log_up_to_the_last(alloc: Global) -> Result<Vec<(u64, u64)>, Fail> {
    let mut log = Vec::new(alloc);
    for i in 0..RANGES {
        let group = LAST.saturating_sub(
            RANGES.saturating_sub(i).saturating_sub(1).saturating_mul(2),
        );
        log.push((group, group))?;
    }
    Ok(log)
}

fn put_top(spelled: &mut Spelled, top: u64, log: &[(u64, u64)]) -> Result<(), Fail> {
    spelled.number(1_048_320)?;
    let mut leaves = top.saturating_mul(4);
    for (place, (kind, children)) in TREE.into_iter().enumerate() {
        let drawn = top
            .saturating_mul(7)
            .saturating_add(place as u64)
            .saturating_add(1);
        let guid = LAST.saturating_sub(drawn);
        if kind != LEAF {
            spelled.inner(kind, guid, children)?;
            continue;
        }
        spelled.leaf(&Leaf {
            guid,
            name: &long_name(u8::try_from(leaves)?),
            flags: 12,
            log,
        })?;
        leaves = leaves.saturating_add(1);
    }
    Ok(())
}

fn largest(alloc: Global) -> Result<Spelled, Fail> {
    let mut spelled = Spelled::new(alloc);
    spelled.head(&Head {
        pool: u64::MAX,
        name: &long_name(0),
        blocks: 262_144,
        number: LAST,
        next_guid: LAST,
        birth: LAST,
        top: 7,
        sector: 1_048_319,
        sum: 255,
    })?;
    let log = log_up_to_the_last(alloc)?;
    spelled.count(TOPS as u32)?;
    for top in 0..TOPS {
        put_top(&mut spelled, top, &log)?;
    }
    spelled.count(u32::from(SPARES))?;
    for place in 0..SPARES {
        spelled.text(&long_name(place))?;
    }
    Ok(spelled)
}

/// Writes the configuration into a part that is full of one byte.
fn written(alloc: Global, config: &Config, before: u8) -> Result<(Vec<u8>, usize), Fail> {
    let mut part = vec![in alloc; before; PART_BYTES]?;
    let length = encode_into(
        config.pool,
        &config.name,
        config.blocks,
        config.number,
        config.next_guid,
        &config.root,
        &config.tops,
        &config.spares,
        &mut part,
    );
    Ok((part, length))
}

#[test]
fn the_largest_is_read_and_written_into_a_part_again(rt: HostRuntime) -> Result<(), Fail> {
    let alloc = rt.alloc();
    let spelled = largest(alloc)?;
    let bytes = spelled.as_slice();
    assert_eq!(rt; bytes.len(), BYTES);
    assert!(rt; BYTES < 72_000);
    let Some(config) = decode(alloc, bytes)? else {
        return Err(Fail::from("the largest configuration isn't read"));
    };
    let (part, length) = written(alloc, &config, 0xa5)?;
    assert_eq!(rt; length, BYTES);
    let sectors = BYTES.next_multiple_of(4_096);
    assert!(rt; part.get(..BYTES) == Some(bytes));
    assert!(rt;
        part.get(BYTES..sectors)
            .unwrap_or(&[1])
            .iter()
            .all(|byte| *byte == 0)
    );
    assert!(rt;
        part.get(sectors..)
            .unwrap_or(&[])
            .iter()
            .all(|byte| *byte == 0xa5)
    );
    Ok(())
}

/// Bytes at the edges of its fields: what they are, where, and which.
const EDGES: &[(&str, usize, &[u8])] = &[
    (
        "version and pool",
        0,
        b"\0\0\0\x01\xff\xff\xff\xff\xff\xff\xff\xff\x40az",
    ),
    ("blocks", 77, b"\0\0\0\0\0\x04\0\0"),
    (
        "number and next member number",
        85,
        b"\x40\0\0\0\0\0\0\0\x40\0\0\0\0\0\0\0",
    ),
    (
        "root pointer",
        101,
        b"\x40\0\0\0\0\0\0\0\0\0\0\x07\0\0\0\0\0\x0f\xfe\xff\xff",
    ),
    ("tops and sectors", 153, b"\0\0\0\x08\0\0\0\0\0\x0f\xff\0"),
    (
        "mirror",
        165,
        b"\x01\x3f\xff\xff\xff\xff\xff\xff\xff\x02\x03",
    ),
    ("leaf", 195, b"\0\x3f\xff\xff\xff\xff\xff\xff\xfc\x40a"),
    (
        "flags and log",
        269,
        b"\x0c\0\0\0\x80\x3f\xff\xff\xff\xff\xff\xff\x02",
    ),
    (
        "last range",
        BYTES - 1_060,
        b"\x40\0\0\0\0\0\0\0\x40\0\0\0\0\0\0\0",
    ),
    ("spares", BYTES - 1_044, b"\0\0\0\x10\x40az"),
    ("last spare", BYTES - 65, b"\x40pz"),
    ("end", BYTES - 2, b"z0\0\0"),
];

#[test]
fn the_largest_is_spelled_so_at_its_edges(rt: HostRuntime) -> Result<(), Fail> {
    let alloc = rt.alloc();
    let spelled = largest(alloc)?;
    let config = decode(alloc, spelled.as_slice())?.ok_or("it isn't read")?;
    let (part, _) = written(alloc, &config, 0)?;
    for (what, at, bytes) in EDGES {
        let there = part.get(*at..).unwrap_or(&[]);
        assert!(rt; there.starts_with(bytes), "{what}");
    }
    Ok(())
}
