//! Each rule of the fields of a configuration, broken in turn.
use super::by_hand::{Head, Leaf, MIRROR, Spelled};
use pool_config::{decode, encode};
use std::alloc::Global;
use std::process::Abort;
use std::test::Fail;

/// A mirror of two leaves, the first with two ranges, and two spares. Where its fields begin:
///
/// | at | field | at | field | at | field |
/// |---|---|---|---|---|---|
/// | 0 | version | 93 | tops | 127 | the first leaf's ranges |
/// | 4 | pool | 97 | sectors | 131, 139 | its first range, 5 to 7 |
/// | 12 | name, `tank` | 105 | the mirror's kind | 147, 155 | its second range, 9 to 9 |
/// | 17 | blocks | 106 | its number, 1 | 163 | the second leaf's kind |
/// | 25 | number, 9 | 114 | its children | 164 | its number, 3 |
/// | 33 | next member number, 4 | 115 | the first leaf's kind | 172 | its name, `b` |
/// | 41 | the root's birth, 9 | 116 | its number, 2 | 174 | its flags |
/// | 49 | its top | 124 | its name, `a` | 175 | its ranges |
/// | 53 | its sector, 63 | 126 | its flags | 179 | spares |
/// | 61 | its sum | | | 183, 185 | `s` and `t` |
pub(crate) fn two_leaves(alloc: Global) -> Result<Spelled, Fail> {
    let mut spelled = Spelled::new(alloc);
    spelled.head(&Head {
        pool: 77,
        name: b"tank",
        blocks: 16,
        number: 9,
        next_guid: 4,
        birth: 9,
        top: 0,
        sector: 63,
        sum: 0xee,
    })?;
    spelled.count(1)?;
    spelled.number(64)?;
    spelled.inner(MIRROR, 1, 2)?;
    spelled.leaf(&Leaf {
        guid: 2,
        name: b"a",
        flags: 0,
        log: &[(5, 7), (9, 9)],
    })?;
    spelled.leaf(&Leaf {
        guid: 3,
        name: b"b",
        flags: 9,
        log: &[],
    })?;
    spelled.count(2)?;
    spelled.text(b"s")?;
    spelled.text(b"t")?;
    Ok(spelled)
}

/// What is said of a change, the place of the bytes that are put instead, and these.
pub(crate) type Row = (&'static str, usize, &'static [u8]);

pub(crate) const REFUSED_HEADS: &[Row] = &[
    ("version 0", 3, &[0]),
    ("version 2", 3, &[2]),
    ("version 2^24 + 1", 0, &[1]),
    ("a name with a capital", 13, b"T"),
    ("a name that begins with a dash", 13, b"-"),
    ("an empty name", 12, &[0]),
    ("a name that is a byte longer", 12, &[5]),
    ("no blocks", 17, &[0, 0, 0, 0, 0, 0, 0, 0]),
    ("262,145 blocks", 17, &[0, 0, 0, 0, 0, 4, 0, 1]),
    ("2^32 blocks", 20, &[1]),
    ("number 0", 25, &[0, 0, 0, 0, 0, 0, 0, 0]),
    ("number 2^62 + 1", 25, &[0x40, 0, 0, 0, 0, 0, 0, 1]),
    (
        "next member number 2^62 + 1",
        33,
        &[0x40, 0, 0, 0, 0, 0, 0, 1],
    ),
    ("next member number of the last leaf", 40, &[3]),
    ("next member number 0", 40, &[0]),
    ("a birth above the number", 48, &[10]),
    ("a place that was born in no group", 48, &[0]),
    ("a top that isn't there", 52, &[1]),
    ("a sector behind the top's", 60, &[64]),
    ("a sector far behind the top's", 53, &[1]),
    ("no top", 96, &[0]),
    ("a top that is missing", 96, &[2]),
    ("9 tops", 96, &[9]),
    ("63 sectors", 104, &[63]),
    ("1,048,321 sectors", 97, &[0, 0, 0, 0, 0, 15, 255, 1]),
];

pub(crate) const REFUSED_VDEVS: &[Row] = &[
    ("a top of kind leaf", 105, &[0]),
    ("a top that replaces", 105, &[2]),
    ("a top of kind spare", 105, &[3]),
    ("a vdev of kind 4", 105, &[4]),
    ("member number 0", 113, &[0]),
    ("a mirror of a leaf's number", 113, &[2]),
    ("a mirror of the next number", 113, &[4]),
    ("a mirror of no child", 114, &[0]),
    ("a mirror of one child before two", 114, &[1]),
    ("a mirror whose third child is missing", 114, &[3]),
    ("a leaf of the other's number", 123, &[3]),
    ("a leaf of number 2^63", 116, &[128]),
    ("a leaf that is a mirror", 115, &[1]),
    ("a leaf of kind 255", 115, &[255]),
    ("a device of no name", 125, b"A"),
    ("two leaves of one device", 125, b"b"),
    ("flags of OFFLINE and FAULTED", 126, &[3]),
    ("flags of OFFLINE and DEGRADED", 126, &[5]),
    ("flags of FAULTED and DEGRADED", 126, &[6]),
    ("flags of all three", 126, &[7]),
    ("flags of two and the mark", 126, &[11]),
    ("a flag that there isn't", 126, &[16]),
    ("the highest flag", 126, &[128]),
    ("a range fewer than are there", 130, &[1]),
    ("a range more than are there", 130, &[3]),
    ("2^24 ranges more", 127, &[1]),
    ("a range from 0", 138, &[0]),
    ("a range from 2^63", 131, &[128]),
    ("a range that ends before it begins", 146, &[4]),
    ("ranges that touch", 154, &[8]),
    ("ranges that overlap", 154, &[7]),
    ("a range above the number", 162, &[10]),
    ("a range from above the number", 147, &[1]),
];

pub(crate) const REFUSED_SPARES: &[Row] = &[
    ("a spare fewer than are there", 182, &[1]),
    ("a spare more than are there", 182, &[3]),
    ("no spare, and two names", 182, &[0]),
    ("17 spares", 182, &[17]),
    ("a spare of no name", 184, b"S"),
    ("a spare twice", 186, b"s"),
    ("an empty name of a spare", 185, &[0]),
];

const VALID: &[Row] = &[
    ("as it is", 0, &[]),
    ("pool number 0", 11, &[0]),
    ("the highest pool number", 4, &[255; 8]),
    ("a name of digits and signs", 13, b"0_.-"),
    ("one block", 24, &[1]),
    ("262,144 blocks", 17, &[0, 0, 0, 0, 0, 4, 0, 0]),
    ("number 2^62", 25, &[0x40, 0, 0, 0, 0, 0, 0, 0]),
    ("next member number 2^62", 33, &[0x40, 0, 0, 0, 0, 0, 0, 0]),
    ("a root of birth 1", 48, &[1]),
    ("a root in sector 0", 60, &[0]),
    ("a root whose sum is zeros", 61, &[0; 32]),
    ("a hole", 41, &[0; 52]),
    ("1,048,320 sectors", 97, &[0, 0, 0, 0, 0, 15, 255, 0]),
    ("OFFLINE", 126, &[1]),
    ("FAULTED", 126, &[2]),
    ("DEGRADED", 126, &[4]),
    ("marked", 126, &[8]),
    ("FAULTED and marked", 126, &[10]),
    ("DEGRADED and marked", 126, &[12]),
    ("a range of one group", 138, &[7]),
    ("a range from 1", 138, &[1]),
    ("a spare that is a leaf", 184, b"a"),
];

/// The bytes with others put in at a place.
pub(crate) fn changed(alloc: Global, bytes: &[u8], at: usize, put: &[u8]) -> Result<Vec<u8>, Fail> {
    let mut changed = Vec::from_slice(alloc, bytes)?;
    for (i, byte) in put.iter().enumerate() {
        let place = at.saturating_add(i);
        if place < changed.len() {
            changed[place] = *byte;
        }
    }
    Ok(changed)
}

fn are_refused(rt: &impl Abort, alloc: Global, rows: &[Row]) -> Result<(), Fail> {
    let valid = two_leaves(alloc)?;
    for (what, at, put) in rows {
        let bytes = changed(alloc, valid.as_slice(), *at, put)?;
        assert!(rt; decode(alloc, &bytes)?.is_none(), "{what}");
    }
    Ok(())
}

#[test]
fn heads_outside_the_rules_are_no_configurations(rt: HostRuntime) -> Result<(), Fail> {
    are_refused(&rt, rt.alloc(), REFUSED_HEADS)
}

#[test]
fn vdevs_outside_the_rules_are_no_configurations(rt: HostRuntime) -> Result<(), Fail> {
    are_refused(&rt, rt.alloc(), REFUSED_VDEVS)
}

#[test]
fn spares_outside_the_rules_are_no_configurations(rt: HostRuntime) -> Result<(), Fail> {
    are_refused(&rt, rt.alloc(), REFUSED_SPARES)
}

#[test]
fn what_the_rules_allow_is_read_and_written_again(rt: HostRuntime) -> Result<(), Fail> {
    let alloc = rt.alloc();
    let valid = two_leaves(alloc)?;
    for (what, at, put) in VALID {
        let bytes = changed(alloc, valid.as_slice(), *at, put)?;
        let Some(read) = decode(alloc, &bytes)? else {
            return Err(Fail::from(*what));
        };
        assert_eq!(rt;
            encode(alloc, &read)?.as_slice(),
            bytes.as_slice(),
            "{what}"
        );
    }
    Ok(())
}

#[test]
fn no_front_of_a_configuration_and_nothing_behind_it_is_one(rt: HostRuntime) -> Result<(), Fail> {
    let alloc = rt.alloc();
    let mut valid = two_leaves(alloc)?;
    assert_eq!(rt; valid.as_slice().len(), 187);
    for (length, _) in valid.as_slice().iter().enumerate() {
        let front = valid.as_slice().get(..length).unwrap_or(&[]);
        assert!(rt; decode(alloc, front)?.is_none(), "{length} bytes");
    }
    valid.byte(0)?;
    assert!(rt; decode(alloc, valid.as_slice())?.is_none());
    Ok(())
}
