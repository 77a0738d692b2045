//! Which trees a configuration may have, how many of each thing, and what may stand in it twice.
use super::by_hand::{Head, LEAF, Leaf, MIRROR, REPLACING, SPARE, Spelled};
use crate::built::scattered;
use pool_config::decode;
use std::alloc::Global;
use std::test::Fail;

/// A vdev's kind and how many children it has.
type Shape = (u8, u8);

const L: Shape = (LEAF, 0);

const ONE: Shape = (MIRROR, 1);

/// Vdevs in tree order, and whether they are the tree of a top.
const TREES: &[(&[Shape], bool)] = &[
    (&[ONE, L], true),
    (&[(MIRROR, 2), L, L], true),
    (&[(MIRROR, 8), L, L, L, L, L, L, L, L], true),
    (&[(MIRROR, 9), L, L, L, L, L, L, L, L, L], false),
    (&[(MIRROR, 0)], false),
    (&[L], false),
    (&[(REPLACING, 2), L, L], false),
    (&[(SPARE, 2), L, L], false),
    (&[ONE, (REPLACING, 2), L, L], true),
    (&[ONE, (REPLACING, 0)], false),
    (&[ONE, (REPLACING, 1), L], false),
    (&[ONE, (REPLACING, 3), L, L, L], false),
    (&[ONE, (SPARE, 2), L, L], true),
    (&[ONE, (SPARE, 3), L, L, L], true),
    (&[ONE, (SPARE, 0)], false),
    (&[ONE, (SPARE, 1), L], false),
    (&[ONE, (SPARE, 4), L, L, L, L], false),
    (&[ONE, (SPARE, 2), (REPLACING, 2), L, L, L], true),
    (&[ONE, (SPARE, 3), (REPLACING, 2), L, L, L, L], true),
    (&[ONE, (SPARE, 2), (REPLACING, 1), L, L], false),
    (&[ONE, (SPARE, 2), L, (REPLACING, 2), L, L], false),
    (&[ONE, (SPARE, 2), (SPARE, 2), L, L, L], false),
    (&[ONE, (SPARE, 2), (MIRROR, 2), L, L, L], false),
    (&[ONE, (REPLACING, 2), (SPARE, 2), L, L, L], false),
    (&[ONE, (REPLACING, 2), L, (REPLACING, 2), L, L], false),
    (&[ONE, ONE, L], false),
    (&[(MIRROR, 2), L, ONE, L], false),
    (&[ONE, (4, 2), L, L], false),
    (&[ONE, (255, 2), L, L], false),
    (&[(MIRROR, 2), L], false),
    (&[ONE, L, L], false),
    (&[(MIRROR, 255), L], false),
];

/// The names of devices.
const LETTERS: &[u8] = b"0123456789abcdefghijklmnopqrstuvwxyz";

/// Vdevs that are spelled one after the other. They are numbered from 1, and the leaves' devices have one
/// letter each.
#[derive(Drop)]
struct Vdevs {
    spelled: Spelled,
    guid: u64,
    leaves: usize,
}

/// Of which vdev the number is another's, and of which leaf the device is.
#[derive(Clone, Copy)]
struct Twice {
    guid: Option<(u64, u64)>,
    device: Option<(usize, usize)>,
}

const ONCE: Twice = Twice {
    guid: None,
    device: None,
};

impl Vdevs {
    fn number(&self, twice: Twice) -> u64 {
        match twice.guid {
            Some((at, other)) if at == self.guid => other,
            _ => self.guid,
        }
    }

    fn name(&self, twice: Twice) -> &'static [u8] {
        let letter = match twice.device {
            Some((at, other)) if at == self.leaves => other,
            _ => self.leaves,
        };
        LETTERS
            .get(letter..)
            .and_then(|rest| rest.get(..1))
            .unwrap_or(&[])
    }

    fn put(&mut self, shape: Shape, twice: Twice, log: &[(u64, u64)]) -> Result<(), Fail> {
        let guid = self.number(twice);
        if shape.0 == LEAF {
            let name = self.name(twice);
            self.spelled.leaf(&Leaf {
                guid,
                name,
                flags: 0,
                log,
            })?;
            self.leaves = self.leaves.saturating_add(1);
        } else {
            self.spelled.inner(shape.0, guid, shape.1)?;
        }
        self.guid = self.guid.saturating_add(1);
        Ok(())
    }
}

/// The head of a configuration of few vdevs and this many tops.
fn head(alloc: Global, tops: usize) -> Result<Vdevs, Fail> {
    let mut spelled = Spelled::new(alloc);
    spelled.head(&Head {
        pool: 1,
        name: b"p",
        blocks: 1,
        number: 20_000,
        next_guid: 100,
        birth: 0,
        top: 0,
        sector: 0,
        sum: 0,
    })?;
    spelled.count(u32::try_from(tops)?)?;
    Ok(Vdevs {
        spelled,
        guid: 1,
        leaves: 0,
    })
}

/// Whether these are a configuration, without spares.
fn is_read(alloc: Global, mut vdevs: Vdevs) -> Result<bool, Fail> {
    vdevs.spelled.count(0)?;
    Ok(decode(alloc, vdevs.spelled.as_slice())?.is_some())
}

fn has_tree(alloc: Global, tree: &[Shape]) -> Result<bool, Fail> {
    let mut vdevs = head(alloc, 1)?;
    vdevs.spelled.number(64)?;
    for shape in tree {
        vdevs.put(*shape, ONCE, &[])?;
    }
    is_read(alloc, vdevs)
}

#[test]
fn a_top_has_the_tree_of_a_mirror(rt: HostRuntime) -> Result<(), Fail> {
    for (tree, valid) in TREES {
        assert_eq!(rt; has_tree(rt.alloc(), tree)?, *valid, "{tree:?}");
    }
    Ok(())
}

/// Mirrors of so many leaves each.
fn has_mirrors(alloc: Global, children: &[u8], twice: Twice) -> Result<bool, Fail> {
    let mut vdevs = head(alloc, children.len())?;
    for count in children {
        vdevs.spelled.number(64)?;
        vdevs.put((MIRROR, *count), twice, &[])?;
        for _ in 0..*count {
            vdevs.put(L, twice, &[])?;
        }
    }
    is_read(alloc, vdevs)
}

#[test]
fn there_are_at_most_8_tops_and_32_leaves(rt: HostRuntime) -> Result<(), Fail> {
    let rows: [(&[u8], bool); 7] = [
        (&[1; 8], true),
        (&[1; 9], false),
        (&[4; 8], true),
        (&[4, 4, 4, 4, 4, 4, 4, 5], false),
        (&[8; 4], true),
        (&[8, 8, 8, 8, 1], false),
        (&[], false),
    ];
    for (children, valid) in rows {
        assert_eq!(rt;
            has_mirrors(rt.alloc(), children, ONCE)?,
            valid,
            "{children:?}"
        );
    }
    Ok(())
}

#[test]
fn no_number_and_no_device_stands_in_two_tops(rt: HostRuntime) -> Result<(), Fail> {
    let guids = [(4, 1), (4, 2), (5, 1), (6, 3), (1, 6), (5, 4)];
    for guid in guids {
        let twice = Twice {
            guid: Some(guid),
            device: None,
        };
        assert!(rt; !has_mirrors(rt.alloc(), &[2, 2], twice)?, "{guid:?}");
    }
    for device in [(1, 0), (2, 0), (3, 0), (3, 1), (3, 2), (0, 3)] {
        let twice = Twice {
            guid: None,
            device: Some(device),
        };
        assert!(rt; !has_mirrors(rt.alloc(), &[2, 2], twice)?, "{device:?}");
    }
    assert!(rt; has_mirrors(rt.alloc(), &[2, 2], ONCE)?);
    Ok(())
}

/// A mirror of leaves whose logs have so many ranges.
fn has_logs(alloc: Global, logs: &[u64]) -> Result<bool, Fail> {
    let mut vdevs = head(alloc, 1)?;
    vdevs.spelled.number(64)?;
    vdevs.put((MIRROR, u8::try_from(logs.len())?), ONCE, &[])?;
    for count in logs {
        vdevs.put(L, ONCE, &scattered(alloc, *count)?)?;
    }
    is_read(alloc, vdevs)
}

#[test]
fn all_logs_together_have_at_most_4096_ranges(rt: HostRuntime) -> Result<(), Fail> {
    let rows: [(&[u64], bool); 6] = [
        (&[512; 8], true),
        (&[512, 512, 512, 512, 512, 512, 512, 513], false),
        (&[1024, 1024, 1024, 1024, 1], false),
        (&[4096], true),
        (&[4096, 1], false),
        (&[4097], false),
    ];
    for (logs, valid) in rows {
        assert_eq!(rt; has_logs(rt.alloc(), logs)?, valid, "{logs:?}");
    }
    Ok(())
}

/// A mirror of one leaf, and so many spares.
fn has_spares(alloc: Global, count: usize) -> Result<bool, Fail> {
    let mut vdevs = head(alloc, 1)?;
    vdevs.spelled.number(64)?;
    vdevs.put(ONE, ONCE, &[])?;
    vdevs.put(L, ONCE, &[])?;
    vdevs.spelled.count(u32::try_from(count)?)?;
    for i in 0..count {
        vdevs.spelled.text(
            LETTERS
                .get(i..)
                .and_then(|rest| rest.get(..1))
                .unwrap_or(&[]),
        )?;
    }
    Ok(decode(alloc, vdevs.spelled.as_slice())?.is_some())
}

#[test]
fn there_are_at_most_16_spares(rt: HostRuntime) -> Result<(), Fail> {
    for (count, valid) in [(0, true), (1, true), (16, true), (17, false), (30, false)] {
        assert_eq!(rt; has_spares(rt.alloc(), count)?, valid, "{count} spares");
    }
    Ok(())
}
