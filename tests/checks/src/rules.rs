//! The rules on trees that are built by hand.
use crate::built::{inner, leaf, member, range, scattered};
use dtl_rules::{Extent, LogKind, ROOT, fit, fit_one, logs_of, required};
use group_set::GroupSet;
use mp_base::{Group, Guid, MemFault};
use std::alloc::Global;
use std::test::Fail;
use vdev_tree::{Kind, State, Top, Vdev};

/// A mirror of a (number 2) and b (number 3).
fn pair(
    alloc: Global,
    a: State,
    a_owes: &[(u64, u64)],
    b: State,
    b_owes: &[(u64, u64)],
) -> Result<Top, Fail> {
    let a = leaf(alloc, 2, b"a", a, a_owes)?;
    let b = leaf(alloc, 3, b"b", b, b_owes)?;
    Ok(Top::new(inner(1, Kind::Mirror, vec![in alloc; a, b]?), 500).ok_or("no top")?)
}

/// The mirror of a spare vdev (4), in which n (6) takes over from a (2) and the spare s (5) stands in, and
/// of b (3). Both new leaves lack group 1.
fn spared(alloc: Global, a: State) -> Result<Top, Fail> {
    let up = State::Online;
    let old = leaf(alloc, 2, b"a", a, &[])?;
    let new = leaf(alloc, 6, b"n", up, &[(1, 1)])?;
    let replacing = inner(7, Kind::Replacing, vec![in alloc; old, new]?);
    let stands_in = leaf(alloc, 5, b"s", up, &[(1, 1)])?;
    let spare = inner(4, Kind::Spare, vec![in alloc; replacing, stands_in]?);
    let b = leaf(alloc, 3, b"b", up, &[])?;
    Ok(Top::new(inner(1, Kind::Mirror, vec![in alloc; spare, b]?), 500).ok_or("no top")?)
}

/// Whether the log of the mirror has group 1, 4, 5, 7 and 8.
fn seen(alloc: Global, top: &Top, kind: LogKind) -> Result<[bool; 5], MemFault> {
    let log = logs_of(alloc, &top.mirror, kind)?;
    Ok([
        has(&log, 1),
        has(&log, 4),
        has(&log, 5),
        has(&log, 7),
        has(&log, 8),
    ])
}

fn has(log: &Extent, group: u64) -> bool {
    match log {
        Extent::All => true,
        Extent::Set(set) => set.contains(Group(group)),
    }
}

#[test]
fn a_group_that_one_leaf_alone_has_makes_it_required(rt: HostRuntime) -> Result<(), Fail> {
    let alloc = rt.alloc();
    let up = State::Online;
    let rows: [(State, &[(u64, u64)], Option<Group>); 5] = [
        (State::Offline, &[(5, 7)], Some(Group(1))),
        (up, &[(5, 7)], Some(Group(5))),
        (State::Degraded, &[(9, 9), (6, 6)], Some(Group(6))),
        (State::Faulted, &[], Some(Group(1))),
        (up, &[], None),
    ];
    for (a, a_owes, answer) in rows {
        let top = pair(alloc, a, a_owes, up, &[])?;
        assert_eq!(rt; required(&top, Guid(3)), answer);
        assert_eq!(rt; required(&top, Guid(2)), None);
        assert_eq!(rt; required(&top, Guid(1)), Some(Group(1)));
        assert_eq!(rt; required(&top, ROOT), Some(Group(1)));
    }
    Ok(())
}

#[test]
fn the_whole_top_counts(rt: HostRuntime) -> Result<(), Fail> {
    let alloc = rt.alloc();
    let whole = spared(alloc, State::Online)?;
    assert_eq!(rt; required(&whole, Guid(2)), None);
    assert_eq!(rt; required(&whole, Guid(3)), None);
    let away = spared(alloc, State::Offline)?;
    assert_eq!(rt; required(&away, Guid(3)), Some(Group(1)));
    assert_eq!(rt; required(&away, Guid(4)), None);
    assert_eq!(rt; required(&away, Guid(6)), None);
    assert_eq!(rt;
        seen(alloc, &away, LogKind::Partial)?,
        [true, false, false, false, false]
    );
    assert_eq!(rt; seen(alloc, &away, LogKind::Outage)?, [false; 5]);
    Ok(())
}

#[test]
fn the_logs_of_a_mirror(rt: HostRuntime) -> Result<(), Fail> {
    let alloc = rt.alloc();
    let up = State::Online;
    let both = pair(alloc, up, &[(4, 7)], State::Degraded, &[(7, 8)])?;
    assert_eq!(rt;
        seen(alloc, &both, LogKind::Partial)?,
        [false, true, true, true, true]
    );
    assert_eq!(rt;
        seen(alloc, &both, LogKind::Missing)?,
        [false, false, false, true, false]
    );
    let one = pair(alloc, State::Removed, &[], up, &[(4, 5)])?;
    assert_eq!(rt;
        seen(alloc, &one, LogKind::Partial)?,
        [false, true, true, false, false]
    );
    assert_eq!(rt;
        seen(alloc, &one, LogKind::Outage)?,
        [false, true, true, false, false]
    );
    let none = pair(alloc, State::Unavail, &[], State::Offline, &[])?;
    assert_eq!(rt; seen(alloc, &none, LogKind::Missing)?, [true; 5]);
    Ok(())
}

/// This many groups, no two of which touch.
fn scattered_set(alloc: Global, count: u64) -> Result<GroupSet, MemFault> {
    let mut alone = Vec::new(alloc);
    for (low, high) in &scattered(alloc, count)? {
        alone.push(range(*low, *high))?;
    }
    GroupSet::from_ranges(alloc, &alone)
}

/// A mirror of a (number 2) and b (number 3), whose logs have this many ranges.
fn scattered_pair(alloc: Global, a: u64, b: u64) -> Result<Top, Fail> {
    let up = State::Online;
    let mut first = member(alloc, 2, b"a", up, &[])?;
    let mut second = member(alloc, 3, b"b", up, &[])?;
    first.log = scattered_set(alloc, a)?;
    second.log = scattered_set(alloc, b)?;
    let leaves = vec![in alloc; Vdev::Leaf(first), Vdev::Leaf(second)]?;
    Ok(Top::new(inner(1, Kind::Mirror, leaves), 500).ok_or("no top")?)
}

/// How many ranges the logs of the mirror's leaves have.
fn ranges(alloc: Global, top: &Top) -> Result<Vec<usize>, MemFault> {
    let mut counts = Vec::new(alloc);
    if let Vdev::Inner(inner) = &top.mirror {
        for child in &inner.children {
            if let Vdev::Leaf(leaf) = child {
                counts.push(leaf.log.ranges())?;
            }
        }
    }
    Ok(counts)
}

#[test]
fn the_largest_log_becomes_one_range(rt: HostRuntime) -> Result<(), Fail> {
    let alloc = rt.alloc();
    let rows: [(u64, u64, [usize; 2]); 4] = [
        (4000, 97, [1, 97]),
        (97, 4000, [97, 1]),
        (4000, 96, [4000, 96]),
        (2100, 2100, [1, 2100]),
    ];
    for (a, b, left) in rows {
        let mut tops = [scattered_pair(alloc, a, b)?];
        fit(&mut tops);
        assert_eq!(rt; ranges(alloc, &tops[0])?.as_slice(), left.as_slice());
        let mut top = scattered_pair(alloc, a, b)?;
        fit_one(&mut top);
        assert_eq!(rt; ranges(alloc, &top)?.as_slice(), left.as_slice());
    }
    Ok(())
}
