//! Sets of groups against lists of their groups.
use crate::built::{range, set_of};
use group_set::GroupSet;
use mp_base::{Group, GroupRange, MemFault};
use std::alloc::Global;
use std::test::Fail;

/// Its groups up to 30, in order.
fn listed(alloc: Global, set: &GroupSet) -> Result<Vec<u64>, MemFault> {
    let mut groups = Vec::new(alloc);
    for group in 0..31 {
        if set.contains(Group(group)) {
            groups.push(group)?;
        }
    }
    Ok(groups)
}

#[test]
fn runs_that_touch_become_one(rt: HostRuntime) -> Result<(), Fail> {
    let alloc = rt.alloc();
    let rows: [(&[(u64, u64)], &[u64], usize); 6] = [
        (&[], &[], 0),
        (&[(7, 7)], &[7], 1),
        (&[(9, 9), (1, 5)], &[1, 2, 3, 4, 5, 9], 2),
        (&[(3, 4), (7, 8), (5, 6)], &[3, 4, 5, 6, 7, 8], 1),
        (
            &[(9, 9), (2, 2), (5, 5), (1, 12)],
            &[1, 2, 3, 4, 5, 6, 7, 8, 9, 10, 11, 12],
            1,
        ),
        (&[(9, 9), (5, 5), (2, 2), (4, 6)], &[2, 4, 5, 6, 9], 3),
    ];
    for (runs, groups, ranges) in rows {
        let set = set_of(alloc, runs)?;
        assert_eq!(rt; listed(alloc, &set)?.as_slice(), groups);
        assert_eq!(rt; set.ranges(), ranges);
        assert_eq!(rt; set.least(), groups.first().map(|g| Group(*g)));
    }
    Ok(())
}

#[test]
fn changes_leave_the_groups_that_they_name(rt: HostRuntime) -> Result<(), Fail> {
    let alloc = rt.alloc();
    let set = set_of(alloc, &[(9, 10), (2, 4), (12, 12)])?;
    assert_eq!(rt; set.next_run(Group(0)), Some((Group(2), Group(4))));
    assert_eq!(rt; set.next_run(Group(3)), Some((Group(9), Group(10))));
    assert_eq!(rt; set.next_run(Group(13)), None);
    assert_eq!(rt; set.next_group(Group(3)), Some(Group(3)));
    assert_eq!(rt; set.next_group(Group(5)), Some(Group(9)));
    let mut front = set.copy()?;
    front.cut_from(Group(10));
    assert_eq!(rt; listed(alloc, &front)?.as_slice(), [2, 3, 4, 9].as_slice());
    let mut back = set.copy()?;
    back.cut_below(Group(10));
    assert_eq!(rt; listed(alloc, &back)?.as_slice(), [10, 12].as_slice());
    back.reserve(2)?;
    back.insert(Group(11));
    assert_eq!(rt; listed(alloc, &back)?.as_slice(), [10, 11, 12].as_slice());
    let mut both = front.copy()?;
    both.union(&back)?;
    assert_eq!(rt;
        listed(alloc, &both)?.as_slice(),
        [2, 3, 4, 9, 10, 11, 12].as_slice()
    );
    both.meet(&set)?;
    assert_eq!(rt;
        listed(alloc, &both)?.as_slice(),
        [2, 3, 4, 9, 10, 12].as_slice()
    );
    front.widen();
    assert_eq!(rt;
        listed(alloc, &front)?.as_slice(),
        [2, 3, 4, 5, 6, 7, 8, 9].as_slice()
    );
    back.reserve(9)?;
    back.widen();
    assert_eq!(rt; back.ranges(), 1);
    Ok(())
}

#[test]
fn what_all_sets_have(rt: HostRuntime) -> Result<(), Fail> {
    let alloc = rt.alloc();
    let first = set_of(alloc, &[(1, 5), (9, 9)])?;
    let second = set_of(alloc, &[(3, 10)])?;
    let third = set_of(alloc, &[(9, 20), (4, 5)])?;
    let all = GroupSet::covered_by_all(alloc, &[first, second, third])?;
    assert_eq!(rt; listed(alloc, &all)?.as_slice(), [4, 5, 9].as_slice());
    assert_eq!(rt; all.ranges(), 2);
    assert_eq!(rt; all.least(), Some(Group(4)));
    let mut same = set_of(alloc, &[(1, 1), (3, 3)])?;
    if all.ranges() <= same.ranges() {
        same.assign(&all);
    }
    assert_eq!(rt; listed(alloc, &same)?.as_slice(), [4, 5, 9].as_slice());
    Ok(())
}

#[test]
fn a_set_is_written_down_as_ranges_and_read_back(rt: HostRuntime) -> Result<(), Fail> {
    let alloc = rt.alloc();
    let rows: [(&[(u64, u64)], &[GroupRange]); 5] = [
        (&[], &[]),
        (&[(7, 7)], &[range(7, 7)]),
        (&[(9, 12), (1, 5)], &[range(1, 5), range(9, 12)]),
        (&[(7, 8), (3, 4), (5, 5)], &[range(3, 5), range(7, 8)]),
        (
            &[(1 << 62, 1 << 62), (5, 6), (3, 4)],
            &[range(3, 6), range(1 << 62, 1 << 62)],
        ),
    ];
    for (runs, written) in rows {
        let ranges = set_of(alloc, runs)?.to_ranges(alloc)?;
        assert_eq!(rt; ranges.as_slice(), written);
        let again = GroupSet::from_ranges(alloc, ranges.as_slice())?;
        assert_eq!(rt; again.to_ranges(alloc)?.as_slice(), written);
        assert_eq!(rt; again.ranges(), written.len());
    }
    let fresh = GroupSet::from_ranges(alloc, &[range(2, 4), range(6, 6)])?;
    assert_eq!(rt; listed(alloc, &fresh)?.as_slice(), [2, 3, 4, 6].as_slice());
    Ok(())
}
