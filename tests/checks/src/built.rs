//! Ranges, sets of groups and trees that are built by hand.
ghost use Rattle.std.specs.Prelude.{◌≡◌};

use group_set::GroupSet;
use mp_base::{Group, GroupRange, Guid, MemFault, Name};
use std::alloc::{AllocError, Global};
use std::test::Fail;
use vdev_tree::{Counts, InnerVdev, Kind, LeafVdev, State, Vdev};

pub fn range(low: u64, high: u64) -> GroupRange
    ensures low { result.low.0 ≡ low }
    ensures high { result.high.0 ≡ high }
{
    GroupRange {
        low: Group(low),
        high: Group(high),
    }
}

/// So many runs of one group each, with one group between two.
pub fn scattered(alloc: Global, count: u64) -> Result<Vec<(u64, u64)>, AllocError> {
    let mut runs = Vec::new(alloc);
    for i in 0..count {
        let group = i.saturating_mul(2).saturating_add(1);
        runs.push((group, group))?;
    }
    Ok(runs)
}

/// The set into which these runs were put, one after the other.
pub fn set_of(alloc: Global, runs: &[(u64, u64)]) -> Result<GroupSet, MemFault> {
    let mut set = GroupSet::new(alloc);
    for (low, high) in runs {
        if 1 <= *low && *low <= *high && *high <= 1 << 62 {
            set.reserve(1)?;
            set.insert_range(Group(*low), Group(*high));
        }
    }
    Ok(set)
}

/// A leaf that owes these runs.
pub fn member(
    alloc: Global,
    number: u64,
    name: &[u8],
    state: State,
    owes: &[(u64, u64)],
) -> Result<LeafVdev, Fail> {
    Ok(LeafVdev {
        guid: Guid(number),
        name: Name::new(alloc, name)?,
        dev: None,
        state,
        log: set_of(alloc, owes)?,
        settled: GroupSet::new(alloc),
        marked: false,
        temporary: false,
        counts: Counts {
            reads: 0,
            writes: 0,
            mismatches: 0,
        },
    })
}

/// The same as a vdev.
pub fn leaf(
    alloc: Global,
    number: u64,
    name: &[u8],
    state: State,
    owes: &[(u64, u64)],
) -> Result<Vdev, Fail> {
    Ok(Vdev::Leaf(member(alloc, number, name, state, owes)?))
}

/// An inner vdev over these children.
pub fn inner(number: u64, kind: Kind, children: Vec<Vdev>) -> Vdev {
    Vdev::Inner(InnerVdev {
        guid: Guid(number),
        kind,
        children,
    })
}
