//! Trees that are built by hand.
use crate::built::{inner, leaf, member};
use mp_base::{Group, Guid, Name};
use std::alloc::Global;
use std::test::Fail;
use vdev_tree::{Kind, State, Top, Vdev};

/// What a leaf owes at the beginning.
const OWES: &[(u64, u64)] = &[(7, 7)];

fn row(alloc: Global, states: &[State]) -> Result<Vec<Vdev>, Fail> {
    let mut vdevs = Vec::new(alloc);
    for state in states {
        vdevs.push(leaf(alloc, 9, b"x", *state, OWES)?)?;
    }
    Ok(vdevs)
}

/// A mirror of one child of this kind over leaves of these states.
fn over(alloc: Global, kind: Kind, states: &[State]) -> Result<Vdev, Fail> {
    let child = inner(2, kind, row(alloc, states)?);
    Ok(inner(1, Kind::Mirror, vec![in alloc; child]?))
}

#[test]
fn the_state_over_some_children(rt: HostRuntime) -> Result<(), Fail> {
    let alloc = rt.alloc();
    let rows: [(&[State], State); 6] = [
        (&[State::Online, State::Online], State::Online),
        (&[State::Online, State::Offline], State::Degraded),
        (&[State::Degraded, State::Degraded], State::Degraded),
        (&[State::Faulted, State::Degraded], State::Degraded),
        (&[State::Faulted, State::Removed], State::Unavail),
        (&[State::Offline, State::Unavail], State::Unavail),
    ];
    for (states, state) in rows {
        let mirror = inner(1, Kind::Mirror, row(alloc, states)?);
        assert_eq!(rt; mirror.state(), state);
        let top = Top::new(over(alloc, Kind::Replacing, states)?, 500).ok_or("no top")?;
        assert_eq!(rt; top.state(), state);
    }
    Ok(())
}

#[test]
fn a_valid_tree_makes_a_top(rt: HostRuntime) -> Result<(), Fail> {
    let alloc = rt.alloc();
    let up = [State::Online; 9];
    let rows: [(Kind, usize, bool); 8] = [
        (Kind::Replacing, 1, false),
        (Kind::Replacing, 2, true),
        (Kind::Replacing, 3, false),
        (Kind::Spare, 1, false),
        (Kind::Spare, 2, true),
        (Kind::Spare, 3, true),
        (Kind::Spare, 4, false),
        (Kind::Mirror, 2, false),
    ];
    for (kind, count, valid) in rows {
        if count <= 9 {
            assert_eq!(rt; over(alloc, kind, &up[..count])?.is_top(), valid);
        }
    }
    assert!(rt; !inner(1, Kind::Mirror, row(alloc, &[])?).is_top());
    assert!(rt; inner(1, Kind::Mirror, row(alloc, &up[..8])?).is_top());
    assert!(rt; !inner(1, Kind::Mirror, row(alloc, &up)?).is_top());
    assert!(rt; !leaf(alloc, 1, b"a", State::Online, OWES)?.is_top());
    Ok(())
}

/// The mirror of a spare vdev, in which n (5) takes over from a (4) and the spare s (6) stands in, and of
/// b (7).
fn spared(alloc: Global) -> Result<Top, Fail> {
    let online = State::Online;
    let old = leaf(alloc, 4, b"a", online, OWES)?;
    let new = leaf(alloc, 5, b"n", online, OWES)?;
    let replacing = inner(3, Kind::Replacing, vec![in alloc; old, new]?);
    let spare = inner(
        2,
        Kind::Spare,
        vec![in alloc; replacing, leaf(alloc, 6, b"s", online, OWES)?]?,
    );
    let mirror = inner(
        1,
        Kind::Mirror,
        vec![in alloc; spare, leaf(alloc, 7, b"b", online, OWES)?]?,
    );
    Ok(Top::new(mirror, 500).ok_or("no top")?)
}

#[test]
fn a_leaf_is_found_by_its_name_in_a_copy_too(rt: HostRuntime) -> Result<(), Fail> {
    let alloc = rt.alloc();
    let top = spared(alloc)?.copy(alloc)?;
    let rows: [(&[u8], Option<Guid>); 5] = [
        (b"a", Some(Guid(4))),
        (b"n", Some(Guid(5))),
        (b"s", Some(Guid(6))),
        (b"b", Some(Guid(7))),
        (b"aa", None),
    ];
    for (name, number) in rows {
        assert_eq!(rt; top.find(&Name::new(alloc, name)?), number);
    }
    assert_eq!(rt; top.mirror.guid(), Guid(1));
    Ok(())
}

/// The number of the leaf at this place, its state, its device, and whether it is marked, is OFFLINE for a
/// time and owes group 9.
fn shown(top: &Top, place: usize) -> Option<(u64, State, Option<u32>, [bool; 3])> {
    let leaf = top.leaf_at(place)?;
    let owes = leaf.log.contains(Group(9));
    Some((
        leaf.guid.0,
        leaf.state,
        leaf.dev,
        [leaf.marked, leaf.temporary, owes],
    ))
}

#[test]
fn a_leaf_that_was_away_owes_what_was_written_meanwhile(rt: HostRuntime) -> Result<(), Fail> {
    let alloc = rt.alloc();
    let online = State::Online;
    let a = member(alloc, 2, b"a", online, OWES)?;
    let b = member(alloc, 3, b"b", State::Degraded, OWES)?;
    let mut top = Top::pair(alloc, Guid(1), 500, a, b)?;
    top.set_state(Guid(2), State::Offline, true);
    top.reserve(1)?;
    top.owe(Group(9));
    assert_eq!(rt;
        shown(&top, 0),
        Some((2, State::Offline, None, [false, true, true]))
    );
    top.bring(Guid(2), 8);
    let places = [
        Some((2, online, Some(8), [true, false, true])),
        Some((3, State::Degraded, None, [false; 3])),
        None,
    ];
    for (place, leaf) in places.into_iter().enumerate() {
        assert_eq!(rt; shown(&top, place), leaf);
    }
    Ok(())
}

#[test]
fn a_change_comes_to_its_leaf_however_deep_it_stands(rt: HostRuntime) -> Result<(), Fail> {
    let mut top = spared(rt.alloc())?;
    top.set_state(Guid(5), State::Removed, false);
    top.set_state(Guid(7), State::Faulted, false);
    top.reserve(1)?;
    top.owe(Group(9));
    let rows = [
        (4, State::Online, false),
        (5, State::Removed, true),
        (6, State::Online, false),
        (7, State::Faulted, true),
    ];
    for (place, (number, state, owes)) in rows.into_iter().enumerate() {
        assert_eq!(rt;
            shown(&top, place),
            Some((number, state, None, [false, false, owes]))
        );
    }
    Ok(())
}
