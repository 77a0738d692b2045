//! That a freeze gives the least places in the order of keys, and is refused by its causes alone.
use super::pools::{Ended, Pool, block_of, member_on, number_of_top};
use mp_base::{Group, Guid, Key, Place};
use sha2::{Digest, Sha256};
use std::alloc::Global;
use std::test::Fail;
use txg_engine::{FreezeFault, Frozen, MOST_WRITES};
use vdev_tree::State;

/// The keys of a frozen group with their places.
fn places_are(frozen: &Frozen, keys: &[(u32, u64, u32, u64)]) -> bool {
    let items = frozen.items();
    items.len() == keys.len()
        && (0..keys.len()).all(|i| {
            let (level, index, top, sector) = keys[i];
            items[i].key == Key { level, index } && items[i].pointer.place == Place { top, sector }
        })
}

#[test]
fn keys_get_the_least_places_in_their_order(rt: HostRuntime) -> Result<(), Fail> {
    let mut pool = Pool::new(rt.alloc(), 8192, &[1, 2, 8], 700)?;
    for (addr, byte) in [(4096, 2), (0, 1), (70, 3), (1, 4)] {
        pool.open.put(addr, &block_of(byte))?;
    }
    let frozen = pool.freeze()?.ok().ok_or("frozen")?;
    assert!(rt; places_are(&frozen, &[
        (0, 0, 0, 0), (0, 1, 1, 0), (0, 70, 2, 0), (0, 4096, 0, 1),
        (1, 0, 1, 1), (1, 1, 2, 1), (1, 64, 0, 2),
        (2, 0, 1, 2), (2, 1, 2, 2), (3, 0, 0, 3)]));
    assert!(rt; pool.map.free_count() == 2090);
    assert!(rt; frozen.items().iter().all(|item| item.pointer.sum == Sha256::digest(item.block.as_bytes())
        && item.pointer.birth == Group(2)));
    assert!(rt; frozen.block(70) == Some(&block_of(3)[..]));
    assert!(rt; frozen.block(71).is_none());
    assert_eq!(rt; pool.end(frozen), Ended::Committed(Group(2)));
    assert!(rt; pool.pages_stand(&[0, 1, 3]));
    assert!(rt; pool.places_fit());
    pool.open.put(0, &block_of(9))?;
    let frozen = pool.freeze()?.ok().ok_or("frozen")?;
    assert!(rt; places_are(&frozen, &[(0, 0, 1, 3), (1, 0, 2, 3), (2, 0, 0, 4), (3, 0, 1, 4)]));
    assert_eq!(rt; pool.end(frozen), Ended::Committed(Group(3)));
    assert!(rt; pool.pages_stand(&[0, 1, 3]));
    assert!(rt; pool.places_fit());
    assert!(rt; pool.map.free_count() == 2090);
    Ok(())
}

#[test]
fn a_freeze_needs_just_enough_places(rt: HostRuntime) -> Result<(), Fail> {
    for (sectors, fits) in [(8, true), (7, false)] {
        let mut pool = Pool::new(rt.alloc(), 8192, &[2], 320)?;
        // All but so many places are taken.
        for sector in sectors..320 {
            pool.map.take_place(Place { top: 0, sector });
        }
        for addr in [0, 1, 64, 4096] {
            pool.open.put(addr, &block_of(1))?;
        }
        let frozen = pool.freeze()?;
        // four blocks, three pages of level 1, two of level 2, one of level 3
        assert_eq!(rt; frozen.err(), Some(FreezeFault::NoRoom { need: 10, free: sectors }));
        assert!(rt; pool.open.len() == 4 && pool.map.free_count() == sectors);
        let mut pool = Pool::new(rt.alloc(), 8192, &[2], 320)?;
        for sector in sectors..320 {
            pool.map.take_place(Place { top: 0, sector });
        }
        for addr in [0, 1, 2, 63, 62] {
            pool.open.put(addr, &block_of(1))?;
        }
        let frozen = pool.freeze()?;
        assert!(rt; frozen.is_ok() == fits);
        assert!(rt; pool.map.free_count() == if fits { 0 } else { 7 });
        assert!(rt; pool.open.len() == if fits { 0 } else { 5 });
        assert!(rt; pool.owes_nothing(0) && pool.owes_nothing(1));
    }
    Ok(())
}

#[test]
fn a_freeze_needs_a_leaf_of_each_top(rt: HostRuntime) -> Result<(), Fail> {
    let mut pool = Pool::new(rt.alloc(), 16, &[1, 2, 8], 320)?;
    pool.open.put(3, &block_of(1))?;
    pool.tops[2].set_state(member_on(5), State::Offline, false);
    pool.tops[1].set_state(member_on(1), State::Faulted, false);
    let frozen = pool.freeze()?.ok().ok_or("frozen")?;
    assert!(rt; frozen.board().seats().len() == 9);
    assert!(rt; pool.owes(1, 2, 2) && pool.owes(5, 2, 2) && pool.owes_nothing(0) && pool.owes_nothing(2));
    assert_eq!(rt; pool.end(frozen), Ended::Committed(Group(2)));
    assert!(rt; pool.leaf(1).is_some_and(|leaf| leaf.settled.contains(Group(2))));
    pool.open.put(3, &block_of(2))?;
    pool.tops[1].set_state(member_on(2), State::Removed, false);
    let free = pool.map.free_count();
    let frozen = pool.freeze()?;
    assert_eq!(rt; frozen.err(), Some(FreezeFault::NoBoard { top: number_of_top(1) }));
    assert!(rt; pool.map.free_count() == free && pool.open.len() == 1 && pool.owes_nothing(0) && pool.owes(1, 2, 2));
    Ok(())
}

#[test]
fn the_largest_group_has_all_its_pages(rt: HostRuntime) -> Result<(), Fail> {
    let mut pool = Pool::new(rt.alloc(), 262144, &[2], 9000)?;
    for n in 0..MOST_WRITES as u64 {
        pool.open.put(n * 64 + n % 64, &block_of((n % 251) as u8))?;
    }
    let frozen = pool.freeze()?.ok().ok_or("frozen")?;
    assert!(rt; frozen.items().len() == 4096 + 4096 + 64 + 1);
    let mut frozen = frozen;
    let mut turns = 0;
    while !frozen.is_flushed() && turns < 10000 {
        assert!(rt; pool.turn(&mut frozen).is_ok());
        turns += 1;
    }
    assert!(rt; turns == 8258);
    let root = frozen.root(&pool.map);
    assert!(rt; pool.turn(&mut frozen).is_ok());
    frozen.adopt(&mut pool.map, &mut pool.pins);
    assert!(rt; pool.bank.place() == 2 * (8257 + 1 + 11));
    assert!(rt; pool.map.free_count() == 9000 - 8257);
    assert!(rt; pool.map.get(Key { level: 3, index: 0 }) == Some(root));
    assert!(rt; pool.stands(0, &root) && pool.stands(1, &root));
    Ok(())
}

/// A pool whose leaf on device 1 is offline and owes so many groups, each a range of its own.
fn pool_that_owes(alloc: Global, ranges: u64) -> Result<Pool, Fail> {
    let mut pool = Pool::new(alloc, 16, &[1, 2, 8], 320)?;
    pool.tops[1].set_state(member_on(1), State::Offline, false);
    pool.tops[1].reserve(ranges as usize)?;
    for i in 0..ranges {
        pool.tops[1].owe(Group(2 * i + 1));
    }
    pool.number = 2 * ranges;
    pool.open.put(3, &block_of(1))?;
    Ok(pool)
}

#[test]
fn logs_with_too_many_ranges_become_one(rt: HostRuntime) -> Result<(), Fail> {
    // The number of the freeze, 2 * ranges + 1, is a range more.
    for (ranges, left) in [(4095, 4096), (4096, 1)] {
        let mut pool = pool_that_owes(rt.alloc(), ranges)?;
        let frozen = pool.freeze()?.ok().ok_or("frozen")?;
        assert!(rt; pool.leaf(1).is_some_and(|leaf| leaf.log.ranges() == left));
        assert!(rt; pool.leaf(1).is_some_and(|leaf| leaf.log.least() == Some(Group(1))));
        assert!(rt; pool.leaf(1).is_some_and(|leaf| leaf.log.contains(Group(2 * ranges + 1))));
        assert!(rt; pool.leaf(1).is_some_and(|leaf| leaf.log.contains(Group(2)) == (left == 1)));
        assert_eq!(rt; pool.end(frozen), Ended::Committed(Group(2 * ranges + 1)));
        assert!(rt; pool.leaf(1).is_some_and(|leaf| leaf.settled.ranges() == left));
    }
    Ok(())
}

#[test]
fn only_the_log_with_the_most_ranges_becomes_one(rt: HostRuntime) -> Result<(), Fail> {
    let mut pool = pool_that_owes(rt.alloc(), 4093)?;
    pool.tops[2].set_state(member_on(3), State::Offline, false);
    pool.tops[2].reserve(3)?;
    for group in [1, 3, 5] {
        pool.tops[2].owe(Group(group));
    }
    let frozen = pool.freeze()?.ok().ok_or("frozen")?;
    assert!(rt; pool.leaf(1).is_some_and(|leaf| leaf.log.ranges() == 1));
    assert!(rt; pool.leaf(3).is_some_and(|leaf| leaf.log.ranges() == 4));
    assert_eq!(rt; pool.end(frozen), Ended::Committed(Group(8187)));
    Ok(())
}
