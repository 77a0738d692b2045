//! That a group goes on without the leaves that fail, whichever calls these are, and that nothing is lost where a top has
//! nobody left.
use super::pools::{Ended, Pool, block_key, block_of, member_on, number_of_top};
use bank_core::{CallKind, Fault};
use mp_base::{Group, Guid, Place};
use std::alloc::Global;
use std::test::Fail;
use txg_engine::Frozen;

/// The addresses that are written, one to each top and one more.
const ADDRS: [u64; 4] = [0, 5, 9, 130];

/// A pool over tops of one, two and eight leaves, which has no record yet, with a write to each of these addresses.
fn pool_of(alloc: Global) -> Result<Pool, Fail> {
    let mut pool = Pool::new(alloc, 256, &[1, 2, 8], 320)?;
    for addr in ADDRS {
        pool.open.put(addr, &block_of(addr as u8))?;
    }
    Ok(pool)
}

/// How many calls a commit makes that no call of fails, and on which device each is.
fn calls_of(alloc: Global) -> Result<Vec<u32>, Fail> {
    let mut pool = pool_of(alloc)?;
    let frozen = pool.freeze()?.ok().ok_or("frozen")?;
    if pool.end(frozen) != Ended::Committed(Group(2)) {
        return Err("committed".into());
    }
    let mut devs = Vec::new(alloc);
    for call in pool.bank.calls() {
        devs.push(call.dev)?;
    }
    Ok(devs)
}

/// Whether the pool is as a group leaves it that was committed under this number, where these leaves failed.
fn is_committed(pool: &Pool, number: u64, failed: &[u32]) -> bool {
    let good = |first: u32, count: u32| (first..first + count).find(|dev| !failed.contains(dev));
    let (Some(one), Some(two), Some(eight)) = (good(0, 1), good(1, 2), good(3, 8)) else {
        return false;
    };
    let devs = [one, two, eight];
    let all_blocks = ADDRS.iter().all(|addr| match pool.map.get(block_key(*addr)) {
        Some(pointer) => {
            pointer.birth == Group(2) && pool.stands(devs[pointer.place.top as usize], &pointer)
        }
        None => false,
    });
    let logs = (0..11).all(|dev| {
        if failed.contains(&dev) {
            pool.owes(dev, 2, number)
        } else {
            pool.owes_nothing(dev)
        }
    });
    all_blocks && logs && pool.pages_stand(&devs) && pool.places_fit() && pool.open.is_empty()
}

/// Whether the pool is as before the group was frozen.
fn is_burned(pool: &Pool, begun: bool) -> bool {
    let writes = pool.open.len() == ADDRS.len()
        && ADDRS
            .iter()
            .all(|addr| pool.open.block(*addr) == Some(&block_of(*addr as u8)[..]));
    let logs = (0..11).all(|dev| pool.owes_nothing(dev));
    let holes = ADDRS
        .iter()
        .all(|addr| pool.map.get(block_key(*addr)).is_none());
    let places = pool.places() - pool.map.free_count();
    // four blocks, two pages of level 1, one of level 2, one of level 3
    writes && logs && holes && places == if begun { 8 } else { 0 }
}

/// Whether a call of this place of the list belongs to a round.
fn is_of_round(pool: &Pool) -> bool {
    pool.bank
        .calls()
        .iter()
        .any(|call| call.kind == CallKind::Write && call.at < 128)
}

#[test]
fn each_call_fails_in_turn(rt: HostRuntime) -> Result<(), Fail> {
    let devs = calls_of(rt.alloc())?;
    // 8 keys, by top 0, 1, 2 in turn; 11 flushes; and 11 calls of each leaf's labels
    assert!(rt; devs.len() == 3 * 11 - 8 + 11 + 11 * 11);
    for place in 0..devs.len() {
        let dev = devs[place];
        let mut pool = pool_of(rt.alloc())?;
        pool.bank
            .fail(dev, place as u64, place as u64, Fault::Failed)?;
        let frozen = pool.freeze()?.ok().ok_or("frozen")?;
        let ended = pool.end(frozen);
        assert!(rt; pool.leaf(dev).is_some_and(|leaf| leaf.counts.writes == 1));
        if dev == 0 {
            let Ended::Suspended(suspended) = ended else {
                return Err("suspended".into());
            };
            assert!(rt; suspended.group == Group(2) && suspended.top == number_of_top(0) && suspended.faults == 1);
            assert!(rt; is_burned(&pool, is_of_round(&pool)), "at {place}");
        } else {
            let number = if place < 3 * 11 - 8 + 11 { 2 } else { 3 };
            assert_eq!(rt; ended, Ended::Committed(Group(number)), "at {place}");
            assert!(rt; is_committed(&pool, number, &[dev]), "at {place}");
        }
    }
    Ok(())
}

#[test]
fn two_calls_fail(rt: HostRuntime) -> Result<(), Fail> {
    let devs = calls_of(rt.alloc())?;
    for nth in 0..devs.len() / 7 {
        let first = 7 * nth;
        for second in [first + 1, first + 2, first + 9, first + 31] {
            let mut pool = pool_of(rt.alloc())?;
            for place in [first as u64, second as u64] {
                for dev in 0..11 {
                    pool.bank.fail(dev, place, place, Fault::Failed)?;
                }
            }
            let frozen = pool.freeze()?.ok().ok_or("frozen")?;
            let ended = pool.end(frozen);
            let calls = pool.bank.calls();
            let mut failed = Vec::new(rt.alloc());
            for call in calls {
                if call.fault.is_some() {
                    failed.push(call.dev)?;
                }
            }
            let gone = failed.contains(&0) || failed.contains(&1) && failed.contains(&2);
            match ended {
                Ended::Committed(number) => {
                    assert!(rt; !gone);
                    assert!(rt; is_committed(&pool, number.0, &failed), "at {first} and {second}");
                }
                Ended::Suspended(suspended) => {
                    assert!(rt; gone && suspended.faults >= 1);
                    assert!(rt; is_burned(&pool, is_of_round(&pool)), "at {first} and {second}");
                }
                Ended::Never => return Err("it ends".into()),
            }
        }
    }
    Ok(())
}

#[test]
fn a_whole_device_is_gone(rt: HostRuntime) -> Result<(), Fail> {
    let devs = calls_of(rt.alloc())?;
    for dev in 0..11 {
        for from in [0, 7, 20, 26, 60, 100, devs.len() as u64 - 1] {
            let mut pool = pool_of(rt.alloc())?;
            pool.bank.fail(dev, from, 100000, Fault::Gone)?;
            let frozen = pool.freeze()?.ok().ok_or("frozen")?;
            let ended = pool.end(frozen);
            let failed = pool.bank.calls().iter().any(|call| call.fault.is_some());
            match ended {
                Ended::Committed(number) if failed => {
                    assert!(rt; dev != 0);
                    assert!(rt; is_committed(&pool, number.0, &[dev]), "at {dev} from {from}");
                }
                Ended::Committed(number) => {
                    assert!(rt; is_committed(&pool, number.0, &[]), "at {dev} from {from}");
                }
                Ended::Suspended(suspended) => {
                    assert!(rt; dev == 0 && suspended.faults == 1);
                    assert!(rt; is_burned(&pool, is_of_round(&pool)), "at {dev} from {from}");
                }
                Ended::Never => return Err("it ends".into()),
            }
        }
    }
    Ok(())
}

#[test]
fn a_round_that_a_top_doesn_t_survive_goes_on_for_the_others(rt: HostRuntime) -> Result<(), Fail> {
    let mut pool = pool_of(rt.alloc())?;
    let mut frozen = pool.freeze()?.ok().ok_or("frozen")?;
    while !frozen.is_flushed() {
        assert!(rt; pool.turn(&mut frozen).is_ok());
    }
    pool.bank.fail(1, 0, 100000, Fault::Failed)?;
    pool.bank.fail(2, 0, 100000, Fault::Failed)?;
    let before = pool.bank.place();
    assert!(rt; pool.turn(&mut frozen).err().is_some_and(|s| s.top == number_of_top(1) && s.faults == 2));
    assert!(rt; pool.bank.place() - before == 9 * 11 + 2);
    Ok(())
}

#[test]
fn an_emptied_board_is_found_without_a_call(rt: HostRuntime) -> Result<(), Fail> {
    let mut pool = pool_of(rt.alloc())?;
    let mut frozen = pool.freeze()?.ok().ok_or("frozen")?;
    assert!(rt; pool.turn(&mut frozen).is_ok());
    frozen.leave(&mut pool.tops, member_on(2));
    assert!(rt; pool.owes(2, 2, 2));
    assert!(rt; frozen.check(&pool.tops).is_ok());
    frozen.count_fault(member_on(1));
    frozen.leave(&mut pool.tops, member_on(1));
    frozen.leave(&mut pool.tops, member_on(1));
    let before = pool.bank.place();
    let suspended = pool.turn(&mut frozen).err().ok_or("suspended")?;
    assert!(rt; suspended.top == number_of_top(1) && suspended.faults == 1 && suspended.group == Group(2));
    assert!(rt; pool.bank.place() == before);
    Ok(())
}

#[test]
fn newer_writes_win_over_burned_ones(rt: HostRuntime) -> Result<(), Fail> {
    let mut pool = pool_of(rt.alloc())?;
    pool.bank.fail(0, 0, 0, Fault::Failed)?;
    let frozen = pool.freeze()?.ok().ok_or("frozen")?;
    pool.open.put(5, &block_of(77))?;
    pool.open.put(6, &block_of(78))?;
    pool.open.put(200, &block_of(79))?;
    assert!(rt; matches!(pool.end(frozen), Ended::Suspended(_)));
    assert!(rt; pool.open.len() == 6);
    for (addr, byte) in [(0, 0), (5, 77), (6, 78), (9, 9), (130, 130), (200, 79)] {
        assert!(rt; pool.open.block(addr) == Some(&block_of(byte)[..]));
    }
    let frozen = pool.freeze()?.ok().ok_or("frozen")?;
    assert_eq!(rt; pool.end(frozen), Ended::Committed(Group(3)));
    assert!(rt; pool.places_fit());
    Ok(())
}

#[test]
fn places_of_a_begun_round_stay_pinned_until_the_next_record(rt: HostRuntime) -> Result<(), Fail> {
    let mut pool = pool_of(rt.alloc())?;
    let frozen = pool.freeze()?.ok().ok_or("frozen")?;
    let mut frozen = frozen;
    while !frozen.is_flushed() {
        assert!(rt; pool.turn(&mut frozen).is_ok());
    }
    let at = pool.bank.place();
    pool.bank.fail(0, at, at, Fault::Failed)?;
    assert!(rt; matches!(pool.end(frozen), Ended::Suspended(_)));
    assert!(rt; pool.map.free_count() == 960 - 8);
    assert!(rt; pool.map.is_free(Place { top: 0, sector: 0 }));
    let frozen = pool.freeze()?.ok().ok_or("frozen")?;
    assert!(rt; frozen.items()[0].pointer.place == Place { top: 2, sector: 2 });
    assert_eq!(rt; pool.end(frozen), Ended::Committed(Group(3)));
    assert!(rt; pool.map.free_count() == 960 - 8 && pool.places_fit());
    Ok(())
}
