//! That the places of a volume are given out in their order, and the pages above its blocks found in theirs.
use block_map::{BlockMap, pages_above};
use mp_base::{Key, MemFault, Place};
use std::alloc::Global;
use std::test::Fail;

/// The places of two tops of 3 and 5 sectors, by sector and then by top.
const PLACES: [(u32, u64); 8] = [
    (0, 0),
    (1, 0),
    (0, 1),
    (1, 1),
    (0, 2),
    (1, 2),
    (1, 3),
    (1, 4),
];

/// Whether the places are given out in this order, and then none.
fn gives_all(map: &mut BlockMap) -> bool {
    for (top, sector) in PLACES {
        if map.alloc() != Some(Place { top, sector }) {
            return false;
        }
    }
    map.alloc().is_none() && map.free_count() == 0
}

/// Whether a place that is given back to a full volume isn't given out while it is pinned.
fn keeps_pinned(map: &mut BlockMap, place: Place) -> bool {
    if !map.has_place(place) {
        return false;
    }
    map.give_place(place);
    map.pin(place);
    map.alloc().is_none() && map.is_free(place)
}

/// Whether it is given out once it isn't pinned any more, and nothing else.
fn gives_unpinned(map: &mut BlockMap, place: Place) -> bool {
    if !map.has_place(place) {
        return false;
    }
    map.unpin(place);
    map.free_count() == 1 && map.alloc() == Some(place) && map.alloc().is_none()
}

#[test]
fn a_full_volume_gives_out_the_one_place_left(rt: HostRuntime) -> Result<(), Fail> {
    let mut map = BlockMap::new(rt.alloc(), 1, &[3, 5])?;
    assert!(rt; gives_all(&mut map));
    for (top, sector) in PLACES {
        let place = Place { top, sector };
        assert!(rt; keeps_pinned(&mut map, place) && gives_unpinned(&mut map, place));
    }
    Ok(())
}

/// The last and the first block below a page of level 1, and of level 2.
const EDGES: [u64; 4] = [63, 64, 4095, 4096];

/// Whether the pages of a level above them have these indexes.
fn are_above(alloc: Global, level: u32, indexes: &[u64]) -> Result<bool, MemFault> {
    if level == 0 || level > 3 {
        return Ok(false);
    }
    let mut pages = Vec::with_capacity(alloc, 4)?;
    pages_above(level, &EDGES, &mut pages);
    if pages.len() != indexes.len() {
        return Ok(false);
    }
    for i in 0..indexes.len() {
        let index = indexes[i];
        if pages[i] != (Key { level, index }) {
            return Ok(false);
        }
    }
    Ok(true)
}

#[test]
fn pages_lie_above_the_blocks_at_their_edges(rt: HostRuntime) -> Result<(), Fail> {
    assert!(rt; are_above(rt.alloc(), 1, &[0, 1, 63, 64])?);
    assert!(rt; are_above(rt.alloc(), 2, &[0, 1])?);
    assert!(rt; are_above(rt.alloc(), 3, &[0])?);
    let map = BlockMap::new(rt.alloc(), 4097, &[64])?;
    assert!(rt; map.dirty_pages(&EDGES) == 7);
    assert!(rt; map.dirty_pages(&EDGES[..2]) == 4);
    assert!(rt; map.dirty_pages(&EDGES[2..]) == 5);
    Ok(())
}
