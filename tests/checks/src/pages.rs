//! That the pages of a map have the bytes of their form, and that a map is read back from them.
use block_map::{BlockMap, MapReader, read_page, write_page};
use mp_base::{Group, Key, MemFault, Place, Pointer};
use std::alloc::Global;
use std::test::Fail;

/// The sectors of the tops.
const TOPS: [u64; 2] = [2100, 2100];

/// The group in which all was written, and the record's number.
const BORN: Group = Group(7);

const ROOT: Key = Key { level: 3, index: 0 };

/// Gives a key the least place, and a pointer to it.
fn put(map: &mut BlockMap, key: Key) -> bool {
    if !map.has_key(key) {
        return false;
    }
    let Some(place) = map.alloc() else {
        return false;
    };
    let pointer = Pointer {
        birth: BORN,
        place,
        sum: [(key.index % 251) as u8; 32],
    };
    map.set(key, pointer);
    true
}

/// Gives each key of a level a pointer, of which there are so many.
fn put_level(map: &mut BlockMap, level: u32, keys: u64) -> bool {
    for index in 0..keys {
        if !put(map, Key { level, index }) {
            return false;
        }
    }
    !map.has_key(Key { level, index: keys })
}

/// The pointer of a key, and a hole outside of the volume.
fn pointer_of(map: &BlockMap, key: Key) -> Pointer {
    if !map.has_key(key) {
        return Pointer::HOLE;
    }
    map.get(key).unwrap_or(Pointer::HOLE)
}

/// Begins to read a map of so many blocks whose root page has this pointer.
fn begin(alloc: Global, blocks: u64, root: Pointer) -> Result<Option<MapReader>, MemFault> {
    if blocks == 0 || blocks > 262144 {
        return Ok(None);
    }
    let empty = BlockMap::new(alloc, blocks, &TOPS)?;
    if root.birth != BORN || !empty.has_place(root.place) {
        return Ok(None);
    }
    Ok(Some(MapReader::new(alloc, blocks, &TOPS, BORN, root)?))
}

/// The bytes of a page of the map, and zeros where it is none.
fn page_of(map: &BlockMap, page: Key) -> [u8; 4096] {
    let mut out = [0; 4096];
    if page.level > 0 && map.has_key(page) {
        write_page(map.children(page), &mut out);
    }
    out
}

/// Hands in the bytes of the next page, where there is one.
fn read(reader: &mut MapReader, bytes: &[u8; 4096]) -> bool {
    if reader.next_page().is_none() {
        return false;
    }
    reader.read_page(bytes)
}

/// Reads the pages of a level, of which there are so many, and says whether each came in its turn with its pointer.
fn read_level(map: &BlockMap, reader: &mut MapReader, level: u32, pages: u64) -> bool {
    for index in 0..pages {
        let page = Key { level, index };
        if reader.next_page() != Some((page, pointer_of(map, page))) {
            return false;
        }
        if !read(reader, &page_of(map, page)) {
            return false;
        }
    }
    true
}

/// The map that was read, once no page is left.
fn finished(reader: MapReader) -> Option<BlockMap> {
    if reader.next_page().is_some() {
        return None;
    }
    Some(reader.finish())
}

/// Whether two maps have one pointer at each key of a level.
fn agree(one: &BlockMap, other: &BlockMap, level: u32, keys: u64) -> bool {
    for index in 0..keys {
        let key = Key { level, index };
        if pointer_of(one, key) != pointer_of(other, key) {
            return false;
        }
    }
    true
}

/// The key behind this one that was born up to the record.
fn next_behind(map: &BlockMap, after: Key) -> Option<Key> {
    if !map.has_key(after) {
        return None;
    }
    map.next_key(Some(after), BORN)
}

/// How many keys a scan finds, at most so many.
fn count_keys(map: &BlockMap, most: u64) -> u64 {
    let mut next = map.next_key(None, BORN);
    for count in 0..most {
        let Some(key) = next else {
            return count;
        };
        next = next_behind(map, key);
    }
    most
}

#[test]
fn each_page_of_a_volume_of_4097_blocks_is_read_back(rt: HostRuntime) -> Result<(), Fail> {
    let mut map = BlockMap::new(rt.alloc(), 4097, &TOPS)?;
    assert!(rt; put_level(&mut map, 0, 4097) && put_level(&mut map, 1, 65));
    assert!(rt; put_level(&mut map, 2, 2) && put_level(&mut map, 3, 1));
    let Some(mut reader) = begin(rt.alloc(), 4097, pointer_of(&map, ROOT))? else {
        assert!(rt; false);
        return Ok(());
    };
    assert!(rt; read_level(&map, &mut reader, 3, 1) && read_level(&map, &mut reader, 2, 2));
    assert!(rt; read_level(&map, &mut reader, 1, 65));
    let Some(back) = finished(reader) else {
        assert!(rt; false);
        return Ok(());
    };
    assert!(rt; agree(&map, &back, 0, 4097) && agree(&map, &back, 1, 65));
    assert!(rt; agree(&map, &back, 2, 2) && agree(&map, &back, 3, 1));
    assert!(rt; map.free_count() == 35 && back.free_count() == 35);
    assert!(rt; count_keys(&back, 5000) == 4165);
    Ok(())
}

/// The bytes with another one at an offset.
fn changed(bytes: &[u8; 4096], at: usize, byte: u8) -> [u8; 4096] {
    let mut wrong = *bytes;
    if at < 4096 {
        wrong[at] = byte;
    }
    wrong
}

/// Changes of one byte after which the page of level 1 and index 0 may not stand there. Block j of the volume has the
/// place of top j % 2 and sector j / 2, and the two pages of level 1, the one of level 2 and the root behind them.
const CHANGES: [(usize, u8); 8] = [
    // a byte behind the pointers
    (4095, 1),
    // a birth behind the record's number, and a hole that isn't zeros
    (7, 8),
    (59, 0),
    // no such top, and no such sector of it
    (11, 2),
    (18, 9),
    // the place of the root, of a page that an earlier page names, and of an earlier pointer of this page
    (19, 34),
    (19, 33),
    (123, 0),
];

#[test]
fn a_page_that_may_not_stand_there_is_not_read(rt: HostRuntime) -> Result<(), Fail> {
    let mut map = BlockMap::new(rt.alloc(), 65, &TOPS)?;
    assert!(rt; put_level(&mut map, 0, 65) && put_level(&mut map, 1, 2));
    assert!(rt; put_level(&mut map, 2, 1) && put_level(&mut map, 3, 1));
    let Some(mut reader) = begin(rt.alloc(), 65, pointer_of(&map, ROOT))? else {
        assert!(rt; false);
        return Ok(());
    };
    assert!(rt; read_level(&map, &mut reader, 3, 1) && read_level(&map, &mut reader, 2, 1));
    let first = page_of(&map, Key { level: 1, index: 0 });
    for (at, byte) in CHANGES {
        assert!(rt; !read(&mut reader, &changed(&first, at, byte)));
    }
    assert!(rt; !read(&mut reader, &[0; 4096]) && read(&mut reader, &first));
    let second = page_of(&map, Key { level: 1, index: 1 });
    // a pointer outside of the volume, at a place that is free
    let outside = changed(&changed(&second, 59, 7), 71, 40);
    assert!(rt; !read(&mut reader, &outside) && read(&mut reader, &second));
    assert!(rt; finished(reader).is_some());
    Ok(())
}

/// The bytes of a pointer: its birth, its top, its sector and its sum.
const POINTER: [u8; 52] = [
    1, 2, 3, 4, 5, 6, 7, 8, 9, 10, 11, 12, 13, 14, 15, 16, 17, 18, 19, 20, 33, 33, 33, 33, 33, 33,
    33, 33, 33, 33, 33, 33, 33, 33, 33, 33, 33, 33, 33, 33, 33, 33, 33, 33, 33, 33, 33, 33, 33, 33,
    33, 33,
];

#[test]
fn a_page_has_its_pointers_at_their_offsets(rt: HostRuntime) -> Result<(), Fail> {
    let mut pointers = [Pointer::HOLE; 64];
    pointers[63] = Pointer {
        birth: Group(0x0102030405060708),
        place: Place {
            top: 0x090a0b0c,
            sector: 0x0d0e0f1011121314,
        },
        sum: [33; 32],
    };
    let mut page = [0; 4096];
    page[3276..3328].copy_from_slice(&POINTER);
    let mut bytes = [1; 4096];
    write_page(&pointers, &mut bytes);
    assert!(rt; bytes == page);
    let mut back = [Pointer::HOLE; 64];
    assert!(rt; read_page(&page, &mut back) && back == pointers);
    Ok(())
}
