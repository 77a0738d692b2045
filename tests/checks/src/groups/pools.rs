//! Pools to try the engine on.
use bank_core::{CallKind, MemBank};
use block_map::{BlockMap, read_page};
use group_set::GroupSet;
use label_store::{BlobRule, Head};
use mp_base::{BLOCK_BYTES, Block, Group, Guid, Key, MemFault, Name, Place, Pointer};
use sha2::{Digest, Sha256};
use std::alloc::Global;
use std::test::Fail;
use txg_engine::{Closed, FreezeFault, Frozen, Open, Pins, Suspended, freeze};
use vdev_tree::{Counts, InnerVdev, Kind, LeafVdev, State, Top, Vdev};

/// The sectors of each device, and of each top.
pub const DEVICE: u64 = 1000;
pub const TOP: u64 = 700;

/// No bytes are a configuration: the engine doesn't look into them.
pub struct AnyRule;

impl BlobRule for AnyRule {
    ghost use Rattle.std.specs.Prelude.{None};

    ghost head_of = { λ bytes. None };

    fn reads(_alloc: Global, _bytes: &[u8]) -> Result<Option<Head>, MemFault> {
        Ok(None)
    }
}

/// A leaf on this device, with room for nothing in its sets.
fn leaf(alloc: Global, number: u64, dev: u32) -> Result<Vdev, Fail> {
    let text = [b'a' + (dev / 10) as u8, b'0' + (dev % 10) as u8];
    Ok(Vdev::Leaf(LeafVdev {
        guid: Guid(number),
        name: Name::new(alloc, &text).ok().ok_or("a name")?,
        dev: Some(dev),
        state: State::Online,
        log: GroupSet::new(alloc),
        settled: GroupSet::new(alloc),
        marked: false,
        temporary: false,
        counts: Counts {
            reads: 0,
            writes: 0,
            mismatches: 0,
        },
    }))
}

/// A pool without a record: mirrors of so many leaves each, and what it has in memory.
#[derive(Drop)]
pub struct Pool {
    pub alloc: Global,
    pub bank: MemBank,
    pub tops: Vec<Top>,
    pub map: BlockMap,
    pub pins: Pins,
    pub open: Open,
    pub number: u64,
}

/// The member number of the leaf on a device, and of a top.
pub fn member_on(dev: u32) -> Guid {
    Guid(100 + dev as u64)
}

pub fn number_of_top(top: usize) -> Guid {
    Guid(1 + top as u64)
}

impl Pool {
    pub fn new(alloc: Global, blocks: u64, leaves: &[usize], sectors: u64) -> Result<Pool, Fail> {
        let mut bank = MemBank::new(alloc);
        let mut tops = Vec::new(alloc);
        let mut sizes = Vec::new(alloc);
        let mut dev = 0;
        for top in 0..leaves.len() {
            let mut children = Vec::new(alloc);
            for _ in 0..leaves[top] {
                children.push(leaf(alloc, 100 + dev as u64, dev)?)?;
                let text = [b'a' + (dev / 10) as u8, b'0' + (dev % 10) as u8];
                bank.add(Name::new(alloc, &text).ok().ok_or("a name")?, sectors + 256)?;
                dev += 1;
            }
            let mirror = Vdev::Inner(InnerVdev {
                guid: number_of_top(top),
                kind: Kind::Mirror,
                children,
            });
            tops.push(Top::new(mirror, sectors).ok_or("a top")?)?;
            sizes.push(sectors)?;
        }
        Ok(Pool {
            alloc,
            bank,
            tops,
            map: BlockMap::new(alloc, blocks, &sizes)?,
            pins: Pins::new(alloc),
            open: Open::new(alloc)?,
            number: 1,
        })
    }

    /// Freezes what is open, under the next number.
    pub fn freeze(&mut self) -> Result<Result<Frozen, FreezeFault>, Fail> {
        let open = std::mem::replace(&mut self.open, Open::new(self.alloc)?);
        self.number += 1;
        let frozen = freeze(
            self.alloc,
            open,
            &mut self.map,
            &mut self.tops,
            &mut self.pins,
            Group(self.number),
        );
        match frozen {
            Ok(frozen) => Ok(Ok(frozen)),
            Err(unfrozen) => {
                self.number -= 1;
                self.open = unfrozen.group;
                Ok(Err(unfrozen.why))
            }
        }
    }

    /// One turn of a group: whichever is its next.
    pub fn turn(&mut self, frozen: &mut Frozen) -> Result<Turned, Suspended> {
        if !frozen.is_written_out() {
            frozen.write_turn(&mut self.bank, &mut self.tops)?;
            return Ok(Turned::More);
        }
        if !frozen.is_flushed() {
            frozen.flush_turn(&mut self.bank, &mut self.tops)?;
            return Ok(Turned::More);
        }
        let blob = [(frozen.numbers().last.0 % 251) as u8; 4096];
        let closed = frozen.close_turn::<MemBank, AnyRule>(
            &mut self.bank,
            &mut self.tops,
            Guid(7),
            &blob,
            4096,
        )?;
        Ok(match closed {
            Closed::Committed(number) => Turned::Committed(number),
            Closed::Round(_) => Turned::More,
        })
    }

    /// Ends a group by its turns.
    pub fn end(&mut self, mut frozen: Frozen) -> Ended {
        for _ in 0..100000 {
            match self.turn(&mut frozen) {
                Ok(Turned::More) => {}
                Ok(Turned::Committed(number)) => {
                    self.number = number.0;
                    frozen.adopt(&mut self.map, &mut self.pins);
                    return Ended::Committed(number);
                }
                Err(suspended) => {
                    self.number = frozen.numbers().last.0;
                    return self.burn(frozen, suspended);
                }
            }
        }
        Ended::Never
    }

    fn burn(&mut self, frozen: Frozen, suspended: Suspended) -> Ended {
        let Ok(none) = Open::new(self.alloc) else {
            return Ended::Never;
        };
        let newer = std::mem::replace(&mut self.open, none);
        self.open = frozen.burn(newer, &mut self.map, &mut self.tops, &mut self.pins);
        Ended::Suspended(suspended)
    }

    /// The leaf on a device.
    pub fn leaf(&self, dev: u32) -> Option<&LeafVdev> {
        for top in &self.tops {
            for place in 0..32 {
                if let Some(leaf) = top.leaf_at(place) {
                    if leaf.guid == member_on(dev) {
                        return Some(leaf);
                    }
                }
            }
        }
        None
    }

    /// Whether a leaf owes just the groups of this range, or none.
    pub fn owes(&self, dev: u32, low: u64, high: u64) -> bool {
        let Some(leaf) = self.leaf(dev) else {
            return false;
        };
        (1..self.number + 3).all(|g| leaf.log.contains(Group(g)) == (low <= g && g <= high))
    }

    pub fn owes_nothing(&self, dev: u32) -> bool {
        self.owes(dev, 1, 0)
    }

    /// What was written last to a sector of a device by a call that answered.
    pub fn sector(&self, dev: u32, at: u64) -> Option<&[u8]> {
        let mut found = None;
        for call in self.bank.calls() {
            if call.kind == CallKind::Write && call.dev == dev && call.at == at && call.fault.is_none() {
                found = Some(&call.bytes[..]);
            }
        }
        found
    }

    /// Whether the bytes of a pointer stand on the device.
    pub fn stands(&self, dev: u32, pointer: &Pointer) -> bool {
        match self.sector(dev, 128 + pointer.place.sector) {
            Some(bytes) => Sha256::digest(bytes) == pointer.sum,
            None => false,
        }
    }

    /// Whether the map has these blocks on the device from its root on, where each page has the pointers below it.
    pub fn pages_stand(&self, devs: &[u32]) -> bool {
        for level in 1..4 {
            for index in 0..64 {
                let key = Key { level, index };
                if self.map.has_key(key) && !self.page_stands(devs, key) {
                    return false;
                }
            }
        }
        true
    }

    fn page_stands(&self, devs: &[u32], key: Key) -> bool {
        let Some(pointer) = self.map.get(key) else {
            return self.map.children(key).iter().all(|p| p.is_hole());
        };
        let Some(bytes) = self.sector(devs[pointer.place.top as usize], 128 + pointer.place.sector)
        else {
            return false;
        };
        let mut pointers = [Pointer::HOLE; 64];
        Sha256::digest(bytes) == pointer.sum
            && read_page(bytes, &mut pointers)
            && &pointers[..] == self.map.children(key)
    }

    /// Whether just the places of the map's pointers are taken, and none is pinned.
    pub fn places_fit(&self) -> bool {
        let mut taken = 0;
        for level in 0..4 {
            for index in 0..8192 {
                let key = Key { level, index };
                if self.map.has_key(key) {
                    if let Some(pointer) = self.map.get(key) {
                        if self.map.is_free(pointer.place) {
                            return false;
                        }
                        taken += 1;
                    }
                }
            }
        }
        self.map.free_count() + taken == self.places()
    }

    pub fn places(&self) -> u64 {
        let mut places = 0;
        for top in &self.tops {
            places += top.sectors;
        }
        places
    }
}

/// A block of bytes that are all the same.
pub fn block_of(byte: u8) -> [u8; BLOCK_BYTES] {
    [byte; BLOCK_BYTES]
}

/// The key of a block.
pub fn block_key(addr: u64) -> Key {
    Key {
        level: 0,
        index: addr,
    }
}

/// How a turn ended.
#[derive(Clone, Copy, Debug, PartialEq, Eq)]
pub enum Turned {
    More,
    Committed(Group),
}

/// How a group ended.
#[derive(Clone, Copy, Debug, PartialEq, Eq)]
pub enum Ended {
    Committed(Group),
    Suspended(Suspended),
    Never,
}
