//! Random valid configurations that are made from a seed and spelled by hand: what is read of them, and what
//! is written again.
ghost use Rattle.std.specs.Prelude.{◌≤◌};

use super::by_hand::{Head, Leaf, MIRROR, REPLACING, SPARE, Spelled};
use mp_base::Group;
use pool_config::{Config, decode, encode};
use std::alloc::Global;
use std::test::Fail;
use vdev_tree::{LeafVdev, State};

/// How many configurations are made.
const SEEDS: u64 = 300;

/// The fewest data sectors of a top, of which the root pointer has one.
const LEAST_SECTORS: u64 = 64;

const LETTERS: &[u8] = b"0123456789abcdef";

/// The flags of a leaf that isn't marked, and the state that they tell.
const STATES: [(u8, State); 4] = [
    (0, State::Online),
    (1, State::Offline),
    (2, State::Faulted),
    (4, State::Degraded),
];

/// The children that a mirror may have: how many leaves, and the inner vdevs before them, by kind and number
/// of children.
const CHILDREN: [(u64, &[(u8, u8)]); 6] = [
    (1, &[]),
    (2, &[(REPLACING, 2)]),
    (2, &[(SPARE, 2)]),
    (3, &[(SPARE, 3)]),
    (3, &[(SPARE, 2), (REPLACING, 2)]),
    (4, &[(SPARE, 3), (REPLACING, 2)]),
];

/// Numbers that follow from a seed (xorshift).
#[derive(Drop)]
struct Random {
    x: u64,
}

impl Random {
    fn new(seed: u64) -> Random {
        Random {
            x: seed.wrapping_mul(0x9e37_79b9_7f4a_7c15) | 1,
        }
    }

    fn next(&mut self) -> u64 {
        self.x ^= self.x << 13;
        self.x ^= self.x >> 7;
        self.x ^= self.x << 17;
        self.x
    }

    /// A number from 0 to `most`.
    fn up_to(&mut self, most: u64) -> u64
        ensures { result ≤ most }
    {
        match most.checked_add(1) {
            Some(count) if count != 0 => self.next() % count,
            _ => self.next(),
        }
    }

    /// A number from `least` on, `spread` of them.
    fn from(&mut self, least: u64, spread: u64) -> u64 {
        least.saturating_add(self.up_to(spread.saturating_sub(1)))
    }

    /// Mostly few, seldom up to `most`.
    fn few(&mut self, most: u64) -> u64
        ensures { result ≤ most }
    {
        if self.up_to(15) == 0 {
            self.up_to(most)
        } else {
            self.up_to(most.min(2))
        }
    }

    /// A number of at most 62 binary digits, short ones as often as long ones.
    fn number(&mut self) -> u64 {
        let digits = self.up_to(61) as u32;
        self.next() >> (63 - digits.min(61))
    }
}

/// What was drawn for a leaf.
#[derive(Drop)]
struct Drawn {
    guid: u64,
    name: Vec<u8>,
    state: State,
    marked: bool,
    log: Vec<(u64, u64)>,
}

/// A configuration that is being drawn.
#[derive(Drop)]
struct Draft {
    random: Random,
    spelled: Spelled,
    number: u64,
    guid: u64,
    leaves: Vec<Drawn>,
}

impl Draft {
    /// The member number of the next vdev, above all others before it.
    fn next_guid(&mut self) -> u64 {
        let step = self.random.from(1, 5);
        self.guid = self.guid.saturating_add(step);
        self.guid
    }

    /// A name that no other of this kind has: two digits tell its place.
    fn name(&mut self, alloc: Global, place: usize) -> Result<Vec<u8>, Fail> {
        let mut name = Vec::new(alloc);
        for digit in [place / 16 % 16, place % 16] {
            name.push(LETTERS.get(digit).copied().unwrap_or(b'0'))?;
        }
        for _ in 0..self.random.few(62) {
            let letter = self.random.up_to(15) as usize;
            name.push(LETTERS.get(letter).copied().unwrap_or(b'-'))?;
        }
        Ok(name)
    }

    /// Runs up to the record's number, with a gap of at least one group between two.
    fn log(&mut self, alloc: Global) -> Result<Vec<(u64, u64)>, Fail> {
        let mut log = Vec::new(alloc);
        let mut least = 1;
        for _ in 0..self.random.few(60) {
            let low = self.random.from(least, 4);
            let high = self.random.from(low, 3);
            if high > self.number {
                break;
            }
            log.push((low, high))?;
            least = high.saturating_add(2);
        }
        Ok(log)
    }

    fn leaf(&mut self, alloc: Global) -> Result<(), Fail> {
        let guid = self.next_guid();
        let place = self.leaves.len();
        let name = self.name(alloc, place)?;
        let log = self.log(alloc)?;
        let (flag, state) = STATES[self.random.up_to(3) as usize % 4];
        let marked = self.random.up_to(1) == 1;
        self.spelled.leaf(&Leaf {
            guid,
            name: &name,
            flags: if marked { flag | 8 } else { flag },
            log: &log,
        })?;
        self.leaves.push(Drawn {
            guid,
            name,
            state,
            marked,
            log,
        })?;
        Ok(())
    }

    fn child(&mut self, alloc: Global, leaves: u64, above: &[(u8, u8)]) -> Result<(), Fail> {
        for (kind, children) in above {
            let guid = self.next_guid();
            self.spelled.inner(*kind, guid, *children)?;
        }
        for _ in 0..leaves {
            self.leaf(alloc)?;
        }
        Ok(())
    }

    /// A mirror of 1 to 8 children. Where 32 leaves would be passed they are leaves alone.
    fn top(&mut self, alloc: Global, most: u64) -> Result<(), Fail> {
        let children = self.random.few(most.min(8)).max(1);
        let sectors = self.random.from(LEAST_SECTORS, 1_048_257);
        self.spelled.number(sectors)?;
        let guid = self.next_guid();
        self.spelled.inner(MIRROR, guid, children as u8)?;
        for _ in 0..children {
            let (leaves, above) = CHILDREN[self.random.up_to(5) as usize % 6];
            if self.leaves.len() < 12 {
                self.child(alloc, leaves, above)?;
            } else {
                self.leaf(alloc)?;
            }
        }
        Ok(())
    }

    fn spares(&mut self, alloc: Global) -> Result<(), Fail> {
        let count = self.random.few(16) as u32;
        self.spelled.count(count)?;
        for place in 0..count {
            let name = self.name(alloc, place as usize)?;
            self.spelled.text(&name)?;
        }
        Ok(())
    }
}

/// A configuration that follows from a seed.
fn draw(alloc: Global, seed: u64) -> Result<Draft, Fail> {
    let mut random = Random::new(seed);
    let number = random.number().max(1);
    let tops = random.few(8).max(1) as u32;
    let mut spelled = Spelled::new(alloc);
    let hole = random.up_to(2) == 0;
    spelled.head(&Head {
        pool: random.next(),
        name: b"tank",
        blocks: random.from(1, 262_144),
        number,
        next_guid: random.from(1_000, 1 << 61),
        birth: if hole { 0 } else { random.from(1, number) },
        top: if hole {
            0
        } else {
            random.up_to(u64::from(tops - 1)) as u32
        },
        sector: if hole {
            0
        } else {
            random.up_to(LEAST_SECTORS - 1)
        },
        sum: if hole { 0 } else { random.up_to(255) as u8 },
    })?;
    spelled.count(tops)?;
    let mut draft = Draft {
        random,
        spelled,
        number,
        guid: 0,
        leaves: Vec::new(alloc),
    };
    for _ in 0..tops {
        draft.top(alloc, if tops > 4 { 1 } else { 5 })?;
    }
    draft.spares(alloc)?;
    Ok(draft)
}

/// Whether the leaf is what was drawn, in the form that a record keeps.
fn is_drawn(alloc: Global, leaf: &LeafVdev, drawn: &Drawn) -> Result<bool, Fail> {
    let ranges = leaf.log.to_ranges(alloc)?;
    let same = ranges.as_slice().len() == drawn.log.len()
        && ranges.as_slice().iter().zip(drawn.log.iter()).all(|(range, run)| range.low.0 == run.0
            && range.high.0 == run.1);
    let fresh = leaf.dev.is_none()
        && !leaf.temporary
        && leaf.settled.ranges() == 0
        && leaf.counts.reads == 0
        && leaf.counts.writes == 0
        && leaf.counts.mismatches == 0;
    Ok(
        same && fresh
            && leaf.guid.0 == drawn.guid
            && leaf.name.as_bytes() == drawn.name.as_slice()
            && leaf.state == drawn.state
            && leaf.marked == drawn.marked,
    )
}

/// How many leaves of the configuration are those that were drawn, in their order, and how many it has.
fn matched(alloc: Global, config: &Config, drawn: &[Drawn]) -> Result<(usize, usize), Fail> {
    let mut same = 0_usize;
    let mut all = 0_usize;
    for top in &config.tops {
        for place in 0..32 {
            let Some(leaf) = top.leaf_at(place) else {
                break;
            };
            if let Some(drawn) = drawn.get(all) {
                let is = is_drawn(alloc, leaf, drawn)?;
                same = usize::from(is).saturating_add(same);
            }
            all = all.saturating_add(1);
        }
    }
    Ok((same, all))
}

#[test]
fn what_was_drawn_is_read_and_written_again(rt: HostRuntime) -> Result<(), Fail> {
    let alloc = rt.alloc();
    for seed in 0..SEEDS {
        let draft = draw(alloc, seed)?;
        let bytes = draft.spelled.as_slice();
        let Some(config) = decode(alloc, bytes)? else {
            return Err(Fail::from("a valid configuration isn't read"));
        };
        let count = draft.leaves.len();
        assert_eq!(rt;
            matched(alloc, &config, &draft.leaves)?,
            (count, count),
            "seed {seed}"
        );
        assert_eq!(rt; config.number, Group(draft.number), "seed {seed}");
        assert_eq!(rt; encode(alloc, &config)?.as_slice(), bytes, "seed {seed}");
    }
    Ok(())
}

/// The bytes with one of them changed.
fn with_one_changed(alloc: Global, bytes: &[u8], random: &mut Random) -> Result<Vec<u8>, Fail> {
    let mut changed = Vec::from_slice(alloc, bytes)?;
    let place = random.up_to(bytes.len() as u64) as usize;
    let bits = random.from(1, 255) as u8;
    if place < changed.len() {
        changed[place] ^= bits;
    }
    Ok(changed)
}

#[test]
fn what_has_one_byte_changed_is_spelled_so_or_is_none(rt: HostRuntime) -> Result<(), Fail> {
    let alloc = rt.alloc();
    let mut read = 0_u64;
    for seed in 0..SEEDS {
        let mut draft = draw(alloc, seed)?;
        let changed = with_one_changed(alloc, draft.spelled.as_slice(), &mut draft.random)?;
        if let Some(config) = decode(alloc, &changed)? {
            read = read.saturating_add(1);
            assert_eq!(rt;
                encode(alloc, &config)?.as_slice(),
                changed.as_slice(),
                "seed {seed}"
            );
        }
    }
    assert!(rt; 0 < read && read < SEEDS);
    Ok(())
}
