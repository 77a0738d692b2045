//! Configurations that are spelled field by field (docs/FORMATS.md, "Configuration, version 1").
use std::alloc::Global;
use std::test::Fail;

/// The kinds of vdevs.
pub const LEAF: u8 = 0;

pub const MIRROR: u8 = 1;

pub const REPLACING: u8 = 2;

pub const SPARE: u8 = 3;

/// What stands before the tops. The root pointer is a hole where its birth is 0.
#[derive(Drop)]
pub struct Head<'a> {
    pub pool: u64,
    pub name: &'a [u8],
    pub blocks: u64,
    pub number: u64,
    pub next_guid: u64,
    pub birth: u64,
    pub top: u32,
    pub sector: u64,
    pub sum: u8,
}

/// A leaf, with its runs from low to high.
#[derive(Drop)]
pub struct Leaf<'a> {
    pub guid: u64,
    pub name: &'a [u8],
    pub flags: u8,
    pub log: &'a [(u64, u64)],
}

/// Bytes that are put one behind the other.
#[derive(Drop)]
pub struct Spelled {
    bytes: Vec<u8>,
}

impl Spelled {
    pub fn new(alloc: Global) -> Spelled {
        Spelled {
            bytes: Vec::new(alloc),
        }
    }

    pub fn as_slice(&self) -> &[u8] {
        &self.bytes
    }

    pub fn bytes(&mut self, bytes: &[u8]) -> Result<(), Fail> {
        for byte in bytes {
            self.bytes.push(*byte)?;
        }
        Ok(())
    }

    pub fn byte(&mut self, byte: u8) -> Result<(), Fail> {
        self.bytes(&[byte])
    }

    /// Four bytes, the high one first.
    pub fn count(&mut self, count: u32) -> Result<(), Fail> {
        self.bytes(&count.to_be_bytes())
    }

    /// Eight bytes, the high one first.
    pub fn number(&mut self, number: u64) -> Result<(), Fail> {
        self.bytes(&number.to_be_bytes())
    }

    /// A byte, the length, and the bytes.
    pub fn text(&mut self, text: &[u8]) -> Result<(), Fail> {
        self.byte(u8::try_from(text.len())?)?;
        self.bytes(text)
    }

    pub fn head(&mut self, head: &Head) -> Result<(), Fail> {
        self.count(1)?;
        self.number(head.pool)?;
        self.text(head.name)?;
        self.number(head.blocks)?;
        self.number(head.number)?;
        self.number(head.next_guid)?;
        self.number(head.birth)?;
        self.count(head.top)?;
        self.number(head.sector)?;
        self.bytes(&[head.sum; 32])
    }

    /// An inner vdev, whose children follow.
    pub fn inner(&mut self, kind: u8, guid: u64, children: u8) -> Result<(), Fail> {
        self.byte(kind)?;
        self.number(guid)?;
        self.byte(children)
    }

    pub fn leaf(&mut self, leaf: &Leaf) -> Result<(), Fail> {
        self.byte(LEAF)?;
        self.number(leaf.guid)?;
        self.text(leaf.name)?;
        self.byte(leaf.flags)?;
        self.count(u32::try_from(leaf.log.len())?)?;
        for (low, high) in leaf.log {
            self.number(*low)?;
            self.number(*high)?;
        }
        Ok(())
    }
}
