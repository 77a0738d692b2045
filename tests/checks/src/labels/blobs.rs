//! The configurations of these tests: any bytes, which begin with the number in eight, the high one first.
ghost use Rattle.std.specs.Prelude.{◌≡◌, true, ◌≤◌, length, IfOk};
ghost use Rattle.mp_base.specs.Block.{zeros};
ghost use Rattle.label_store.specs.Committing.{IsSealed};
ghost use Rattle.label_store.specs.Records.{IsHeaded};
ghost use Rattle.label_store.specs.Uberblock.{number_at};
ghost use Rattle.checks.specs.Blobs.{test_head};

use super::setting::POOL;
use bank_core::SECTOR_BYTES;
use label_store::{BlobRule, Head};
use mp_base::{Group, Guid, MemFault, Name};
use std::alloc::Global;
use std::test::Fail;

/// The rule of these configurations.
pub(crate) struct TestRule;

impl BlobRule for TestRule {
    ghost use Rattle.checks.specs.Blobs.{test_head};

    ghost head_of = { test_head };

    fn reads(alloc: Global, bytes: &[u8]) -> Result<Option<Head>, MemFault> {
        if bytes.len() < 8 {
            return Ok(None);
        }
        match Name::new(alloc, b"tank") {
            Ok(name) => Ok(Some(Head {
                pool: POOL,
                name,
                number: Group(number_in(bytes)),
            })),
            Err(_) => Err(MemFault),
        }
    }
}

/// The number with which the bytes begin.
#[tactic(auto, unfolding(label_store::specs::Uberblock::number_at))]
fn number_in(bytes: &[u8]) -> u64
    requires { 8 ≤ length bytes.now }
    ensures { result ≡ number_at 0 bytes.now }
{
    let mut word = [0; 8];
    word.copy_from_slice(&bytes[..8]);
    u64::from_be_bytes(word)
}

/// A configuration with its number, in whole sectors.
#[derive(Drop)]
pub(crate) struct Blob {
    pub(crate) number: Group,
    pub(crate) bytes: Vec<u8>,
    pub(crate) length: usize,
}

impl Blob {
    /// The configuration of this number, of so many bytes.
    pub(crate) fn new(alloc: Global, number: u64, fill: u8, length: usize) -> Result<Blob, Fail> {
        let mut bytes = number.to_be_bytes().to_vec(alloc)?;
        bytes.resize(length, fill)?;
        let sectors = length.div_ceil(SECTOR_BYTES);
        bytes.resize(sectors.saturating_mul(SECTOR_BYTES), 0)?;
        Ok(Blob {
            number: Group(number),
            bytes,
            length,
        })
    }

    pub(crate) fn config(&self) -> &[u8] {
        &self.bytes[..self.length.min(self.bytes.len())]
    }
}

/// Whether these bytes are a configuration of this pool and number.
pub(crate) fn is_headed(
    alloc: Global,
    config: &[u8],
    pool: Guid,
    number: Group,
) -> Result<bool, MemFault>
    ensures { IfOk result (λ found. found ≡ true → IsHeaded test_head pool number config.now) }
{
    match TestRule::reads(alloc, config)? {
        Some(head) => Ok(head.pool == pool && head.number == number),
        None => Ok(false),
    }
}

#[tactic(auto, unfolding(mp_base::specs::Block::zeros))]
fn zeros(alloc: Global, count: usize) -> Result<Vec<u8>, MemFault>
    ensures { IfOk result (λ bytes. bytes.items ≡ zeros count) }
{
    Ok(vec![in alloc; 0; count]?)
}

/// Whether these are whole sectors that begin with a configuration of so many bytes.
#[tactic(auto, unfolding(bank_core::specs::Disk::sector_size))]
pub(crate) fn is_sealed(alloc: Global, blob: &[u8], length: usize) -> Result<bool, MemFault>
    ensures { IfOk result (λ found. found ≡ true → IsSealed blob.now length) }
{
    if length == 0 || length > blob.len() {
        return Ok(false);
    }
    if blob.len() % SECTOR_BYTES != 0 {
        return Ok(false);
    }
    if blob.len() / SECTOR_BYTES > 28 {
        return Ok(false);
    }
    if blob.len() - length >= SECTOR_BYTES {
        return Ok(false);
    }
    let rest = zeros(alloc, blob.len() - length)?;
    Ok(are_equal(&blob[length..], &rest))
}

fn are_equal(first: &[u8], second: &[u8]) -> bool
    ensures yes { result ≡ true → first.now ≡ second.now }
{
    first == second
}
