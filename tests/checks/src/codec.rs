//! Configurations against bytes that are written by hand, from docs/FORMATS.md, "Configuration".
ghost use Rattle.std.specs.Prelude.{◌<◌};
ghost use Rattle.config_codec.specs.Fields.{config_fields};
ghost use Rattle.config_codec.specs.Validity.{IsValid};

use crate::built::{range, scattered};
use config_codec::{Config, KeptState, PART_BYTES, Pointer, decode, encode_into};
use mp_base::{Group, Guid, MemFault};
use std::alloc::{AllocError, Global};
use std::process::Abort;
use std::test::Fail;

// Flags 0, and no ranges.
const NOTHING: &[u8] = &[0; 5];

// Pool 7, named t, of two blocks: block 0 was written in group 2 and is in sector 1, block 1 is a hole.
// The mirror is member 1, its leaves 2 and 3 are on the devices a and b, and end with these flags and logs.
fn small_with(
    alloc: Global,
    number: u8,
    first: &[u8],
    second: &[u8],
) -> Result<Vec<u8>, AllocError> {
    let mut bytes = Vec::new(alloc);
    for piece in [
        b"\x00\x00\x00\x01".as_slice(),
        b"\x00\x00\x00\x00\x00\x00\x00\x07",
        b"\x01t",
        b"\x00\x00\x00\x00\x00\x00\x00\x02",
        &[0, 0, 0, 0, 0, 0, 0, number],
        b"\x00\x00\x00\x00\x00\x00\x00\x04",
        b"\x00\x00\x00\x00\x00\x00\x00\x02\x00\x00\x00\x00\x00\x00\x00\x00\x00\x00\x00\x01",
        &[9; 32],
        &[0; 52],
        b"\x00\x00\x00\x01\x00\x00\x00\x00\x00\x00\x00\x40",
        b"\x01\x00\x00\x00\x00\x00\x00\x00\x01\x02",
        b"\x00\x00\x00\x00\x00\x00\x00\x00\x02\x01a",
        first,
        b"\x00\x00\x00\x00\x00\x00\x00\x00\x03\x01b",
        second,
        b"\x00\x00\x00\x00",
    ] {
        bytes.extend_from_slice(piece)?;
    }
    Ok(bytes)
}

fn small(alloc: Global) -> Result<Vec<u8>, AllocError> {
    small_with(alloc, 3, NOTHING, NOTHING)
}

// Flags 0, and a log of these ranges.
fn log_of(alloc: Global, ranges: &[(u64, u64)]) -> Result<Vec<u8>, AllocError> {
    let count = u32::try_from(ranges.len()).unwrap_or(u32::MAX);
    let mut bytes = b"\x00".to_vec(alloc)?;
    bytes.extend_from_slice(&count.to_be_bytes())?;
    for (low, high) in ranges {
        bytes.extend_from_slice(&low.to_be_bytes())?;
        bytes.extend_from_slice(&high.to_be_bytes())?;
    }
    Ok(bytes)
}

// A configuration whose three names have so many bytes, whose blocks at even addresses are holes, and
// whose leaves lack the first so many odd groups.
fn wide(
    alloc: Global,
    name_bytes: usize,
    blocks: u8,
    ranges: [u16; 2],
) -> Result<Vec<u8>, AllocError>
    requires { name_bytes < 256 }
{
    let name = [name_bytes as u8];
    let mut bytes = b"\x00\x00\x00\x01\xff\xff\xff\xff\xff\xff\xff\xff".to_vec(alloc)?;
    bytes.extend_from_slice(&name)?;
    bytes.extend_from_slice(&vec![in alloc; b't'; name_bytes]?)?;
    bytes.extend_from_slice(&u64::from(blocks).to_be_bytes())?;
    bytes.extend_from_slice(b"\x40\x00\x00\x00\x00\x00\x00\x00\x40\x00\x00\x00\x00\x00\x00\x00")?;
    for a in 0..blocks {
        let pointer = if a % 2 == 0 { [0; 52] } else { pointer(a) };
        bytes.extend_from_slice(&pointer)?;
    }
    bytes.extend_from_slice(b"\x00\x00\x00\x01\x00\x00\x00\x00\x00\x0f\xff\x00")?;
    bytes.extend_from_slice(b"\x01\x3f\xff\xff\xff\xff\xff\xff\xff\x02")?;
    for (member, letter, count) in [(1, b'a', ranges[0]), (2, b'b', ranges[1])] {
        bytes.extend_from_slice(&[0, 0, 0, 0, 0, 0, 0, 0, member])?;
        bytes.extend_from_slice(&name)?;
        bytes.extend_from_slice(&vec![in alloc; letter; name_bytes]?)?;
        bytes.extend_from_slice(&log_of(alloc, &scattered(alloc, u64::from(count))?)?)?;
    }
    bytes.extend_from_slice(&[0; 4])?;
    Ok(bytes)
}

// Born in group 2^62, in the second sector of its address.
fn pointer(a: u8) -> [u8; 52] {
    let mut bytes = [a; 52];
    bytes[..20].fill(0);
    bytes[0] = 0x40;
    bytes[19] = (a % 128) * 2 + 1;
    bytes
}

// Whether the configuration is written as these bytes, and zeros behind them to the part's end.
fn is_written(alloc: Global, config: &Config, bytes: &[u8]) -> Result<bool, AllocError>
    requires { IsValid (config_fields config.now) }
{
    let mut out = vec![in alloc; 1; PART_BYTES]?;
    let stop = encode_into(&config.parts(), &mut out);
    Ok(&out[..stop] == bytes && out[stop..].iter().all(|b| *b == 0))
}

// Where the bytes are a configuration, whether it is written so again.
fn written_again(alloc: Global, bytes: &[u8]) -> Result<Option<bool>, Fail> {
    match decode(alloc, bytes)? {
        None => Ok(None),
        Some(config) => Ok(Some(is_written(alloc, &config, bytes)?)),
    }
}

#[test]
fn a_small_configuration_byte_by_byte(rt: HostRuntime) -> Result<(), Fail> {
    let bytes = small(rt.alloc())?;
    let config = decode(rt.alloc(), &bytes)?.ok_or("a configuration")?;
    assert_small(&rt, &config);
    assert_eq!(rt; written_again(rt.alloc(), &bytes)?, Some(true));
    Ok(())
}

fn assert_small(rt: &impl Abort, config: &Config) {
    assert_eq!(rt; config.pool, Guid(7));
    assert_eq!(rt; config.name.as_bytes(), b"t".as_slice());
    assert_eq!(rt; config.number, Group(3));
    assert_eq!(rt;
        [config.blocks, config.next_member, config.sectors],
        [2, 4, 64]
    );
    assert_eq!(rt;
        [config.mirror, config.first.member, config.second.member],
        [Guid(1), Guid(2), Guid(3)]
    );
    assert_eq!(rt; config.first.name.as_bytes(), b"a".as_slice());
    assert_eq!(rt; config.second.name.as_bytes(), b"b".as_slice());
    let written = Pointer {
        birth: Group(2),
        sector: 1,
        sum: [9; 32],
    };
    assert_eq!(rt;
        config.pointers.as_slice(),
        [Some(written), None].as_slice()
    );
}

#[test]
fn what_was_read_is_written_so(rt: HostRuntime) -> Result<(), Fail> {
    for (name_bytes, blocks) in [(1, 1), (1, 32), (64, 1), (64, 32)] {
        let bytes = wide(rt.alloc(), name_bytes, blocks, [0, 0])?;
        assert_eq!(rt;
            sizes_in(rt.alloc(), &bytes)?,
            Some([name_bytes, usize::from(blocks), 0, 0])
        );
        assert_eq!(rt; written_again(rt.alloc(), &bytes)?, Some(true));
    }
    Ok(())
}

#[test]
fn what_is_too_wide_is_refused(rt: HostRuntime) -> Result<(), Fail> {
    let long_names = wide(rt.alloc(), 65, 1, [0, 0])?;
    assert_eq!(rt; sizes_in(rt.alloc(), &long_names)?, None);
    let many_blocks = wide(rt.alloc(), 1, 33, [0, 0])?;
    assert_eq!(rt; sizes_in(rt.alloc(), &many_blocks)?, None);
    Ok(())
}

// How many bytes the name of the bytes' configuration has, how many blocks there are, and how many
// ranges its two logs have.
fn sizes_in(alloc: Global, bytes: &[u8]) -> Result<Option<[usize; 4]>, Fail> {
    match decode(alloc, bytes)? {
        None => Ok(None),
        Some(config) => Ok(Some(sizes(&config))),
    }
}

fn sizes(config: &Config) -> [usize; 4] {
    [
        config.name.as_bytes().len(),
        config.pointers.len(),
        config.first.log.as_slice().len(),
        config.second.log.as_slice().len(),
    ]
}

#[test]
fn a_wrong_head_or_pointer_is_no_configuration(rt: HostRuntime) -> Result<(), Fail> {
    for (at, values) in [
        // version, pool, name
        (3, b"\x00\x02".as_slice()),
        (11, b"\x00"),
        (12, b"\x00\x02"),
        (13, b"T-"),
        // blocks, number, next member number
        (14, b"\x80"),
        (21, b"\x00\x01\x21"),
        (22, b"\x40"),
        (29, b"\x00\x01"),
        (30, b"\x40"),
        (37, b"\x00\x03"),
        // birth, top and sector of a pointer
        (45, b"\x00\x04"),
        (49, b"\x01"),
        (57, b"\x02"),
        // a hole's first and last byte, and what would be its birth
        (90, b"\x01"),
        (97, b"\x01"),
        (141, b"\x01"),
    ] {
        assert!(rt; are_refused(rt.alloc(), at, values)?);
    }
    Ok(())
}

#[test]
fn a_wrong_top_is_no_configuration(rt: HostRuntime) -> Result<(), Fail> {
    for (at, values) in [
        // tops, their sectors (63, and 1,048,640), kind
        (145, b"\x00\x02".as_slice()),
        (153, b"\x3f"),
        (151, b"\x10"),
        (154, b"\x00\x02"),
        // the mirror's number, its children
        (162, b"\x00\x02\x03\x04"),
        (163, b"\x01\x03"),
        // kind, number, name, flags and count of ranges of the leaves
        (164, b"\x01"),
        (172, b"\x00\x01\x03\x04"),
        (174, b"b-"),
        (175, b"\x03\x05\x06\x07\x0b\x10\x11\x80\xff"),
        (176, b"\x01"),
        (179, b"\x01"),
        (180, b"\x01"),
        (188, b"\x00\x01\x02\x04"),
        (190, b"a-"),
        (191, b"\x03\x05\x06\x07\x0b\x10\x11\x80\xff"),
        (195, b"\x01"),
        // spares
        (199, b"\x01"),
    ] {
        assert!(rt; are_refused(rt.alloc(), at, values)?);
    }
    Ok(())
}

#[test]
fn another_value_in_range_is_a_configuration(rt: HostRuntime) -> Result<(), Fail> {
    // a pool, the other sector of block 0, a birth up to the number, a sum
    for (at, byte) in [(4, 0xff), (57, 0), (45, 1), (45, 3), (58, 8)] {
        assert!(rt; !is_refused(rt.alloc(), at, byte)?);
    }
    Ok(())
}

// Whether the small configuration is none any more with each of these bytes.
fn are_refused(alloc: Global, at: usize, values: &[u8]) -> Result<bool, Fail> {
    for byte in values {
        if !is_refused(alloc, at, *byte)? {
            return Ok(false);
        }
    }
    Ok(true)
}

fn is_refused(alloc: Global, at: usize, byte: u8) -> Result<bool, Fail> {
    let mut bytes = small(alloc)?;
    if at < bytes.len() {
        bytes[at] = byte;
    }
    Ok(!is_config(alloc, &bytes)?)
}

fn is_config(alloc: Global, bytes: &[u8]) -> Result<bool, MemFault> {
    Ok(decode(alloc, bytes)?.is_some())
}

#[test]
fn each_state_and_mark_is_read(rt: HostRuntime) -> Result<(), Fail> {
    for (flags, kept, marked) in [
        (0, KeptState::Online, false),
        (1, KeptState::Offline, false),
        (2, KeptState::Faulted, false),
        (4, KeptState::Degraded, false),
        (8, KeptState::Online, true),
        (9, KeptState::Offline, true),
        (10, KeptState::Faulted, true),
        (12, KeptState::Degraded, true),
    ] {
        let bytes = small_with(rt.alloc(), 3, &[flags, 0, 0, 0, 0], NOTHING)?;
        let states = [(kept, marked), (KeptState::Online, false)];
        assert_eq!(rt; states_in(rt.alloc(), &bytes)?, Some(states));
        assert_eq!(rt; written_again(rt.alloc(), &bytes)?, Some(true));
    }
    Ok(())
}

// The state and the mark of each leaf of the bytes' configuration.
fn states_in(alloc: Global, bytes: &[u8]) -> Result<Option<[(KeptState, bool); 2]>, Fail> {
    match decode(alloc, bytes)? {
        None => Ok(None),
        Some(config) => Ok(Some([
            (config.first.kept, config.first.marked),
            (config.second.kept, config.second.marked),
        ])),
    }
}

#[test]
fn a_log_is_read(rt: HostRuntime) -> Result<(), Fail> {
    let first =
        b"\x04\x00\x00\x00\x02\x00\x00\x00\x00\x00\x00\x00\x01\x00\x00\x00\x00\x00\x00\x00\x02\x00\x00\x00\x00\x00\x00\x00\x04\x00\x00\x00\x00\x00\x00\x00\x09";
    let second =
        b"\x0a\x00\x00\x00\x01\x00\x00\x00\x00\x00\x00\x00\x05\x00\x00\x00\x00\x00\x00\x00\x05";
    let bytes = small_with(rt.alloc(), 9, first, second)?;
    let config = decode(rt.alloc(), &bytes)?.ok_or("a configuration")?;
    assert_logs(&rt, &config);
    assert_eq!(rt; written_again(rt.alloc(), &bytes)?, Some(true));
    Ok(())
}

fn assert_logs(rt: &impl Abort, config: &Config) {
    assert_eq!(rt;
        config.first.log.as_slice(),
        [range(1, 2), range(4, 9)].as_slice()
    );
    assert_eq!(rt; config.second.log.as_slice(), [range(5, 5)].as_slice());
}

#[test]
fn a_log_rises_up_to_the_number(rt: HostRuntime) -> Result<(), Fail> {
    for ranges in [
        [].as_slice(),
        &[(1, 9)],
        &[(9, 9)],
        &[(1, 1), (3, 3), (5, 5), (7, 7), (9, 9)],
    ] {
        assert_eq!(rt; take_log(rt.alloc(), ranges)?, [true, true]);
    }
    for ranges in [
        // a group 0, above the number, or above all numbers
        [(0, 3)].as_slice(),
        &[(1, 10)],
        &[(10, 10)],
        &[(1, u64::MAX)],
        &[(u64::MAX, u64::MAX), (1, 1)],
        // low above high
        &[(3, 2)],
        &[(1, 2), (5, 4)],
        // touching, overlapping, twice, falling
        &[(1, 2), (3, 4)],
        &[(1, 5), (4, 7)],
        &[(1, 2), (1, 2)],
        &[(5, 6), (1, 2)],
    ] {
        assert_eq!(rt; take_log(rt.alloc(), ranges)?, [false, false]);
    }
    Ok(())
}

// Whether a configuration of number 9 may have this log at its first leaf, and at its second.
fn take_log(alloc: Global, ranges: &[(u64, u64)]) -> Result<[bool; 2], Fail> {
    let log = log_of(alloc, ranges)?;
    let at_first = small_with(alloc, 9, &log, NOTHING)?;
    let at_second = small_with(alloc, 9, NOTHING, &log)?;
    Ok([is_config(alloc, &at_first)?, is_config(alloc, &at_second)?])
}

#[test]
fn the_logs_have_4096_ranges(rt: HostRuntime) -> Result<(), Fail> {
    for ranges in [[4096, 0], [0, 4096], [2048, 2048]] {
        let bytes = wide(rt.alloc(), 64, 32, ranges)?;
        assert_eq!(rt; bytes.len(), 67_485);
        assert_eq!(rt;
            sizes_in(rt.alloc(), &bytes)?,
            Some([64, 32, usize::from(ranges[0]), usize::from(ranges[1])])
        );
        assert_eq!(rt; written_again(rt.alloc(), &bytes)?, Some(true));
    }
    Ok(())
}

#[test]
fn the_logs_have_no_more(rt: HostRuntime) -> Result<(), Fail> {
    for ranges in [[4097, 0], [0, 4097], [4096, 1], [2049, 2048]] {
        let bytes = wide(rt.alloc(), 1, 1, ranges)?;
        assert!(rt; !is_config(rt.alloc(), &bytes)?);
    }
    Ok(())
}

#[test]
fn a_changed_byte_is_refused_or_read_as_another(rt: HostRuntime) -> Result<(), Fail> {
    let first = log_of(rt.alloc(), &[(1, 2), (4, 9)])?;
    let second = log_of(rt.alloc(), &[(5, 6)])?;
    let mut bytes = small_with(rt.alloc(), 9, &first, &second)?;
    for at in (0..bytes.len()).step_by(9) {
        let byte = bytes[at];
        for change in [1, 0x80, 0xff] {
            bytes[at] = byte ^ change;
            assert!(rt; written_again(rt.alloc(), &bytes)? != Some(false));
        }
        bytes[at] = byte;
    }
    Ok(())
}

#[test]
fn a_byte_too_many_or_too_few_is_no_configuration(rt: HostRuntime) -> Result<(), Fail> {
    let mut bytes = small(rt.alloc())?;
    for stop in (0..bytes.len()).step_by(9) {
        assert!(rt; !is_config(rt.alloc(), &bytes[..stop])?);
    }
    bytes.push(0)?;
    assert!(rt; !is_config(rt.alloc(), &bytes)?);
    Ok(())
}
