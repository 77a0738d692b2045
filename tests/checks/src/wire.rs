//! Lines and replies, text by text.
use mp_base::{
    Block, Group, GroupRange, Guid, LeafSeen, Name, PlaceRule, Ranges, Refusal, Seen, SeenLeaves,
};
use pool_wire::{
    LeafLog, LeafLogs, LineFault, NamedLeaf, NamedLeaves, Reply, Request, read_line, write_reply,
};
use std::alloc::Global;
use std::test::*;
use vdev_tree::State;

/// What a line asks, in a word.
fn kind(asked: &Result<Request, LineFault>) -> &'static str {
    match asked {
        Ok(Request::Nothing) => "nothing",
        Ok(Request::Create { .. }) => "create",
        Ok(Request::Import { .. }) => "import",
        Ok(Request::Write { .. }) => "write",
        Ok(Request::Read { .. }) => "read",
        Ok(Request::Sync { .. }) => "sync",
        Ok(
            Request::Offline {
                temporary: false,
                ..
            },
        ) => "offline",
        Ok(
            Request::Offline {
                temporary: true,
                ..
            },
        ) => "offline -t",
        Ok(Request::Online { .. }) => "online",
        Ok(Request::Logs { .. }) => "logs",
        Err(LineFault::Bad) => "bad",
        Err(LineFault::Memory) => "memory",
    }
}

#[test]
fn a_line_is_read_or_bad(rt: HostRuntime) {
    for (line, want) in [
        (b"".as_slice(), "nothing"),
        (b"#", "nothing"),
        (b"# any \r byte \xff", "nothing"),
        (b"create tank 16 mirror a b", "create"),
        (b"create tank 0 mirror a a", "create"),
        (b"create tank 16 mirror a", "bad"),
        (b"create tank 16 mirror a b c", "bad"),
        (b"create tank 16 a b", "bad"),
        (b"create mirror 16 mirror a b", "bad"),
        (b"import tank", "import"),
        (b"import tank ", "bad"),
        (b"import tank a", "bad"),
        (b"import mirror", "bad"),
        (b"import", "bad"),
        (b"write tank 0 c0ffee", "write"),
        (b"write tank 0 -", "write"),
        (b"write tank 0 00", "write"),
        (b"write tank 0 c0ffe", "bad"),
        (b"write tank 0 C0FFEE", "bad"),
        (b"write tank 0 ", "bad"),
        (b"write tank 0", "bad"),
        (b"read tank 0", "read"),
        (b"read tank 9999999999999999999", "read"),
        (b"read tank 10000000000000000000", "bad"),
        (b"read tank x", "bad"),
        (b"read tank 00", "bad"),
        (b"read tank +7", "bad"),
        (b"read tank", "bad"),
        (b"read tank ", "bad"),
        (b"read  tank 0", "bad"),
        (b" read tank 0", "bad"),
        (b"read tank 0 ", "bad"),
        (b"read tank 0\r", "bad"),
        (b"sync tank", "sync"),
        (b"sync TANK", "bad"),
        (b"sync spare", "bad"),
        (b"sync", "bad"),
        (b"offline tank a", "offline"),
        (b"offline -t tank a", "offline -t"),
        (b"offline tank", "bad"),
        (b"offline -t tank", "bad"),
        (b"offline -t a", "bad"),
        (b"offline -x tank a", "bad"),
        (b"offline tank -t a", "bad"),
        (b"offline  tank a", "bad"),
        (b"offline tank  a", "bad"),
        (b"offline tank a b", "bad"),
        (b"offline tank mirror", "bad"),
        (b"offline", "bad"),
        (b"online tank a", "online"),
        (b"online tank A", "bad"),
        (b"online -t tank a", "bad"),
        (b"online tank", "bad"),
        (b"logs tank", "logs"),
        (b"logs tank a", "bad"),
        (b"logs tank ", "bad"),
        (b"logs", "bad"),
        (b"detach tank a", "bad"),
    ] {
        assert_eq!(rt; kind(&read_line(rt.alloc(), line)), want);
    }
}

/// The pool and the device that a line names.
fn leaf_named(asked: &Request) -> Option<(&Name, &Name)> {
    match asked {
        Request::Offline { pool, device, .. } => Some((pool, device)),
        Request::Online { pool, device } => Some((pool, device)),
        _ => None,
    }
}

#[test]
fn the_pool_is_named_before_the_device(rt: HostRuntime) -> Result<(), Fail> {
    for line in [
        b"offline tank a".as_slice(),
        b"offline -t tank a",
        b"online tank a",
    ] {
        let asked = read_line(rt.alloc(), line).ok().ok_or("the line is read")?;
        let (pool, device) = leaf_named(&asked).ok_or("the line names a device")?;
        assert_eq!(rt; pool.as_bytes(), b"tank".as_slice());
        assert_eq!(rt; device.as_bytes(), b"a".as_slice());
    }
    Ok(())
}

/// The text of the block that a line writes.
fn written(alloc: Global, line: &[u8]) -> Result<Vec<u8>, LineFault> {
    match read_line(alloc, line)? {
        Request::Write { block, .. } => Ok(write_reply(alloc, &Reply::Data(block))?),
        _ => Err(LineFault::Bad),
    }
}

#[test]
fn a_block_is_told_in_the_fewest_digits(rt: HostRuntime) -> Result<(), Fail> {
    for (line, want) in [
        (b"write tank 0 c0ffee".as_slice(), b"ok c0ffee".as_slice()),
        (b"write tank 0 c0ffee0000", b"ok c0ffee"),
        (b"write tank 0 00c0", b"ok 00c0"),
        (b"write tank 0 0000", b"ok -"),
        (b"write tank 0 -", b"ok -"),
    ] {
        let text = written(rt.alloc(), line).ok().ok_or("the line writes")?;
        assert_eq!(rt; text.as_slice(), want);
    }
    Ok(())
}

/// Two leaves whose copies answered other bytes, by their names.
fn named_leaves(alloc: Global) -> Result<NamedLeaves, LineFault> {
    let mut leaves = NamedLeaves::new(alloc);
    for text in [b"a".as_slice(), b"b".as_slice()] {
        let name = match Name::new(alloc, text) {
            Ok(name) => name,
            Err(_) => return Err(LineFault::Bad),
        };
        let seen = Seen::Mismatch;
        leaves.push(NamedLeaf { name, seen })?;
    }
    Ok(leaves)
}

/// The same by their member numbers, of which the second was away.
fn seen_leaves() -> SeenLeaves {
    let mut leaves = SeenLeaves::new();
    leaves.push(LeafSeen {
        member: Guid(2),
        seen: Seen::Failed,
    });
    if leaves.len() == 1 {
        leaves.push(LeafSeen {
            member: Guid(3),
            seen: Seen::Unreadable,
        });
    }
    leaves
}

#[test]
fn replies_have_their_texts(rt: HostRuntime) -> Result<(), Fail> {
    let alloc = rt.alloc();
    let leaves = named_leaves(alloc).ok().ok_or("there is memory")?;
    let zeros = Block::zeros(alloc).ok().ok_or("there is memory")?;
    let device = Name::new(alloc, b"b").ok().ok_or("there is memory")?;
    for (reply, want) in [
        (Reply::Done, b"ok".as_slice()),
        (Reply::Committed(Group(2)), b"ok 2".as_slice()),
        (Reply::Data(zeros), b"ok -".as_slice()),
        (Reply::Refused(Refusal::NoPool), b"no 2 pool".as_slice()),
        (
            Reply::Refused(Refusal::BadAddress { limit: 16 }),
            b"no 3 address 16".as_slice(),
        ),
        (
            Reply::Exhausted {
                level: 0,
                index: 0,
                leaves,
            },
            b"no 15 exhausted 0 0 a=mismatch,b=mismatch".as_slice(),
        ),
        (
            Reply::Refused(Refusal::Exhausted {
                level: 0,
                index: 7,
                leaves: seen_leaves(),
            }),
            b"no 15 exhausted 0 7 2=failed,3=unreadable".as_slice(),
        ),
        (
            Reply::Refused(Refusal::Suspended {
                group: Group(2),
                top: Guid(1),
                faults: 1,
            }),
            b"no 16 suspended 2 1 1".as_slice(),
        ),
        (
            Reply::DeviceFault { name: device },
            b"no 17 fault b".as_slice(),
        ),
        (
            Reply::Refused(Refusal::WrongPlace {
                rule: PlaceRule::Role,
            }),
            b"no 7 place role".as_slice(),
        ),
        (
            Reply::Refused(Refusal::WrongPlace {
                rule: PlaceRule::Spare,
            }),
            b"no 7 place spare".as_slice(),
        ),
        (
            Reply::Refused(Refusal::WrongPlace {
                rule: PlaceRule::Twice,
            }),
            b"no 7 place twice".as_slice(),
        ),
        (
            Reply::Refused(Refusal::WrongPlace {
                rule: PlaceRule::NotSpare,
            }),
            b"no 7 place notspare".as_slice(),
        ),
        (
            Reply::Refused(Refusal::DeviceFault { member: Guid(3) }),
            b"no 17 fault 3".as_slice(),
        ),
        (Reply::Refused(Refusal::Memory), b"no 19 memory".as_slice()),
        (
            Reply::Refused(Refusal::NoRecord),
            b"no 21 norecord".as_slice(),
        ),
        (
            Reply::Refused(Refusal::TreeFull {
                limit: 32,
                count: 33,
            }),
            b"no 22 limit 32 33".as_slice(),
        ),
        (
            Reply::Refused(Refusal::NotBuilt),
            b"no 40 notbuilt".as_slice(),
        ),
    ] {
        let text = write_reply(alloc, &reply).ok().ok_or("there is memory")?;
        assert_eq!(rt; text.as_slice(), want);
    }
    Ok(())
}

#[test]
fn a_state_is_told_in_capitals(rt: HostRuntime) -> Result<(), Fail> {
    for (state, want) in [
        (State::Online, b"ok ONLINE".as_slice()),
        (State::Degraded, b"ok DEGRADED"),
        (State::Faulted, b"ok FAULTED"),
        (State::Offline, b"ok OFFLINE"),
        (State::Removed, b"ok REMOVED"),
        (State::Unavail, b"ok UNAVAIL"),
    ] {
        let text = write_reply(rt.alloc(), &Reply::State(state))
            .ok()
            .ok_or("there is memory")?;
        assert_eq!(rt; text.as_slice(), want);
    }
    Ok(())
}

/// A leaf of this name, which lacks the groups from each low one to its high one.
fn leaf_log(alloc: Global, name: &[u8], ranges: &[(u64, u64)]) -> Result<LeafLog, LineFault> {
    let name = match Name::new(alloc, name) {
        Ok(name) => name,
        Err(_) => return Err(LineFault::Bad),
    };
    let mut log = Ranges::new(alloc);
    for (low, high) in ranges {
        log.push(GroupRange {
            low: Group(*low),
            high: Group(*high),
        })?;
    }
    Ok(LeafLog { name, log })
}

/// The reply that tells of two leaves, a and b, with these logs.
fn told_logs(alloc: Global, a: &[(u64, u64)], b: &[(u64, u64)]) -> Result<Vec<u8>, LineFault> {
    let mut leaves = LeafLogs::new(alloc);
    leaves.push(leaf_log(alloc, b"a", a)?)?;
    leaves.push(leaf_log(alloc, b"b", b)?)?;
    Ok(write_reply(alloc, &Reply::Logs(leaves))?)
}

#[test]
fn logs_are_told_leaf_by_leaf(rt: HostRuntime) -> Result<(), Fail> {
    let none = [].as_slice();
    for (a, b, want) in [
        (none, none, b"ok a=- b=-".as_slice()),
        ([(5, 7)].as_slice(), none, b"ok a=5-7 b=-"),
        (
            [(1, 1), (3, 4)].as_slice(),
            [(9, 9)].as_slice(),
            b"ok a=1,3-4 b=9",
        ),
    ] {
        let text = told_logs(rt.alloc(), a, b).ok().ok_or("there is memory")?;
        assert_eq!(rt; text.as_slice(), want);
    }
    Ok(())
}

#[test]
fn refusals_name_what_they_are_about(rt: HostRuntime) -> Result<(), Fail> {
    let alloc = rt.alloc();
    let other = Name::new(alloc, b"a").ok().ok_or("there is memory")?;
    let away = Name::new(alloc, b"b").ok().ok_or("there is memory")?;
    for (reply, want) in [
        (Reply::Refused(Refusal::NoVdev), b"no 6 vdev".as_slice()),
        (
            Reply::Refused(Refusal::Required { group: Group(1) }),
            b"no 8 required 1".as_slice(),
        ),
        (
            Reply::Refused(Refusal::TooSmall {
                need: 1000,
                has: 320,
            }),
            b"no 10 small 1000 320".as_slice(),
        ),
        (
            Reply::Refused(Refusal::WrongLabel { member: Guid(2) }),
            b"no 18 label 2".as_slice(),
        ),
        (
            Reply::WrongLabel { name: other },
            b"no 18 label a".as_slice(),
        ),
        (
            Reply::NoDevice { name: away },
            b"no 26 nodevice b".as_slice(),
        ),
    ] {
        let text = write_reply(alloc, &reply).ok().ok_or("there is memory")?;
        assert_eq!(rt; text.as_slice(), want);
    }
    Ok(())
}
