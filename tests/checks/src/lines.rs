//! The lines and the replies of a host over any number of tops, text by text.
use mp_base::{Block, Group, GroupRange, Guid, MemFault, Name, PlaceRule, Ranges, Seen};
use pool_lines::{
    Holder, LeafLog, LeafLogs, LineFault, NamedLeaf, NamedLeaves, Refusal, Reply, Request, Tops,
    Turned, read_line, write_reply,
};
use std::alloc::Global;
use std::test::*;
use vdev_tree::State;

/// What a line asks, in a word.
fn kind(asked: &Result<Request, LineFault>) -> &'static str {
    match asked {
        Ok(Request::Nothing) => "nothing",
        Ok(Request::Create { .. }) => "create",
        Ok(Request::Import { .. }) => "import",
        Ok(Request::Write { .. }) => "write",
        Ok(Request::Read { .. }) => "read",
        Ok(Request::Freeze { .. }) => "freeze",
        Ok(Request::Turn { .. }) => "turn",
        Ok(Request::Sync { .. }) => "sync",
        Ok(
            Request::Offline {
                temporary: false,
                ..
            },
        ) => "offline",
        Ok(
            Request::Offline {
                temporary: true,
                ..
            },
        ) => "offline -t",
        Ok(Request::Online { .. }) => "online",
        Ok(Request::Logs { .. }) => "logs",
        Err(LineFault::Bad) => "bad",
        Err(LineFault::Memory) => "memory",
    }
}

#[test]
fn each_form_is_read_and_what_is_near_it_is_bad(rt: HostRuntime) {
    for (line, want) in [
        (b"".as_slice(), "nothing"),
        (b"#", "nothing"),
        (b"# any \r byte \xff", "nothing"),
        (b" ", "bad"),
        (b" # no remark", "bad"),
        (b"import tank", "import"),
        (b"import tank ", "bad"),
        (b"import tank a", "bad"),
        (b"import mirror", "bad"),
        (b"import spare", "bad"),
        (b"import", "bad"),
        (b"write tank 0 c0ffee", "write"),
        (b"write tank 0 -", "write"),
        (b"write tank 0 00", "write"),
        (b"write tank 0 c0ffe", "bad"),
        (b"write tank 0 C0FFEE", "bad"),
        (b"write tank 0 c0FFEE", "bad"),
        (b"write tank 0 c0ffeg", "bad"),
        (b"write tank 0 --", "bad"),
        (b"write tank 0 ", "bad"),
        (b"write tank 0", "bad"),
        (b"write tank 0 01 ", "bad"),
        (b"write tank 0 01 02", "bad"),
        (b"read tank 0", "read"),
        (b"read tank 9999999999999999999", "read"),
        (b"read tank 10000000000000000000", "bad"),
        (b"read tank x", "bad"),
        (b"read tank 00", "bad"),
        (b"read tank +7", "bad"),
        (b"read tank", "bad"),
        (b"read tank ", "bad"),
        (b"read  tank 0", "bad"),
        (b"read tank  0", "bad"),
        (b" read tank 0", "bad"),
        (b"read tank 0 ", "bad"),
        (b"read tank 0\r", "bad"),
        (b"freeze tank", "freeze"),
        (b"freeze tank a", "bad"),
        (b"freeze", "bad"),
        (b"turn tank", "turn"),
        (b"turn tank ", "bad"),
        (b"turn  tank", "bad"),
        (b"sync tank", "sync"),
        (b"sync TANK", "bad"),
        (b"sync spare", "bad"),
        (b"sync", "bad"),
        (b"offline tank a", "offline"),
        (b"offline -t tank a", "offline -t"),
        (b"offline tank", "bad"),
        (b"offline -t tank", "bad"),
        (b"offline -x tank a", "bad"),
        (b"offline tank -t a", "bad"),
        (b"offline tank a b", "bad"),
        (b"offline tank mirror", "bad"),
        (b"online tank a", "online"),
        (b"online tank A", "bad"),
        (b"online -t tank a", "bad"),
        (b"logs tank", "logs"),
        (b"logs tank a", "bad"),
        (b"detach tank a", "bad"),
        (b"export tank", "bad"),
    ] {
        assert_eq!(rt; kind(&read_line(rt.alloc(), line)), want);
    }
}

/// The tops, each in brackets.
fn bracketed(alloc: Global, tops: &Tops) -> Result<Vec<u8>, MemFault> {
    let mut text = Vec::new(alloc);
    for top in tops.as_slice() {
        text.push(b'[')?;
        for (at, name) in top.as_slice().iter().enumerate() {
            if at > 0 {
                text.push(b' ')?;
            }
            text.extend_from_slice(name.as_bytes())?;
        }
        text.push(b']')?;
    }
    Ok(text)
}

/// The tops that a line creates a pool of 16 blocks on; the pool is x.
fn created(alloc: Global, line: &[u8]) -> Result<Vec<u8>, LineFault> {
    match read_line(alloc, line)? {
        Request::Create { pool, blocks, tops } if pool.as_bytes() == b"x".as_slice()
            && blocks == 16 => Ok(bracketed(alloc, &tops)?),
        _ => Err(LineFault::Bad),
    }
}

#[test]
fn names_are_tops_of_one_device_and_groups_are_mirrors(rt: HostRuntime) -> Result<(), Fail> {
    for (line, want) in [
        (b"create x 16 mirror a b".as_slice(), b"[a b]".as_slice()),
        (b"create x 16 a", b"[a]"),
        (b"create x 16 a b", b"[a][b]"),
        (b"create x 16 a a", b"[a][a]"),
        (b"create x 16 mirror a b mirror c d", b"[a b][c d]"),
        (b"create x 16 a b mirror c d n", b"[a][b][c d n]"),
        (b"create x 16 a mirror b c mirror d n s", b"[a][b c][d n s]"),
    ] {
        let shown = created(rt.alloc(), line).ok().ok_or("the line creates")?;
        assert_eq!(rt; shown.as_slice(), want);
    }
    Ok(())
}

#[test]
fn a_create_without_whole_groups_is_bad(rt: HostRuntime) {
    for line in [
        b"create x 16".as_slice(),
        b"create x 16 ",
        b"create x 16 mirror",
        b"create x 16 mirror a",
        b"create x 16 mirror a ",
        b"create x 16 mirror a mirror b c",
        b"create x 16 mirror a b mirror",
        b"create x 16 mirror a b mirror c",
        b"create x 16 mirror mirror a b",
        b"create x 16 mirror  a b",
        b"create x 16  mirror a b",
        b"create x 16 mirror a  b",
        b"create x 16 mirror a b ",
        b"create x 16 mirror a B",
        b"create x 16 mirror a b spare s",
        b"create x 16 a spare",
        b"create mirror 16 mirror a b",
        b"create x 016 mirror a b",
        b"create x mirror a b",
        b"create x 16 Mirror a b",
    ] {
        assert_eq!(rt; kind(&read_line(rt.alloc(), line)), "bad");
    }
}

#[test]
fn numbers_above_the_limits_are_no_bad_line(rt: HostRuntime) {
    for line in [
        b"create x 0 mirror a b".as_slice(),
        b"create x 8192 mirror a b mirror c d",
        b"create x 9999999999999999999 a",
        b"create x 16 mirror a b c d e f g h i j",
        b"create x 16 a b c d e f g h i j",
    ] {
        assert_eq!(rt; kind(&read_line(rt.alloc(), line)), "create");
    }
}

/// The pool and the device that a line names.
fn leaf_named(asked: &Request) -> Option<(&Name, &Name)> {
    match asked {
        Request::Offline { pool, device, .. } => Some((pool, device)),
        Request::Online { pool, device } => Some((pool, device)),
        _ => None,
    }
}

#[test]
fn the_pool_is_named_before_the_device(rt: HostRuntime) -> Result<(), Fail> {
    for line in [
        b"offline tank a".as_slice(),
        b"offline -t tank a",
        b"online tank a",
    ] {
        let asked = read_line(rt.alloc(), line).ok().ok_or("the line is read")?;
        let (pool, device) = leaf_named(&asked).ok_or("the line names a device")?;
        assert_eq!(rt; pool.as_bytes(), b"tank".as_slice());
        assert_eq!(rt; device.as_bytes(), b"a".as_slice());
    }
    Ok(())
}

/// The text of the block that a line writes.
fn written(alloc: Global, line: &[u8]) -> Result<Vec<u8>, LineFault> {
    match read_line(alloc, line)? {
        Request::Write { block, .. } => Ok(write_reply(alloc, &Reply::Data(block))?),
        _ => Err(LineFault::Bad),
    }
}

#[test]
fn a_block_is_told_in_the_fewest_digits(rt: HostRuntime) -> Result<(), Fail> {
    for (line, want) in [
        (b"write tank 0 c0ffee".as_slice(), b"ok c0ffee".as_slice()),
        (b"write tank 0 c0ffee0000", b"ok c0ffee"),
        (b"write tank 0 00c0", b"ok 00c0"),
        (b"write tank 0 0000", b"ok -"),
        (b"write tank 0 -", b"ok -"),
    ] {
        let text = written(rt.alloc(), line).ok().ok_or("the line writes")?;
        assert_eq!(rt; text.as_slice(), want);
    }
    Ok(())
}

fn told(alloc: Global, reply: &Reply, want: &[u8]) -> Result<bool, Fail> {
    let text = write_reply(alloc, reply).ok().ok_or("there is memory")?;
    Ok(text.as_slice() == want)
}

fn name(alloc: Global, text: &[u8]) -> Result<Name, Fail> {
    Ok(Name::new(alloc, text).ok().ok_or("it is a name")?)
}

#[test]
fn a_good_reply_begins_with_ok(rt: HostRuntime) -> Result<(), Fail> {
    let zeros = Block::zeros(rt.alloc()).ok().ok_or("there is memory")?;
    for (reply, want) in [
        (Reply::Done, b"ok".as_slice()),
        (Reply::Numbered(Group(2)), b"ok 2"),
        (Reply::Data(zeros), b"ok -"),
        (Reply::State(State::Online), b"ok ONLINE"),
        (Reply::State(State::Degraded), b"ok DEGRADED"),
        (Reply::State(State::Faulted), b"ok FAULTED"),
        (Reply::State(State::Offline), b"ok OFFLINE"),
        (Reply::State(State::Removed), b"ok REMOVED"),
        (Reply::State(State::Unavail), b"ok UNAVAIL"),
        (Reply::Turned(Turned::Idle), b"ok idle"),
        (Reply::Turned(Turned::Write), b"ok write"),
        (Reply::Turned(Turned::Flush), b"ok flush"),
        (Reply::Turned(Turned::Round(Group(12))), b"ok round 12"),
        (
            Reply::Turned(Turned::Committed(Group(13))),
            b"ok committed 13",
        ),
    ] {
        assert!(rt; told(rt.alloc(), &reply, want)?);
    }
    Ok(())
}

#[test]
fn a_refusal_has_its_number_and_its_fields(rt: HostRuntime) -> Result<(), Fail> {
    let alloc = rt.alloc();
    for (refusal, want) in [
        (Refusal::NoPool, b"no 2 pool".as_slice()),
        (Refusal::BadAddress { limit: 16 }, b"no 3 address 16"),
        (Refusal::NoSpace { need: 65, free: 64 }, b"no 4 space 65 64"),
        (Refusal::GroupFull, b"no 5 full"),
        (Refusal::NoVdev, b"no 6 vdev"),
        (
            Refusal::WrongPlace {
                rule: PlaceRule::Role,
            },
            b"no 7 place role",
        ),
        (
            Refusal::WrongPlace {
                rule: PlaceRule::Spare,
            },
            b"no 7 place spare",
        ),
        (
            Refusal::WrongPlace {
                rule: PlaceRule::Twice,
            },
            b"no 7 place twice",
        ),
        (
            Refusal::WrongPlace {
                rule: PlaceRule::NotSpare,
            },
            b"no 7 place notspare",
        ),
        (Refusal::Required { group: Group(5) }, b"no 8 required 5"),
        (
            Refusal::DeviceInUse {
                by: Holder::SpareDevice,
            },
            b"no 9 inuse spare",
        ),
        (
            Refusal::DeviceInUse {
                by: Holder::Pool(name(alloc, b"q")?),
            },
            b"no 9 inuse q",
        ),
        (
            Refusal::TooSmall {
                need: 1000,
                has: 320,
            },
            b"no 10 small 1000 320",
        ),
    ] {
        assert!(rt; told(alloc, &Reply::Refused(refusal), want)?);
    }
    Ok(())
}

#[test]
fn a_refusal_names_what_it_is_about(rt: HostRuntime) -> Result<(), Fail> {
    let alloc = rt.alloc();
    for (refusal, want) in [
        (
            Refusal::Suspended {
                group: Group(2),
                top: Guid(1),
                faults: 2,
            },
            b"no 16 suspended 2 1 2".as_slice(),
        ),
        (
            Refusal::DeviceFault {
                device: name(alloc, b"a")?,
            },
            b"no 17 fault a",
        ),
        (
            Refusal::WrongLabel {
                device: name(alloc, b"a")?,
            },
            b"no 18 label a",
        ),
        (Refusal::Memory, b"no 19 memory"),
        (
            Refusal::GroupInFlight { group: Group(2) },
            b"no 20 inflight 2",
        ),
        (Refusal::NoRecord, b"no 21 norecord"),
        (
            Refusal::TreeFull {
                limit: 32,
                count: 33,
            },
            b"no 22 limit 32 33",
        ),
        (Refusal::NameTaken, b"no 25 taken"),
        (
            Refusal::NoDevice {
                device: name(alloc, b"z")?,
            },
            b"no 26 nodevice z",
        ),
        (Refusal::NotBuilt, b"no 40 notbuilt"),
    ] {
        assert!(rt; told(alloc, &Reply::Refused(refusal), want)?);
    }
    Ok(())
}

#[test]
fn an_exhausted_read_tells_what_it_saw_of_each_leaf(rt: HostRuntime) -> Result<(), Fail> {
    let alloc = rt.alloc();
    let mut leaves = NamedLeaves::new(alloc);
    for (text, seen) in [
        (b"a".as_slice(), Seen::Unreadable),
        (b"b", Seen::Mismatch),
        (b"c", Seen::Failed),
    ] {
        let leaf = NamedLeaf {
            name: name(alloc, text)?,
            seen,
        };
        leaves.push(leaf).ok().ok_or("there is memory")?;
    }
    let reply = Reply::Refused(Refusal::Exhausted {
        level: 0,
        index: 7,
        leaves,
    });
    let want = b"no 15 exhausted 0 7 a=unreadable,b=mismatch,c=failed";
    assert!(rt; told(alloc, &reply, want)?);
    Ok(())
}

/// A leaf of this name, which lacks the groups from each low one to its high one.
fn leaf_log(alloc: Global, text: &[u8], ranges: &[(u64, u64)]) -> Result<LeafLog, Fail> {
    let mut log = Ranges::new(alloc);
    for (low, high) in ranges {
        let range = GroupRange {
            low: Group(*low),
            high: Group(*high),
        };
        log.push(range).ok().ok_or("there is memory")?;
    }
    Ok(LeafLog {
        name: name(alloc, text)?,
        log,
    })
}

#[test]
fn logs_are_told_leaf_by_leaf(rt: HostRuntime) -> Result<(), Fail> {
    let alloc = rt.alloc();
    let none = [].as_slice();
    for (a, b, want) in [
        (none, none, b"ok a=- b=-".as_slice()),
        ([(5, 7)].as_slice(), none, b"ok a=5-7 b=-"),
        (
            [(1, 1), (3, 4)].as_slice(),
            [(9, 9)].as_slice(),
            b"ok a=1,3-4 b=9",
        ),
    ] {
        let mut leaves = LeafLogs::new(alloc);
        for (text, ranges) in [(b"a".as_slice(), a), (b"b", b)] {
            let leaf = leaf_log(alloc, text, ranges)?;
            leaves.push(leaf).ok().ok_or("there is memory")?;
        }
        assert!(rt; told(alloc, &Reply::Logs(leaves), want)?);
    }
    Ok(())
}
