//! That names, the source, the sink and the clock serve where there is memory, and that the source and
//! the sink fail where it is planned, and there alone.
use mp_base::{Clock, Failed, MemClock, MemSink, MemSource, Name, NameFault, Sink, Source};
use std::test::Fail;

#[test]
fn a_name_has_up_to_64_bytes_and_is_no_word(rt: HostRuntime) -> Result<(), Fail> {
    let longest = [b'z'; 64];
    for (bytes, is_name) in [
        (b"0".as_slice(), true),
        (b"tank-0.a_b", true),
        (b"spare0", true),
        (longest.as_slice(), true),
        (b"", false),
        (b"-a", false),
        (b"Tank", false),
        (b"spare", false),
        (b"mirror", false),
    ] {
        match Name::new(rt.alloc(), bytes) {
            Ok(name) => assert_eq!(rt; name.copy(rt.alloc())?.as_bytes(), bytes),
            Err(fault) => assert_eq!(rt; fault, NameFault::Bad),
        }
        assert_eq!(rt; Name::new(rt.alloc(), bytes).is_ok(), is_name);
    }
    Ok(())
}

#[test]
fn streams_fail_once_and_a_clock_stands(rt: HostRuntime) -> Result<(), Fail> {
    let bytes = Vec::from_slice(rt.alloc(), b"c0ffee")?;
    let mut source = MemSource::new(bytes, 4, Some(1));
    let mut out = [b'-'; 4];
    for (answer, front) in [
        (Ok(4), b"c0ff".as_slice()),
        (Err(Failed), b"c0ff"),
        (Ok(2), b"eeff"),
        (Ok(0), b"eeff"),
    ] {
        assert_eq!(rt; source.read(&mut out), answer);
        assert_eq!(rt; out.as_slice(), front);
    }
    let mut sink = MemSink::new(rt.alloc(), 4, Some(1));
    assert_eq!(rt; sink.write(b"c0ffee"), Ok(4));
    assert_eq!(rt; sink.write(b"ee"), Err(Failed));
    assert_eq!(rt; sink.write(b"ee"), Ok(2));
    assert_eq!(rt; sink.bytes(), b"c0ffee".as_slice());
    let mut clock = MemClock::new(rt.alloc(), 7);
    assert_eq!(rt; [clock.now(), clock.now()], [7, 7]);
    clock.set(5);
    assert_eq!(rt; clock.now(), 5);
    Ok(())
}
