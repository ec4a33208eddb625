//! Clients that misbehave, over this machine's loopback: silent ones, ones that stop inside a message, a crowd, and one that goes while its update
//! waits. That a bind is answered, that a connection is closed, and what the pool tells of its sessions is looked at.

use crate::threads::sessions::directory;
use crate::threads::signal::Signal;
use client_link::{Door, Limits, SessionEnd, close};
use ldap_session::{Config, Name};
use schema_reader::built_in_schema;
use session_pool::{Away, Budget, SessionPool, SessionObserver, PoolSettings, Traffic, serve_sessions};
use std::alloc::{AllocError, Global};
use std::io::{Read, Write};
use std::net::{Net, SocketAddr, TcpListener, TcpStream};
use std::process::Abort;
use std::sync::Wait;
use std::sync::atomic::{AtomicBool, AtomicU64, Ordering};
use std::test::*;
use std::thread::Threads;
use std::time::{Clock, Duration, Instant};
use std::{io, thread};

/// The manager's bind, and its response.
const BIND: &[u8] = b"0,\x02\x01\x01`'\x02\x01\x03\x04\x1acn=admin,dc=example,dc=com\x80\x06secret";

const BOUND: &[u8; 14] = b"0\x0c\x02\x01\x01a\x07\x0a\x01\x00\x04\x00\x04\x00";

/// A delete.
const DELETE: &[u8] = b"0\x0a\x02\x01\x02J\x05cn=No";

/// How many threads of a server of these tests read.
const SEATS: usize = 2;

/// How many clients a crowd has.
const CROWD: usize = 300;

/// How often something is tried that is to be done soon, at most.
const TRIES: usize = 5;

/// The limits of these tests: no test lasts as long as the others.
fn limits(message: u64) -> Limits {
    Limits {
        message: Duration::from_millis(message),
        idle: Duration::from_secs(50),
        write: Duration::from_secs(50),
    }
}

/// Counts what a pool tells.
#[derive(Drop)]
struct Counts<'a, R> {
    rt: &'a R,
    /// The client of an update has left.
    left: Signal,
    let_go: AtomicU64,
    failed: AtomicU64,
}

fn counts<'a, R>(rt: &'a R) -> Counts<'a, R> {
    Counts {
        rt,
        left: Signal::new(),
        let_go: AtomicU64::new(0),
        failed: AtomicU64::new(0),
    }
}

impl<'a, R: Wait> SessionObserver for Counts<'a, R> {
    fn begins(&self) {}

    fn came(&self, _session: u64, _address: SocketAddr) {}

    fn ended(&self, _session: u64, end: SessionEnd) {
        if matches!(end, SessionEnd::ReadFailed | SessionEnd::WriteFailed) {
            self.failed.fetch_add(1, Ordering::SeqCst);
        }
    }

    fn let_go(&self, _session: u64, why: Away) {
        if matches!(why, Away::Longest) {
            self.let_go.fetch_add(1, Ordering::SeqCst);
        }
    }

    fn refused(&self, _session: u64, _name: Result<&str, AllocError>, _code: u8) {}

    fn bound(&self) {}

    fn passed(&self, _traffic: Traffic) {}

    fn left(&self) {
        self.left.give(self.rt);
    }
}

/// Serves clients until the door is closed, with room for so many. An update of the first one waits until its client has left.
fn run<'a, R: Net<Listener = TcpListener, Stream = TcpStream> + Threads + Wait + Clock + Sync>(
    rt: &'a R,
    alloc: Global,
    listener: &TcpListener,
    door: &Door,
    counts: &Counts<'a, R>,
    sessions: usize,
) -> Result<(), Fail> {
    let schema = built_in_schema(alloc)?;
    let manager = Name::read(alloc, &schema, "cn=admin,dc=example,dc=com")?;
    let config = Config {
        schema: &schema,
        manager: &manager,
        password: b"secret",
        replica: 0,
        restarts: 1,
        session: 0,
    };
    let leaves = [AtomicBool::new(false)];
    let budget = Budget::new(67_108_864);
    let terms = PoolSettings {
        config,
        sessions,
        seats: SEATS,
        leaves: &leaves,
        budget: &budget,
    };
    let mut seats = Vec::new(alloc);
    for _ in 0..SEATS {
        seats.push(directory(rt, &counts.left))?;
    }
    let mut updates = Vec::new(alloc);
    updates.push((0, directory(rt, &counts.left)))?;
    let pool = SessionPool::new(rt, alloc, door, counts, terms)?;
    serve_sessions(&pool, listener, seats, updates)?;
    Ok(())
}

/// Whether a client's bind is answered.
fn is_bound<R: Net<Stream = TcpStream>>(rt: &R, at: SocketAddr) -> io::Result<bool> {
    let mut stream = TcpStream::connect(rt, at)?;
    stream.set_read_timeout(Some(Duration::from_secs(40)))?;
    stream.write_all(BIND)?;
    let mut answer = [0u8; 14];
    stream.read_exact(&mut answer)?;
    Ok(answer == *BOUND)
}

/// Whether the server closes a connection on which these octets were sent.
fn is_closed<R: Net<Stream = TcpStream>>(
    rt: &R,
    at: SocketAddr,
    octets: &[u8],
) -> io::Result<bool> {
    let mut stream = TcpStream::connect(rt, at)?;
    stream.set_read_timeout(Some(Duration::from_secs(40)))?;
    stream.write_all(octets)?;
    let mut answer = [0u8; 14];
    Ok(stream.read(&mut answer)? == 0)
}

/// Clients that say nothing, so many; then one that binds.
fn bound_among<R: Net<Stream = TcpStream>>(
    rt: &R,
    alloc: Global,
    at: SocketAddr,
    silent: usize,
) -> io::Result<bool> {
    let mut streams = Vec::new(alloc);
    for _ in 0..silent {
        streams.push(TcpStream::connect(rt, at)?)?;
    }
    is_bound(rt, at)
}

/// Closes the server when this is done.
fn and_close<R: Net<Stream = TcpStream>, T>(rt: &R, door: &Door, at: SocketAddr, done: T) -> T {
    close(rt, door, at);
    done
}

#[test]
fn a_client_that_stops_inside_a_message_is_closed(rt: HostRuntime) -> Result<(), Fail> {
    let listener = TcpListener::bind(&rt, "127.0.0.1:0")?;
    let at = listener.local_addr()?;
    let door = Door::new(limits(50));
    let counts = counts(&rt);
    let (ended, (closed, bound)) = thread::join(
        &rt,
        || run(&rt, rt.alloc(), &listener, &door, &counts, 8),
        || {
            let closed = is_closed(&rt, at, &BIND[..20]);
            and_close(&rt, &door, at, (closed, is_bound(&rt, at)))
        },
    );
    ended?;
    assert!(rt; closed? && bound?);
    assert_eq!(rt; counts.failed.load(Ordering::SeqCst), 1);
    Ok(())
}

#[test]
fn silent_clients_give_their_places_up(rt: HostRuntime) -> Result<(), Fail> {
    let listener = TcpListener::bind(&rt, "127.0.0.1:0")?;
    let at = listener.local_addr()?;
    let door = Door::new(limits(50_000));
    let counts = counts(&rt);
    let (ended, bound) = thread::join(
        &rt,
        || run(&rt, rt.alloc(), &listener, &door, &counts, 2),
        || { and_close(&rt, &door, at, bound_among(&rt, rt.alloc(), at, 2)) },
    );
    ended?;
    assert!(rt; bound?);
    assert_eq!(rt; counts.let_go.load(Ordering::SeqCst), 1);
    Ok(())
}

#[test]
fn a_crowd_leaves_the_server_alive(rt: HostRuntime) -> Result<(), Fail> {
    let listener = TcpListener::bind(&rt, "127.0.0.1:0")?;
    let at = listener.local_addr()?;
    let door = Door::new(limits(50_000));
    let counts = counts(&rt);
    let (ended, bound) = thread::join(
        &rt,
        || run(&rt, rt.alloc(), &listener, &door, &counts, 2),
        || { and_close(&rt, &door, at, bound_among(&rt, rt.alloc(), at, CROWD)) },
    );
    ended?;
    assert!(rt; bound?);
    Ok(())
}

/// A client that asks for an update, and closes its stream with an octet of its answer to the bind unread, which resets it; then another's update is
/// answered. The rest of that answer says that the server is at this session, however late.
fn leave_and_update<R: Net<Stream = TcpStream> + Clock>(
    rt: &R,
    at: SocketAddr,
) -> io::Result<bool> {
    let mut leaver = TcpStream::connect(rt, at)?;
    leaver.write_all(BIND)?;
    leaver.write_all(DELETE)?;
    leaver.set_read_timeout(Some(Duration::from_secs(40)))?;
    let mut begun = [0u8; 13];
    leaver.read_exact(&mut begun)?;
    thread::sleep(rt, Duration::from_millis(500));
    drop(leaver);
    let mut stream = TcpStream::connect(rt, at)?;
    stream.set_read_timeout(Some(Duration::from_secs(40)))?;
    stream.write_all(BIND)?;
    stream.write_all(DELETE)?;
    let mut answers = [0u8; 15];
    stream.read_exact(&mut answers)?;
    Ok(true)
}

#[test]
fn an_update_whose_client_is_gone_holds_no_thread(rt: HostRuntime) -> Result<(), Fail> {
    let listener = TcpListener::bind(&rt, "127.0.0.1:0")?;
    let at = listener.local_addr()?;
    let door = Door::new(limits(50_000));
    let counts = counts(&rt);
    let (ended, answered) = thread::join(
        &rt,
        || run(&rt, rt.alloc(), &listener, &door, &counts, 8),
        || { and_close(&rt, &door, at, leave_and_update(&rt, at)) },
    );
    ended?;
    assert!(rt; answered?);
    assert!(rt; counts.left.has_come(&rt));
    assert!(rt; counts.failed.load(Ordering::SeqCst) >= 1);
    Ok(())
}

/// Makes connections that nobody takes, until no more can be made.
fn fill<R: Net<Stream = TcpStream>>(
    rt: &R,
    alloc: Global,
    at: SocketAddr,
) -> io::Result<Vec<TcpStream>> {
    let mut streams = Vec::new(alloc);
    for _ in 0..9000 {
        match TcpStream::connect_timeout(rt, &at, Duration::from_millis(200)) {
            Ok(stream) => streams.push(stream)?,
            Err(_) => break,
        }
    }
    Ok(streams)
}

#[test]
fn closing_takes_no_longer_than_a_second_where_nobody_listens(rt: HostRuntime) -> Result<(), Fail> {
    let listener = TcpListener::bind(&rt, "127.0.0.1:0")?;
    let at = listener.local_addr()?;
    let _waiting = fill(&rt, rt.alloc(), at)?;
    // A starved machine makes one of them long; where closing takes longer, it makes all of them long.
    let mut shortest = u128::MAX;
    for _ in 0..TRIES {
        let door = Door::new(limits(50));
        let begin = Instant::now(&rt)?;
        close(&rt, &door, at);
        let took = Instant::now(&rt)?
            .saturating_duration_since(begin)
            .as_millis();
        assert!(&rt; door.is_closed());
        shortest = shortest.min(took);
        if shortest < 1900 {
            break;
        }
    }
    assert!(rt; shortest < 1900, "{shortest} ms");
    Ok(())
}
