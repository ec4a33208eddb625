//! Strangers at the port for peers, over this machine's loopback: silent ones, ones that begin what is no frame of another replica, and one that begins
//! too long a frame. What a server's node hears, and when connections are closed, is looked at.

use crate::threads::sessions::{Holding, NoReads};
use crate::threads::signal::Signal;
use client_link::Limits;
use hex::decode;
use ldap_session::{Config, Name};
use peer_link::{Claim, Terms, greeting};
use schema_reader::built_in_schema;
use server_threads::{
    Address, Build, Choices, Engine, Figures, LinkTimes, Logs, MessageHandler, ReplicaAddresses, ProcessFiles, Role,
    Server, ServerError, SharedParts, Monitored, Start, Trouble, make_shared_parts,
};
use std::alloc::Global;
use std::io::{self, ErrorKind, Read, Write};
use std::net::{Net, SocketAddr, TcpListener, TcpStream};
use std::process::Abort;
use std::sync::{Mutex, Wait};
use std::test::*;
use std::thread::{self, Threads};
use std::time::{Clock, Duration, Instant};
use vr_wire::{Cluster, Op, PeerMessage};

/// Replica 1 of cluster 9 says that six records are committed.
const COMMIT: &str = "0000001902000000000009030100000000000000050000000000000006";

/// The first octets of what replica 0 doesn't take for a greeting: another version, another cluster, the kind of a message, itself, nobody, a longer
/// frame and a shorter one.
const WRONG: [&str; 7] = [
    "00000092010000000000090e01",
    "000000920200000000000a0e01",
    "00000092020000000000090301",
    "00000092020000000000090e00",
    "00000092020000000000090e02",
    "00000093020000000000090e01",
    "00000008020000000000090e01",
];

/// What replica 1 says of its start, and what replica 0 does.
const CLAIM: Claim = Claim {
    start: 1,
    mark: 5,
    remembers: true,
    view: 0,
    last_normal: 0,
    length: 0,
};

/// How often something is tried that is to be done soon, at most: a starved machine makes some of the times long, a fault makes all of them long.
const TRIES: usize = 5;

/// The first octets of a greeting, not enough to tell who sends it.
const BEGUN: [u8; 12] = [0, 0, 0, 0x92, 2, 0, 0, 0, 0, 0, 9, 14];

/// The terms of the cluster, and those of one with another schema.
fn terms(schema: Option<&str>) -> Terms {
    Terms::of(schema, "dc=example,dc=com", "127.0.0.1:389\n")
}

/// How the servers of these tests serve.
fn choices() -> Choices<'static> {
    Choices {
        limits: Limits::usual(),
        terms: terms(None),
        updates: 1,
        metrics: None,
        memory: 67_108_864,
        version: "0",
        logs: Logs {
            connections: false,
            updates: false,
            slow: 10_000,
        },
        link_times: LinkTimes {
            beat: Duration::from_millis(100),
            silence: Duration::from_millis(500),
        },
    }
}

/// A node that counts what it hears.
#[derive(Drop)]
struct Ear<'a, R> {
    rt: &'a R,
    /// Whom it heard, in order.
    heard: Mutex<Vec<u64>>,
    has_heard: Signal,
    is_over: Signal,
}

impl<'a, R: Wait + Clock> MessageHandler for Ear<'a, R> {
    fn hear(&self, from: u64, _message: PeerMessage<Op>, _noted: Option<u64>) -> bool {
        let _ = self.heard.lock(self.rt).push(from);
        self.has_heard.give(self.rt);
        true
    }

    fn hear_part(&self, _from: u64) {}
}

impl<'a, R: Wait + Clock> Engine for Ear<'a, R> {
    fn run(&self) -> Result<(), ServerError> {
        let _is_over = self.is_over.wait(self.rt, Duration::from_secs(50));
        Ok(())
    }

    fn drive(&self) -> Result<(), ServerError> {
        Ok(())
    }

    fn look_again(&self) {}

    fn stop(&self) {
        self.is_over.give(self.rt);
    }
}

impl<'a, R: Wait + Clock> Monitored for Ear<'a, R> {
    fn figures(&self) -> Figures {
        Figures {
            build: Build::Proved,
            trouble: Trouble::None,
            role: Role::Recovering,
            start: Start::Over,
            view_number: 0,
            last_update: 0,
            entries: 0,
            log_length: 0,
            sessions: 0,
        }
    }

    fn descriptors(&self) -> Option<u64> {
        None
    }
}

/// Where two replicas of these tests are found: this one anywhere, the other nowhere.
fn places() -> [ReplicaAddresses<'static>; 2] {
    let anywhere = Address::Numbers(SocketAddr::from(([127, 0, 0, 1], 0)));
    let nowhere = Address::Numbers(SocketAddr::from(([127, 0, 0, 1], 1)));
    [
        ReplicaAddresses {
            peer_address: anywhere,
            ldap_address: anywhere,
            uri: None,
        },
        ReplicaAddresses {
            peer_address: nowhere,
            ldap_address: nowhere,
            uri: None,
        },
    ]
}

/// Runs a server for no clients, until its node is over.
fn run<
    R: Net<Listener = TcpListener, Stream = TcpStream>
        + Threads
        + Wait
        + Clock
        + Print
        + Eprint
        + Sync,
>(
    rt: &R,
    alloc: Global,
    shared_parts: &SharedParts,
    ear: &Ear<'_, R>,
    cluster: Cluster,
) -> Result<(), Fail> {
    let schema = built_in_schema(alloc)?;
    let manager = Name::read(alloc, &schema, "cn=admin,dc=example,dc=com")?;
    let config = Config {
        schema: &schema,
        manager: &manager,
        password: b"secret",
        replica: 0,
        restarts: 1,
        session: 0,
    };
    let ways: Vec<(NoReads, Holding<'_, R>)> = Vec::new(alloc);
    let gates: Vec<(usize, (NoReads, Holding<'_, R>))> = Vec::new(alloc);
    let server = Server {
        rt,
        alloc,
        shared_parts,
        engine: ear,
        cluster,
        places: &places(),
        claim: CLAIM,
    };
    server.run(ways, gates, 1, &config)?;
    Ok(())
}

/// The octets of a text of hexadecimal digits.
fn octets_of(alloc: Global, text: &str) -> io::Result<Vec<u8>> {
    decode(alloc, text).map_err(|_| io::Error::from(ErrorKind::InvalidData))
}

/// For how long a connection is open on which these octets are sent, in milliseconds; none, where that is longer than 20 seconds.
fn open_for<R: Net<Stream = TcpStream> + Clock>(
    rt: &R,
    at: SocketAddr,
    octets: &[u8],
) -> io::Result<u128> {
    let begin = Instant::now(rt)?;
    let mut stream = TcpStream::connect(rt, at)?;
    stream.set_read_timeout(Some(Duration::from_secs(20)))?;
    stream.write_all(octets)?;
    let mut answer = [0u8; 1];
    let is_closed = match stream.read(&mut answer) {
        Ok(count) => count == 0,
        Err(error) => error.kind() == ErrorKind::ConnectionReset,
    };
    let open = Instant::now(rt)?
        .saturating_duration_since(begin)
        .as_millis();
    if is_closed { Ok(open) } else { Ok(u128::MAX) }
}

/// The shortest time for which a connection is open on which these octets are sent, in milliseconds, of tries until one is shorter than this limit.
fn shortest_open<R: Net<Stream = TcpStream> + Clock>(
    rt: &R,
    at: SocketAddr,
    octets: &[u8],
    limit: u128,
) -> io::Result<u128> {
    let mut shortest = u128::MAX;
    for _ in 0..TRIES {
        shortest = shortest.min(open_for(rt, at, octets)?);
        if shortest < limit {
            break;
        }
    }
    Ok(shortest)
}

/// Replica 1's greeting with these terms, and its commit-number behind it.
fn greeting_and_commit(alloc: Global, cluster: Cluster, terms: &Terms) -> io::Result<Vec<u8>> {
    let mut octets = greeting(alloc, cluster, 1, terms, &CLAIM)?;
    octets.extend_from_slice(&octets_of(alloc, COMMIT)?)?;
    Ok(octets)
}

/// Strangers that say nothing, so many, and then another replica: how long that waits until it is heard, in milliseconds.
fn heard_among<R: Net<Stream = TcpStream> + Wait + Clock>(
    rt: &R,
    alloc: Global,
    at: SocketAddr,
    silent: usize,
    ear: &Ear<'_, R>,
    octets: &[u8],
) -> io::Result<u128> {
    let mut streams = Vec::new(alloc);
    for _ in 0..silent {
        streams.push(TcpStream::connect(rt, at)?)?;
    }
    let begin = Instant::now(rt)?;
    let mut stream = TcpStream::connect(rt, at)?;
    stream.write_all(octets)?;
    let _has_heard = ear.has_heard.wait(rt, Duration::from_secs(20));
    Ok(
        Instant::now(rt)?
            .saturating_duration_since(begin)
            .as_millis(),
    )
}

/// Stops the node when this is done.
fn and_stop<R: Wait + Clock, T>(ear: &Ear<'_, R>, done: T) -> T {
    ear.stop();
    done
}

/// A node that has heard nothing.
fn new_ear<'a, R>(rt: &'a R, alloc: Global) -> Ear<'a, R> {
    Ear {
        rt,
        heard: Mutex::new(Vec::new(alloc)),
        has_heard: Signal::new(),
        is_over: Signal::new(),
    }
}

/// The longest time for which one of the wrong beginnings leaves its connection open, in milliseconds.
fn longest_wrong<R: Net<Stream = TcpStream> + Clock>(
    rt: &R,
    alloc: Global,
    at: SocketAddr,
) -> io::Result<u128> {
    let mut longest = 0;
    for wrong in WRONG {
        longest = longest.max(shortest_open(rt, at, &octets_of(alloc, wrong)?, 1000)?);
    }
    Ok(longest)
}

/// How long a replica waits among so many silent strangers until it is heard, in milliseconds, and whether it alone is heard.
fn wait_among<
    R: Net<Listener = TcpListener, Stream = TcpStream>
        + Threads
        + Wait
        + Clock
        + Print
        + Eprint
        + Sync,
>(rt: &R, alloc: Global, cluster: Cluster, silent: usize) -> Result<(u128, bool), Fail> {
    let octets = greeting_and_commit(alloc, cluster, &terms(None))?;
    let shared_parts = make_shared_parts(rt, alloc, &places(), 0, choices(), ProcessFiles::none())?;
    let at = shared_parts.peers.local_addr()?;
    let ear = new_ear(rt, alloc);
    let (ended, waited) = thread::join(
        rt,
        || run(rt, alloc, &shared_parts, &ear, cluster),
        || and_stop(&ear, heard_among(rt, alloc, at, silent, &ear, &octets)),
    );
    ended?;
    let is_alone = ear.heard.lock(rt).as_slice() == &[1u64][..];
    Ok((waited?, is_alone))
}

/// Strangers for whom there is no room give their places up, so that nobody waits for the two seconds that they have; on a starved machine it takes as long as
/// among those for whom there is room.
#[test]
fn silent_strangers_keep_no_replica_out(rt: HostRuntime) -> Result<(), Fail> {
    let cluster = Cluster::new(9).expect(&rt, "9 is the number of a cluster");
    let (mut shortest, mut limit) = (u128::MAX, 0);
    for _ in 0..TRIES {
        let (few, is_alone) = wait_among(&rt, rt.alloc(), cluster, 50)?;
        assert!(&rt; is_alone);
        let (many, is_alone) = wait_among(&rt, rt.alloc(), cluster, 100)?;
        assert!(&rt; is_alone);
        shortest = shortest.min(many);
        limit = few.saturating_mul(4).max(2000);
        if shortest < limit {
            break;
        }
    }
    assert!(rt; shortest < limit, "{shortest} ms, over {limit} ms");
    Ok(())
}

#[test]
fn a_silent_stranger_is_closed_after_two_seconds(rt: HostRuntime) -> Result<(), Fail> {
    let cluster = Cluster::new(9).expect(&rt, "9 is the number of a cluster");
    let shared_parts = make_shared_parts(&rt, rt.alloc(), &places(), 0, choices(), ProcessFiles::none())?;
    let at = shared_parts.peers.local_addr()?;
    let ear = new_ear(&rt, rt.alloc());
    let (ended, (none, begun)) = thread::join(
        &rt,
        || run(&rt, rt.alloc(), &shared_parts, &ear, cluster),
        || {
            let none = shortest_open(&rt, at, b"", 4000);
            let begun = shortest_open(&rt, at, &BEGUN, 4000);
            and_stop(&ear, (none, begun))
        },
    );
    ended?;
    let (none, begun) = (none?, begun?);
    assert!(rt; 1900 <= none && none < 4000, "{none} ms");
    assert!(rt; 1900 <= begun && begun < 4000, "{begun} ms");
    Ok(())
}

#[test]
fn wrong_beginnings_are_refused_at_once(rt: HostRuntime) -> Result<(), Fail> {
    let cluster = Cluster::new(9).expect(&rt, "9 is the number of a cluster");
    let shared_parts = make_shared_parts(&rt, rt.alloc(), &places(), 0, choices(), ProcessFiles::none())?;
    let at = shared_parts.peers.local_addr()?;
    let ear = new_ear(&rt, rt.alloc());
    let (ended, longest) = thread::join(
        &rt,
        || run(&rt, rt.alloc(), &shared_parts, &ear, cluster),
        || and_stop(&ear, longest_wrong(&rt, rt.alloc(), at)),
    );
    ended?;
    let longest = longest?;
    assert!(rt; longest < 1000, "{longest} ms");
    assert!(rt; ear.heard.lock(&rt).is_empty());
    Ok(())
}

#[test]
fn a_replica_with_another_schema_is_not_heard(rt: HostRuntime) -> Result<(), Fail> {
    let cluster = Cluster::new(9).expect(&rt, "9 is the number of a cluster");
    let shared_parts = make_shared_parts(&rt, rt.alloc(), &places(), 0, choices(), ProcessFiles::none())?;
    let at = shared_parts.peers.local_addr()?;
    let ear = new_ear(&rt, rt.alloc());
    let octets = greeting_and_commit(rt.alloc(), cluster, &terms(Some("a schema")))?;
    let (ended, open) = thread::join(
        &rt,
        || run(&rt, rt.alloc(), &shared_parts, &ear, cluster),
        || and_stop(&ear, shortest_open(&rt, at, &octets, 1000)),
    );
    ended?;
    let open = open?;
    assert!(rt; open < 1000, "{open} ms");
    assert!(rt; ear.heard.lock(&rt).is_empty());
    Ok(())
}
