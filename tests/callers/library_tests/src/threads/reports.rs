//! What is said on standard error while nobody reads it. Lines are said; who waits for whom is looked at, and what is written is compared.

use crate::threads::signal::Signal;
use ldap_op::Update;
use peer_link::{Claim, Framing, Met, Term, Terms, meet};
use server_threads::{
    Address, Choices, Limits, LinkTimes, Logs, MessageFrames, Note, NoteWriter, ReplicaAddresses, ProcessFiles, Reporter,
    ServerError, SharedParts, make_shared_parts,
};
use std::alloc::{AllocError, Global};
use std::net::SocketAddr;
use std::process::Abort;
use std::sync::{Mutex, Wait};
use std::test::*;
use std::thread;
use std::time::{Clock, Duration};
use vr_state::log::Log;
use vr_state::message::Snapshot;
use vr_state::words::{Client, LogEntry};
use vr_wire::{Cluster, Op, PeerMessage};

/// Keeps what it writes, and waits inside each write until it is let go.
#[derive(Drop)]
struct Blocked<'a, R> {
    rt: &'a R,
    alloc: Global,
    entered: &'a Signal,
    free: &'a Signal,
    written: &'a Mutex<Vec<String>>,
}

impl<'a, R: Wait + Clock> NoteWriter for Blocked<'a, R> {
    fn is_ready(&mut self) -> bool {
        true
    }

    fn write_note(&mut self, note: &Note) {
        self.entered.give(self.rt);
        let _is_free = self.free.wait(self.rt, Duration::from_secs(30));
        if let Ok(line) = format!(in self.alloc; "{note}") {
            let _ = self.written.lock(self.rt).push(line);
        }
    }
}

/// Stands for a reader that reads nothing any more: no line can be written without waiting.
#[derive(Drop)]
struct Unread<'a, R> {
    rt: &'a R,
    looks: u64,
}

impl<'a, R: Wait + Clock> NoteWriter for Unread<'a, R> {
    fn is_ready(&mut self) -> bool {
        self.looks += 1;
        thread::sleep(self.rt, Duration::from_millis(1));
        false
    }

    fn write_note(&mut self, _note: &Note) {
        self.looks = 1_000_000;
    }
}

#[test]
fn a_server_that_ends_waits_for_no_reader(rt: HostRuntime) -> Result<(), Fail> {
    let reporter = Reporter::new(rt.alloc(), 128)?;
    reporter.say(&rt, format!(in rt.alloc(); "a"));
    reporter.stop(&rt);
    let mut writer = Unread { rt: &rt, looks: 0 };
    reporter.write_all(&rt, &mut writer);
    assert!(rt; writer.looks < 100);
    Ok(())
}

/// Says one line, and when that is being written 312 equal ones, 200 different ones, and one that there is no memory for; then lets the writer go.
fn say_all<R: Wait + Clock>(
    rt: &R,
    alloc: Global,
    reporter: &Reporter,
    entered: &Signal,
    free: &Signal,
) -> bool {
    reporter.say(rt, format!(in alloc; "a"));
    let has_entered = entered.wait(rt, Duration::from_secs(20));
    for _ in 0..312 {
        reporter.say(rt, format!(in alloc; "b"));
    }
    for number in 0..200u32 {
        reporter.say(rt, format!(in alloc; "c{number}"));
    }
    reporter.say(rt, Err(AllocError));
    free.give(rt);
    reporter.stop(rt);
    has_entered
}

#[test]
fn nobody_waits_for_standard_error_and_no_line_goes_uncounted(rt: HostRuntime) -> Result<(), Fail> {
    let reporter = Reporter::new(rt.alloc(), 128)?;
    let (entered, free) = (Signal::new(), Signal::new());
    let written = Mutex::new(Vec::new(rt.alloc()));
    let ((), has_entered) = thread::join(
        &rt,
        || {
            let mut writer = Blocked {
                rt: &rt,
                alloc: rt.alloc(),
                entered: &entered,
                free: &free,
                written: &written,
            };
            reporter.write_all(&rt, &mut writer);
        },
        || say_all(&rt, rt.alloc(), &reporter, &entered, &free),
    );
    assert!(rt; has_entered);
    let lines = written.lock(&rt);
    assert_eq!(rt; lines.len(), 130);
    assert!(rt; lines[0].as_str() == "a");
    assert!(rt; lines[1].as_str() == "b .. (said 312 times)");
    assert!(rt; lines[2].as_str() == "c0");
    assert!(rt; lines[128].as_str() == "c126");
    assert!(rt; lines[129].as_str() == "74 lines were dropped");
    Ok(())
}

/// A message of six records, each the removal of an entry whose name has 64 KiB.
fn of_six(alloc: Global) -> Result<PeerMessage<Op>, AllocError> {
    let mut name = String::new(alloc);
    for _ in 0..4_096 {
        name.push_str("0123456789abcdef")?;
    }
    let removal = Op::new(alloc, Update::Delete(name))?;
    let mut log = Log::new(alloc);
    for number in 0..6 {
        let client = Client {
            home: 0,
            life: 0,
            number,
        };
        log.push(LogEntry {
            client,
            request_number: 1,
            payload: removal.copy()?,
        })?;
    }
    let held = Snapshot {
        log,
        commit_number: 0,
    };
    Ok(PeerMessage::StartView {
        view_number: 3,
        held,
    })
}

/// The terms of a cluster with this suffix.
pub fn terms_under(suffix: &str) -> Terms {
    Terms::of(None, suffix, "127.0.0.1:389\n")
}

/// What the threads of a replica share that listens where the system lets it.
pub fn parts_under(rt: &HostRuntime, terms: Terms) -> Result<SharedParts, ServerError> {
    let anywhere = Address::Numbers(SocketAddr::from(([127, 0, 0, 1], 0)));
    let place = ReplicaAddresses {
        peer_address: anywhere,
        ldap_address: anywhere,
        uri: None,
    };
    let choices = Choices {
        limits: Limits::usual(),
        terms,
        updates: 1,
        metrics: None,
        memory: 67_108_864,
        version: "0",
        logs: Logs {
            connections: false,
            updates: false,
            slow: 10_000,
        },
        link_times: LinkTimes {
            beat: Duration::from_millis(100),
            silence: Duration::from_millis(500),
        },
    };
    make_shared_parts(rt, rt.alloc(), &[place, place, place], 0, choices, ProcessFiles::none())
}

#[test]
fn a_greeting_tells_the_terms(rt: HostRuntime) -> Result<(), Fail> {
    let cluster = Cluster::new(9).expect(&rt, "9 is the number of a cluster");
    let terms = terms_under("dc=example,dc=com");
    let shared_parts = parts_under(&rt, terms).expect(&rt, "there are ports");
    let claim = Claim {
        start: 3,
        mark: 77,
        remembers: true,
        view: 5,
        last_normal: 4,
        length: 12,
    };
    let mut frames = MessageFrames::new(&rt, rt.alloc(), shared_parts.peer_parts(), cluster, claim, 1);
    let greeting = frames.greeting().expect(&rt, "there is memory");
    let alike = meet(greeting.as_slice(), cluster, &terms);
    assert!(rt;
        alike
            == Ok(Met::Alike {
                sender: 0,
                claim: Some(claim)
            })
    );
    let other = meet(greeting.as_slice(), cluster, &terms_under("dc=example"));
    assert!(rt;
        other
            == Ok(Met::Other {
                sender: 0,
                term: Term::Suffix
            })
    );
    frames.begin(of_six(rt.alloc())?);
    assert!(rt; frames.next_frame().is_some());
    assert!(rt; frames.next_frame().is_none());
    Ok(())
}
