//! Two sessions at once, in one process's memory: the first waits in its gate until the second's client has its answer. Requests flow in; whom
//! each gate served is compared.

use crate::threads::signal::Signal;
use client_link::{Connection, serve_all};
use ldap_session::{
    Client, CompareRequest, Config, Ended, Found, Gate, Look, LookError, Name, Reply, Role,
    SearchAnswer, SearchRequest, Update,
};
use schema_reader::built_in_schema;
use std::alloc::Global;
use std::io;
use std::io::Write;
use std::process::Abort;
use std::sync::Wait;
use std::test::*;
use std::time::{Clock, Duration};

/// How long the first session waits for the second's answer, where that doesn't come.
const LIMIT: u64 = 20;

/// The manager's bind, and a delete.
const REQUESTS: &[u8] =
    b"0,\x02\x01\x01`'\x02\x01\x03\x04\x1acn=admin,dc=example,dc=com\x80\x06secret0\x0a\x02\x01\x02J\x05cn=No";

/// Nothing is read of it.
#[derive(Drop)]
pub struct NoReads;

impl Look for NoReads {
    type Told = ();

    ghost allows = { λ _ _ _. Unit {0} };

    fn search(
        &mut self,
        _alloc: Global,
        _named: u64,
        _request: &SearchRequest,
    ) -> Result<Found<SearchAnswer>, LookError> {
        Err(LookError::Gone)
    }

    fn compare(
        &mut self,
        _alloc: Global,
        _named: u64,
        _request: &CompareRequest,
    ) -> Result<Found<Reply>, LookError> {
        Err(LookError::Gone)
    }

    fn learn(&mut self, _told: ()) {}
}

/// A gate that holds an update of session 1 until session 2 is answered, and answers any other at once.
#[derive(Drop)]
pub struct Holding<'a, R> {
    rt: &'a R,
    answered: &'a Signal,
    asked: u64,
    /// The session that asked last, and whether it waited in vain.
    session: u64,
    is_in_vain: bool,
}

impl<'a, R: Wait + Clock> Gate<()> for Holding<'a, R> {
    ghost use Rattle.std.specs.Prelude.{◌≡◌, ◌+◌, min};
    ghost use Rattle.client_link.specs.directory_api.Counting.{updates_of, greatest_count};

    ghost allows = { λ d x e. e.asked ≡ min (d.asked + updates_of x) greatest_count };

    ghost count = { λ d. d.asked };

    fn role(&mut self, _alloc: Global) -> (Role, ()) {
        // No update more is asked of it.
        self.asked = self.asked.saturating_add(0);
        (Role::Primary, ())
    }

    fn update(&mut self, _alloc: Global, client: Client, _number: u64, _update: Update) -> Ended {
        self.asked = self.asked.saturating_add(1);
        self.session = client.number;
        if client.number == 1 {
            self.is_in_vain = !self.answered.wait(self.rt, Duration::from_secs(LIMIT));
        }
        Ended::Stale
    }

    fn asked(&self) -> u64 {
        self.asked
    }

    ghost counts = { λ _ _ _ p. p };
}

/// What a client takes of its answers: it says when it has the second.
#[derive(Drop)]
struct Answers<'a, R> {
    rt: &'a R,
    answered: Option<&'a Signal>,
    count: u32,
}

impl<'a, R: Wait> Write for Answers<'a, R> {
    fn write(&mut self, octets: &[u8]) -> io::Result<usize> {
        self.count = self.count.saturating_add(1);
        if self.count == 2 {
            if let Some(signal) = self.answered {
                signal.give(self.rt);
            }
        }
        Ok(octets.len())
    }

    fn flush(&mut self) -> io::Result<()> {
        Ok(())
    }
}

/// A client in memory.
#[derive(Drop)]
struct Memory<'a, R> {
    requests: &'static [u8],
    answers: Answers<'a, R>,
}

impl<'a, R: Wait + Sync> Connection for Memory<'a, R> {
    type Reader = &'static [u8];

    type Writer = Answers<'a, R>;

    fn ends(&mut self) -> (&mut &'static [u8], &mut Answers<'a, R>) {
        (&mut self.requests, &mut self.answers)
    }
}

fn client<'a, R>(rt: &'a R, answered: Option<&'a Signal>) -> Memory<'a, R> {
    Memory {
        requests: REQUESTS,
        answers: Answers {
            rt,
            answered,
            count: 0,
        },
    }
}

pub fn directory<'a, R>(rt: &'a R, answered: &'a Signal) -> (NoReads, Holding<'a, R>) {
    let gate = Holding {
        rt,
        answered,
        asked: 0,
        session: 0,
        is_in_vain: false,
    };
    (NoReads, gate)
}

#[test]
fn one_session_waits_until_another_is_answered(rt: HostRuntime) -> Result<(), Fail> {
    let schema = built_in_schema(rt.alloc())?;
    let manager = Name::read(rt.alloc(), &schema, "cn=admin,dc=example,dc=com")?;
    let answered = Signal::new();
    let directories = vec![in rt.alloc(); directory(&rt, &answered), directory(&rt, &answered)]?;
    let (to, from) = crossbeam_channel::bounded(rt.alloc(), 2)?;
    assert!(rt; to.send(&rt, (1, client(&rt, None))).is_ok());
    assert!(rt; to.send(&rt, (2, client(&rt, Some(&answered)))).is_ok());
    drop(to);
    let config = Config {
        schema: &schema,
        manager: &manager,
        password: b"secret",
        replica: 0,
        restarts: 1,
        session: 0,
    };
    let after = serve_all(&rt, rt.alloc(), from, directories, &config)?;
    assert_eq!(rt; after.len(), 2);
    let (one, two) = (&after[0].1, &after[1].1);
    assert!(rt; one.asked == 1 && two.asked == 1);
    assert!(rt; one.session.min(two.session) == 1 && one.session.max(two.session) == 2);
    assert!(rt; !one.is_in_vain && !two.is_in_vain);
    Ok(())
}
