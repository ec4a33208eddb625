//! Sessions at directories that answer as replicas may: a backup, one that changes, one that recovers, updates that end badly, reads that are
//! not there yet. Expected octets are those of a worked example or come from an independent encoder. What clauses say already is not here.

use crate::sessions::sample::{BIND, BOUND, config, is_written, joined, octets};
use ldap_session::{Client, Config, Ended, Found, Gate, Look, LookError, Role, serve};
use local_directory::{CompareRequest, Name, Reply, SearchAnswer, SearchRequest, Update};
use schema_reader::built_in_schema;
use std::alloc::Global;
use std::process::Abort;
use std::test::*;

/// How a directory of a test answers: what it is to an update, and how updates and reads end.
#[derive(Clone, Copy)]
struct Answering {
    role: Standing,
    update: Ending,
    read: Reading,
}

#[derive(Clone, Copy)]
enum Standing {
    Primary,
    Backup,
    Changing,
    Recovering,
}

#[derive(Clone, Copy)]
enum Ending {
    Stale,
    Lost,
    NoMemory,
}

#[derive(Clone, Copy)]
enum Reading {
    /// Not yet, at the number that was told last.
    NotYet,
    Gone,
    NoMemory,
}

/// Reads that end so.
#[derive(Clone, Copy)]
struct Reads {
    read: Reading,
    learned: u64,
}

/// Updates that end so. It tells the number 41 with its role.
#[derive(Clone, Copy)]
struct Updates {
    role: Standing,
    update: Ending,
    asked: u64,
}

/// Why a read has no answer.
fn failed(reads: &Reads) -> LookError {
    match reads.read {
        Reading::NotYet => LookError::NotYet { at: reads.learned },
        Reading::Gone => LookError::Gone,
        Reading::NoMemory => LookError::NoMemory,
    }
}

impl Look for Reads {
    type Told = u64;

    ghost allows = { λ _ _ _. Unit {0} };

    fn search(
        &mut self,
        _alloc: Global,
        _named: u64,
        _request: &SearchRequest,
    ) -> Result<Found<SearchAnswer>, LookError> {
        Err(failed(self))
    }

    fn compare(
        &mut self,
        _alloc: Global,
        _named: u64,
        _request: &CompareRequest,
    ) -> Result<Found<Reply>, LookError> {
        Err(failed(self))
    }

    fn learn(&mut self, told: u64) {
        self.learned = told;
    }
}

impl Gate<u64> for Updates {
    ghost use Rattle.std.specs.Prelude.{◌≡◌, ◌+◌, min};
    ghost use Rattle.ldap_session.specs.directory_api.Counting.{updates_of, greatest_count};

    ghost allows = { λ d x e. e.asked ≡ min (d.asked + updates_of x) greatest_count };

    ghost count = { λ d. d.asked };

    fn role(&mut self, alloc: Global) -> (Role, u64) {
        // No update more is asked of it.
        self.asked = self.asked.saturating_add(0);
        let role = match self.role {
            Standing::Primary => Role::Primary,
            Standing::Backup => match String::from_str(alloc, "ldap://127.0.0.1:3890") {
                Ok(uri) => Role::Backup { uri },
                Err(_) => Role::Changing,
            },
            Standing::Changing => Role::Changing,
            Standing::Recovering => Role::Recovering,
        };
        (role, 41)
    }

    fn update(&mut self, _alloc: Global, _client: Client, _number: u64, _update: Update) -> Ended {
        self.asked = self.asked.saturating_add(1);
        match self.update {
            Ending::Stale => Ended::Stale,
            Ending::Lost => Ended::Lost,
            Ending::NoMemory => Ended::NoMemory,
        }
    }

    fn asked(&self) -> u64 {
        self.asked
    }

    ghost counts = { λ _ _ _ p. p };
}

/// Requests of a session of the manager's at such a directory, and the responses behind that to the bind.
struct Row {
    name: &'static str,
    answering: Answering,
    requests: &'static [&'static str],
    responses: &'static [&'static str],
}

/// A delete, a compare, a search, and the search that names the number 6.
const DELETE: &str = "300a0201024a05636e3d4e6f";

const COMPARE: &str =
    "30330201036e2e0421636e3d416e612c6f753d4974656d732c64633d6578616d706c652c64633d636f6d30090402636e0403616e61";

const SEARCH: &str =
    "30390201046334041a6f753d4974656d732c64633d6578616d706c652c64633d636f6d0a01010a0100020100020100010100a00030050403312e31";

const NAMING: &str =
    "304f0201056334041a6f753d4974656d732c64633d6578616d706c652c64633d636f6d0a01010a0100020100020100010100a00030050403312e31a0143012040d322e32352e3230313230313031040136";

/// The request for a number alone, and one that is not recognised.
const NOOP: &str = "3014020106770f800d322e32352e3230313230313033";

const UNKNOWN: &str = "301d02010777188016312e332e362e312e342e312e313436362e3230303337";

const ROWS: &[Row] = &[
    Row {
        name: "a backup",
        answering: Answering {
            role: Standing::Backup,
            update: Ending::Lost,
            read: Reading::NotYet,
        },
        requests: &[DELETE, NOOP, COMPARE, SEARCH, NAMING, UNKNOWN],
        responses: &[
            "30250201026b200a010a04000400a31704156c6461703a2f2f3132372e302e302e313a33383930",
            "302502010678200a010a04000400a31704156c6461703a2f2f3132372e302e302e313a33383930",
            "300c0201036f070a013304000400",
            "300c02010465070a013304000400",
            "302302010565070a013304000400a0153013040d322e32352e323031323031303104023431",
            "300c02010778070a010204000400",
        ],
    },
    Row {
        name: "one that changes",
        answering: Answering {
            role: Standing::Changing,
            update: Ending::Lost,
            read: Reading::Gone,
        },
        requests: &[DELETE, NOOP, COMPARE, SEARCH, NAMING],
        responses: &[
            "300c0201026b070a013404000400",
            "300c02010678070a013404000400",
            "300c0201036f070a013404000400",
            "300c02010465070a013404000400",
            "300c02010565070a013404000400",
        ],
    },
    Row {
        name: "a primary that lost an update",
        answering: Answering {
            role: Standing::Primary,
            update: Ending::Lost,
            read: Reading::NoMemory,
        },
        requests: &[DELETE, NOOP, COMPARE, SEARCH, NAMING],
        responses: &[
            "300c0201026b070a015004000400",
            "300c02010678070a015004000400",
            "300c0201036f070a015004000400",
            "300c02010465070a015004000400",
            "300c02010565070a015004000400",
        ],
    },
    Row {
        name: "a primary that was asked more since",
        answering: Answering {
            role: Standing::Primary,
            update: Ending::Stale,
            read: Reading::NotYet,
        },
        requests: &[DELETE, NOOP],
        responses: &[
            "300c0201026b070a013504000400",
            "300c02010678070a013504000400",
        ],
    },
    Row {
        name: "a primary without memory",
        answering: Answering {
            role: Standing::Primary,
            update: Ending::NoMemory,
            read: Reading::NotYet,
        },
        requests: &[DELETE],
        responses: &["300c0201026b070a015004000400"],
    },
];

/// What a session at such a directory writes.
fn served(
    alloc: Global,
    config: &Config,
    answering: Answering,
    input: &[u8],
) -> Result<String, Fail> {
    let reads = Reads {
        read: answering.read,
        learned: 0,
    };
    let updates = Updates {
        role: answering.role,
        update: answering.update,
        asked: 0,
    };
    let mut reader = input;
    let mut written = Vec::new(alloc);
    serve(
        alloc,
        &mut reader,
        &mut written,
        &mut (reads, updates),
        config,
    );
    Ok(hex::encode(alloc, &written)?)
}

/// The same of a session of the manager's.
fn answered(alloc: Global, answering: Answering, input: &[u8]) -> Result<String, Fail> {
    let schema = built_in_schema(alloc)?;
    let manager = Name::read(alloc, &schema, "cn=admin,dc=example,dc=com")?;
    let config = config(&schema, &manager, 1);
    served(alloc, &config, answering, input)
}

/// The octets of a bind and of requests.
fn behind_bind(alloc: Global, requests: &[&str]) -> Result<Vec<u8>, Fail> {
    let mut input = octets(alloc, &[BIND])?;
    input.extend_from_slice(&octets(alloc, requests)?)?;
    Ok(input)
}

/// Compares what is written to requests behind a bind with the responses behind that to the bind.
fn check_row(rt: &impl Abort, alloc: Global, row: &Row, first: &str) -> Result<(), Fail> {
    let input = behind_bind(alloc, row.requests)?;
    let written = answered(alloc, row.answering, &input)?;
    let wanted = joined(alloc, first, row.responses)?;
    is_written(rt, alloc, row.name, &written, &wanted)
}

/// Compares what is written to each row.
fn check(rt: &impl Abort, alloc: Global, rows: &[Row]) -> Result<(), Fail> {
    for row in rows {
        check_row(rt, alloc, row, BOUND)?;
    }
    Ok(())
}

#[test]
fn replicas_are_asked_and_answer(rt: HostRuntime) -> Result<(), Fail> {
    check(&rt, rt.alloc(), ROWS)
}

/// One that recovers answers nothing.
const RECOVERING: Row = Row {
    name: "one that recovers",
    answering: Answering {
        role: Standing::Recovering,
        update: Ending::Lost,
        read: Reading::NotYet,
    },
    requests: &[SEARCH, DELETE, UNKNOWN],
    responses: &[
        "300c02010465070a013404000400",
        "300c0201026b070a013404000400",
        "300c02010778070a013404000400",
    ],
};

#[test]
fn one_that_recovers_answers_nothing(rt: HostRuntime) -> Result<(), Fail> {
    check_row(&rt, rt.alloc(), &RECOVERING, "300c02010161070a013404000400")
}
