//! Machines of three whole nodes: an update, the end of its primary, a view change without it, and its recovery; devices that fail inside a start or a step; reads;
//! journals, over the end of all three at once and where their devices fail; messages as frames, whole and in parts; and events that name nothing that is there.
use dir_machine::{
    Became, Client, Cluster, CompareRequest, Fate, Fates, Fault, Faults, FramePlace, FrameSizes,
    Given, Indexes, JournalFate, JournalFault, LogEntry, Machine, MachineEvent, MachineReply, Name, Place,
    SearchRequest, Standing,
};
use filter_text::read_text;
use ldap_msg::{AttributeValueAssertion, DerefAliases, Scope};
use ldap_op::read_op;
use schema_reader::built_in_schema;
use std::alloc::{AllocError, Global};
use std::process::Abort;
use std::sync::Arc;
use std::test::*;

/// The add of `dc=example,dc=com`, as an update by itself.
const ADD: &str =
    "683f041164633d6578616d706c652c64633d636f6d302a3017040b6f626a656374436c61737331080406646f6d61696e300f04026463310904076578616d706c65";

/// The removal of that entry.
const DELETE: &str = "4a1164633d6578616d706c652c64633d636f6d";

/// A client that names itself.
const SEVEN: Client = Client {
    home: 0,
    life: 0,
    number: 7,
};

/// Devices that don't fail.
const NO_FAULTS: Faults = Faults {
    pair: Fault::None,
    journal: JournalFault::None,
};

/// Nothing lasts that no sync settled.
const ALL_LOST: Fates = Fates {
    pair: Fate::Lost,
    journal: JournalFate::Lost,
};

/// One event of a schedule, as it is written here.
#[derive(Clone, Copy)]
enum Step {
    Start(u64),
    /// A start over a device that stops at this call, and what becomes then of what no sync has settled.
    StartUntil(u64, usize, Fate),
    /// So of the journal's device.
    NoteUntil(u64, usize, JournalFate),
    Crash(u64),
    /// Client 7's request of this number, with the update's octets.
    Request(u64, u64, &'static str),
    /// The send of this index that the event of this index gave out.
    Hear(u64, u64, u64),
    /// That send is written as frames: the most octets of one, and of the message in a part.
    Write(u64, u64, usize, usize),
    /// The frames that the event of this index wrote, after these octets, in hex.
    Frames(u64, u64, &'static str),
    /// Frames of a connection, each by the index of the event that wrote it and its own.
    Heard(u64, &'static [(u64, u64)]),
    Suspect(u64),
    Beat(u64),
    /// A beat and a suspicion at once.
    Both(u64),
    Ask(u64, u64),
    /// A search at this replica of all below that entry's name, and a compare of that entry's `dc` with its own; after this many updates.
    Search(u64, u64),
    Compare(u64, u64),
    State(u64),
}

/// Each event, and what is shown of it.
const SCHEDULE: &[(Step, &str)] = &[
    (Step::Beat(0), "nothing"),
    (Step::Start(0), "started 1"),
    (Step::Start(1), "started 1"),
    (Step::Start(2), "started 1"),
    (Step::Start(3), "nothing"),
    (Step::Start(0), "nothing"),
    // 6: an update, which is sent to both others
    (Step::Request(0, 1, ADD), "handled"),
    (Step::Ask(0, 1), "pending"),
    (Step::Hear(2, 6, 0), "nothing"),
    (Step::Hear(1, 6, 0), "handled"),
    // 10: it is acknowledged
    (Step::Hear(0, 9, 0), "handled"),
    (Step::Ask(0, 1), "done 1 0"),
    (Step::State(0), "primary 0 1 1"),
    (Step::Crash(0), "crashed"),
    (Step::Crash(0), "nothing"),
    (Step::State(0), "nothing"),
    (Step::Start(0), "started 2"),
    (Step::State(0), "recovering 0 0 0"),
    // 18: the others change their view
    (Step::Suspect(1), "handled"),
    (Step::Suspect(2), "handled"),
    (Step::Hear(2, 18, 1), "handled"),
    (Step::Hear(1, 19, 1), "handled"),
    // 22: the one that brings its log to the primary of view 1
    (Step::Hear(1, 20, 0), "handled"),
    // neither of the two was told that the update is committed, so the view begins with none that it knows to be
    (Step::State(1), "primary 1 1 0"),
    (Step::Hear(2, 22, 1), "handled"),
    (Step::State(2), "backup 1 1 0"),
    // 26: another update, with which both are committed
    (Step::Request(1, 2, DELETE), "handled"),
    (Step::Hear(2, 26, 1), "handled"),
    (Step::Hear(1, 27, 0), "handled"),
    (Step::Ask(1, 2), "done 2 0"),
    (Step::Ask(1, 1), "stale"),
    (Step::Ask(1, 3), "lost"),
    // 32: the first primary asks again, and recovers
    (Step::Beat(0), "handled"),
    (Step::Hear(1, 32, 0), "handled"),
    (Step::Hear(2, 32, 1), "handled"),
    (Step::Hear(0, 33, 0), "handled"),
    (Step::Hear(0, 34, 0), "handled"),
    (Step::State(0), "backup 1 2 2"),
    (Step::Ask(0, 2), "done 2 0"),
    (Step::Both(2), "handled handled"),
    (Step::Hear(1, 39, 9), "nothing"),
    (Step::Hear(1, 99, 0), "nothing"),
];

/// Devices that stop. A first start calls its device 9 times, a later one as often, and each view that is stored is 6 calls more; the last of each six is the
/// sync of the octet that makes the new pair the one that is taken.
const STOPPED: &[(Step, &str)] = &[
    // a first start that stops is made again
    (Step::StartUntil(0, 5, Fate::Lost), "stopped E21: the device failed"),
    (Step::State(0), "nothing"),
    (Step::StartUntil(0, 9, Fate::Done), "stopped E21: the device failed"),
    (Step::Start(0), "started 1"),
    // 4: a step whose view was stored, and one whose view was not
    (Step::StartUntil(1, 15, Fate::Done), "started 1"),
    (Step::StartUntil(2, 15, Fate::Lost), "started 1"),
    (Step::Suspect(1), "stopped E21: the device failed"),
    (Step::Both(2), "stopped E21: the device failed"),
    (Step::Hear(0, 6, 0), "nothing"),
    (Step::State(1), "nothing"),
    (Step::Start(1), "started 2"),
    (Step::State(1), "recovering 1 0 0"),
    (Step::Start(2), "started 2"),
    (Step::State(2), "recovering 0 0 0"),
    // 14: later starts that stop, with the former number of starts left and with the next one
    (Step::Crash(1), "crashed"),
    (Step::StartUntil(1, 9, Fate::Lost), "stopped E21: the device failed"),
    (Step::StartUntil(1, 9, Fate::Done), "stopped E21: the device failed"),
    (Step::StartUntil(1, 1, Fate::Filled(165)), "stopped E21: the device failed"),
    (Step::Start(1), "started 4"),
    (Step::State(1), "recovering 1 0 0"),
];

/// Reads of what each has executed.
const READS: &[(Step, &str)] = &[
    (Step::Search(0, 0), "nothing"),
    (Step::Start(0), "started 1"),
    (Step::Start(1), "started 1"),
    (Step::Start(2), "started 1"),
    (Step::Search(0, 0), "found 0 32 0"),
    // 5: an update, and its acknowledgement
    (Step::Request(0, 1, ADD), "handled"),
    (Step::Hear(1, 5, 0), "handled"),
    (Step::Search(0, 1), "not yet 0"),
    (Step::Hear(0, 6, 0), "handled"),
    (Step::Search(0, 1), "found 1 0 1"),
    (Step::Compare(0, 1), "compared 1 6"),
    (Step::Compare(0, 2), "not yet 1"),
    (Step::Search(1, 0), "found 0 32 0"),
    (Step::Compare(1, 0), "compared 0 32"),
    (Step::Search(3, 0), "nothing"),
    (Step::Crash(0), "crashed"),
    (Step::Compare(0, 0), "nothing"),
    (Step::Start(0), "started 2"),
    (Step::Search(0, 1), "not yet 0"),
];

/// Nodes with journals that all end at once, and go on.
const ALL_END: &[(Step, &str)] = &[
    (Step::Start(0), "started 1"),
    (Step::Start(1), "started 1"),
    (Step::Start(2), "started 1"),
    // 3: an update, and its acknowledgement by one backup
    (Step::Request(0, 1, ADD), "handled"),
    (Step::Hear(1, 3, 0), "handled"),
    (Step::Hear(0, 4, 0), "handled"),
    (Step::Search(0, 1), "found 1 0 1"),
    // 7: all end
    (Step::Crash(0), "crashed"),
    (Step::Crash(1), "crashed"),
    (Step::Crash(2), "crashed"),
    (Step::Start(2), "started 2"),
    (Step::State(2), "backup 0 0 0"),
    (Step::Start(1), "started 2"),
    // no record was noted since the update was committed, so none says that it is
    (Step::State(1), "backup 0 1 0"),
    // 14: the two that weren't told of it change the view, and keep it
    (Step::Suspect(1), "handled"),
    (Step::Suspect(2), "handled"),
    (Step::Hear(2, 14, 1), "handled"),
    (Step::Hear(1, 15, 1), "handled"),
    (Step::Hear(1, 16, 0), "handled"),
    (Step::State(1), "primary 1 1 0"),
    (Step::Hear(2, 18, 1), "handled"),
    (Step::Request(1, 2, DELETE), "handled"),
    (Step::Hear(2, 21, 1), "handled"),
    (Step::Hear(1, 22, 0), "handled"),
    (Step::Ask(1, 2), "done 2 0"),
    // 25: the former primary goes on in its view
    (Step::Start(0), "started 2"),
    (Step::State(0), "primary 0 1 0"),
];

/// Journals whose devices stop. A first start calls its journal's device 9 times; a step that appends to the log calls it three times more, the last of which is
/// the sync.
const NOTED: &[(Step, &str)] = &[
    (Step::Start(0), "started 1"),
    (Step::NoteUntil(1, 12, JournalFate::Done), "started 1"),
    (Step::NoteUntil(2, 12, JournalFate::First(20)), "started 1"),
    // 3: an update, whose notes last whole at one backup, and cut at the other
    (Step::Request(0, 1, ADD), "handled"),
    (Step::Hear(1, 3, 0), "stopped E21: the device failed"),
    (Step::Hear(2, 3, 1), "stopped E21: the device failed"),
    (Step::State(1), "nothing"),
    // 7: a start that stops is made again
    (Step::NoteUntil(1, 1, JournalFate::Lost), "stopped E21: the device failed"),
    (Step::Start(1), "started 2"),
    (Step::State(1), "backup 0 1 0"),
    (Step::Start(2), "started 2"),
    (Step::State(2), "backup 0 0 0"),
    // 12: the update comes again
    (Step::Hear(2, 3, 1), "handled"),
    (Step::Hear(0, 12, 0), "handled"),
    (Step::Ask(0, 1), "done 1 0"),
];

/// The first part of some message of replica 0, in two: junk that a connection of cluster 9 gathers.
const FIRST_PART: &str = "0000001a020000000000090d00000000000000000300000000000000020b";

/// Messages that come as frames: one where they fit, and parts.
const FRAMED: &[(Step, &str)] = &[
    (Step::Start(0), "started 1"),
    (Step::Start(1), "started 1"),
    (Step::Start(2), "started 1"),
    // 3: an update, for both others
    (Step::Request(0, 1, ADD), "handled"),
    (Step::Write(3, 0, 1000, 1000), "written 1 1"),
    (Step::Write(3, 1, 0, 50), "written 2 3"),
    (Step::Write(3, 2, 1000, 1000), "nothing"),
    (Step::Write(4, 0, 1000, 1000), "nothing"),
    // 8: frames of another replica, of an event that wrote none, and of one that isn't there
    (Step::Frames(2, 4, ""), "nothing"),
    (Step::Frames(1, 3, ""), "nothing"),
    (Step::Frames(1, 99, ""), "nothing"),
    // 11: its frame, after octets that are none; and its parts, after the first of another message
    (Step::Frames(1, 4, "00ff"), "handled"),
    (Step::Frames(2, 5, FIRST_PART), "handled"),
    (Step::State(2), "backup 0 1 0"),
    // 14: the acknowledgements, one of them as frames
    (Step::Write(11, 0, 1000, 1000), "written 0 1"),
    (Step::Frames(0, 14, FIRST_PART), "handled"),
    (Step::Frames(0, 14, ""), "handled"),
    (Step::Ask(0, 1), "done 1 0"),
];

/// Frames of two messages in any order, again and between one another.
const MIXED: &[(Step, &str)] = &[
    (Step::Start(0), "started 1"),
    (Step::Start(1), "started 1"),
    (Step::Start(2), "started 1"),
    // 3: two updates, each in parts
    (Step::Request(0, 1, ADD), "handled"),
    (Step::Write(3, 0, 0, 50), "written 1 3"),
    (Step::Write(3, 1, 0, 50), "written 2 3"),
    (Step::Request(0, 2, DELETE), "handled"),
    (Step::Write(6, 0, 0, 1000), "written 1 1"),
    // 8: not all of it, not in one run, of another replica, one that isn't there, and none
    (Step::Heard(1, &[(4, 0), (4, 1)]), "nothing"),
    (Step::Heard(1, &[(4, 1), (4, 2)]), "nothing"),
    (Step::Heard(1, &[(4, 0), (7, 0), (4, 1), (4, 2)]), "nothing"),
    (Step::Heard(1, &[(4, 0), (5, 1), (4, 2)]), "nothing"),
    (Step::Heard(1, &[(4, 0), (4, 3)]), "nothing"),
    (Step::Heard(1, &[]), "nothing"),
    (Step::State(1), "backup 0 0 0"),
    // 15: all of it, after others
    (Step::Heard(1, &[(4, 2), (7, 0), (4, 0), (4, 0), (4, 1), (4, 2)]), "handled"),
    (Step::State(1), "backup 0 1 0"),
    (Step::Heard(1, &[(4, 0), (7, 0)]), "handled"),
    (Step::State(1), "backup 0 2 0"),
];

/// An event of a machine.
fn event_of(alloc: Global, step: Step) -> Result<MachineEvent, Fail> {
    Ok(match step {
        Step::Start(replica) => MachineEvent::Start {
            replica,
            faults: NO_FAULTS,
            fates: ALL_LOST,
        },
        Step::StartUntil(replica, call, pair) => MachineEvent::Start {
            replica,
            faults: Faults {
                pair: Fault::StopAt(call),
                ..NO_FAULTS
            },
            fates: Fates { pair, ..ALL_LOST },
        },
        Step::NoteUntil(replica, call, journal) => MachineEvent::Start {
            replica,
            faults: Faults {
                journal: JournalFault::StopAt(call),
                ..NO_FAULTS
            },
            fates: Fates {
                journal,
                ..ALL_LOST
            },
        },
        Step::Crash(replica) => MachineEvent::Crash {
            replica,
            fates: ALL_LOST,
        },
        Step::Request(replica, request_number, text) => {
            let octets = hex::decode(alloc, text)?;
            let entry = LogEntry {
                client: SEVEN,
                request_number,
                payload: read_op(alloc, &octets)?,
            };
            MachineEvent::Give {
                replica,
                given: Given::Request { entry },
            }
        }
        Step::Hear(replica, event, send) => MachineEvent::Give {
            replica,
            given: Given::Message {
                place: Place {
                    event,
                    part: 0,
                    send,
                },
            },
        },
        Step::Write(event, send, most, part_size) => MachineEvent::Write {
            place: Place {
                event,
                part: 0,
                send,
            },
            sizes: FrameSizes { most, part_size },
        },
        Step::Frames(replica, event, text) => {
            let mut heard = Vec::new(alloc);
            heard.push(hex::decode(alloc, text)?)?;
            MachineEvent::Give {
                replica,
                given: Given::Frames { event, heard },
            }
        }
        Step::Heard(replica, places) => {
            let mut frames = Vec::new(alloc);
            for (event, frame) in places {
                frames.push(FramePlace {
                    event: *event,
                    frame: *frame,
                })?;
            }
            MachineEvent::Give {
                replica,
                given: Given::Heard { frames },
            }
        }
        Step::Suspect(replica) => MachineEvent::Give {
            replica,
            given: Given::Suspect,
        },
        Step::Beat(replica) => MachineEvent::Give {
            replica,
            given: Given::Beat,
        },
        Step::Both(replica) => MachineEvent::GiveAll {
            replica,
            given: both(alloc)?,
        },
        Step::Ask(replica, number) => MachineEvent::Ask {
            replica,
            client: SEVEN,
            number,
        },
        Step::Search(replica, named) => MachineEvent::Search {
            replica,
            named,
            request: search_of(alloc)?,
        },
        Step::Compare(replica, named) => MachineEvent::Compare {
            replica,
            named,
            request: compare_of(alloc)?,
        },
        Step::State(replica) => MachineEvent::State { replica },
    })
}

/// A search of all below `dc=example,dc=com`.
fn search_of(alloc: Global) -> Result<SearchRequest, Fail> {
    Ok(SearchRequest {
        base: String::from_str(alloc, "dc=example,dc=com")?,
        scope: Scope::WholeSubtree,
        deref_aliases: DerefAliases::NeverDerefAliases,
        size_limit: 0,
        time_limit: 0,
        types_only: false,
        filter: read_text(alloc, "(objectClass=*)")?,
        attributes: Vec::new(alloc),
    })
}

/// Whether `dc=example,dc=com` has the `dc` of its name.
fn compare_of(alloc: Global) -> Result<CompareRequest, Fail> {
    Ok(CompareRequest {
        entry: String::from_str(alloc, "dc=example,dc=com")?,
        ava: AttributeValueAssertion {
            attribute_desc: String::from_str(alloc, "dc")?,
            assertion_value: "example".as_bytes().to_vec(alloc)?,
        },
    })
}

/// A beat and a suspicion.
fn both(alloc: Global) -> Result<Vec<Given>, AllocError> {
    let mut given = Vec::new(alloc);
    given.push(Given::Beat)?;
    given.push(Given::Suspect)?;
    Ok(given)
}

/// What became of a request, in words.
fn words_of_became(alloc: Global, became: &Became) -> Result<String, Fail> {
    Ok(match became {
        Became::Done { number, reply } => {
            let code = reply.code.number();
            format!(in alloc; "done {number} {code}")?
        }
        Became::Pending => String::from_str(alloc, "pending")?,
        Became::Stale => String::from_str(alloc, "stale")?,
        Became::Lost => String::from_str(alloc, "lost")?,
    })
}

/// Where a node stands, in a word.
fn word_of(standing: Standing) -> &'static str {
    match standing {
        Standing::Primary => "primary",
        Standing::Backup { primary: _ } => "backup",
        Standing::Changing => "changing",
        Standing::Recovering => "recovering",
    }
}

/// What is shown of an event, in words.
fn words_of(alloc: Global, reply: &MachineReply) -> Result<String, Fail> {
    Ok(match reply {
        MachineReply::Nothing => String::from_str(alloc, "nothing")?,
        MachineReply::Handled {
            replica: _,
            given,
            behind: _,
        } => {
            if given.len() == 1 {
                String::from_str(alloc, "handled")?
            } else {
                String::from_str(alloc, "handled handled")?
            }
        }
        MachineReply::Written {
            place: _,
            to,
            frames,
        } => {
            let count = frames.len();
            format!(in alloc; "written {to} {count}")?
        }
        MachineReply::Unwritten { place: _ } => String::from_str(alloc, "unwritten")?,
        MachineReply::Refused { replica: _, error } => format!(in alloc; "refused {error}")?,
        MachineReply::Stopped { replica: _, error } => format!(in alloc; "stopped {error}")?,
        MachineReply::Crashed { replica: _ } => String::from_str(alloc, "crashed")?,
        MachineReply::Started {
            replica: _,
            restarts,
            outputs: _,
        } => format!(in alloc; "started {restarts}")?,
        MachineReply::Outcome { replica: _, became } => words_of_became(alloc, became)?,
        MachineReply::Found {
            replica: _,
            number,
            answer,
        } => {
            let (code, entries) = (answer.code.number(), answer.entries.len());
            format!(in alloc; "found {number} {code} {entries}")?
        }
        MachineReply::Compared {
            replica: _,
            number,
            reply,
        } => {
            let code = reply.code.number();
            format!(in alloc; "compared {number} {code}")?
        }
        MachineReply::NotYet { replica: _, number } => format!(in alloc; "not yet {number}")?,
        MachineReply::Standing {
            replica: _,
            view_number,
            standing,
            op_number,
            commit_number,
        } => {
            let word = word_of(*standing);
            format!(in alloc; "{word} {view_number} {op_number} {commit_number}")?
        }
    })
}

/// Three nodes play a schedule, and what is shown of it is this.
fn play(
    rt: &impl Abort,
    alloc: Global,
    journaled: bool,
    steps: &[(Step, &str)],
) -> Result<(), Fail> {
    let schema = Arc::new(alloc, built_in_schema(alloc)?)?;
    let suffix = Name::read(alloc, &schema, "dc=example,dc=com")?;
    let machine = Machine {
        schema,
        indexes: Indexes::none(alloc),
        suffix,
        cluster: Cluster::new(9).expect(rt, "the number of a cluster"),
        count: 3,
        room: 1000,
        journaled,
    };
    let mut schedule = Vec::new(alloc);
    for (step, _) in steps {
        schedule.push(event_of(alloc, *step)?)?;
    }
    let shown = machine.run(alloc, schedule)?;
    assert!(rt; shown.len() == steps.len());
    for (index, (_, want)) in steps.iter().enumerate() {
        if let Some(reply) = shown.as_slice().get(index) {
            let said = words_of(alloc, reply)?;
            assert!(rt; said.as_str() == *want, "{index}: {said}");
        }
    }
    Ok(())
}

/// Three nodes play the schedule.
#[test]
fn three_nodes(rt: HostRuntime) -> Result<(), Fail> {
    play(&rt, rt.alloc(), false, SCHEDULE)
}

/// Three nodes whose devices stop inside calls.
#[test]
fn devices_stop(rt: HostRuntime) -> Result<(), Fail> {
    play(&rt, rt.alloc(), false, STOPPED)
}

/// Three nodes that are asked searches and compares.
#[test]
fn nodes_are_read(rt: HostRuntime) -> Result<(), Fail> {
    play(&rt, rt.alloc(), false, READS)
}

/// Three nodes that keep journals.
#[test]
fn all_end_at_once(rt: HostRuntime) -> Result<(), Fail> {
    play(&rt, rt.alloc(), true, ALL_END)
}

/// Three nodes, one of whose journals stops.
#[test]
fn journals_stop(rt: HostRuntime) -> Result<(), Fail> {
    play(&rt, rt.alloc(), true, NOTED)
}

/// Three nodes whose messages come as frames.
#[test]
fn messages_come_as_frames(rt: HostRuntime) -> Result<(), Fail> {
    play(&rt, rt.alloc(), false, FRAMED)
}

/// A node that hears frames of two messages.
#[test]
fn frames_are_mixed(rt: HostRuntime) -> Result<(), Fail> {
    play(&rt, rt.alloc(), false, MIXED)
}
