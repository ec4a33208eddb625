//! What a run is of: how many replicas, which faults, and which wrong rule is planted.

use crate::chance::Chance;
use crate::growth::can_be_refused;

/// A wrong rule, planted to see it found.
#[derive(Clone, Copy, Debug, PartialEq, Eq)]
pub enum Planted {
    Nothing,
    /// An event that the node is given is dropped; its giver is told that it was taken.
    DroppedEvents,
    /// A session's update becomes one that changes nothing.
    Noops,
    /// A backup says at a tick that it has one record more than it has.
    ForgedPrepareOk,
    /// A STARTVIEW with an empty log comes first of all at a start over a journal.
    ForgedStartView,
    /// A sync settles nothing.
    NoSyncs,
    /// A session goes on as that of another number.
    OtherNumber,
    /// An outcome is another client's.
    OtherOutcome,
    /// A replica that lost its state begins as at its first start, and nobody notices.
    ForgetfulStart,
    /// Nothing is published once a node has executed so many records.
    NoPublication,
    /// A primary whose disk hangs repeats its last beat for ever.
    EndlessBeats,
    /// An update that is refused for want of memory is answered as the one before it.
    RefusedAsDone,
}

/// Their words on the command line.
pub const PLANTS: &[(&str, Planted)] = &[
    ("dropped-events", Planted::DroppedEvents),
    ("noops", Planted::Noops),
    ("forged-prepareok", Planted::ForgedPrepareOk),
    ("forged-startview", Planted::ForgedStartView),
    ("no-syncs", Planted::NoSyncs),
    ("other-number", Planted::OtherNumber),
    ("other-outcome", Planted::OtherOutcome),
    ("forgetful-start", Planted::ForgetfulStart),
    ("no-publication", Planted::NoPublication),
    ("endless-beats", Planted::EndlessBeats),
    ("refused-as-done", Planted::RefusedAsDone),
];

/// What a run is of.
#[derive(Clone, Copy, Debug)]
pub struct Setting {
    pub count: usize,
    pub has_journals: bool,
    pub callers: u64,
    /// Steps with faults; then all faults end.
    pub steps: u64,
    /// How many thousandths of the steps are faults of a machine.
    pub faults: u64,
    /// How many thousandths of the messages are lost, and come twice.
    pub losses: u64,
    pub repeats: u64,
    /// How often messages overtake one another, in thousandths.
    pub shuffles: u64,
    /// By how many thousandths clocks are faster or slower than true time, at most.
    pub drift: u64,
    /// How many thousandths of the calls of nodes, sessions and publishers have a growth refused.
    pub refusals: u64,
    pub planted: Planted,
    pub traces: bool,
}

impl Setting {
    /// The setting of a seed.
    pub fn of(chance: &mut Chance, steps: u64, planted: Planted, traces: bool) -> Setting {
        let count = match chance.below(10) {
            0..7 => 3,
            7..9 => 5,
            _ => 7,
        };
        let is_calm = chance.hits(250);
        Setting {
            count,
            has_journals: chance.hits(600),
            callers: chance.between(2, 8),
            steps,
            faults: if is_calm { 1 } else { chance.between(2, 12) },
            losses: if is_calm { 0 } else { chance.below(60) },
            repeats: chance.below(60),
            shuffles: if is_calm { 0 } else { chance.below(500) },
            drift: if is_calm { 0 } else { chance.below(200) },
            refusals: if is_calm || !can_be_refused() { 0 } else { chance.below(150) },
            planted,
            traces,
        }
    }
}
