//! What a run is of: the seed's plan, and what the command line says of all runs.

use crate::chance::Chance;

/// What the command line says of all runs.
#[derive(Clone, Copy)]
pub struct Setting {
    /// How many replicas; 0, where the seed says so.
    pub count: u64,
    /// Whether replicas move by the old rule.
    pub is_old: bool,
    /// Whether a primary whose disk hangs repeats its last beat for ever.
    pub beats_on: bool,
    /// Whether nobody takes it for a sign of life that a part of its long message was taken.
    pub is_unheeding: bool,
    /// Whether nobody asks whether the other end of a stream is there.
    pub never_asks: bool,
    /// Whether a replica that recovers for long asks for a view change.
    pub mends: bool,
    pub traces: bool,
    /// Which faults may be chosen, a bit each.
    pub kinds: u64,
    /// How long faults go on, in microseconds.
    pub faults_time: u64,
    /// Within how many suspect periods of the slowest clock all must be well.
    pub bound: u64,
}

/// The kinds of faults, and their bits in `kinds`.
#[derive(Clone, Copy, PartialEq, Eq, Debug)]
pub enum Kind {
    QuickCrash,
    SlowCrash,
    StoreCrash,
    Partition,
    OneWay,
    Split,
    Pause,
    Slow,
}

/// Bits of what isn't a fault at a moment, but goes on all the time.
pub const SPEEDS: u64 = 1 << 8;

pub const LOSSES: u64 = 1 << 9;

pub const DELAYS: u64 = 1 << 10;

/// Some replicas, or all, have their logs on their disks, and all of them may crash at once.
pub const JOURNALS: u64 = 1 << 11;

/// Disks of some replicas hang, for good.
pub const HANGS: u64 = 1 << 12;

/// Logs are long: a message with one takes ten suspect periods. Not among all, since each view change takes longer than the usual bound.
pub const LONG: u64 = 1 << 13;

/// Streams are forgotten by a network that closes none of them: nothing passes any more, but new ones do.
pub const FORGETS: u64 = 1 << 14;

pub const ALL: u64 = ((1 << 13) - 1) | FORGETS;

/// The names of the bits, in their order.
pub const NAMES: [&str; 15] = [
    "quick-crash",
    "slow-crash",
    "store-crash",
    "partition",
    "one-way",
    "split",
    "pause",
    "slow",
    "speeds",
    "losses",
    "delays",
    "journals",
    "hangs",
    "long",
    "forgets",
];

const KINDS: [Kind; 8] = [
    Kind::QuickCrash,
    Kind::SlowCrash,
    Kind::StoreCrash,
    Kind::Partition,
    Kind::OneWay,
    Kind::Split,
    Kind::Pause,
    Kind::Slow,
];

/// What the seed says of its run.
#[derive(Clone, Copy)]
pub struct Plan {
    pub count: usize,
    weights: [u64; 8],
    /// The mean time between faults.
    pub gap: u64,
    /// Whether links keep the order of messages, as streams do; else each message goes its own way.
    pub is_ordered: bool,
    /// How long a message takes at most.
    pub delay: u64,
    /// How many in a thousand messages are lost, and how many come twice, where links don't keep their order.
    pub loss: u64,
    pub repeats: u64,
    pub has_speeds: bool,
    pub clients: usize,
}

impl Plan {
    pub fn new(setting: &Setting, chance: &mut Chance) -> Plan {
        let count = match setting.count {
            0 => 3 + 2 * chance.below(3),
            count => count,
        };
        let is_ordered = setting.kinds & LOSSES == 0 || chance.hits(500);
        let mut plan = Plan {
            count: count as usize,
            weights: [0; 8],
            gap: chance.spread(500_000, 60_000_000),
            is_ordered,
            delay: 20_000,
            loss: 0,
            repeats: 0,
            has_speeds: setting.kinds & SPEEDS != 0 && chance.hits(700),
            clients: chance.between(1, 4) as usize,
        };
        if setting.kinds & DELAYS != 0 {
            plan.delay = chance.spread(1_000, 1_000_000);
        }
        if !is_ordered {
            plan.loss = chance.below(300) * chance.below(2);
            plan.repeats = chance.below(300) * chance.below(2);
        }
        for kind in 0..8 {
            let weight = [0, 1, 4][chance.below(3) as usize];
            if setting.kinds & (1 << kind) != 0 {
                plan.weights[kind as usize] = weight;
            }
        }
        plan
    }

    /// A kind of fault by its weight; none, where the plan has none.
    pub fn kind(&self, chance: &mut Chance) -> Option<Kind> {
        let mut sum = 0;
        for weight in self.weights {
            sum += weight;
        }
        if sum == 0 {
            return None;
        }
        let mut rest = chance.below(sum);
        for place in 0..8usize {
            if rest < self.weights[place] {
                return Some(KINDS[place]);
            }
            rest -= self.weights[place];
        }
        None
    }
}
