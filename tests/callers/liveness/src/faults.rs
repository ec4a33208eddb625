//! Faults: crashes and restarts, cuts, pauses and slow times, and their end.

use crate::agenda::What;
use crate::mark::Mark;
use crate::setting::Kind;
use crate::timer::{BEAT, SUSPECT, Timer};
use crate::world::World;
use replica_clock::{KeepAlive, Progress, Steps, Times};
use std::alloc::AllocError;
use vr_recover::recover;
use vr_state::message::{Change, PeerMessage, Send};
use vr_state::replica::Replica;

/// After how long the system gives up a stream whose other end answers nothing.
const SYSTEM: u64 = 939_000_000;

impl World {
    /// The next fault happens, and the one after it is put down.
    pub fn on_fault(&mut self) -> Result<(), AllocError> {
        if self.is_healed {
            return Ok(());
        }
        if let Some(kind) = self.plan.kind(&mut self.chance) {
            self.fault(kind)?;
            let gap = self.chance.between(1, 2 * self.plan.gap);
            self.agenda.put(self.now + gap, What::Fault)?;
        }
        Ok(())
    }

    fn fault(&mut self, kind: Kind) -> Result<(), AllocError> {
        let at = self.victim();
        match kind {
            Kind::QuickCrash => {
                let rest = self.chance.spread(20_000, 1_500_000);
                self.crash_for(at, rest)
            }
            Kind::SlowCrash => {
                let rest = self.chance.spread(3_000_000, 60_000_000);
                self.crash_for(at, rest)
            }
            Kind::StoreCrash => {
                self.machines[at].is_doomed = true;
                Ok(())
            }
            Kind::Partition => self.partition(),
            Kind::OneWay => self.cut_one_way(at),
            Kind::Split => self.split(),
            Kind::Pause => self.pause(at),
            Kind::Slow => self.slow(),
        }
    }

    /// Whom a fault hits: as often the primary as any.
    fn victim(&mut self) -> usize {
        let count = self.machines.len();
        let any = self.chance.below(count as u64) as usize;
        if self.chance.hits(500) {
            return any;
        }
        let mut found = any;
        let mut latest = 0;
        for at in 0..count {
            if self.machines[at].leads() && self.machines[at].view() >= latest {
                latest = self.machines[at].view();
                found = at;
            }
        }
        found
    }

    /// Whether a replica may crash: fewer than f others are down.
    pub fn may_crash(&self, at: usize) -> bool {
        let mut others = 0;
        for other in 0..self.machines.len() {
            if other != at && self.machines[other].is_down {
                others += 1;
            }
        }
        !self.is_healed && others < self.machines.len() / 2
    }

    fn crash_for(&mut self, at: usize, rest: u64) -> Result<(), AllocError> {
        if self.may_crash(at) && self.machines[at].replica.is_some() {
            self.crash(at, rest)
        } else {
            Ok(())
        }
    }

    /// A replica crashes, and starts again after so long.
    pub fn crash(&mut self, at: usize, rest: u64) -> Result<(), AllocError> {
        self.crashes += 1;
        let outlives = self.machines[at].outlives();
        self.machines[at].kept = match self.machines[at].replica.take() {
            Some(replica) => {
                if outlives {
                    Some(replica.into_change())
                } else {
                    None
                }
            }
            None => None,
        };
        self.machines[at].catch_up = 0;
        self.machines[at].is_down = true;
        self.machines[at].is_doomed = false;
        self.machines[at].busy_until = 0;
        self.machines[at].hung = None;
        self.machines[at].ask_turn += 1;
        for other in 0..self.machines.len() {
            let out = self.link(at, other);
            self.links[out].waiting.clear();
            if self.chance.hits(500) {
                self.links[out].renew();
            }
            let into = self.link(other, at);
            self.links[into].renew();
            self.links[into].is_patient = self.chance.hits(500);
        }
        let life = self.machines[at].starts;
        if self.setting.traces {
            let text = format!(in self.alloc; "{at} crashes, for {} ms", rest / 1000)?;
            self.tell(&text)?;
        }
        self.agenda
            .put(self.now + rest, What::Restart { machine: at, life })
    }

    /// All replicas crash at once, where a majority outlives that: those with journals, but for who was recovering.
    pub fn on_power_cut(&mut self) -> Result<(), AllocError> {
        let mut outliving = 0;
        for machine in self.machines.iter() {
            if machine.outlives() {
                outliving += 1;
            }
        }
        if self.is_healed || outliving <= self.machines.len() / 2 {
            return Ok(());
        }
        self.power_cuts += 1;
        for at in 0..self.machines.len() {
            if self.machines[at].replica.is_some() {
                let rest = self.power.spread(20_000, 20_000_000);
                self.crash(at, rest)?;
            }
        }
        Ok(())
    }

    /// The disk of a replica hangs, as often the primary's as any, where fewer than f others are down: it takes no step any more.
    pub fn on_hang(&mut self) -> Result<(), AllocError> {
        let at = self.victim();
        if !self.may_crash(at) || self.machines[at].replica.is_none() {
            return Ok(());
        }
        let until = self.deadline() + 1_000 * self.period;
        let local = self.machines[at].local(self.now);
        let machine = &mut self.machines[at];
        let mut steps = Steps::new(Times::new(BEAT, SUSPECT));
        steps.busy(0, local);
        machine.hung = Some(steps);
        machine.is_down = true;
        machine.busy_until = until;
        let leads = machine.leads();
        machine.beat = match &machine.replica {
            Some(replica) if leads => Some((replica.view_number, replica.commit_number)),
            _ => None,
        };
        let life = machine.starts;
        if self.setting.traces {
            let text = format!(in self.alloc; "the disk of {at} hangs")?;
            self.tell(&text)?;
        }
        self.agenda
            .put(self.now, What::Again { machine: at, life })
    }

    /// The network forgets all streams, or those of one replica.
    pub fn on_forget(&mut self, whom: usize) -> Result<(), AllocError> {
        let count = self.machines.len();
        if self.is_healed || !self.plan.is_ordered {
            return Ok(());
        }
        if self.setting.traces {
            let text = format!(in self.alloc; "the network forgets the streams of {whom} ({count}: of all)")?;
            self.tell(&text)?;
        }
        for from in 0..count {
            for to in 0..count {
                if from != to && (whom == count || whom == from || whom == to) {
                    let link = self.link(from, to);
                    let stream = self.links[link].stream;
                    self.links[link].forgotten = Some(stream);
                    let time = self.gone_at(from);
                    self.agenda.put(time, What::Gone { link, stream })?;
                }
            }
        }
        Ok(())
    }

    /// When a replica takes a stream for dead whose other end answers nothing from now on: by the rule of the program, or, where it never asks, when the system
    /// gives up.
    fn gone_at(&self, from: usize) -> u64 {
        if self.setting.never_asks {
            return self.now + SYSTEM;
        }
        let machine = &self.machines[from];
        let mut moment = machine.local(self.now);
        let mut keep_alive = KeepAlive::new(BEAT, SUSPECT);
        keep_alive.begin(moment);
        keep_alive.hear();
        for _ in 0..100 {
            moment += BEAT;
            if keep_alive.is_gone(moment) {
                break;
            }
            keep_alive.ask(moment);
        }
        machine.time_of(moment).max(self.now + 1)
    }

    /// The sender of a stream takes it for dead, and makes another one.
    pub fn on_gone(&mut self, link: usize, stream: u64) -> Result<(), AllocError> {
        if self.links[link].stream != stream {
            return Ok(());
        }
        self.links[link].renew();
        let until = self.now + self.dialing();
        self.close(link, until)
    }

    /// A replica whose disk hangs sends its last beat again, for as long as it does so.
    pub fn on_again(&mut self, at: usize, life: u64) -> Result<(), AllocError> {
        let local = self.machines[at].local(self.now);
        let machine = &self.machines[at];
        let (Some(steps), Some((view_number, commit_number))) = (&machine.hung, machine.beat) else {
            return Ok(());
        };
        if machine.starts != life || !self.setting.beats_on && steps.progress(local) == Progress::Hung {
            return Ok(());
        }
        let next = machine.time_of(local + BEAT).max(self.now + 1);
        for other in 0..self.machines.len() {
            if other != at {
                self.send(
                    at,
                    other,
                    PeerMessage::Commit {
                        view_number,
                        commit_number,
                    },
                )?;
            }
        }
        self.agenda.put(next, What::Again { machine: at, life })
    }

    /// A replica goes on from its journal, which may have forgotten how much is committed.
    fn resume(&mut self, at: usize, kept: Change<Mark>) -> Result<Replica<Mark>, AllocError> {
        let count = self.machines.len() as u64;
        let view = self.machines[at].stored_view;
        let most = kept.commit_number;
        let commit = if self.power.hits(500) {
            most
        } else {
            self.power.below(most + 1)
        };
        let replica = Replica::resuming(self.alloc, at as u64, count, view, commit, kept)?;
        self.machines[at].catch_up = replica.log.len() as u64;
        self.machines[at].is_down = false;
        Ok(replica)
    }

    /// The replica of a start, with what it sends: it goes on from its journal, or recovers in its stored view.
    fn started(
        &mut self,
        at: usize,
        life: u64,
    ) -> Result<(Replica<Mark>, Vec<Send<Mark>>), AllocError> {
        if let Some(kept) = self.machines[at].kept.take() {
            let replica = self.resume(at, kept)?;
            return Ok((replica, Vec::new(self.alloc)));
        }
        let count = self.machines.len() as u64;
        let view = self.machines[at].stored_view;
        let (replica, outputs) = recover(self.alloc, at as u64, count, view, life + 1)?;
        Ok((replica, outputs.sends))
    }

    /// A replica starts again.
    pub fn on_restart(&mut self, at: usize, life: u64) -> Result<(), AllocError> {
        if self.machines[at].replica.is_some() || self.machines[at].starts != life {
            return Ok(());
        }
        let count = self.machines.len() as u64;
        let view = self.machines[at].stored_view;
        let now = self.machines[at].local(self.now);
        let (replica, sends) = self.started(at, life)?;
        let status = replica.status;
        let machine = &mut self.machines[at];
        machine.starts = life + 1;
        machine.replica = Some(replica);
        machine.timer = Timer::new(self.setting.is_old, at as u64, count, view, status, now);
        machine.compared = 0;
        machine.recovering_since = now;
        for other in 0..self.machines.len() {
            let into = self.link(other, at);
            let until = self.now + self.dialing();
            self.close(into, until)?;
        }
        self.show(at)?;
        for send in sends {
            let to = send.to as usize;
            self.send(at, to, send.into_message())?;
        }
        self.ask_again(at)
    }

    /// How long it takes until a link is made anew.
    fn dialing(&mut self) -> u64 {
        if self.is_healed {
            self.chance.between(0, 20_000)
        } else {
            self.chance.spread(1_000, 1_600_000)
        }
    }

    /// Nothing passes this link until then, at least.
    fn close(&mut self, link: usize, until: u64) -> Result<(), AllocError> {
        if self.links[link].closed_until < until {
            self.links[link].closed_until = until;
            self.agenda.put(until, What::Reopen { link })?;
        }
        Ok(())
    }

    /// Cuts a link for so long: what is under way may be lost, and what is sent then is lost or waits.
    fn cut(&mut self, from: usize, to: usize, rest: u64) -> Result<(), AllocError> {
        let link = self.link(from, to);
        if self.chance.hits(500) {
            self.links[link].renew();
        }
        self.links[link].is_patient = self.chance.hits(500);
        self.close(link, self.now + rest)
    }

    /// Two groups don't hear each other.
    fn partition(&mut self) -> Result<(), AllocError> {
        let count = self.machines.len();
        let side = self.chance.between(1, (1 << count) - 2);
        let rest = self.chance.spread(500_000, 60_000_000);
        if self.setting.traces {
            let text = format!(in self.alloc;
                "cut between {side:b} and the others, for {} ms",
                rest / 1000
            )?;
            self.tell(&text)?;
        }
        for from in 0..count {
            for to in 0..count {
                if (side >> from) & 1 != (side >> to) & 1 {
                    self.cut(from, to, rest)?;
                }
            }
        }
        Ok(())
    }

    /// Nobody hears anybody.
    fn split(&mut self) -> Result<(), AllocError> {
        let count = self.machines.len();
        let rest = self.chance.spread(3_000_000, 120_000_000);
        if self.setting.traces {
            let text = format!(in self.alloc; "each is cut off, for {} ms", rest / 1000)?;
            self.tell(&text)?;
        }
        for from in 0..count {
            for to in 0..count {
                self.cut(from, to, rest)?;
            }
        }
        Ok(())
    }

    /// A replica isn't heard by some others, or doesn't hear them.
    fn cut_one_way(&mut self, at: usize) -> Result<(), AllocError> {
        let is_deaf = self.chance.hits(500);
        let rest = self.chance.spread(500_000, 60_000_000);
        let others = self.chance.any();
        if self.setting.traces {
            let way = if is_deaf {
                "doesn't hear"
            } else {
                "isn't heard by"
            };
            let text = format!(in self.alloc;
                "{at} {way} {:b}, for {} ms",
                others % 128,
                rest / 1000
            )?;
            self.tell(&text)?;
        }
        for other in 0..self.machines.len() {
            if other != at && (others >> other) & 1 == 1 {
                if is_deaf {
                    self.cut(other, at, rest)?;
                } else {
                    self.cut(at, other, rest)?;
                }
            }
        }
        Ok(())
    }

    /// A replica does nothing for some time, as in a long step.
    fn pause(&mut self, at: usize) -> Result<(), AllocError> {
        let rest = self.chance.spread(SUSPECT / 8, SUSPECT * 4);
        if self.setting.traces {
            let text = format!(in self.alloc; "{at} pauses, for {} ms", rest / 1000)?;
            self.tell(&text)?;
        }
        // Pauses are over when all faults are.
        let until = (self.now + rest).min(self.setting.faults_time);
        self.machines[at].busy_until = self.machines[at].busy_until.max(until);
        Ok(())
    }

    /// Messages take long for some time.
    fn slow(&mut self) -> Result<(), AllocError> {
        self.slow_turn += 1;
        self.slow_delay = self.chance.spread(100_000, 3_000_000);
        let rest = self.chance.spread(1_000_000, 60_000_000);
        if self.setting.traces {
            let text = format!(in self.alloc;
                "messages take up to {} ms, for {} ms",
                self.slow_delay / 1000,
                rest / 1000
            )?;
            self.tell(&text)?;
        }
        let turn = self.slow_turn;
        self.agenda.put(self.now + rest, What::Calm { turn })
    }

    /// All faults end: whoever is crashed starts again at once.
    pub fn on_heal(&mut self) -> Result<(), AllocError> {
        if self.setting.traces {
            self.tell("all faults end")?;
        }
        self.is_healed = true;
        self.slow_delay = 0;
        self.plan.delay = 20_000;
        self.plan.loss = 0;
        self.plan.repeats = 0;
        for link in 0..self.links.len() {
            self.links[link].closed_until = self.now;
            self.agenda.put(self.now, What::Reopen { link })?;
        }
        for at in 0..self.machines.len() {
            self.machines[at].is_doomed = false;
            if self.machines[at].is_hung() {
                continue;
            }
            self.machines[at].busy_until = 0;
            if self.machines[at].replica.is_none() {
                let life = self.machines[at].starts;
                let rest = self.chance.between(0, 100_000);
                self.agenda
                    .put(self.now + rest, What::Restart { machine: at, life })?;
            }
        }
        self.agenda.put(self.now, What::Judge)
    }
}
