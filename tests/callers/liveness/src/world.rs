//! A run: replicas with their clocks, clients and a network under one agenda, from one seed.

use crate::agenda::{Agenda, What};
use crate::chance::Chance;
use crate::clients::Caller;
use crate::links::{Flight, Flights, Link};
use crate::machine::Machine;
use crate::mark::Mark;
use crate::setting::{FORGETS, HANGS, JOURNALS, LONG, Plan, Setting};
use crate::timer::{SUSPECT, Timer};
use replica_clock::{Due, Sign, sign_of};
use std::alloc::{AllocError, Global};
use vr_recover::step;
use vr_state::event::Event;
use vr_state::message::{Outputs, PeerMessage};
use vr_state::replica::Replica;
use vr_state::sending::copy_message;
use vr_state::words::Status;

/// How long a long message takes, and after how long its next part comes.
const LONG_TIME: u64 = 10 * SUSPECT;

const PART_TIME: u64 = SUSPECT / 8;

/// Whether a message has a log.
fn has_log(message: &PeerMessage<Mark>) -> bool {
    match message {
        PeerMessage::DoViewChange { .. } | PeerMessage::StartView { .. } => true,
        PeerMessage::RecoveryResponse { response, .. } => response.held.is_some(),
        _ => false,
    }
}

/// A run.
#[derive(Drop)]
pub struct World {
    pub alloc: Global,
    pub setting: Setting,
    pub plan: Plan,
    pub chance: Chance,
    /// What says who has a journal, and when all crash at once, so that other lives of a seed are as they were.
    pub power: Chance,
    pub now: u64,
    pub agenda: Agenda,
    pub machines: Vec<Machine>,
    /// By sender and receiver.
    pub links: Vec<Link>,
    pub flights: Flights,
    pub callers: Vec<Caller>,
    /// The suspect period of the slowest clock, in true time.
    pub period: u64,
    /// The client and the number of each request that was ever committed, by place.
    pub committed: Vec<(u64, u64)>,
    pub is_unsafe: bool,
    pub is_healed: bool,
    /// How long messages take at most for some time; 0, where as long as always.
    pub slow_delay: u64,
    pub slow_turn: u64,
    /// Since when all has been well without a break.
    pub well_since: Option<u64>,
    pub notes: String,
    pub steps: u64,
    pub crashes: u64,
    pub power_cuts: u64,
    pub answered: u64,
    /// How often, after all faults have ended, a replica suspected a primary that led its view.
    pub needless: u64,
    /// How often a replica suspected a primary that led its view, and of which it had heard so within half a suspect period.
    pub hasty: u64,
}

impl World {
    /// The run of a seed, at its beginning.
    pub fn new(alloc: Global, setting: Setting, seed: u64) -> Result<World, AllocError> {
        let mut chance = Chance::new(seed);
        let plan = Plan::new(&setting, &mut chance);
        let power = Chance::new(seed ^ 0x6a6f_7572_6e61_6c73);
        let mut world = World::empty(alloc, setting, plan, chance, power);
        for at in 0..plan.count {
            world.add_machine(at)?;
        }
        for _ in 0..plan.count * plan.count {
            world.links.push(Link::new(alloc))?;
        }
        for client in 0..plan.clients {
            world.add_caller(client)?;
        }
        let first = world.chance.between(1, plan.gap);
        world.agenda.put(first, What::Fault)?;
        world.agenda.put(setting.faults_time, What::Heal)?;
        world.give_journals()?;
        world.give_hangs(seed)?;
        world.give_forgets(seed)?;
        Ok(world)
    }

    /// A run with no replicas yet.
    fn empty(alloc: Global, setting: Setting, plan: Plan, chance: Chance, power: Chance) -> World {
        World {
            alloc,
            setting,
            plan,
            chance,
            power,
            now: 0,
            agenda: Agenda::new(alloc),
            machines: Vec::new(alloc),
            links: Vec::new(alloc),
            flights: Flights::new(alloc),
            callers: Vec::new(alloc),
            period: SUSPECT,
            committed: Vec::new(alloc),
            is_unsafe: false,
            is_healed: false,
            slow_delay: 0,
            slow_turn: 0,
            well_since: None,
            notes: String::new(alloc),
            steps: 0,
            crashes: 0,
            power_cuts: 0,
            answered: 0,
            needless: 0,
            hasty: 0,
        }
    }

    fn add_machine(&mut self, at: usize) -> Result<(), AllocError> {
        let count = self.plan.count as u64;
        let speed = if self.plan.has_speeds {
            self.chance.between(500, 2000)
        } else {
            1000
        };
        self.period = self.period.max(SUSPECT * 1000 / speed);
        let offset = self.chance.below(1_000_000_000);
        self.machines.push(Machine {
            replica: Some(Replica::first(self.alloc, at as u64, count)?),
            timer: Timer::new(
                self.setting.is_old,
                at as u64,
                count,
                0,
                Status::Normal,
                offset,
            ),
            stored_view: 0,
            starts: 1,
            has_journal: false,
            kept: None,
            catch_up: 0,
            is_down: false,
            speed,
            offset,
            busy_until: 0,
            hung: None,
            beat: None,
            ask_turn: 0,
            ask_at: 0,
            compared: 0,
            told: (0, Status::Normal),
            is_doomed: false,
            recovering_since: 0,
            led_at: 0,
        })?;
        self.ask_again(at)
    }

    /// In half of the runs some replicas, or all, have journals, and all crash at once up to three times.
    fn give_journals(&mut self) -> Result<(), AllocError> {
        if self.setting.kinds & JOURNALS == 0 || self.power.hits(500) {
            return Ok(());
        }
        let are_all = self.power.hits(500);
        for at in 0..self.machines.len() {
            self.machines[at].has_journal = are_all || self.power.hits(700);
        }
        for _ in 0..self.power.between(1, 3) {
            let time = self.power.below(self.setting.faults_time);
            self.agenda.put(time, What::PowerCut)?;
        }
        Ok(())
    }

    /// In a third of the runs up to three disks hang. What says when stands by itself, so that other lives of a seed are as they were.
    fn give_hangs(&mut self, seed: u64) -> Result<(), AllocError> {
        let mut hangs = Chance::new(seed ^ 0x6861_6e67_2064_6973);
        if self.setting.kinds & HANGS == 0 || self.setting.kinds != HANGS && hangs.hits(667) {
            return Ok(());
        }
        for _ in 0..hangs.between(1, 3) {
            let time = hangs.below(self.setting.faults_time);
            self.agenda.put(time, What::Hang)?;
        }
        Ok(())
    }

    /// In a third of the runs the network forgets streams, up to three times. What says when stands by itself, as above.
    fn give_forgets(&mut self, seed: u64) -> Result<(), AllocError> {
        let mut forgets = Chance::new(seed ^ 0x666f_7267_6574_7321);
        if self.setting.kinds & FORGETS == 0 || self.setting.kinds != FORGETS && forgets.hits(667) {
            return Ok(());
        }
        for _ in 0..forgets.between(1, 3) {
            let time = forgets.below(self.setting.faults_time);
            let whom = forgets.below(self.plan.count as u64 + 1) as usize;
            self.agenda.put(time, What::Forget { whom })?;
        }
        Ok(())
    }

    fn add_caller(&mut self, client: usize) -> Result<(), AllocError> {
        let thinks = self.chance.spread(4_000_000, 120_000_000);
        self.callers.push(Caller {
            number: 0,
            is_waiting: false,
            believed: 0,
            turn: 0,
            thinks,
        })?;
        let first = self.chance.below(thinks);
        self.agenda.put(first, What::Client { client, turn: 0 })
    }

    /// Until when all must be well.
    pub fn deadline(&self) -> u64 {
        self.setting.faults_time + self.setting.bound * self.period
    }

    /// Plays it to its end, some time after the deadline.
    pub fn run(&mut self) -> Result<(), AllocError> {
        let end = self.deadline() + 4 * self.period;
        loop {
            let Some((time, what)) = self.agenda.take() else {
                break;
            };
            if time > end || self.is_unsafe || self.is_long_well(time) {
                break;
            }
            self.now = time;
            self.happen(what)?;
        }
        Ok(())
    }

    /// Whether all has been well for so long that nothing else can come.
    fn is_long_well(&self, time: u64) -> bool {
        match self.well_since {
            None => false,
            Some(since) => time >= since + 4 * self.period,
        }
    }

    fn happen(&mut self, what: What) -> Result<(), AllocError> {
        match what {
            What::Deliver { slot } => self.on_arrival(slot),
            What::Part { slot, arrival } => self.on_part(slot, arrival),
            What::Ask { machine, turn } => self.on_ask(machine, turn),
            What::Reopen { link } => self.on_reopen(link),
            What::Client { client, turn } => self.on_client(client, turn),
            What::Request { client, number, to } => self.on_request(client, number, to),
            What::Restart { machine, life } => self.on_restart(machine, life),
            What::Fault => self.on_fault(),
            What::PowerCut => self.on_power_cut(),
            What::Hang => self.on_hang(),
            What::Again { machine, life } => self.on_again(machine, life),
            What::Forget { whom } => self.on_forget(whom),
            What::Gone { link, stream } => self.on_gone(link, stream),
            What::Calm { turn } => {
                if turn == self.slow_turn {
                    self.slow_delay = 0;
                }
                Ok(())
            }
            What::Heal => self.on_heal(),
            What::Judge => self.on_judge(),
        }
    }

    /// A line of the trace.
    pub fn tell(&mut self, text: &str) -> Result<(), AllocError> {
        let line = format!(in self.alloc; "{:>8} ms  {text}\n", self.now / 1000)?;
        self.notes.push_str(line.as_str())
    }

    pub fn link(&self, from: usize, to: usize) -> usize {
        from * self.plan.count + to
    }

    pub fn is_busy(&self, at: usize) -> bool {
        self.now < self.machines[at].busy_until
    }

    /// How long a message takes.
    fn delay(&mut self) -> u64 {
        let most = self.plan.delay.max(self.slow_delay);
        self.chance.between(most / 20, most)
    }

    /// A replica sends a message.
    pub fn send(
        &mut self,
        from: usize,
        to: usize,
        message: PeerMessage<Mark>,
    ) -> Result<(), AllocError> {
        let link = self.link(from, to);
        if self.is_being_sent(link, &message) {
            return Ok(());
        }
        let is_closed = self.now < self.links[link].closed_until;
        if !self.plan.is_ordered {
            if is_closed || self.chance.hits(self.plan.loss) {
                return Ok(());
            }
            if self.chance.hits(self.plan.repeats) {
                let again = copy_message(self.alloc, &message)?;
                let late = self.delay() + self.delay();
                self.launch(from, to, again, self.now + late)?;
            }
            let delay = self.delay();
            return self.launch(from, to, message, self.now + delay);
        }
        if is_closed
            || self.machines[to].replica.is_none()
            || !self.links[link].waiting.is_empty()
        {
            if self.links[link].is_patient {
                self.links[link].hold(message)?;
            }
            return Ok(());
        }
        self.launch_in_order(from, to, message)
    }

    /// A message goes on its way behind those that went before.
    fn launch_in_order(
        &mut self,
        from: usize,
        to: usize,
        message: PeerMessage<Mark>,
    ) -> Result<(), AllocError> {
        let link = self.link(from, to);
        let delay = self.delay();
        let arrival = (self.now + delay).max(self.links[link].last);
        self.links[link].last = arrival + self.length_of(&message);
        self.launch(from, to, message, arrival)
    }

    fn launch(
        &mut self,
        from: usize,
        to: usize,
        message: PeerMessage<Mark>,
        arrival: u64,
    ) -> Result<(), AllocError> {
        let link = self.link(from, to);
        let stream = self.links[link].stream;
        let length = self.length_of(&message);
        let until = arrival + length;
        if let PeerMessage::DoViewChange { view_number, .. } = &message {
            self.links[link].changing = (*view_number, until);
        }
        let slot = self.flights.put(Flight {
            from,
            to,
            stream,
            long_until: until,
            message,
        })?;
        if length > 0 {
            let what = What::Part {
                slot,
                arrival: until,
            };
            self.agenda.put(arrival, what)?;
        }
        self.agenda.put(until, What::Deliver { slot })
    }

    /// How long a message takes for its length alone.
    fn length_of(&self, message: &PeerMessage<Mark>) -> u64 {
        if self.setting.kinds & LONG != 0 && has_log(message) {
            LONG_TIME
        } else {
            0
        }
    }

    /// Whether a message is a long DOVIEWCHANGE of a view of which one is just being sent: then it isn't sent again.
    fn is_being_sent(&self, link: usize, message: &PeerMessage<Mark>) -> bool {
        match message {
            PeerMessage::DoViewChange { view_number, .. } => {
                let (view, until) = self.links[link].changing;
                self.length_of(message) > 0 && view == *view_number && self.now < until
            }
            _ => false,
        }
    }

    /// A part of a long message comes, and its sender knows that it was taken.
    fn on_part(&mut self, slot: usize, arrival: u64) -> Result<(), AllocError> {
        let Some(flight) = self.flights.look(slot) else {
            return Ok(());
        };
        let (from, to) = (flight.from, flight.to);
        let link = self.link(from, to);
        let is_lost = self.plan.is_ordered && self.links[link].loses(flight.stream);
        if flight.long_until != arrival || is_lost {
            return Ok(());
        }
        if self.machines[to].replica.is_some() && !self.is_busy(to) {
            self.hear(to, from as u64, Sign::Part)?;
            if !self.setting.is_unheeding
                && self.machines[from].replica.is_some()
                && !self.is_busy(from) {
                self.hear(from, to as u64, Sign::Taken)?;
            }
        }
        let next = self.now + PART_TIME;
        if next < arrival {
            self.agenda.put(next, What::Part { slot, arrival })?;
        }
        Ok(())
    }

    /// A link is tried again: what waits in it goes on its way, where it is open.
    fn on_reopen(&mut self, link: usize) -> Result<(), AllocError> {
        let from = link / self.plan.count;
        let to = link % self.plan.count;
        if self.now < self.links[link].closed_until || self.machines[to].replica.is_none() {
            return Ok(());
        }
        while let Some(message) = self.links[link].waiting.pop_front() {
            self.launch_in_order(from, to, message)?;
        }
        Ok(())
    }

    /// A message comes to its receiver, or waits until that goes on.
    fn on_arrival(&mut self, slot: usize) -> Result<(), AllocError> {
        let Some(flight) = self.flights.look(slot) else {
            return Ok(());
        };
        let to = flight.to;
        let from = flight.from as u64;
        let link = &self.links.as_slice()[flight.from * self.plan.count + to];
        let is_lost = self.plan.is_ordered && link.loses(flight.stream);
        let machine = &mut self.machines.as_mut_slice()[to];
        if !is_lost && self.now < machine.busy_until {
            let until = machine.busy_until;
            return self.agenda.put(until, What::Deliver { slot });
        }
        let sign = sign_of(&flight.message);
        if !is_lost && machine.knows(from, &flight.message) {
            self.flights.forget(slot)?;
            return self.hear(to, from, sign);
        }
        let Some(flight) = self.flights.take(slot)? else {
            return Ok(());
        };
        if is_lost {
            return Ok(());
        }
        let message = flight.message;
        self.act(to, Event::Message { from, message }, Some((from, sign)))
    }

    /// The clock of a replica hears what a message said of its sender.
    fn hear(&mut self, at: usize, from: u64, sign: Sign) -> Result<(), AllocError> {
        let machine = &mut self.machines.as_mut_slice()[at];
        let now = machine.local(self.now);
        machine.timer.hear(from, sign, now);
        machine.look_back();
        if let Sign::Leads { view_number } = sign {
            if view_number == machine.view() && view_number % self.plan.count as u64 == from {
                machine.led_at = now;
            }
        }
        if machine.replica.is_some() && machine.timer.ask_at() < machine.ask_at {
            return self.ask_again(at);
        }
        Ok(())
    }

    /// An event happens at a replica, which is not busy.
    pub fn act(
        &mut self,
        at: usize,
        event: Event<Mark>,
        sign: Option<(u64, Sign)>,
    ) -> Result<(), AllocError> {
        let machine = &mut self.machines.as_mut_slice()[at];
        let now = machine.local(self.now);
        let Some(replica) = machine.replica.as_mut() else {
            return Ok(());
        };
        let outputs = step(self.alloc, replica, event)?;
        machine.timer.note(replica.view_number, replica.status, now);
        if replica.status == Status::Normal {
            machine.is_down = false;
        }
        machine.look_back();
        self.steps += 1;
        if let Some((from, sign)) = sign {
            self.hear(at, from, sign)?;
        }
        let Outputs {
            store,
            sends,
            replies,
        } = outputs;
        if let Some(view) = store {
            self.machines[at].stored_view = view;
            if self.machines[at].is_doomed && self.may_crash(at) {
                let rest = self.chance.spread(20_000, 20_000_000);
                return self.crash(at, rest);
            }
        }
        self.look(at)?;
        for send in sends {
            let to = send.to as usize;
            self.send(at, to, send.into_message())?;
        }
        for reply in replies.iter() {
            self.on_reply(at, reply)?;
        }
        Ok(())
    }

    /// Looks at a replica after its step: what it has newly committed is compared, and a new view or status told.
    fn look(&mut self, at: usize) -> Result<(), AllocError> {
        let machine = &self.machines.as_slice()[at];
        let Some(replica) = machine.replica.as_ref() else {
            return Ok(());
        };
        let has_moved = machine.told.0 != replica.view_number || machine.told.1 != replica.status;
        let has_committed = machine.compared < replica.commit_number;
        if has_moved {
            self.show(at)?;
        }
        if has_committed {
            self.compare(at)?;
        }
        Ok(())
    }

    /// Tells of a replica's view and status, where they have changed.
    pub fn show(&mut self, at: usize) -> Result<(), AllocError> {
        let Some(replica) = self.machines[at].replica.as_ref() else {
            return Ok(());
        };
        let told = (replica.view_number, replica.status);
        if told == self.machines[at].told {
            return Ok(());
        }
        self.machines[at].told = told;
        if self.setting.traces {
            let text = format!(in self.alloc; "{at} is {:?} in view {}", told.1, told.0)?;
            self.tell(text.as_str())?;
        }
        Ok(())
    }

    /// The clock of a replica is asked when it wants to be, or a little later.
    pub fn ask_again(&mut self, at: usize) -> Result<(), AllocError> {
        let late = if self.chance.hits(20) {
            self.chance.between(0, 100_000)
        } else {
            self.chance.between(0, 2_000)
        };
        let machine = &mut self.machines[at];
        machine.ask_turn += 1;
        machine.ask_at = machine.timer.ask_at();
        let turn = machine.ask_turn;
        let time = machine.time_of(machine.ask_at).max(self.now) + late;
        self.agenda.put(time, What::Ask { machine: at, turn })
    }

    fn on_ask(&mut self, at: usize, turn: u64) -> Result<(), AllocError> {
        if self.machines[at].ask_turn != turn || self.machines[at].replica.is_none() {
            return Ok(());
        }
        if self.is_busy(at) {
            // What came meanwhile is heard before the clock is asked, or after it, or some of it.
            let late = self.chance.between(0, 2) * self.chance.between(0, 20_000);
            let until = self.machines[at].busy_until + late;
            return self.agenda.put(until, What::Ask { machine: at, turn });
        }
        let now = self.machines[at].local(self.now);
        // It wants to be asked anew, whatever it is told by what it does.
        self.machines[at].ask_at = 0;
        match self.machines[at].timer.ask(now) {
            Due::Nothing => {}
            Due::Beat => {
                self.act(at, Event::Beat, None)?;
                self.mend(at, now)?;
            }
            Due::Suspect => {
                self.count_needless(at, now)?;
                if self.setting.traces {
                    let text = format!(in self.alloc;
                        "{at} suspects in view {}",
                        self.machines[at].view()
                    )?;
                    self.tell(text.as_str())?;
                }
                self.act(at, Event::Suspect, None)?;
            }
        }
        if self.machines[at].replica.is_none() {
            return Ok(());
        }
        self.ask_again(at)
    }

    /// Counts a suspicion that serves nothing: of a primary that leads the view.
    fn count_needless(&mut self, at: usize, now: u64) -> Result<(), AllocError> {
        let machine = &self.machines[at];
        let view = machine.view();
        let primary = &self.machines[view as usize % self.plan.count];
        if !machine.is_normal() || !primary.leads() || primary.view() != view {
            return Ok(());
        }
        let is_hasty = now < machine.led_at + SUSPECT / 2;
        if self.is_healed {
            self.needless += 1;
        }
        if is_hasty {
            self.hasty += 1;
            if self.setting.traces {
                self.tell("a hasty suspicion:")?;
            }
        }
        Ok(())
    }

    /// The mend that is tried: a replica that has recovered for a suspect period asks the others to change to its stored view.
    fn mend(&mut self, at: usize, now: u64) -> Result<(), AllocError> {
        if !self.setting.mends || self.machines[at].status() != Some(Status::Recovering) {
            return Ok(());
        }
        if now - self.machines[at].recovering_since < SUSPECT {
            return Ok(());
        }
        self.machines[at].recovering_since = now;
        let view_number = self.machines[at].view();
        for other in 0..self.machines.len() {
            if other != at {
                self.send(at, other, PeerMessage::StartViewChange { view_number })?;
            }
        }
        Ok(())
    }

    /// Compares what a replica has newly committed with what was ever committed.
    fn compare(&mut self, at: usize) -> Result<(), AllocError> {
        let machine = &mut self.machines[at];
        let Some(replica) = machine.replica.as_ref() else {
            return Ok(());
        };
        for place in machine.compared..replica.commit_number {
            let Some(entry) = replica.log.as_slice().get(place as usize) else {
                self.is_unsafe = true;
                break;
            };
            let name = (entry.client.number, entry.request_number);
            if place < self.committed.len() as u64 {
                if self.committed[place as usize] != name {
                    self.is_unsafe = true;
                }
            } else {
                self.committed.push(name)?;
            }
        }
        machine.compared = replica.commit_number;
        Ok(())
    }
}
