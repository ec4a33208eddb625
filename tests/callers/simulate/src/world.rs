//! A run: machines, a network, clients, and the order in which things happen, from one seed.

use crate::asking::{Update, any_question, any_update};
use crate::caller::{Asked, Caller, Ended, Heard, Pending};
use crate::chance::Chance;
use crate::disk::{Disk, Trouble};
use crate::gates::{AskingGate, Blind, Here, Lent, TurnGate};
use crate::growth::{grant, refuse};
use crate::judging::{ReadAnswer, Record, UpdateAnswer, Wanted};
use crate::machine::{Hang, Machine, Running, Served, status_of};
use crate::names::{Path, SUFFIX};
use crate::setting::{Planted, Setting};
use crate::spelling::{MANAGER, PASSWORD, bind_request, octets, question_request, update_request};
use dir_node::{
    AllHandled, Client, Cluster, Event, Handled, Indexes, LogEntry, Name, Node, NodeConfig, NodeError, Op,
    Outcome, Outputs, PeerMessage, Refused, Schema, Standing, copy_message,
};
use dir_seats::seats;
use ldap_session::{Config, Conversation, Due as Next, SessionEnd, Step};
use replica_clock::{Due, Pace, ReplicaClock, Steps, Times, sign_of};
use schema_reader::built_in_schema;
use std::alloc::{AllocError, Global};
use std::collections::BTreeMap;
use std::io::Eprint;
use std::sync::{Arc, Wait};
use vr_state::log::Log;
use vr_state::message::Snapshot;
use vr_wire::{Came, FrameSizes, Frames, Gathering};

/// The suspect period and the beat, in milliseconds.
pub const SUSPECT: u64 = 1000;

const BEAT: u64 = 250;

/// The longest part of a message that is cut in parts, and the longest frame of one that isn't.
const LONGEST: u64 = 65_536;

/// How many messages the network keeps.
const FLIGHTS: usize = 400;

/// A message on its way.
#[derive(Drop)]
struct Flight {
    from: usize,
    to: usize,
    message: PeerMessage<Op>,
}

/// Counts of a run.
#[derive(Clone, Copy, Debug)]
pub struct Counts {
    pub steps: u64,
    pub crashes: u64,
    pub power_cuts: u64,
    pub device_failures: u64,
    pub refused_starts: u64,
    pub hangs: u64,
    pub refused_growths: u64,
    pub views: u64,
    pub messages: u64,
    /// How many parts came of messages that were cut.
    pub parts: u64,
    pub searches: u64,
    pub updates: u64,
    pub open: u64,
}

#[derive(Drop)]
pub struct World<'a, R: Wait + Eprint> {
    rt: &'a R,
    alloc: Global,
    pub setting: Setting,
    chance: Chance,
    now: u64,
    schema: Arc<Schema>,
    manager: Name,
    machines: Vec<Machine<'a, R>>,
    flights: Vec<Flight>,
    callers: Vec<Caller>,
    /// Cut links, by sender and receiver.
    cuts: Vec<bool>,
    /// The ticket of each request, by client and number.
    tickets: BTreeMap<u64, usize>,
    /// The requests that nodes refused for want of memory.
    refused: BTreeMap<u64, ()>,
    pub record: Record,
    frame_number: u64,
    is_healed: bool,
    pub counts: Counts,
}

/// A client's request as one number.
fn key_of(client: Client, number: u64) -> u64 {
    (((client.home as u64 * 4096) + client.life % 4096) * 1_048_576 + client.number % 1_048_576)
        * 16_777_216
        + number
}

/// The first `count` octets of a row, if it has as many.
fn piece(octets: &[u8], from: usize, count: usize) -> &[u8] {
    let end = (from + count).min(octets.len());
    &octets[from..end]
}

impl<'a, R: Wait + Eprint> World<'a, R> {
    pub fn new(
        rt: &'a R,
        alloc: Global,
        setting: Setting,
        chance: Chance,
    ) -> Result<World<'a, R>, AllocError> {
        let Ok(schema) = built_in_schema(alloc) else {
            return Err(AllocError);
        };
        let Ok(manager) = Name::read(alloc, &schema, MANAGER) else {
            return Err(AllocError);
        };
        let schema = Arc::new(alloc, schema)?;
        let mut world = World {
            rt,
            alloc,
            setting,
            chance,
            now: 0,
            schema,
            manager,
            machines: Vec::new(alloc),
            flights: Vec::new(alloc),
            callers: Vec::new(alloc),
            cuts: vec![in alloc; false; setting.count * setting.count]?,
            tickets: BTreeMap::new(alloc),
            refused: BTreeMap::new(alloc),
            record: Record::new(alloc),
            frame_number: 0,
            is_healed: false,
            counts: Counts {
                steps: 0,
                crashes: 0,
                power_cuts: 0,
                device_failures: 0,
                refused_starts: 0,
                hangs: 0,
                refused_growths: 0,
                views: 0,
                messages: 0,
                parts: 0,
                searches: 0,
                updates: 0,
                open: 0,
            },
        };
        for at in 0..setting.count {
            let speed = 1000 - setting.drift + world.chance.between(0, 2 * setting.drift);
            world.machines.push(Machine {
                running: None,
                views: Some(Disk::new(alloc)),
                journal: if setting.has_journals { Some(Disk::new(alloc)) } else { None },
                has_journal: setting.has_journals,
                was_born: false,
                busy_until: 0,
                hang: None,
                speed,
                lacks_state: false,
                starts: 0,
                is_doomed: false,
            })?;
            world.start(at)?;
        }
        for at in 0..setting.callers {
            let name = if at % 2 == 0 { Some(at + 1) } else { None };
            world.callers.push(Caller::new(alloc, name))?;
        }
        Ok(world)
    }

    fn config(&self, index: usize) -> Result<NodeConfig, AllocError> {
        let Some(cluster) = Cluster::new(9) else {
            return Err(AllocError);
        };
        let Ok(suffix) = Name::read(self.alloc, &self.schema, SUFFIX) else {
            return Err(AllocError);
        };
        Ok(NodeConfig {
            schema: Arc::try_clone(&self.schema)?,
            indexes: Indexes::none(self.alloc),
            suffix,
            cluster,
            index: index as u64,
            count: self.setting.count as u64,
        })
    }

    /// Says something, where that is wished.
    fn trace(&self, what: String) -> Result<(), AllocError> {
        if self.setting.traces {
            if eprintln!(self.rt; "{}: {what}", self.now).is_err() {
                return Err(AllocError);
            }
        }
        Ok(())
    }

    // Processes

    /// Starts a machine's process over its disks.
    fn start(&mut self, at: usize) -> Result<(), AllocError> {
        let config = self.config(at)?;
        let Some(views) = self.machines[at].views.take() else {
            return Ok(());
        };
        let mut views = views;
        let mut journal = self.machines[at].journal.take();
        if self.setting.planted == Planted::NoSyncs {
            views.trouble = Trouble::ForgetsSyncs;
            if let Some(disk) = &mut journal {
                disk.trouble = Trouble::ForgetsSyncs;
            }
        }
        let is_first = !self.machines[at].was_born
            || (self.setting.planted == Planted::ForgetfulStart && journal.is_none());
        let was_refused;
        let made = if is_first {
            let (views, journal) = if self.machines[at].was_born {
                (Disk::new(self.alloc), None)
            } else {
                (views, journal)
            };
            let nth = self.refused_growth();
            refuse(nth);
            let made = Node::fresh(self.alloc, views, journal, config);
            was_refused = self.granted(nth);
            made
        } else {
            let nth = self.refused_growth();
            refuse(nth);
            let made = Node::reopen(self.alloc, views, journal, config);
            was_refused = self.granted(nth);
            made
        };
        match made {
            Ok((node, outputs)) => {
                self.machines[at].was_born = true;
                self.machines[at].starts += 1;
                self.bring_up(at, node)?;
                self.post(at, outputs)?;
                let line = format!(in self.alloc; "start {at}: {:?}", self.standing(at))?;
                self.trace(line)?;
                if self.setting.planted == Planted::ForgedStartView && !is_first {
                    self.forge_start_view(at)?;
                }
                Ok(())
            }
            Err(refused) => self.refuse(at, refused, was_refused),
        }
    }

    /// Which growth of the next call is refused; 0 for none.
    fn refused_growth(&mut self) -> u64 {
        if self.is_healed || !self.chance.hits(self.setting.refusals) {
            return 0;
        }
        self.chance.spread(1, 64)
    }

    /// No growth is refused any more; whether one was.
    fn granted(&mut self, nth: u64) -> bool {
        let was_refused = grant(nth);
        if was_refused {
            self.counts.refused_growths += 1;
        }
        was_refused
    }

    fn standing(&self, at: usize) -> Option<Standing> {
        match &self.machines[at].running {
            Some(running) => Some(running.node.standing()),
            None => None,
        }
    }

    /// A start was refused: its disks are as it left them.
    fn refuse(
        &mut self,
        at: usize,
        refused: Refused<Disk, Disk>,
        lacked_memory: bool,
    ) -> Result<(), AllocError> {
        let Refused {
            error,
            device,
            journal,
        } = refused;
        self.counts.refused_starts += 1;
        let line = format!(in self.alloc; "start {at} refused: {error}")?;
        self.trace(line)?;
        if !self.machines[at].is_doomed && !lacked_memory {
            let what = format!(in self.alloc; "replica {at} does not start: {error}")?;
            self.record.blame(what)?;
        }
        self.machines[at].views = Some(device);
        self.machines[at].journal = journal;
        self.lose(at, false)
    }

    fn bring_up(&mut self, at: usize, node: Node<Disk, Disk>) -> Result<(), AllocError> {
        let Ok(suffix) = Name::read(self.alloc, &self.schema, SUFFIX) else {
            return Err(AllocError);
        };
        let indexes = Indexes::none(self.alloc);
        let (publisher, mut all) =
            seats(self.rt, self.alloc, &self.schema, &indexes, &suffix, 1)?;
        let Some(seat) = all.pop() else {
            return Err(AllocError);
        };
        let teller = publisher.teller()?;
        let status = status_of(node.standing());
        let clock = ReplicaClock::new(
            Times::new(BEAT, SUSPECT),
            at as u64,
            self.setting.count as u64,
            node.view_number(),
            status,
            self.machines[at].local(self.now),
        );
        let mut gatherings = Vec::new(self.alloc);
        for _ in 0..self.setting.count {
            gatherings.push(Gathering::new())?;
        }
        let is_recovering = node.standing() == Standing::Recovering;
        self.machines[at].lacks_state = is_recovering;
        self.machines[at].running = Some(Running {
            node,
            publisher,
            teller,
            seat,
            clock,
            sessions: Vec::new(self.alloc),
            next_session: 1,
            gatherings,
            inbox: Vec::new(self.alloc),
            beat: Vec::new(self.alloc),
            beat_view: 0,
            compared: 0,
        });
        self.publish(at)
    }

    /// A STARTVIEW with nothing in it, from the primary of the next view.
    fn forge_start_view(&mut self, at: usize) -> Result<(), AllocError> {
        let count = self.setting.count as u64;
        let Some(running) = &mut self.machines[at].running else {
            return Ok(());
        };
        let view_number = running.node.view_number() + 1;
        let message = PeerMessage::StartView {
            view_number,
            held: Snapshot {
                log: Log::from_vec(Vec::new(self.alloc)),
                commit_number: 0,
            },
        };
        running.inbox.push(Event::Message {
            from: view_number % count,
            message,
        })?;
        Ok(())
    }

    /// A process ends; its power is lost with it, or not.
    fn crash(&mut self, at: usize, loses_power: bool) -> Result<(), AllocError> {
        let Some(running) = self.machines[at].running.take() else {
            return Ok(());
        };
        self.counts.crashes += 1;
        let line = format!(in self.alloc; "crash {at}, power lost: {loses_power}")?;
        self.trace(line)?;
        for session in &running.sessions {
            self.callers[session.caller].disconnect(self.alloc);
        }
        let Running { node, .. } = running;
        let (views, journal) = node.into_devices();
        self.machines[at].hang = None;
        self.machines[at].views = Some(views);
        self.machines[at].journal = journal;
        self.machines[at].lacks_state = self.machines[at].lacks_state || !self.machines[at].has_journal;
        self.lose(at, loses_power)
    }

    /// What its disks keep.
    fn lose(&mut self, at: usize, loses_power: bool) -> Result<(), AllocError> {
        let mut chance = self.chance;
        self.machines[at].is_doomed = false;
        if let Some(disk) = &mut self.machines[at].views {
            if loses_power {
                disk.lose_power(&mut chance, true)?;
            } else {
                disk.lose_process()?;
            }
        }
        if let Some(disk) = &mut self.machines[at].journal {
            if loses_power {
                disk.lose_power(&mut chance, true)?;
            } else {
                disk.lose_process()?;
            }
        }
        self.chance = chance;
        Ok(())
    }

    // Messages between replicas

    /// What a step sends is on its way.
    fn post(&mut self, from: usize, outputs: Outputs<Op>) -> Result<(), AllocError> {
        let Outputs {
            sends,
            store: _,
            replies: _,
        } = outputs;
        for send in sends {
            let to = send.to as usize;
            let message = send.into_message();
            if !self.is_healed {
                if self.flights.len() >= FLIGHTS {
                    let gone = self.chance.below(self.flights.len() as u64) as usize;
                    self.flights.swap_remove(gone);
                }
                if self.chance.hits(self.setting.losses) {
                    continue;
                }
            }
            self.flights.push(Flight { from, to, message })?;
        }
        Ok(())
    }

    /// A message on its way comes, whole or in part, again later or never.
    fn deliver(&mut self) -> Result<(), AllocError> {
        if self.flights.is_empty() {
            return Ok(());
        }
        let at = if !self.is_healed && self.chance.hits(self.setting.shuffles) {
            self.chance.below(self.flights.len() as u64) as usize
        } else {
            0
        };
        let (from, to) = (self.flights[at].from, self.flights[at].to);
        let is_cut = self.cuts[from * self.setting.count + to];
        let repeats = !self.is_healed && self.chance.hits(self.setting.repeats);
        let flight = if repeats {
            let message = copy_message(self.alloc, &self.flights[at].message)?;
            Flight { from, to, message }
        } else {
            self.flights.remove(at)
        };
        if is_cut || self.machines[to].running.is_none() || self.now < self.machines[to].busy_until {
            if is_cut || self.machines[to].running.is_none() || repeats {
                return Ok(());
            }
            self.flights.push(flight)?;
            return Ok(());
        }
        self.counts.messages += 1;
        self.arrive(flight)
    }

    /// How large the frames of a message are: it has one, or parts of any size from one octet on.
    fn frame_sizes(&mut self) -> FrameSizes {
        if self.chance.hits(600) {
            return FrameSizes {
                most: 1_000_000,
                part_size: 1_000_000,
            };
        }
        FrameSizes {
            most: self.chance.spread(1, LONGEST) as usize,
            part_size: self.chance.spread(1, LONGEST) as usize,
        }
    }

    /// The frames of a message come at a machine, all or a first part of them.
    fn arrive(&mut self, flight: Flight) -> Result<(), AllocError> {
        let Flight { from, to, message } = flight;
        self.frame_number += 1;
        let Some(cluster) = Cluster::new(9) else {
            return Err(AllocError);
        };
        let sizes = self.frame_sizes();
        let Ok(mut frames) = Frames::of(self.alloc, cluster, from as u8, self.frame_number, sizes, &message) else {
            return Err(AllocError);
        };
        let breaks = !self.is_healed && self.chance.hits(10);
        let local = self.machines[to].local(self.now);
        let Some(running) = &mut self.machines[to].running else {
            return Ok(());
        };
        while let Ok(Some(frame)) = frames.next(self.alloc) {
            match running.gatherings[from].take(self.alloc, &frame, cluster) {
                Ok(Came::Message(sender, came)) => {
                    running.clock.hear(sender as u64, sign_of(&came), local);
                    running.inbox.push(Event::Message {
                        from: sender as u64,
                        message: came,
                    })?;
                }
                Ok(_) => {
                    self.counts.parts += 1;
                    if breaks {
                        return Ok(());
                    }
                }
                Err(error) => {
                    let what = format!(in self.alloc; "a frame from {from} to {to} can't be read: {error}")?;
                    self.record.blame(what)?;
                }
            }
        }
        Ok(())
    }

    /// The node of a machine is given what waits for it, one event or a batch.
    fn drive(&mut self, at: usize) -> Result<(), AllocError> {
        let most = self.chance.between(1, 8) as usize;
        if self.now < self.machines[at].busy_until || self.machines[at].is_hung(self.now) {
            return Ok(());
        }
        let local = self.machines[at].local(self.now);
        let is_dropped = self.setting.planted == Planted::DroppedEvents && self.chance.hits(500);
        // A disk of the test that lacks memory itself ends its node.
        let nth = if self.may_crash(at) { self.refused_growth() } else { 0 };
        let Some(running) = &mut self.machines[at].running else {
            return Ok(());
        };
        let mut events = Vec::new(self.alloc);
        while events.len() < most && !running.inbox.is_empty() {
            events.push(running.inbox.remove(0))?;
        }
        if events.is_empty() || is_dropped {
            return Ok(());
        }
        let view_before = running.node.view_number();
        let is_beat = matches!(events.first(), Some(Event::Beat));
        let was_refused;
        let mut lacked_memory = false;
        let result = if events.len() == 1 {
            let Some(event) = events.pop() else {
                return Ok(());
            };
            let asked = match &event {
                Event::Request { entry } => Some(key_of(entry.client, entry.request_number)),
                _ => None,
            };
            refuse(nth);
            let handled = running.node.handle(self.alloc, event);
            was_refused = grant(nth);
            match handled {
                Ok(Handled { outputs, behind: _ }) => {
                    let mut all = Vec::new(self.alloc);
                    all.push(Ok(outputs))?;
                    Some(all)
                }
                Err(NodeError::NoMemory) => {
                    lacked_memory = true;
                    if let Some(key) = asked {
                        self.refused.insert(key, ())?;
                    }
                    Some(Vec::new(self.alloc))
                }
                Err(_) => None,
            }
        } else {
            refuse(nth);
            let handled = running.node.handle_all(self.alloc, events);
            was_refused = grant(nth);
            match handled {
                Ok(AllHandled { outputs, behind: _ }) => Some(outputs),
                Err(NodeError::NoMemory) => {
                    lacked_memory = true;
                    Some(Vec::new(self.alloc))
                }
                Err(_) => None,
            }
        };
        if was_refused {
            self.counts.refused_growths += 1;
        }
        let view_number = running.node.view_number();
        let status = status_of(running.node.standing());
        running.clock.note(view_number, status, local);
        if running.is_normal() {
            self.machines[at].lacks_state = false;
        }
        if view_number != view_before {
            self.counts.views += 1;
            let line = format!(in self.alloc; "replica {at} in view {view_number}")?;
            self.trace(line)?;
        }
        if lacked_memory && !was_refused {
            let what = format!(in self.alloc; "replica {at} says that it lacks memory, and no growth was refused")?;
            self.record.blame(what)?;
        }
        match result {
            Some(outputs) => {
                let mut keeps_beat = is_beat;
                for one in outputs {
                    if let Ok(outputs) = one {
                        if keeps_beat {
                            self.keep_beat(at, &outputs)?;
                        }
                        self.post(at, outputs)?;
                    }
                    keeps_beat = false;
                }
                self.compare(at)?;
                let shows = self.is_healed || !self.chance.hits(20);
                if shows {
                    self.publish(at)?;
                }
                Ok(())
            }
            None => {
                self.counts.device_failures += 1;
                let loses_power = self.chance.hits(500);
                self.crash(at, loses_power)
            }
        }
    }

    /// Keeps the messages of a node's beat, as the clock's thread does.
    fn keep_beat(&mut self, at: usize, outputs: &Outputs<Op>) -> Result<(), AllocError> {
        let Some(running) = &mut self.machines[at].running else {
            return Ok(());
        };
        let mut beat = Vec::new(self.alloc);
        for send in &outputs.sends {
            beat.push((send.to as usize, copy_message(self.alloc, &send.message)?))?;
        }
        running.beat = beat;
        running.beat_view = running.node.view_number();
        Ok(())
    }

    /// The clock of a machine whose node stays inside of a step is asked: a primary repeats its last beat, for a time.
    fn beat_again(&mut self, at: usize) -> Result<(), AllocError> {
        let local = self.machines[at].local(self.now);
        let is_endless = self.setting.planted == Planted::EndlessBeats;
        let machine = &mut self.machines[at];
        let (Some(running), Some(hang)) = (&machine.running, &mut machine.hang) else {
            return Ok(());
        };
        let leads = running.node.standing() == Standing::Primary
            && running.beat_view == running.node.view_number();
        let beats = if is_endless {
            leads && hang.pace.take_turn(local)
        } else {
            hang.steps.beats_again(leads, &mut hang.pace, local)
        };
        if beats {
            for (to, message) in &running.beat {
                self.flights.push(Flight {
                    from: at,
                    to: *to,
                    message: copy_message(self.alloc, message)?,
                })?;
            }
        }
        Ok(())
    }

    /// The disk of a machine hangs for so long.
    fn hang(&mut self, at: usize, time: u64) {
        if self.machines[at].running.is_none() || self.machines[at].is_hung(self.now) {
            return;
        }
        let mut steps = Steps::new(Times::new(BEAT, SUSPECT));
        steps.busy(0, self.machines[at].local(self.now));
        self.counts.hangs += 1;
        self.machines[at].hang = Some(Hang {
            until: self.now + time,
            steps,
            pace: Pace::new(Times::new(BEAT, SUSPECT)),
        });
    }

    /// Shows the seats what the node has executed.
    fn publish(&mut self, at: usize) -> Result<(), AllocError> {
        let is_mute = self.setting.planted == Planted::NoPublication;
        let nth = self.refused_growth();
        let Some(running) = &mut self.machines[at].running else {
            return Ok(());
        };
        if is_mute && running.node.executed_len() > 5 {
            return Ok(());
        }
        refuse(nth);
        let is_appended = running.publisher.append(running.node.executed()).is_ok();
        let is_shown = !is_appended || !running.publisher.is_behind() || running.publisher.publish().is_ok();
        let was_refused = grant(nth);
        if was_refused {
            self.counts.refused_growths += 1;
        }
        if was_refused || is_appended && is_shown { Ok(()) } else { Err(AllocError) }
    }

    /// Compares what a node has executed with what is committed, and takes note of what is new.
    fn compare(&mut self, at: usize) -> Result<(), AllocError> {
        let Some(running) = &mut self.machines[at].running else {
            return Ok(());
        };
        let records = running.node.executed_records();
        for place in running.compared..records.len() {
            let key = key_of(records[place].client, records[place].request_number);
            let ticket = match self.tickets.get(&key) {
                Some(ticket) => *ticket,
                None => {
                    let what = format!(in self.alloc; "replica {at} has executed what no client asked for, at {place}")?;
                    self.record.blame(what)?;
                    return Ok(());
                }
            };
            if place < self.record.committed.len() {
                if self.record.committed[place] != ticket {
                    let what = format!(in self.alloc; "replica {at} has executed another update at {place}")?;
                    self.record.blame(what)?;
                }
            } else {
                self.record.commit(ticket)?;
            }
        }
        running.compared = records.len();
        Ok(())
    }

    /// A machine's clock is asked.
    fn tick(&mut self, at: usize) -> Result<(), AllocError> {
        if self.now < self.machines[at].busy_until {
            return Ok(());
        }
        if self.machines[at].is_hung(self.now) {
            return self.beat_again(at);
        }
        let local = self.machines[at].local(self.now);
        let forges = self.setting.planted == Planted::ForgedPrepareOk;
        let Some(running) = &mut self.machines[at].running else {
            return Ok(());
        };
        let status = status_of(running.node.standing());
        running.clock.note(running.node.view_number(), status, local);
        match running.clock.ask(local).due {
            Due::Nothing => {}
            Due::Beat => running.inbox.push(Event::Beat)?,
            Due::Suspect => running.inbox.push(Event::Suspect)?,
        }
        if let (true, Standing::Backup { primary }) = (forges, running.node.standing()) {
            let message = PeerMessage::PrepareOk {
                view_number: running.node.view_number(),
                op_number: running.node.log_len() + 1,
            };
            let to = primary as usize;
            self.flights.push(Flight {
                from: at,
                to,
                message,
            })?;
        }
        Ok(())
    }

    // Sessions

    /// A session's next message is served, or asked about, or its end is looked for.
    fn serve(&mut self, at: usize, which: usize) -> Result<(), AllocError> {
        if self.now < self.machines[at].busy_until {
            return Ok(());
        }
        let gives_up = self.chance.hits(if self.is_healed { 0 } else { 5 });
        let is_hung = self.machines[at].is_hung(self.now);
        let planted = self.setting.planted;
        let other = self.chance.hits(200);
        let nth = self.refused_growth();
        let Some(running) = &mut self.machines[at].running else {
            return Ok(());
        };
        if which >= running.sessions.len() {
            return Ok(());
        }
        let restarts = running.node.restarts();
        let standing = running.standing();
        let session = &mut running.sessions[which];
        let number = if planted == Planted::OtherNumber && other {
            session.number + 1
        } else {
            session.number
        };
        let config = Config {
            schema: &self.schema,
            manager: &self.manager,
            password: PASSWORD,
            replica: at as u8,
            restarts,
            session: number,
        };
        if session.noted.is_none() {
            if session.own.due() == Next::Nothing {
                return Ok(());
            }
            session.standing = standing;
            let gate = AskingGate {
                standing,
                noted: None,
                is_noop: planted == Planted::Noops,
                asked: 0,
            };
            let mut directory = (Blind { learned: 0 }, gate);
            session.twin.answer(self.alloc, &config, &mut directory);
            let count = session.twin.unsent().len();
            session.twin.sent(count);
            let (_, gate) = directory;
            if let Some(noted) = gate.noted {
                let caller = session.caller;
                let answered = session.answered;
                let entry = LogEntry {
                    client: noted.client,
                    request_number: noted.number,
                    payload: noted.op.copy()?,
                };
                let key = key_of(noted.client, noted.number);
                session.noted = Some(noted);
                running.inbox.push(Event::Request { entry })?;
                return self.ticket(caller, answered, key);
            }
            let gate = TurnGate {
                standing,
                teller: Some(&running.teller),
                ended: None,
                asked: 0,
            };
            let seat = Lent {
                seat: &mut running.seat,
            };
            refuse(nth);
            let step = session.own.answer(self.alloc, &config, &mut (seat, gate));
            if grant(nth) {
                session.lacked_memory = true;
                self.counts.refused_growths += 1;
            }
            if step == Step::Answered {
                session.answered += 1;
            }
            return Ok(());
        }
        if is_hung {
            // The outcome is the node's, which is inside of a step.
            return Ok(());
        }
        let Some(noted) = &session.noted else {
            return Ok(());
        };
        let mut number = noted.number;
        if planted == Planted::OtherOutcome && other {
            number = number.saturating_sub(1).max(1);
        }
        if planted == Planted::RefusedAsDone && self.refused.get(&key_of(noted.client, number)).is_some() {
            number = number.saturating_sub(1).max(1);
        }
        let ended = match running.node.outcome(noted.client, number) {
            Outcome::Done { number, reply } => dir_seats::Ended::Done {
                number,
                reply: reply.copy(self.alloc)?,
            },
            Outcome::Stale => dir_seats::Ended::Stale,
            Outcome::Pending => {
                if !gives_up {
                    return Ok(());
                }
                dir_seats::Ended::Lost
            }
            Outcome::Lost => {
                // The event may wait for the thread that drives the node.
                if !running.inbox.is_empty() && !gives_up {
                    return Ok(());
                }
                dir_seats::Ended::Lost
            }
        };
        let gate = TurnGate {
            standing: session.standing,
            teller: Some(&running.teller),
            ended: Some(ended),
            asked: 0,
        };
        let seat = Lent {
            seat: &mut running.seat,
        };
        refuse(nth);
        let step = session.own.answer(self.alloc, &config, &mut (seat, gate));
        if grant(nth) {
            session.lacked_memory = true;
            self.counts.refused_growths += 1;
        }
        if step == Step::Answered {
            session.answered += 1;
        }
        session.noted = None;
        Ok(())
    }

    /// Which of the updates that clients asked for a request is.
    fn ticket(&mut self, caller: usize, answered: usize, key: u64) -> Result<(), AllocError> {
        let order = &self.callers[caller].order;
        let found = if answered < order.len() {
            order[answered]
        } else {
            None
        };
        match (found, self.tickets.get(&key)) {
            (Some(ticket), None) => {
                self.tickets.insert(key, ticket)?;
                Ok(())
            }
            (Some(ticket), Some(other)) => {
                if *other != ticket {
                    let what = format!(in self.alloc; "the session of client {caller} asks for an update as another one")?;
                    self.record.blame(what)?;
                }
                Ok(())
            }
            (None, _) => {
                let what = format!(in self.alloc; "the session of client {caller} asks for an update that it didn't want")?;
                self.record.blame(what)
            }
        }
    }

    /// The place of a client's session at its machine.
    fn session_of(&self, caller: usize) -> Option<(usize, usize)> {
        let (at, number) = self.callers[caller].session?;
        let running = match &self.machines[at].running {
            Some(running) => running,
            None => return None,
        };
        for which in 0..running.sessions.len() {
            if running.sessions[which].number == number {
                return Some((at, which));
            }
        }
        None
    }

    /// A client connects to some machine that runs, and binds.
    fn connect(&mut self, caller: usize) -> Result<(), AllocError> {
        let at = self.chance.below(self.setting.count as u64) as usize;
        let Some(running) = &mut self.machines[at].running else {
            return Ok(());
        };
        if running.sessions.len() >= 12 {
            return Ok(());
        }
        let number = running.next_session;
        running.next_session += 1;
        running.sessions.push(Served {
            number,
            caller,
            answered: 0,
            own: Conversation::new(self.alloc),
            twin: Conversation::new(self.alloc),
            noted: None,
            standing: Standing::Changing,
            lacked_memory: false,
        })?;
        self.callers[caller].session = Some((at, number));
        let request = bind_request(self.alloc)?;
        let octets = octets(self.alloc, 1, request, None, None)?;
        let one = &mut self.callers[caller];
        one.outbox = octets;
        one.sent = 0;
        one.next_id = 2;
        one.order.push(None)?;
        one.pending.push(Pending {
            id: 1,
            asked: Asked::Bind,
            entries: Vec::new(self.alloc),
        })?;
        Ok(())
    }

    /// A client leaves without a word.
    fn leave(&mut self, caller: usize) -> Result<(), AllocError> {
        if let Some((at, which)) = self.session_of(caller) {
            if let Some(running) = &mut self.machines[at].running {
                running.sessions.swap_remove(which);
            }
        }
        self.callers[caller].disconnect(self.alloc);
        Ok(())
    }

    /// A client asks for something.
    fn ask(&mut self, caller: usize) -> Result<(), AllocError> {
        let is_update = self.chance.hits(450) && self.callers[caller].may_update();
        let is_loud = self.chance.hits(200);
        let id = self.callers[caller].next_id;
        let alloc = self.alloc;
        let (request, asked, named, own) = if is_update {
            let ticket = match self.callers[caller].again.take() {
                Some(ticket) => ticket,
                None => self.want(caller)?,
            };
            let wanted = &self.record.wanted[ticket];
            let request = update_request(alloc, &wanted.update, is_loud)?;
            (request, Asked::Update { ticket }, Some(0), wanted.named)
        } else {
            let question = any_question(alloc, &mut self.chance)?;
            let request = question_request(alloc, &question, is_loud)?;
            let seen = self.callers[caller].seen;
            let named = if self.chance.hits(100) {
                self.chance.below(self.record.committed.len() as u64 + 2)
            } else {
                0
            };
            let asked = Asked::Question {
                question,
                named,
                seen,
            };
            (request, asked, Some(named), None)
        };
        let octets = octets(alloc, id, request, named, own)?;
        let one = &mut self.callers[caller];
        one.order.push(match &asked {
            Asked::Update { ticket } => Some(*ticket),
            Asked::Bind | Asked::Question { .. } => None,
        })?;
        one.next_id += 1;
        one.outbox.extend_from_slice(&octets)?;
        one.pending.push(Pending {
            id,
            asked,
            entries: Vec::new(alloc),
        })?;
        Ok(())
    }

    /// A new update of a client.
    fn want(&mut self, caller: usize) -> Result<usize, AllocError> {
        let mut update = any_update(self.alloc, &mut self.chance)?;
        if self.record.committed.len() < 2 {
            update = Update::Add {
                path: Path::ROOT,
                descriptions: Vec::new(self.alloc),
                rank: None,
            };
        }
        let named = match self.callers[caller].name {
            Some(name) => {
                let number = self.callers[caller].next_number;
                self.callers[caller].next_number += 1;
                Some((name, number))
            }
            None => None,
        };
        self.record.wanted.push(Wanted {
            update,
            named,
            place: None,
        })?;
        Ok(self.record.wanted.len() - 1)
    }

    /// Some of what a client sends comes at its session.
    fn send(&mut self, caller: usize) -> Result<(), AllocError> {
        let Some((at, which)) = self.session_of(caller) else {
            return Ok(());
        };
        let count = if self.is_healed || self.chance.hits(600) {
            1_000_000
        } else {
            self.chance.between(1, 60) as usize
        };
        let one = &mut self.callers[caller];
        let octets = piece(&one.outbox, one.sent, count);
        if let Some(running) = &mut self.machines[at].running {
            let session = &mut running.sessions[which];
            session.own.hear(octets)?;
            session.twin.hear(octets)?;
        }
        one.sent += octets.len();
        if one.sent == one.outbox.len() {
            one.outbox = Vec::new(self.alloc);
            one.sent = 0;
        }
        Ok(())
    }

    /// Some of what a session says comes at its client.
    fn take(&mut self, caller: usize) -> Result<(), AllocError> {
        let Some((at, which)) = self.session_of(caller) else {
            return Ok(());
        };
        let count = if self.is_healed || self.chance.hits(600) {
            1_000_000
        } else {
            self.chance.between(1, 60) as usize
        };
        let one = &mut self.callers[caller];
        let mut is_over = false;
        let mut lacked_memory = false;
        if let Some(running) = &mut self.machines[at].running {
            let session = &mut running.sessions[which];
            let octets = piece(session.own.unsent(), 0, count);
            let taken = octets.len();
            one.inbox.extend_from_slice(octets)?;
            session.own.sent(taken);
            is_over = session.own.end().is_some() && session.own.unsent().is_empty();
            lacked_memory = session.lacked_memory && session.own.end() == Some(SessionEnd::NoMemory);
        }
        loop {
            match self.callers[caller].next(self.alloc)? {
                Heard::Nothing => break,
                Heard::Entry => {}
                Heard::Wrong => {
                    let what = format!(in self.alloc; "client {caller} is answered what it didn't ask")?;
                    self.record.blame(what)?;
                    return self.leave(caller);
                }
                Heard::Ended(ended) => {
                    if let (Asked::Bind, 52 | 80) = (&ended.asked, ended.code) {
                        // The replica recovers, or lacks memory: another one is tried.
                        return self.leave(caller);
                    }
                    let is_referred = ended.code == 10;
                    self.note(caller, ended)?;
                    if is_referred && !self.is_healed && self.chance.hits(400) {
                        return self.leave(caller);
                    }
                }
            }
        }
        if is_over {
            if !lacked_memory {
                let what = format!(in self.alloc; "the session of client {caller} has ended")?;
                self.record.blame(what)?;
            }
            return self.leave(caller);
        }
        Ok(())
    }

    /// Takes note of how a client's message was answered.
    fn note(&mut self, caller: usize, ended: Ended) -> Result<(), AllocError> {
        let Ended {
            asked,
            entries,
            code,
            matched,
            number,
        } = ended;
        match asked {
            Asked::Bind => {
                if code != 0 {
                    let what = format!(in self.alloc; "a bind was answered {code}")?;
                    self.record.blame(what)?;
                }
                Ok(())
            }
            Asked::Question {
                question,
                named,
                seen,
            } => match number {
                Some(at) => {
                    let least = seen.max(named).max(if self.callers[caller].seen > at { at } else { 0 });
                    if code != 51 && code != 52 && code != 80 {
                        if at < least {
                            let what = format!(in self.alloc; "a read at {at}, below {least}")?;
                            self.record.blame(what)?;
                        }
                        self.counts.searches += 1;
                        let one = &mut self.callers[caller];
                        if at < one.seen {
                            let what = format!(in self.alloc; "client {caller} was at {}, and reads at {at}", one.seen)?;
                            self.record.blame(what)?;
                        }
                        let one = &mut self.callers[caller];
                        one.seen = one.seen.max(at);
                        self.record.reads.push(ReadAnswer {
                            question,
                            at,
                            code,
                            matched,
                            entries,
                        })?;
                    } else {
                        self.open_read(caller, named, code)?;
                    }
                    Ok(())
                }
                None => {
                    if code != 51 && code != 52 && code != 80 {
                        let what = format!(in self.alloc; "a read without a number was answered {code}")?;
                        self.record.blame(what)?;
                    }
                    self.open_read(caller, named, code)
                }
            },
            Asked::Update { ticket } => self.note_update(caller, ticket, code, matched, number),
        }
    }

    /// A read without an answer. Once faults have ended none is too early, since a session reads where it was.
    fn open_read(&mut self, caller: usize, named: u64, code: u32) -> Result<(), AllocError> {
        self.counts.open += 1;
        if self.is_healed && named == 0 && code == 51 {
            let what = format!(in self.alloc; "client {caller} is told that its replica isn't where it was before")?;
            self.record.blame(what)?;
        }
        Ok(())
    }

    fn note_update(
        &mut self,
        caller: usize,
        ticket: usize,
        code: u32,
        matched: Vec<u8>,
        number: Option<u64>,
    ) -> Result<(), AllocError> {
        match number {
            Some(number) => {
                self.counts.updates += 1;
                let one = &mut self.callers[caller];
                one.seen = one.seen.max(number);
                self.record.updates.push(UpdateAnswer {
                    ticket,
                    number,
                    code,
                    matched,
                })?;
                Ok(())
            }
            None => {
                self.counts.open += 1;
                if code != 52 && code != 80 && code != 10 {
                    let what = format!(in self.alloc; "update {ticket} was answered {code} without a number")?;
                    self.record.blame(what)?;
                }
                if self.callers[caller].name.is_some() {
                    self.callers[caller].again = Some(ticket);
                }
                Ok(())
            }
        }
    }

    /// A client does something.
    fn act(&mut self) -> Result<(), AllocError> {
        let caller = self.chance.below(self.callers.len() as u64) as usize;
        if self.session_of(caller).is_none() {
            if self.callers[caller].session.is_some() {
                self.callers[caller].disconnect(self.alloc);
            }
            return self.connect(caller);
        }
        match self.chance.below(100) {
            0..30 => {
                if self.callers[caller].pending.len() < 4 {
                    self.ask(caller)
                } else {
                    Ok(())
                }
            }
            30..62 => self.send(caller),
            62..98 => self.take(caller),
            _ => {
                if self.chance.hits(150) {
                    self.leave(caller)
                } else {
                    Ok(())
                }
            }
        }
    }

    // Faults

    /// How many machines lack their state.
    fn stateless(&self) -> usize {
        let mut count = 0;
        for machine in &self.machines {
            if machine.lacks_state || machine.is_doomed {
                count += 1;
            }
        }
        count
    }

    /// Whether one machine more may end: without journals a majority keeps its state.
    fn may_crash(&self, at: usize) -> bool {
        if self.setting.has_journals {
            return !self.machines[at].lacks_state || self.stateless() <= (self.setting.count - 1) / 2;
        }
        self.machines[at].lacks_state || self.stateless() < (self.setting.count - 1) / 2
    }

    /// Something goes wrong, or is well again.
    fn fault(&mut self) -> Result<(), AllocError> {
        let at = self.chance.below(self.setting.count as u64) as usize;
        match self.chance.below(100) {
            0..25 => {
                if self.may_crash(at) {
                    let loses_power = self.chance.hits(500);
                    self.crash(at, loses_power)?;
                }
            }
            25..55 => {
                for at in 0..self.setting.count {
                    if self.machines[at].running.is_none() {
                        self.start(at)?;
                    }
                }
            }
            55..60 => {
                if self.setting.has_journals && self.stateless() == 0 {
                    self.counts.power_cuts += 1;
                    for at in 0..self.setting.count {
                        self.crash(at, true)?;
                    }
                }
            }
            60..70 => self.trouble(at)?,
            70..80 => {
                let pair = self.chance.below(self.cuts.len() as u64) as usize;
                self.cuts[pair] = true;
            }
            80..90 => {
                for pair in 0..self.cuts.len() {
                    self.cuts[pair] = false;
                }
            }
            90..95 => self.machines[at].busy_until = self.now + self.chance.spread(10, 4000),
            _ => {
                let time = self.chance.spread(10, 8 * SUSPECT);
                self.hang(at, time);
            }
        }
        Ok(())
    }

    /// A disk of a machine will fail at one of its next calls, which ends its process.
    fn trouble(&mut self, at: usize) -> Result<(), AllocError> {
        if !self.may_crash(at) || self.machines[at].running.is_none() {
            return Ok(());
        }
        let calls = self.chance.below(12);
        let is_first = self.chance.hits(500);
        // The node owns its disks, so the trouble is set between an end and a start.
        self.crash(at, true)?;
        self.machines[at].is_doomed = true;
        if let (true, Some(disk)) = (is_first, &mut self.machines[at].views) {
            disk.trouble = Trouble::Fails(calls);
        }
        if let (false, Some(disk)) = (is_first, &mut self.machines[at].journal) {
            disk.trouble = Trouble::Fails(calls);
        }
        self.start(at)
    }

    // Running

    /// The first machine from this one on at which events wait, or this one.
    fn with_events(&self, from: usize) -> usize {
        for more in 0..self.setting.count {
            let at = (from + more) % self.setting.count;
            if let Some(running) = &self.machines[at].running {
                let is_busy = self.now < self.machines[at].busy_until || self.machines[at].is_hung(self.now);
                if !running.inbox.is_empty() && !is_busy {
                    return at;
                }
            }
        }
        from
    }

    /// The first session from this one on at which a message waits, or this one.
    fn with_message(&self, at: usize, from: usize) -> usize {
        let Some(running) = &self.machines[at].running else {
            return from;
        };
        let sessions = &running.sessions;
        for more in 0..sessions.len() {
            let which = (from + more) % sessions.len();
            if sessions[which].noted.is_some() || sessions[which].own.due() != Next::Nothing {
                return which;
            }
        }
        from
    }

    /// One step.
    pub fn step(&mut self) -> Result<(), AllocError> {
        self.counts.steps += 1;
        self.now += self.chance.below(5);
        if self.chance.hits(self.setting.faults) {
            return self.fault();
        }
        let at = self.chance.below(self.setting.count as u64) as usize;
        match self.chance.below(100) {
            0..30 => self.deliver(),
            30..50 => self.drive(self.with_events(at)),
            50..58 => self.tick(at),
            58..78 => {
                let sessions = match &self.machines[at].running {
                    Some(running) => running.sessions.len(),
                    None => 0,
                };
                if sessions == 0 {
                    return Ok(());
                }
                let which = self.chance.below(sessions as u64) as usize;
                self.serve(at, self.with_message(at, which))
            }
            _ => self.act(),
        }
    }

    /// All faults end, and what has to be well is, within so many suspect periods: whether it is.
    pub fn heal(&mut self, periods: u64) -> Result<bool, AllocError> {
        // What was answered before is taken first: a replica may have said then that it isn't as far as it was.
        for caller in 0..self.callers.len() {
            for _ in 0..60 {
                self.take(caller)?;
            }
        }
        self.is_healed = true;
        for pair in 0..self.cuts.len() {
            self.cuts[pair] = false;
        }
        for at in 0..self.setting.count {
            self.machines[at].busy_until = 0;
            self.machines[at].hang = None;
            if self.machines[at].running.is_none() {
                self.start(at)?;
            }
            // What was not published for want of memory is with the next event, which may not come.
            self.publish(at)?;
        }
        if self.chance.hits(300) && self.stateless() == 0 {
            // One fault stays: a disk hangs for good, the primary's where there is one.
            let first = self.chance.below(self.setting.count as u64) as usize;
            let at = self.primary().unwrap_or(first);
            self.hang(at, u64::MAX - self.now);
        }
        let end = self.now + periods * SUSPECT;
        while self.now < end {
            self.round()?;
            if self.is_well()? {
                return Ok(true);
            }
            self.now += 20;
        }
        Ok(false)
    }

    /// The first machine that leads.
    fn primary(&self) -> Option<usize> {
        for at in 0..self.setting.count {
            if self.standing(at) == Some(Standing::Primary) {
                return Some(at);
            }
        }
        None
    }

    /// Everything that can happen now does.
    fn round(&mut self) -> Result<(), AllocError> {
        for at in 0..self.setting.count {
            if self.machines[at].running.is_none() {
                self.start(at)?;
            }
            self.tick(at)?;
        }
        for _ in 0..self.flights.len() {
            self.deliver()?;
        }
        for at in 0..self.setting.count {
            let mut waits = true;
            while waits {
                waits = match &self.machines[at].running {
                    Some(running) => !running.inbox.is_empty() && !self.machines[at].is_hung(self.now),
                    None => false,
                };
                if waits {
                    self.drive(at)?;
                }
            }
            let sessions = match &self.machines[at].running {
                Some(running) => running.sessions.len(),
                None => 0,
            };
            for which in 0..sessions {
                for _ in 0..6 {
                    self.serve(at, which)?;
                }
            }
        }
        for caller in 0..self.callers.len() {
            self.send(caller)?;
            self.take(caller)?;
        }
        Ok(())
    }

    /// Whether all replicas whose disks don't hang are normal in one view with all that is committed, and none of their clients waits.
    fn is_well(&mut self) -> Result<bool, AllocError> {
        let mut view = None;
        let mut primaries = 0;
        for at in 0..self.setting.count {
            if self.machines[at].is_hung(self.now) {
                continue;
            }
            let Some(running) = &self.machines[at].running else {
                return Ok(false);
            };
            if !running.is_normal() || !running.node.is_caught_up() {
                return Ok(false);
            }
            if running.node.executed_len() != self.record.committed.len() {
                return Ok(false);
            }
            if let Some(view) = view {
                if view != running.node.view_number() {
                    return Ok(false);
                }
            }
            if running.node.standing() == Standing::Primary {
                primaries += 1;
            }
            view = Some(running.node.view_number());
        }
        for caller in &self.callers {
            if let Some((at, _)) = caller.session {
                if !caller.pending.is_empty() && !self.machines[at].is_hung(self.now) {
                    return Ok(false);
                }
            }
        }
        Ok(primaries == 1)
    }

    /// Where each replica stands, in words.
    pub fn state(&self) -> Result<String, AllocError> {
        let mut text = String::new(self.alloc);
        for at in 0..self.setting.count {
            let line = match &self.machines[at].running {
                Some(running) => format!(in self.alloc; " {at}: {:?} view {} log {} executed {};",
                    running.node.standing(), running.node.view_number(), running.node.log_len(), running.node.executed_len())?,
                None => format!(in self.alloc; " {at}: down;")?,
            };
            text.push_str(line.as_str())?;
        }
        Ok(text)
    }
}
