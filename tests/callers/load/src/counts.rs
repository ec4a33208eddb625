//! What came back to clients, added up. How it came is not here.
use crate::fault::Fault;
use std::alloc::Global;
use std::io::Print;

/// What came back to a client.
#[derive(Drop)]
pub struct Counts {
    pub answered: u64,
    pub entries: u64,
    /// Answers with another code than success or compareTrue.
    pub refused: u64,
    /// How many nanoseconds each answer took.
    pub times: Vec<u64>,
}

impl Counts {
    pub fn new(alloc: Global) -> Counts {
        Counts {
            answered: 0,
            entries: 0,
            refused: 0,
            times: Vec::new(alloc),
        }
    }

    /// What came back to another client joins this.
    pub fn join(&mut self, other: Counts) -> Result<(), Fault> {
        self.answered = self.answered.saturating_add(other.answered);
        self.entries = self.entries.saturating_add(other.entries);
        self.refused = self.refused.saturating_add(other.refused);
        for time in other.times.iter() {
            self.times.push(*time)?;
        }
        Ok(())
    }

    /// The time that so many of a hundred answers took at most.
    fn time_of(&self, of_hundred: usize) -> u64 {
        let place = (self.times.len().saturating_sub(1) / 100).saturating_mul(of_hundred);
        match self.times.get(place) {
            Some(time) => *time,
            None => 0,
        }
    }

    /// Prints all of it as numbers: answers, entries, answers with a code, the middle time, that of 99 of 100, and the longest.
    pub fn print(&mut self, rt: &impl Print) -> Result<(), Fault> {
        self.times.as_mut_slice().sort_unstable();
        let middle = self.time_of(50);
        let most = self.time_of(99);
        let longest = match self.times.last() {
            Some(time) => *time,
            None => 0,
        };
        let Counts {
            answered,
            entries,
            refused,
            times: _,
        } = self;
        println!(rt; "{answered} {entries} {refused} {middle} {most} {longest}")?;
        Ok(())
    }
}
