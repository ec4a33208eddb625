//! What a run is judged by: the list of what was committed, and the plain directory that its beginnings make.

use crate::asking::{Question, Shows, Update};
use crate::caller::{Shown, put_in_order};
use crate::names::{Path, is_item, plain};
use crate::plain::{Came, Item, Plain};
use std::alloc::{AllocError, Global};

/// An update that a client asked for, perhaps several times, and where it is in what is committed.
#[derive(Drop)]
pub struct Wanted {
    pub update: Update,
    /// The number that its client gave it, where the client names itself.
    pub named: Option<(u64, u64)>,
    pub place: Option<usize>,
}

/// An update's answer.
#[derive(Drop)]
pub struct UpdateAnswer {
    pub ticket: usize,
    pub number: u64,
    pub code: u32,
    pub matched: Vec<u8>,
}

/// A question's answer, at the number that it names.
#[derive(Drop)]
pub struct ReadAnswer {
    pub question: Question,
    pub at: u64,
    pub code: u32,
    pub matched: Vec<u8>,
    pub entries: Vec<Shown>,
}

/// All that was answered.
#[derive(Drop)]
pub struct Record {
    pub alloc: Global,
    pub wanted: Vec<Wanted>,
    /// The ticket of each committed update.
    pub committed: Vec<usize>,
    pub updates: Vec<UpdateAnswer>,
    pub reads: Vec<ReadAnswer>,
    /// What is wrong, in words.
    pub faults: String,
}

/// Whether a matchedDN is as it has to be.
fn is_matched(alloc: Global, matched: &[u8], path: Option<Path>) -> Result<bool, AllocError> {
    match path {
        None => Ok(matched.is_empty()),
        Some(path) => {
            let text = path.text(alloc, false)?;
            Ok(*matched == *plain(alloc, text.as_bytes())?.as_slice())
        }
    }
}

fn line(alloc: Global, kind: &str, text: String) -> Result<Vec<u8>, AllocError> {
    let line = format!(in alloc; "{kind}:{text}")?;
    Ok(line.into_bytes())
}

/// The values of an entry that a search shows.
fn values_of(alloc: Global, item: &Item, shows: Shows) -> Result<Vec<Vec<u8>>, AllocError> {
    let mut values = Vec::new(alloc);
    if shows == Shows::Nothing {
        return Ok(values);
    }
    for value in &item.descriptions {
        put_in_order(&mut values, line(alloc, "description", format!(in alloc; "somev{value}")?)?)?;
    }
    if shows == Shows::Descriptions || item.path.depth == 0 {
        return Ok(values);
    }
    let kind = if is_item(item.path.last()) { "cn" } else { "ou" };
    for name in &item.names {
        put_in_order(&mut values, line(alloc, kind, format!(in alloc; "c{name}")?)?)?;
    }
    if let Some(rank) = item.rank {
        put_in_order(&mut values, line(alloc, "rank", format!(in alloc; "{rank}")?)?)?;
    }
    Ok(values)
}

fn is_shown(alloc: Global, item: &Item, shows: Shows, shown: &Shown) -> Result<bool, AllocError> {
    let name = item.path.text(alloc, false)?;
    if shown.name.as_slice() != plain(alloc, name.as_bytes())?.as_slice() {
        return Ok(false);
    }
    let values = values_of(alloc, item, shows)?;
    if values.len() != shown.values.len() {
        return Ok(false);
    }
    for at in 0..values.len() {
        if values[at].as_slice() != shown.values[at].as_slice() {
            return Ok(false);
        }
    }
    Ok(true)
}

/// Whether a question's answer is that of a directory.
fn is_answer(alloc: Global, plain: &Plain, read: &ReadAnswer) -> Result<bool, AllocError> {
    let (came, found) = plain.answer(&read.question)?;
    if came.code != read.code || !is_matched(alloc, &read.matched, came.matched)? {
        return Ok(false);
    }
    if found.len() != read.entries.len() {
        return Ok(false);
    }
    let shows = match &read.question {
        Question::Search { shows, .. } => *shows,
        Question::Compare { .. } => Shows::Nothing,
    };
    for at in 0..found.len() {
        if !is_shown(alloc, &plain.items[found[at]], shows, &read.entries[at])? {
            return Ok(false);
        }
    }
    Ok(true)
}

impl Record {
    pub fn new(alloc: Global) -> Record {
        Record {
            alloc,
            wanted: Vec::new(alloc),
            committed: Vec::new(alloc),
            updates: Vec::new(alloc),
            reads: Vec::new(alloc),
            faults: String::new(alloc),
        }
    }

    /// Something is wrong.
    pub fn blame(&mut self, what: String) -> Result<(), AllocError> {
        if self.faults.len() < 2000 {
            self.faults.push_str(what.as_str())?;
            self.faults.push_str("\n")?;
        }
        Ok(())
    }

    /// One more update is committed.
    pub fn commit(&mut self, ticket: usize) -> Result<(), AllocError> {
        let place = self.committed.len();
        if let Some(other) = self.wanted[ticket].place {
            let what = format!(in self.alloc; "update {ticket} is committed twice: {other} and {place}")?;
            self.blame(what)?;
        }
        self.wanted[ticket].place = Some(place);
        self.committed.push(ticket)
            .map_err(|_| AllocError)
    }

    /// Judges all answers by what is committed.
    pub fn judge(&mut self) -> Result<(), AllocError> {
        let mut came: Vec<Came> = Vec::new(self.alloc);
        let mut plain = Plain::new(self.alloc);
        let mut order: Vec<Vec<usize>> = Vec::new(self.alloc);
        for _ in 0..self.committed.len() + 1 {
            order.push(Vec::new(self.alloc))?;
        }
        for read in 0..self.reads.len() {
            let at = self.reads[read].at as usize;
            if at >= order.len() {
                let what = format!(in self.alloc; "a read at {at}, but {} are committed", self.committed.len())?;
                self.blame(what)?;
            } else {
                order[at].push(read)?;
            }
        }
        for at in 0..order.len() {
            for read in &order[at] {
                if !is_answer(self.alloc, &plain, &self.reads[*read])? {
                    let what = format!(in self.alloc; "a read at {at} has a wrong answer: {}", self.reads[*read].code)?;
                    self.blame(what)?;
                }
            }
            if at < self.committed.len() {
                came.push(plain.update(&self.wanted[self.committed[at]].update)?)?;
            }
        }
        self.judge_updates(&came)
    }

    fn judge_updates(&mut self, came: &[Came]) -> Result<(), AllocError> {
        for at in 0..self.updates.len() {
            let answer = &self.updates[at];
            let place = (answer.number as usize).wrapping_sub(1);
            let is_right = place < came.len()
                && self.committed[place] == answer.ticket
                && came[place].code == answer.code
                && is_matched(self.alloc, &answer.matched, came[place].matched)?;
            if !is_right {
                let what = format!(in self.alloc; "update {} was answered {} at {}", answer.ticket, answer.code, answer.number)?;
                self.blame(what)?;
            }
        }
        Ok(())
    }
}
