//! A plain directory: a list of entries in the order of their numbers, with no index, tree or plan. It says what updates and questions come to.

use crate::asking::{Change, Over, Question, Shows, Test, Update};
use crate::names::{Path, is_item};
use std::alloc::{AllocError, Global};

/// An entry: its name, the values of its name's type, and what else it has.
#[derive(Drop)]
pub struct Item {
    pub path: Path,
    pub names: Vec<u8>,
    pub descriptions: Vec<u8>,
    pub rank: Option<u8>,
}

/// What an update or a question comes to: its code, and the name matched, where there is one.
#[derive(Clone, Copy, Debug, PartialEq, Eq)]
pub struct Came {
    pub code: u32,
    pub matched: Option<Path>,
}

impl Came {
    fn only(code: u32) -> Came {
        Came {
            code,
            matched: None,
        }
    }
}

#[derive(Drop)]
pub struct Plain {
    alloc: Global,
    pub items: Vec<Item>,
}

/// Adds values to a list; 20 where one is there.
fn join(values: &mut Vec<u8>, added: &[u8]) -> Result<u32, AllocError> {
    for value in added {
        if values.as_slice().contains(value) {
            return Ok(20);
        }
        values.push(*value)?;
    }
    Ok(0)
}

/// A list without these values, or without any; 16 where one isn't there.
fn without(alloc: Global, values: &[u8], gone: &[u8]) -> Result<(u32, Vec<u8>), AllocError> {
    let mut left = Vec::new(alloc);
    if gone.is_empty() {
        return Ok((if values.is_empty() { 16 } else { 0 }, left));
    }
    for value in gone {
        if !values.contains(value) {
            return Ok((16, left));
        }
    }
    for value in values {
        if !gone.contains(value) {
            left.push(*value)?;
        }
    }
    Ok((0, left))
}

impl Plain {
    pub fn new(alloc: Global) -> Plain {
        Plain {
            alloc,
            items: Vec::new(alloc),
        }
    }

    /// The place of the entry with this name.
    fn find(&self, path: &Path) -> Option<usize> {
        for at in 0..self.items.len() {
            if self.items[at].path == *path {
                return Some(at);
            }
        }
        None
    }

    /// noSuchObject, with the nearest entry above.
    fn missing(&self, path: &Path) -> Came {
        let mut above = path.above();
        while let Some(found) = above {
            if self.find(&found).is_some() {
                return Came {
                    code: 32,
                    matched: above,
                };
            }
            above = found.above();
        }
        Came::only(32)
    }

    /// Makes an update, where it can be made.
    pub fn update(&mut self, update: &Update) -> Result<Came, AllocError> {
        match update {
            Update::Noop => Ok(Came::only(0)),
            Update::Add {
                path,
                descriptions,
                rank,
            } => self.add(path, descriptions, *rank),
            Update::Delete(path) => self.delete(path),
            Update::Modify { path, changes } => self.modify(path, changes),
            Update::Rename {
                path,
                part,
                deletes_old,
                above,
            } => self.rename(path, *part, *deletes_old, above),
        }
    }

    fn add(&mut self, path: &Path, descriptions: &[u8], rank: Option<u8>) -> Result<Came, AllocError> {
        if self.find(path).is_some() {
            return Ok(Came::only(68));
        }
        if let Some(above) = path.above() {
            if self.find(&above).is_none() {
                return Ok(self.missing(path));
            }
        }
        let mut names = Vec::new(self.alloc);
        names.push(path.last())?;
        self.items.push(Item {
            path: *path,
            names,
            descriptions: descriptions.to_vec(self.alloc)?,
            rank,
        })?;
        Ok(Came::only(0))
    }

    fn delete(&mut self, path: &Path) -> Result<Came, AllocError> {
        let Some(at) = self.find(path) else {
            return Ok(self.missing(path));
        };
        for item in &self.items {
            if item.path != *path && item.path.is_within(path) {
                return Ok(Came::only(66));
            }
        }
        self.items.remove(at);
        Ok(Came::only(0))
    }

    fn modify(&mut self, path: &Path, changes: &[Change]) -> Result<Came, AllocError> {
        let Some(at) = self.find(path) else {
            return Ok(self.missing(path));
        };
        let mut values = self.items[at].descriptions.to_vec(self.alloc)?;
        let mut rank = self.items[at].rank;
        for change in changes {
            let code = match change {
                Change::Add(added) => join(&mut values, added)?,
                Change::Delete(gone) => {
                    let (code, left) = without(self.alloc, &values, gone)?;
                    values = left;
                    code
                }
                Change::Replace(next) => {
                    values = next.to_vec(self.alloc)?;
                    0
                }
                Change::Rank(next) => {
                    rank = *next;
                    0
                }
            };
            if code != 0 {
                return Ok(Came::only(code));
            }
        }
        self.items[at].descriptions = values;
        self.items[at].rank = rank;
        Ok(Came::only(0))
    }

    fn rename(
        &mut self,
        path: &Path,
        part: u8,
        deletes_old: bool,
        above: &Option<Path>,
    ) -> Result<Came, AllocError> {
        let Some(at) = self.find(path) else {
            return Ok(self.missing(path));
        };
        let superior = match above {
            Some(above) => *above,
            None => path.above().unwrap_or(Path::ROOT),
        };
        if self.find(&superior).is_none() {
            return Ok(self.missing_or(&superior));
        }
        let Some(to) = superior.below(part) else {
            return Err(AllocError);
        };
        if let Some(other) = self.find(&to) {
            if other != at {
                return Ok(Came::only(68));
            }
        }
        let mut names = Vec::new(self.alloc);
        for name in &self.items[at].names {
            if *name == part || *name != path.last() || !deletes_old {
                names.push(*name)?;
            }
        }
        if !names.as_slice().contains(&part) {
            names.push(part)?;
        }
        self.items[at].names = names;
        for place in 0..self.items.len() {
            if self.items[place].path.is_within(path) {
                let Some(now) = self.items[place].path.moved(path, &to) else {
                    return Err(AllocError);
                };
                self.items[place].path = now;
            }
        }
        Ok(Came::only(0))
    }

    /// noSuchObject of a superior.
    fn missing_or(&self, superior: &Path) -> Came {
        self.missing(superior)
    }

    /// What a question comes to, and the places of the entries that it finds.
    pub fn answer(&self, question: &Question) -> Result<(Came, Vec<usize>), AllocError> {
        match question {
            Question::Compare { path, value } => Ok((self.compare(path, *value), Vec::new(self.alloc))),
            Question::Search {
                base,
                over,
                tests,
                shows: _,
            } => {
                let mut found = Vec::new(self.alloc);
                if self.find(base).is_none() {
                    return Ok((self.missing(base), found));
                }
                for at in 0..self.items.len() {
                    let item = &self.items[at];
                    if is_over(&item.path, base, *over)
                        && value_of(self.alloc, item, tests)? == Some(true)
                    {
                        found.push(at)?;
                    }
                }
                Ok((Came::only(0), found))
            }
        }
    }

    fn compare(&self, path: &Path, value: u8) -> Came {
        match self.find(path) {
            None => self.missing(path),
            Some(at) => {
                let values = self.items[at].descriptions.as_slice();
                Came::only(if values.is_empty() {
                    16
                } else if values.contains(&value) {
                    6
                } else {
                    5
                })
            }
        }
    }
}

fn is_over(path: &Path, base: &Path, over: Over) -> bool {
    match over {
        Over::Base => path == base,
        Over::One => path.above() == Some(*base),
        Over::Subtree => path.is_within(base),
    }
}

fn item_value(item: &Item, test: Test) -> Option<bool> {
    let is_root = item.path.depth == 0;
    let is_cn = !is_root && is_item(item.path.last());
    Some(match test {
        Test::IsThere => true,
        Test::IsItem => is_cn,
        Test::Described => !item.descriptions.is_empty(),
        Test::DescribedAs(value) => item.descriptions.as_slice().contains(&value),
        Test::HasDigit(value) => item.descriptions.as_slice().contains(&value),
        Test::Called(part) => !is_root && item.names.as_slice().contains(&part),
        Test::UnitCalled(part) => !is_root && !is_cn && item.names.as_slice().contains(&part),
        Test::Ranks(value) => item.rank == Some(value),
        Test::RanksAtLeast(value) => match item.rank {
            Some(rank) => rank >= value,
            None => false,
        },
        Test::RanksAtMost(value) => match item.rank {
            Some(rank) => rank <= value,
            None => false,
        },
        Test::Unknown | Test::Not | Test::And(_) | Test::Or(_) => return None,
    })
}

fn both(one: Option<bool>, other: Option<bool>) -> Option<bool> {
    match (one, other) {
        (Some(false), _) | (_, Some(false)) => Some(false),
        (Some(true), Some(true)) => Some(true),
        _ => None,
    }
}

fn negated(one: Option<bool>) -> Option<bool> {
    one.map(|value| !value)
}

/// The three-valued value of a filter on an entry; none is Undefined.
fn value_of(alloc: Global, item: &Item, tests: &[Test]) -> Result<Option<bool>, AllocError> {
    let mut values: Vec<Option<bool>> = Vec::new(alloc);
    for test in tests {
        let value = match test {
            Test::Not => negated(values.pop().unwrap_or(None)),
            Test::And(count) => {
                let mut all = Some(true);
                for _ in 0..*count {
                    all = both(all, values.pop().unwrap_or(None));
                }
                all
            }
            Test::Or(count) => {
                let mut none = Some(true);
                for _ in 0..*count {
                    none = both(none, negated(values.pop().unwrap_or(None)));
                }
                negated(none)
            }
            other => item_value(item, *other),
        };
        values.push(value)?;
    }
    Ok(values.pop().unwrap_or(None))
}
