//! What clients ask for, by chance, as values that the plain directory understands.

use crate::chance::Chance;
use crate::names::{ITEMS, PARTS, Path, is_item};
use std::alloc::{AllocError, Global};

/// How many values there are to choose from.
pub const VALUES: u64 = 8;

/// A change of an entry's descriptions, or of its rank.
#[derive(Drop)]
pub enum Change {
    Add(Vec<u8>),
    /// These values; all where there are none.
    Delete(Vec<u8>),
    Replace(Vec<u8>),
    Rank(Option<u8>),
}

/// An update.
#[derive(Drop)]
pub enum Update {
    Add {
        path: Path,
        descriptions: Vec<u8>,
        rank: Option<u8>,
    },
    Delete(Path),
    Modify {
        path: Path,
        changes: Vec<Change>,
    },
    Rename {
        path: Path,
        part: u8,
        deletes_old: bool,
        above: Option<Path>,
    },
    /// The extended request that changes nothing.
    Noop,
}

/// A part of a filter; parts stand behind those that they join.
#[derive(Clone, Copy, Debug, PartialEq, Eq)]
pub enum Test {
    /// An entry has an object class at all.
    IsThere,
    IsItem,
    Described,
    DescribedAs(u8),
    /// Some description has this digit behind others.
    HasDigit(u8),
    /// A name of whatever kind.
    Called(u8),
    UnitCalled(u8),
    Ranks(u8),
    RanksAtLeast(u8),
    RanksAtMost(u8),
    /// Of an attribute that no schema knows: undefined.
    Unknown,
    Not,
    /// Of so many.
    And(usize),
    Or(usize),
}

/// Which entries a search goes over.
#[derive(Clone, Copy, Debug, PartialEq, Eq)]
pub enum Over {
    Base,
    One,
    Subtree,
}

/// Which attributes it shows.
#[derive(Clone, Copy, Debug, PartialEq, Eq)]
pub enum Shows {
    Nothing,
    Descriptions,
    All,
}

/// A question.
#[derive(Drop)]
pub enum Question {
    Search {
        base: Path,
        over: Over,
        tests: Vec<Test>,
        shows: Shows,
    },
    /// Whether an entry has this description.
    Compare {
        path: Path,
        value: u8,
    },
}

fn any_part(chance: &mut Chance) -> u8 {
    chance.below(PARTS) as u8
}

fn any_value(chance: &mut Chance) -> u8 {
    chance.below(VALUES) as u8
}

/// Any name; few are deep.
pub fn any_path(chance: &mut Chance) -> Path {
    let mut path = Path::ROOT;
    for permille in [950u64, 500, 300] {
        if chance.hits(permille) {
            if let Some(below) = path.below(any_part(chance)) {
                path = below;
            }
        } else {
            return path;
        }
    }
    path
}

/// Up to so many different values.
fn any_values(alloc: Global, chance: &mut Chance, least: u64, most: u64) -> Result<Vec<u8>, AllocError> {
    let mut values = Vec::new(alloc);
    for _ in 0..chance.between(least, most) {
        let value = any_value(chance);
        if !values.as_slice().contains(&value) {
            values.push(value)?;
        }
    }
    Ok(values)
}

fn any_rank(chance: &mut Chance) -> Option<u8> {
    if chance.hits(600) {
        Some(any_value(chance))
    } else {
        None
    }
}

fn any_change(alloc: Global, chance: &mut Chance, path: &Path) -> Result<Change, AllocError> {
    Ok(match chance.below(if path.depth > 0 && is_item(path.last()) { 4 } else { 3 }) {
        0 => Change::Add(any_values(alloc, chance, 1, 2)?),
        1 => Change::Delete(any_values(alloc, chance, 0, 1)?),
        2 => Change::Replace(any_values(alloc, chance, 0, 2)?),
        _ => Change::Rank(any_rank(chance)),
    })
}

/// Any update.
pub fn any_update(alloc: Global, chance: &mut Chance) -> Result<Update, AllocError> {
    let path = any_path(chance);
    match chance.below(100) {
        0..45 => {
            let rank = if path.depth > 0 && is_item(path.last()) {
                any_rank(chance)
            } else {
                None
            };
            Ok(Update::Add {
                path,
                descriptions: any_values(alloc, chance, 0, 2)?,
                rank,
            })
        }
        45..58 => Ok(Update::Delete(path)),
        58..83 => {
            let mut changes = Vec::new(alloc);
            for _ in 0..chance.between(1, 2) {
                changes.push(any_change(alloc, chance, &path)?)?;
            }
            Ok(Update::Modify { path, changes })
        }
        83..97 => any_rename(alloc, chance, path),
        _ => Ok(Update::Noop),
    }
}

/// A rename of a name that isn't the suffix, to another of its kind, and not below itself.
fn any_rename(_alloc: Global, chance: &mut Chance, path: Path) -> Result<Update, AllocError> {
    if path.depth == 0 {
        return Ok(Update::Noop);
    }
    let part = if is_item(path.last()) {
        chance.between(ITEMS as u64, PARTS - 1) as u8
    } else {
        chance.below(ITEMS as u64) as u8
    };
    let above = if chance.hits(400) {
        let other = any_path(chance);
        if other.is_within(&path) || other.depth > 1 {
            None
        } else {
            Some(other)
        }
    } else {
        None
    };
    Ok(Update::Rename {
        path,
        part,
        deletes_old: chance.hits(600),
        above,
    })
}

fn any_item(chance: &mut Chance) -> Test {
    let value = any_value(chance);
    match chance.below(12) {
        0 => Test::IsThere,
        1 => Test::IsItem,
        2 => Test::Described,
        3 | 4 => Test::DescribedAs(value),
        5 => Test::HasDigit(value),
        6 => Test::Called(any_part(chance)),
        7 => Test::UnitCalled(any_part(chance)),
        8 => Test::Ranks(value),
        9 => Test::RanksAtLeast(value),
        10 => Test::RanksAtMost(value),
        _ => Test::Unknown,
    }
}

/// Any filter, of at most some eight parts.
fn any_tests(alloc: Global, chance: &mut Chance) -> Result<Vec<Test>, AllocError> {
    let mut tests = Vec::new(alloc);
    let count = chance.between(1, 3) as usize;
    for _ in 0..count {
        tests.push(any_item(chance))?;
        if chance.hits(250) {
            tests.push(Test::Not)?;
        }
        if chance.hits(200) {
            tests.push(any_item(chance))?;
            tests.push(Test::Or(2))?;
        }
    }
    if count > 1 {
        tests.push(if chance.hits(600) {
            Test::And(count)
        } else {
            Test::Or(count)
        })?;
    }
    Ok(tests)
}

/// Any question.
pub fn any_question(alloc: Global, chance: &mut Chance) -> Result<Question, AllocError> {
    let path = any_path(chance);
    if chance.hits(150) {
        return Ok(Question::Compare {
            path,
            value: any_value(chance),
        });
    }
    let base = if chance.hits(700) { Path::ROOT } else { path };
    Ok(Question::Search {
        base,
        over: match chance.below(10) {
            0 | 1 => Over::Base,
            2 | 3 => Over::One,
            _ => Over::Subtree,
        },
        tests: any_tests(alloc, chance)?,
        shows: match chance.below(3) {
            0 => Shows::Nothing,
            1 => Shows::Descriptions,
            _ => Shows::All,
        },
    })
}
