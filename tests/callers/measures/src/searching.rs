//! One search that is measured. A directory and a filter flow in; how many entries were found, how many were evaluated, and the time flow
//! out. How entries are made is not here.
use crate::fault::Fault;
use dir_search::{DerefAliases, Scope, SearchRequest, search};
use dir_store::Store;
use filter_text::read_text;
use std::alloc::{AllocError, Global};
use std::time::{Clock, Instant};

/// What a search found and took.
#[derive(Clone, Copy, Debug)]
pub struct Measured {
    pub found: usize,
    /// On how many entries the filter was evaluated.
    pub evaluated: usize,
    pub microseconds: u128,
}

/// Filters that name no rank: an indexed equality and its negation, an `and` of it and an unindexed part, and that part alone.
pub const FILTERS: &[&str] = &[
    "(label=l7)",
    "(!(label=l7))",
    "(&(label=l7)(description=d0))",
    "(description=d0)",
];

/// The last hundredth of the ranks.
pub fn range(alloc: Global, count: u32) -> Result<String, AllocError> {
    let least = count - count / 100;
    format!(in alloc; "(rank>={least})")
}

/// Two bounds of half of the items each, which ten items are within.
pub fn narrow(alloc: Global, count: u32) -> Result<String, AllocError> {
    let least = count / 2;
    let most = least + 9;
    format!(in alloc; "(&(rank>={least})(rank<={most}))")
}

/// The selector that shows names alone.
fn no_attributes(alloc: Global) -> Result<Vec<String>, AllocError> {
    let mut selectors = Vec::new(alloc);
    selectors.push(String::from_str(alloc, "1.1")?)?;
    Ok(selectors)
}

/// A search of the items that shows names alone.
fn asked(alloc: Global, filter: &str) -> Result<SearchRequest, Fault> {
    let filter = read_text(alloc, filter)?;
    Ok(SearchRequest {
        base: String::from_str(alloc, "ou=Items,dc=example,dc=com")?,
        scope: Scope::SingleLevel,
        deref_aliases: DerefAliases::NeverDerefAliases,
        size_limit: 0,
        time_limit: 0,
        types_only: false,
        filter,
        attributes: no_attributes(alloc)?,
    })
}

/// How many entries a search found, and on how many the filter was evaluated.
fn counts_of(
    alloc: Global,
    store: &Store,
    request: &SearchRequest,
) -> Result<(usize, usize), AllocError> {
    let answer = search(alloc, &store.reading(), request)?;
    Ok((answer.entries.len(), answer.tests))
}

/// The same of the search of the items by a filter.
fn counts(alloc: Global, store: &Store, filter: &str) -> Result<(usize, usize), Fault> {
    let request = asked(alloc, filter)?;
    let counts = counts_of(alloc, store, &request)?;
    Ok(counts)
}

/// Searches the items by a filter; reading its text is timed too.
pub fn measure(
    clock: &impl Clock,
    alloc: Global,
    store: &Store,
    filter: &str,
) -> Result<Measured, Fault> {
    let began = Instant::now(clock)?;
    let (found, evaluated) = counts(alloc, store, filter)?;
    let microseconds = began.elapsed(clock)?.as_micros();
    Ok(Measured {
        found,
        evaluated,
        microseconds,
    })
}
