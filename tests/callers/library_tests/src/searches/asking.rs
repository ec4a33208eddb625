//! Searches of the items of a directory, row by row. A directory and rows flow in; what is found, and how many entries were evaluated, is
//! compared. No expectation is here.
use crate::searches::sample::{TWO, add, sampled};
use dir_search::{DerefAliases, ResultCode, Scope, SearchAnswer, SearchRequest, search};
use dir_store::Store;
use filter_text::read_text;
use std::alloc::Global;
use std::process::Abort;
use std::test::*;

/// A search one level below the items' unit: a filter's text, the first parts of the names that are found, in order, and the most entries
/// that the filter may be evaluated on.
pub struct Row(pub &'static str, pub &'static [&'static str], pub usize);

/// Rows with one size limit (0 is none) and one result code.
pub struct Rows {
    pub limit: u32,
    pub code: ResultCode,
    pub rows: &'static [Row],
}

/// The name of the items' unit, behind a comma.
const BELOW_ITEMS: &str = ",ou=Items,dc=example,dc=com";

/// The request of a row.
fn asked(alloc: Global, filter: &str, limit: u32) -> Result<SearchRequest, Fail> {
    Ok(SearchRequest {
        base: String::from_str(alloc, "ou=Items,dc=example,dc=com")?,
        scope: Scope::SingleLevel,
        deref_aliases: DerefAliases::NeverDerefAliases,
        size_limit: limit,
        time_limit: 0,
        types_only: false,
        filter: read_text(alloc, filter)?,
        attributes: Vec::new(alloc),
    })
}

/// A filter's text and the names that were found, as lines.
fn written(alloc: Global, filter: &str, answer: &SearchAnswer) -> Result<String, Fail> {
    let mut lines = String::from_str(alloc, filter)?;
    for entry in &answer.entries {
        lines.push('\n')?;
        lines.push_str(entry.object_name())?;
    }
    Ok(lines)
}

/// A filter's text and the names that are to be found, as lines.
fn expected(alloc: Global, row: &Row) -> Result<String, Fail> {
    let mut lines = String::from_str(alloc, row.0)?;
    for name in row.1 {
        lines.push('\n')?;
        lines.push_str(name)?;
        lines.push_str(BELOW_ITEMS)?;
    }
    Ok(lines)
}

/// Searches by each row, and compares.
fn check_rows(rt: &impl Abort, alloc: Global, store: &Store, rows: &Rows) -> Result<(), Fail> {
    for row in rows.rows {
        let answer = search(alloc, &store.reading(), &asked(alloc, row.0, rows.limit)?)?;
        let found = written(alloc, row.0, &answer)?;
        assert_eq!(rt; found.as_str(), expected(alloc, row)?.as_str());
        assert_eq!(rt; answer.code, rows.code);
        assert!(rt; answer.tests <= row.2);
    }
    Ok(())
}

/// Searches the sample under an index choice by rows, and by further ones once operation 7 has added an item.
pub fn check(
    rt: &impl Abort,
    alloc: Global,
    indexes: &str,
    before: &[Rows],
    after: &[Rows],
) -> Result<(), Fail> {
    let mut store = sampled(rt, alloc, indexes)?;
    for rows in before {
        check_rows(rt, alloc, &store, rows)?;
    }
    add(rt, alloc, &mut store, 7, &TWO)?;
    for rows in after {
        check_rows(rt, alloc, &store, rows)?;
    }
    Ok(())
}
