//! Questions to seats, and what they are answered as text. Names, filters and values flow in; lines flow out. No expectation is here.
use crate::seats::sample::Node;
use dir_seats::{CompareRequest, Found, LookError, Reply, SearchAnswer, SearchRequest, Seat};
use filter_text::read_text;
use ldap_msg::{AttributeValueAssertion, DerefAliases, Scope};
use std::alloc::Global;
use std::test::*;

/// A search of everything below the items' unit for what matches a filter; the ranks alone are shown.
pub fn asked(alloc: Global, base: &str, filter: &str) -> Result<SearchRequest, Fail> {
    let mut attributes = Vec::new(alloc);
    attributes.push(String::from_str(alloc, "rank")?)?;
    Ok(SearchRequest {
        base: String::from_str(alloc, base)?,
        scope: Scope::WholeSubtree,
        deref_aliases: DerefAliases::NeverDerefAliases,
        size_limit: 0,
        time_limit: 0,
        types_only: false,
        filter: read_text(alloc, filter)?,
        attributes,
    })
}

/// Why a read has no answer.
fn refusal(alloc: Global, error: LookError) -> Result<String, Fail> {
    Ok(match error {
        LookError::NotYet { at } => format!(in alloc; "not yet at {at}")?,
        LookError::Gone => String::from_str(alloc, "gone")?,
        LookError::NoMemory => String::from_str(alloc, "no memory")?,
    })
}

/// The number, the code and how many entries there are of what was found.
fn line_of_search(alloc: Global, found: &Found<SearchAnswer>) -> Result<String, Fail> {
    let (at, entries) = (found.at, found.answer.entries.len());
    let code = found.answer.code.number();
    Ok(format!(in alloc; "at {at} code {code} entries {entries}")?)
}

/// The number and the code of what was said.
fn line_of_compare(alloc: Global, found: &Found<Reply>) -> Result<String, Fail> {
    let (at, code) = (found.at, found.answer.code.number());
    Ok(format!(in alloc; "at {at} code {code}")?)
}

/// What a seat finds of the entries that match a filter: the number, the code and how many entries there are.
pub fn found(
    alloc: Global,
    seat: &mut Seat<Node>,
    named: u64,
    filter: &str,
) -> Result<String, Fail> {
    let request = asked(alloc, "dc=example,dc=com", filter)?;
    match &seat.search(alloc, named, &request) {
        Ok(found) => line_of_search(alloc, found),
        Err(error) => refusal(alloc, *error),
    }
}

/// What a seat says to a compare: the number and the code.
pub fn compared(
    alloc: Global,
    seat: &mut Seat<Node>,
    named: u64,
    entry: &str,
    description: &str,
    value: &str,
) -> Result<String, Fail> {
    let ava = AttributeValueAssertion {
        attribute_desc: String::from_str(alloc, description)?,
        assertion_value: value.as_bytes().to_vec(alloc)?,
    };
    let entry = String::from_str(alloc, entry)?;
    match &seat.compare(alloc, named, &CompareRequest { entry, ava }) {
        Ok(found) => line_of_compare(alloc, found),
        Err(error) => refusal(alloc, *error),
    }
}
