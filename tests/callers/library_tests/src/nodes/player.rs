//! Rows that are played at a node: what happens to it or what it is asked flows in, and what it says is compared with the words that the row has.
//! What any event should give is not here.

use crate::nodes::sample::{Log, SEVEN, nine};
use crate::nodes::telling::{add_word, words_of_event, words_of_outcome, words_of_standing};
use dir_node::{Device, Event, Handled, LogEntry, Node, NodeError, Op};
use ldap_op::read_op;
use std::alloc::{AllocError, Global};
use std::process::Abort;
use std::test::*;
use vr_wire::read;

/// What happens to a node, or what it is asked.
#[derive(Clone, Copy)]
pub enum Given {
    /// Client 7's request: its number, and the update's octets.
    Request(u64, &'static str),
    /// The octets of a frame.
    Frame(&'static str),
    Suspect,
    Beat,
    /// What became of client 7's request of this number.
    Outcome(u64),
    Stand,
}

/// What is given, and what the node then says.
pub type Row = (Given, &'static [&'static str]);

/// A request of client 7.
fn request(alloc: Global, request_number: u64, text: &str) -> Result<Event<Op>, Fail> {
    let octets = hex::decode(alloc, text)?;
    let entry = LogEntry {
        client: SEVEN,
        request_number,
        payload: read_op(alloc, &octets)?,
    };
    Ok(Event::Request { entry })
}

/// The message of a frame, unless memory is refused.
pub fn heard(rt: &impl Abort, alloc: Global, text: &str) -> Option<Event<Op>> {
    let octets = hex::decode(alloc, text).ok()?;
    let (sender, message) = read(alloc, &octets, nine(rt)).ok()?;
    Some(Event::Message {
        from: sender as u64,
        message,
    })
}

/// Hands an event to a node.
pub fn handle<D: Device>(
    alloc: Global,
    node: &mut Node<D, Log>,
    event: Event<Op>,
) -> Result<Handled, NodeError> {
    node.handle(alloc, event)
}

/// What an event at a node gives out, or why it gives nothing.
fn after<D: Device>(
    rt: &impl Abort,
    alloc: Global,
    node: &mut Node<D, Log>,
    event: Event<Op>,
) -> Result<String, Fail> {
    match handle(alloc, node, event) {
        Ok(handled) => words_of_event(rt, alloc, u8::try_from(node.index()).unwrap_or(0), handled),
        Err(error) => Ok(format!(in alloc; "{error} ")?),
    }
}

/// What a node says to what is given.
pub fn said<D: Device>(
    rt: &impl Abort,
    alloc: Global,
    node: &mut Node<D, Log>,
    given: Given,
) -> Result<String, Fail> {
    match given {
        Given::Request(number, text) => {
            let event = request(alloc, number, text)?;
            after(rt, alloc, node, event)
        }
        Given::Frame(text) => {
            let event = heard(rt, alloc, text).expect(rt, "a frame");
            after(rt, alloc, node, event)
        }
        Given::Suspect => after(rt, alloc, node, Event::Suspect),
        Given::Beat => after(rt, alloc, node, Event::Beat),
        Given::Outcome(number) => Ok(words_of_outcome(alloc, node, number)?),
        Given::Stand => Ok(words_of_standing(alloc, node)?),
    }
}

/// Some words, with a space behind each.
pub fn joined(alloc: Global, words: &[&str]) -> Result<String, AllocError> {
    let mut all = String::new(alloc);
    for word in words {
        add_word(&mut all, word)?;
    }
    Ok(all)
}

/// A node says to what is given what a row has.
fn check_row<D: Device>(
    rt: &impl Abort,
    alloc: Global,
    node: &mut Node<D, Log>,
    row: &Row,
) -> Result<(), Fail> {
    let (given, want) = row;
    let said = said(rt, alloc, node, *given)?;
    let want = joined(alloc, want)?;
    assert!(rt; said.as_str() == want.as_str(), "{said}");
    Ok(())
}

/// Plays rows at a node.
pub fn play<D: Device>(
    rt: &impl Abort,
    alloc: Global,
    node: &mut Node<D, Log>,
    rows: &[Row],
) -> Result<(), Fail> {
    for row in rows {
        check_row(rt, alloc, node, row)?;
    }
    Ok(())
}
