//! What a node gives out and where it stands, as words. Outputs and nodes flow in; words flow out. What is expected is not here.

use crate::nodes::sample::{Log, SEVEN, nine};
use dir_node::{Device, Handled, Node, Op, Outcome, Outputs, Send};
use std::alloc::{AllocError, Global};
use std::process::Abort;
use std::test::*;
use vr_wire::write;

/// A word more, and a space behind it.
pub fn add_word(words: &mut String, word: &str) -> Result<(), AllocError> {
    words.push_str(word)?;
    words.push_str(" ")?;
    Ok(())
}

/// A number as a word more.
fn add_number(alloc: Global, words: &mut String, number: u64) -> Result<(), Fail> {
    let word = format!(in alloc; "{number}")?;
    add_word(words, &word)?;
    Ok(())
}

/// The frame of what is sent.
fn frame(rt: &impl Abort, alloc: Global, sender: u8, send: &Send<Op>) -> Result<String, Fail> {
    let frame = write(alloc, nine(rt), sender, &send.message)?;
    Ok(hex::encode(alloc, frame)?)
}

/// To whom something is sent, and its frame.
fn add_send(
    rt: &impl Abort,
    alloc: Global,
    words: &mut String,
    sender: u8,
    send: &Send<Op>,
) -> Result<(), Fail> {
    let frame = frame(rt, alloc, sender, send)?;
    add_number(alloc, words, send.to)?;
    add_word(words, &frame)?;
    Ok(())
}

/// Each message that is sent.
fn add_sends(
    rt: &impl Abort,
    alloc: Global,
    words: &mut String,
    sender: u8,
    outputs: &Outputs<Op>,
) -> Result<(), Fail> {
    for send in &outputs.sends {
        add_send(rt, alloc, words, sender, send)?;
    }
    Ok(())
}

/// Each reply: the client's number, the request's and the record's.
fn add_replies(alloc: Global, words: &mut String, outputs: &Outputs<Op>) -> Result<(), Fail> {
    for reply in &outputs.replies {
        let text = format!(in alloc;
            "reply {} {} {}",
            reply.client.number, reply.request_number, reply.op_number
        )?;
        add_word(words, &text)?;
    }
    Ok(())
}

/// The view that is stored.
fn add_store(alloc: Global, words: &mut String, outputs: &Outputs<Op>) -> Result<(), Fail> {
    match outputs.store {
        Some(view_number) => {
            add_word(words, "store")?;
            add_number(alloc, words, view_number)
        }
        None => Ok(()),
    }
}

/// Outputs as words.
pub fn words_of(
    rt: &impl Abort,
    alloc: Global,
    sender: u8,
    outputs: &Outputs<Op>,
) -> Result<String, Fail> {
    let mut words = String::new(alloc);
    add_store(alloc, &mut words, outputs)?;
    add_sends(rt, alloc, &mut words, sender, outputs)?;
    add_replies(alloc, &mut words, outputs)?;
    Ok(words)
}

/// What an event gives out, as words.
pub fn words_of_event(
    rt: &impl Abort,
    alloc: Global,
    sender: u8,
    handled: Handled,
) -> Result<String, Fail> {
    let mut words = words_of(rt, alloc, sender, &handled.outputs)?;
    if handled.behind {
        add_word(&mut words, "behind")?;
    }
    Ok(words)
}

/// What became of client 7's request of this number.
pub fn words_of_outcome<D: Device>(
    alloc: Global,
    node: &Node<D, Log>,
    number: u64,
) -> Result<String, AllocError> {
    match node.outcome(SEVEN, number) {
        Outcome::Done { number, reply } => {
            format!(in alloc; "done {number} {} ", reply.code.number())
        }
        Outcome::Pending => String::from_str(alloc, "pending "),
        Outcome::Stale => String::from_str(alloc, "stale "),
        Outcome::Lost => String::from_str(alloc, "lost "),
    }
}

/// Where a node stands, in which view, as which start, and how many records it has executed.
pub fn words_of_standing<D: Device>(
    alloc: Global,
    node: &Node<D, Log>,
) -> Result<String, AllocError> {
    format!(in alloc;
        "{:?} {} {} {} ",
        node.standing(),
        node.view_number(),
        node.restarts(),
        node.executed_len()
    )
}
