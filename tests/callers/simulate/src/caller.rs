//! A client: what it has asked for and what it was answered, octet by octet.

use crate::asking::Question;
use crate::names::plain;
use ldap_msg::{LdapResult, Message, PartialAttribute, ProtocolOp, Response, decode};
use std::alloc::{AllocError, Global};

/// What a message of a client asks for.
#[derive(Drop)]
pub enum Asked {
    Bind,
    Question {
        question: Question,
        named: u64,
        /// What the session had seen before, as far as it was answered when this was sent.
        seen: u64,
    },
    Update {
        ticket: usize,
    },
}

/// An entry as it was shown, in small letters and without spaces: its name, and each value behind its type, in order.
#[derive(Drop)]
pub struct Shown {
    pub name: Vec<u8>,
    pub values: Vec<Vec<u8>>,
}

/// A message that waits for its responses.
#[derive(Drop)]
pub struct Pending {
    pub id: u32,
    pub asked: Asked,
    pub entries: Vec<Shown>,
}

/// A client, and its session where it has one.
#[derive(Drop)]
pub struct Caller {
    /// By which it names itself, and its requests; none, where its sessions are clients of their own.
    pub name: Option<u64>,
    pub next_number: u64,
    /// The machine and the session's number there.
    pub session: Option<(usize, u64)>,
    pub next_id: u32,
    pub pending: Vec<Pending>,
    /// Of each message of its session, in order, the update that it asks for, if it does.
    pub order: Vec<Option<usize>>,
    /// What isn't sent yet, and from where on.
    pub outbox: Vec<u8>,
    pub sent: usize,
    pub inbox: Vec<u8>,
    /// The greatest number that its session has seen.
    pub seen: u64,
    /// An update whose end isn't known, which is asked for again.
    pub again: Option<usize>,
}

/// How a message was answered.
#[derive(Drop)]
pub struct Ended {
    pub asked: Asked,
    pub entries: Vec<Shown>,
    pub code: u32,
    pub matched: Vec<u8>,
    /// The number that the response has, if any.
    pub number: Option<u64>,
}

/// What the next octets of a client are.
pub enum Heard {
    /// No whole message is there.
    Nothing,
    /// An entry of the search that waits first.
    Entry,
    Ended(Ended),
    /// They are no response to what waits first.
    Wrong,
}

/// The length of the message at the front of octets, if that much is there.
fn message_length(octets: &[u8]) -> Option<usize> {
    if octets.len() < 2 {
        return None;
    }
    let first = octets[1] as usize;
    if first < 128 {
        return Some(2 + first);
    }
    let more = first - 128;
    if octets.len() < 2 + more {
        return None;
    }
    let mut length = 0usize;
    for at in 0..more {
        length = length * 256 + octets[2 + at] as usize;
    }
    Some(2 + more + length)
}

/// A number in decimal digits.
fn number_of(digits: &[u8]) -> Option<u64> {
    let mut number = 0u64;
    for digit in digits {
        if !digit.is_ascii_digit() {
            return None;
        }
        number = number * 10 + (*digit - b'0') as u64;
    }
    Some(number)
}

/// The number control's value.
fn control_number(message: &Message) -> Option<u64> {
    for control in &message.controls {
        if control.control_type.as_str() == "2.25.20120101" {
            return match &control.value {
                Some(value) => number_of(value),
                None => None,
            };
        }
    }
    None
}

/// Whether the first octets come before the others.
fn is_before(one: &[u8], other: &[u8]) -> bool {
    let count = one.len().min(other.len());
    for at in 0..count {
        if one[at] != other[at] {
            return one[at] < other[at];
        }
    }
    one.len() < other.len()
}

/// Puts octets at their place among others in order.
pub fn put_in_order(values: &mut Vec<Vec<u8>>, value: Vec<u8>) -> Result<(), AllocError> {
    let mut at = values.len();
    while at > 0 && is_before(&value, &values[at - 1]) {
        at -= 1;
    }
    values.insert(at, value)?;
    Ok(())
}

fn shown(alloc: Global, name: &str, attributes: &[PartialAttribute]) -> Result<Shown, AllocError> {
    let mut values = Vec::new(alloc);
    for attribute in attributes {
        let kind = plain(alloc, attribute.description.as_bytes())?;
        for value in &attribute.values {
            let mut line = kind.to_vec(alloc)?;
            line.push(b':')?;
            let value = plain(alloc, value)?;
            line.extend_from_slice(&value)?;
            put_in_order(&mut values, line)?;
        }
    }
    Ok(Shown {
        name: plain(alloc, name.as_bytes())?,
        values,
    })
}

fn ended(
    alloc: Global,
    pending: Pending,
    came: &LdapResult,
    number: Option<u64>,
) -> Result<Heard, AllocError> {
    let Pending {
        id: _,
        asked,
        entries,
    } = pending;
    Ok(Heard::Ended(Ended {
        asked,
        entries,
        code: came.code.number(),
        matched: plain(alloc, came.matched_dn.as_bytes())?,
        number,
    }))
}

impl Caller {
    pub fn new(alloc: Global, name: Option<u64>) -> Caller {
        Caller {
            name,
            next_number: 1,
            session: None,
            next_id: 1,
            pending: Vec::new(alloc),
            order: Vec::new(alloc),
            outbox: Vec::new(alloc),
            sent: 0,
            inbox: Vec::new(alloc),
            seen: 0,
            again: None,
        }
    }

    /// Its connection is gone: what it had asked for is open.
    pub fn disconnect(&mut self, alloc: Global) {
        if self.name.is_some() {
            for pending in &self.pending {
                if let Asked::Update { ticket } = &pending.asked {
                    self.again = Some(*ticket);
                }
            }
        }
        self.session = None;
        self.pending = Vec::new(alloc);
        self.order = Vec::new(alloc);
        self.outbox = Vec::new(alloc);
        self.sent = 0;
        self.inbox = Vec::new(alloc);
        self.seen = 0;
        self.next_id = 1;
    }

    /// Whether it may ask for a further update.
    pub fn may_update(&self) -> bool {
        if self.name.is_none() {
            return true;
        }
        for pending in &self.pending {
            if let Asked::Update { ticket: _ } = &pending.asked {
                return false;
            }
        }
        true
    }

    /// Takes the next message off what has come.
    pub fn next(&mut self, alloc: Global) -> Result<Heard, AllocError> {
        let Some(length) = message_length(&self.inbox) else {
            return Ok(Heard::Nothing);
        };
        if self.inbox.len() < length {
            return Ok(Heard::Nothing);
        }
        let Ok(message) = decode(alloc, &self.inbox[..length]) else {
            return Ok(Heard::Wrong);
        };
        let rest = self.inbox[length..].to_vec(alloc)?;
        self.inbox = rest;
        let number = control_number(&message);
        if self.pending.is_empty() || self.pending[0].id != message.id {
            return Ok(Heard::Wrong);
        }
        match &message.op {
            ProtocolOp::Response(response) => self.take(alloc, response, number),
            ProtocolOp::Request(_) => Ok(Heard::Wrong),
        }
    }

    fn take(
        &mut self,
        alloc: Global,
        response: &Response,
        number: Option<u64>,
    ) -> Result<Heard, AllocError> {
        match response {
            Response::SearchEntry(entry) => {
                let shown = shown(alloc, entry.object_name.as_str(), &entry.attributes)?;
                self.pending[0].entries.push(shown)?;
                Ok(Heard::Entry)
            }
            Response::Bind(result)
            | Response::SearchDone(result)
            | Response::Modify(result)
            | Response::Add(result)
            | Response::Delete(result)
            | Response::ModifyDn(result)
            | Response::Compare(result) => ended(alloc, self.pending.remove(0), result, number),
            Response::Extended(extended) => {
                let number = match &extended.response_value {
                    Some(value) => number_of(value),
                    None => number,
                };
                ended(alloc, self.pending.remove(0), &extended.result, number)
            }
        }
    }
}
