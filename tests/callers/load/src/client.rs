//! One client: a connection with requests under way. Messages flow in, each sent when an answer has come; what came back flows out. What is asked is not here.
use crate::counts::Counts;
use crate::fault::Fault;
use ldap_framer::Framer;
use ldap_msg::{LdapResult, Message, ProtocolOp, Response};
use std::alloc::Global;
use std::collections::VecDeque;
use std::io::{Read, Write};
use std::net::{Net, SocketAddr, TcpStream};
use std::time::{Clock, Duration, Instant};

/// How many octets are read at once, at most.
const PIECE: usize = 65_536;

/// How long a connection and an answer are waited for.
const PATIENCE: u64 = 20;

/// A connection, and what is under way on it.
#[derive(Drop)]
struct Client<'m> {
    stream: TcpStream,
    framer: Framer,
    messages: &'m [Vec<u8>],
    next: usize,
    /// What is to be sent next.
    unsent: Vec<u8>,
    /// When each request was sent that isn't answered.
    sent: VecDeque<Instant>,
    counts: Counts,
}

/// The result of a response that ends an answer; none of an entry.
fn result_of(message: &Message) -> Option<&LdapResult> {
    match &message.op {
        ProtocolOp::Response(response) => match response {
            Response::SearchDone(result) => Some(result),
            Response::Compare(result) => Some(result),
            _ => None,
        },
        ProtocolOp::Request(_) => None,
    }
}

impl<'m> Client<'m> {
    /// A client that is connected.
    fn connected<R: Net<Stream = TcpStream>>(
        rt: &R,
        alloc: Global,
        address: &SocketAddr,
        messages: &'m [Vec<u8>],
    ) -> Result<Client<'m>, Fault> {
        let limit = Duration::from_secs(PATIENCE);
        let stream = TcpStream::connect_timeout(rt, address, limit)?;
        stream.set_nodelay(true)?;
        stream.set_read_timeout(Some(limit))?;
        Ok(Client {
            stream,
            framer: Framer::new(alloc),
            messages,
            next: 0,
            unsent: Vec::new(alloc),
            sent: VecDeque::new(alloc),
            counts: Counts::new(alloc),
        })
    }

    /// The next request goes out with those that wait.
    fn ask(&mut self, rt: &impl Clock) -> Result<(), Fault> {
        let Some(message) = self.messages.get(self.next) else {
            return Ok(());
        };
        self.unsent.extend_from_slice(message.as_slice())?;
        self.sent.push_back(Instant::now(rt)?)?;
        self.next = if self.next.saturating_add(1) < self.messages.len() {
            self.next.saturating_add(1)
        } else {
            0
        };
        Ok(())
    }

    /// Sends what waits.
    fn send(&mut self) -> Result<(), Fault> {
        self.stream.write_all(self.unsent.as_slice())?;
        self.unsent.clear();
        Ok(())
    }

    /// Takes a message; whether it ends an answer.
    fn take(&mut self, rt: &impl Clock, message: &Message) -> Result<bool, Fault> {
        let Some(result) = result_of(message) else {
            self.counts.entries = self.counts.entries.saturating_add(1);
            return Ok(false);
        };
        let number = result.code.number();
        if number != 0 && number != 6 {
            self.counts.refused = self.counts.refused.saturating_add(1);
        }
        self.counts.answered = self.counts.answered.saturating_add(1);
        if let Some(sent) = self.sent.pop_front() {
            let took = sent.elapsed(rt)?.as_nanos();
            self.counts
                .times
                .push(u64::try_from(took).unwrap_or(u64::MAX))?;
        }
        Ok(true)
    }

    /// Reads once, and asks again for each answer that has come, until the moment.
    fn hear(&mut self, rt: &impl Clock, buffer: &mut [u8], until: Instant) -> Result<(), Fault> {
        let count = self.stream.read(buffer)?;
        let Some(piece) = buffer.get(..count) else {
            return Err(Fault::NoConnection);
        };
        if piece.is_empty() {
            return Err(Fault::NoConnection);
        }
        if self.framer.feed(piece).is_err() {
            return Err(Fault::NoMessage);
        }
        for _message in 0..u64::MAX {
            let Some(message) = self.framer.next() else {
                break;
            };
            if self.take(rt, &message)? && Instant::now(rt)? < until {
                self.ask(rt)?;
            }
        }
        self.send()
    }
}

/// Asks until the moment; what came back.
pub fn ask_until<R: Net<Stream = TcpStream> + Clock>(
    rt: &R,
    alloc: Global,
    address: &SocketAddr,
    messages: &[Vec<u8>],
    outstanding: usize,
    until: Instant,
) -> Result<Counts, Fault> {
    let mut client = Client::connected(rt, alloc, address, messages)?;
    let mut buffer = [0u8; PIECE];
    for _ in 0..outstanding {
        client.ask(rt)?;
    }
    client.send()?;
    for _ in 0..u64::MAX {
        if client.sent.is_empty() {
            break;
        }
        client.hear(rt, &mut buffer, until)?;
    }
    let Client { counts, .. } = client;
    Ok(counts)
}
