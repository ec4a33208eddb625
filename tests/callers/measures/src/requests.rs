//! How long a request takes in a session, from the octets of its message to the octets of its responses, at a directory of items in this process. The number of
//! items flows in; times flow out, and how many octets were answered. Sockets, and what is answered, are not here.
ghost use Rattle.std.specs.Prelude.{◌+◌, ◌<◌, ◌^◌};
ghost use Rattle.dir_search.specs.indexed_tree.Stored.{NumbersBelow};

use crate::fault::Fault;
use crate::printing::{print_answered, print_request};
use dir_search::{CompareRequest, DerefAliases, Name, Scope, SearchRequest};
use dir_store::Store;
use directory_api::AttributeValueAssertion;
use filter_text::read_text;
use ldap_msg::{Message, ProtocolOp, Request, encode};
use ldap_session::{Config, Conversation};
use local_directory::LocalDirectory;
use schema_reader::built_in_schema;
use std::alloc::Global;
use std::io::{Eprint, Print};
use std::time::{Clock, Instant};

/// How many messages of a kind are timed together, where each is about few items.
const MESSAGES: u32 = 1000;

/// How many, where each is about all items.
const WIDE_MESSAGES: u32 = 5;

/// From one message to the next the item is another one, so many places on: a prime number, so that all come round.
const STRIDE: u32 = 7919;

/// What is asked of an item.
#[derive(Clone, Copy)]
pub enum Ask {
    /// An equality of an indexed type, which one item has.
    Equal,
    /// An `or` of ten of them.
    TenEqual,
    /// The item itself.
    Base,
    /// A compare of one of its values.
    Compare,
    /// Six octets of its name, by an index of substrings.
    Substring,
    /// A value that no item has, of a type without an index: each item is tried.
    Tried,
    /// All items.
    All,
}

/// Each with the name that it is printed under.
pub const ASKS: &[(Ask, &str)] = &[
    (Ask::Equal, "equal"),
    (Ask::TenEqual, "or of ten equal"),
    (Ask::Base, "base"),
    (Ask::Compare, "compare"),
    (Ask::Substring, "substring"),
    (Ask::Tried, "each item tried"),
    (Ask::All, "all items"),
];

/// How many messages of a kind are timed together.
fn message_count(ask: Ask) -> u32
    ensures { 0 < result }
{
    match ask {
        Ask::Equal | Ask::TenEqual | Ask::Base | Ask::Compare | Ask::Substring => MESSAGES,
        Ask::Tried | Ask::All => WIDE_MESSAGES,
    }
}

/// The name of the item at a place.
fn name(alloc: Global, place: u32) -> Result<String, Fault> {
    Ok(format!(in alloc; "cn=item{place},ou=Items,dc=example,dc=com")?)
}

/// A search for all attributes.
fn search(alloc: Global, base: String, scope: Scope, filter: &str) -> Result<Request, Fault> {
    let filter = read_text(alloc, filter)?;
    Ok(Request::Search(SearchRequest {
        base,
        scope,
        deref_aliases: DerefAliases::NeverDerefAliases,
        size_limit: 0,
        time_limit: 0,
        types_only: false,
        filter,
        attributes: Vec::new(alloc),
    }))
}

/// The filter for the item at a place, or for ten from there on.
fn filter(alloc: Global, place: u32, is_of_ten: bool) -> Result<String, Fault> {
    if !is_of_ten {
        return Ok(format!(in alloc; "(rank={place})")?);
    }
    let mut text = String::from_str(alloc, "(|")?;
    for more in 0..10u32 {
        let rank = place.saturating_add(more);
        let item = format!(in alloc; "(rank={rank})")?;
        text.push_str(item.as_str())?;
    }
    text.push_str(")")?;
    Ok(text)
}

/// A search below all items.
fn search_items(alloc: Global, filter: &str) -> Result<Request, Fault> {
    let base = String::from_str(alloc, "dc=example,dc=com")?;
    search(alloc, base, Scope::WholeSubtree, filter)
}

/// A compare of the rank of the item at a place.
fn compare(alloc: Global, place: u32) -> Result<Request, Fault> {
    let value = format!(in alloc; "{place}")?;
    Ok(Request::Compare(CompareRequest {
        entry: name(alloc, place)?,
        ava: AttributeValueAssertion {
            attribute_desc: String::from_str(alloc, "rank")?,
            assertion_value: value.into_bytes(),
        },
    }))
}

/// What is asked of the item at a place.
fn request(alloc: Global, ask: Ask, place: u32) -> Result<Request, Fault> {
    match ask {
        Ask::Equal => search_items(alloc, filter(alloc, place, false)?.as_str()),
        Ask::TenEqual => search_items(alloc, filter(alloc, place, true)?.as_str()),
        Ask::Base => search(
            alloc,
            name(alloc, place)?,
            Scope::BaseObject,
            "(objectClass=*)",
        ),
        Ask::Compare => compare(alloc, place),
        Ask::Substring => {
            let filter = format!(in alloc; "(cn=*em{place})")?;
            search_items(alloc, filter.as_str())
        }
        Ask::Tried => search_items(alloc, "(description=d8)"),
        Ask::All => search_items(alloc, "(label=*)"),
    }
}

/// The octets of a message.
fn octets(alloc: Global, request: Request) -> Result<Vec<u8>, Fault> {
    let message = Message {
        id: 1,
        op: ProtocolOp::Request(request),
        controls: Vec::new(alloc),
    };
    match encode(alloc, &message) {
        Ok(octets) => Ok(octets),
        Err(_) => Err(Fault::NoMemory),
    }
}

/// The messages of a kind, each about another item.
pub fn messages(alloc: Global, ask: Ask, count: u32) -> Result<Vec<Vec<u8>>, Fault> {
    let mut messages = Vec::new(alloc);
    let mut place = 0u32;
    for _message in 0..message_count(ask) {
        messages.push(octets(alloc, request(alloc, ask, place)?)?)?;
        place = place.saturating_add(STRIDE) % count.max(1);
    }
    Ok(messages)
}

/// Answers a message; how many octets its responses have.
fn answer(
    alloc: Global,
    config: &Config,
    directory: &mut LocalDirectory,
    conversation: &mut Conversation,
    message: &[u8],
) -> Result<usize, Fault> {
    conversation.hear(message)?;
    conversation.answer(alloc, config, directory);
    let count = conversation.unsent().len();
    conversation.sent(count);
    Ok(count)
}

/// Answers messages one after the other; how many octets their responses have in all.
fn answer_all(
    alloc: Global,
    config: &Config,
    directory: &mut LocalDirectory,
    messages: &[Vec<u8>],
) -> Result<usize, Fault> {
    let mut conversation = Conversation::new(alloc);
    let mut count = 0usize;
    for message in messages {
        let more = answer(
            alloc,
            config,
            directory,
            &mut conversation,
            message.as_slice(),
        )?;
        count = count.saturating_add(more);
    }
    Ok(count)
}

/// Times the messages of a kind, twice: the second time what they need is at hand.
fn show(
    rt: &(impl Clock + Print + Eprint),
    alloc: Global,
    config: &Config,
    directory: &mut LocalDirectory,
    ask: (Ask, &str),
    count: u32,
) -> Result<(), Fault> {
    let messages = messages(alloc, ask.0, count)?;
    for _round in 0..2u32 {
        let began = Instant::now(rt)?;
        let octets = answer_all(alloc, config, directory, &messages)?;
        let took = began.elapsed(rt)?.as_nanos();
        print_answered(rt, ask.1, octets)?;
        print_request(rt, took / message_count(ask.0) as u128)?;
    }
    Ok(())
}

/// Times each kind of request at a directory of so many items.
pub fn measure_requests(
    rt: &(impl Clock + Print + Eprint),
    alloc: Global,
    store: Store,
    count: u32,
) -> Result<(), Fault>
    requires { NumbersBelow (count + 3) store.directory.entries }
{
    let schema = built_in_schema(alloc)?;
    let manager = Name::read(alloc, &schema, "cn=admin,dc=example,dc=com")?;
    let config = Config {
        schema: &schema,
        manager: &manager,
        password: b"secret",
        replica: 0,
        restarts: 1,
        session: 1,
    };
    let mut directory = LocalDirectory::new(alloc, store, count as u64 + 2);
    for ask in ASKS {
        show(rt, alloc, &config, &mut directory, *ask, count)?;
    }
    Ok(())
}
