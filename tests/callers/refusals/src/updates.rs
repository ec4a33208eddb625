//! Updates of each kind and searches, one after the other, at a directory with indexes. Messages flow in; replies and what is found are printed.
ghost use Rattle.std.specs.Prelude.{◌+◌, IfOk, OnOk};
ghost use Rattle.dir_search.specs.indexed_tree.Stored.{NumbersBelow};

use crate::again::again;
use crate::messages::{MESSAGES, octets};
use crate::stop::Stop;
use dir_search::search;
use dir_store::{Indexes, Name, Op, Store, Update};
use ldap_msg::{Message, ProtocolOp, Request, SearchRequest, decode};
use schema_reader::built_in_schema;
use std::alloc::Global;
use std::io::Print;
use std::sync::Arc;

/// An index of each kind.
const INDEXES: &str = "label: pres eq sub\ncn: eq\n";

/// A directory without entries.
fn empty(alloc: Global) -> Result<Store, Stop>
    ensures { IfOk result (λ store. NumbersBelow 1 store.directory.entries) }
{
    let schema = again!(built_in_schema(alloc));
    let suffix = again!(Name::read(alloc, &schema, "dc=example,dc=com"));
    let indexes = again!(Indexes::read(alloc, &schema, INDEXES));
    let schema = Arc::new(alloc, schema)?;
    Ok(Store::new(alloc, schema, indexes, suffix))
}

/// Makes an update, and prints its reply.
fn apply(
    rt: &impl Print,
    alloc: Global,
    store: &mut Store,
    number: u64,
    update: Update,
) -> Result<(), Stop>
    requires { NumbersBelow number store.old.directory.entries }
    ensures { OnOk result (NumbersBelow (number + 1) store.new.directory.entries) }
{
    let op = Op::new(alloc, update)?;
    let reply = again!(store.apply(alloc, number, &op));
    let shown = format_args!("update {number}: {}\n", reply.code.number());
    rt.print(shown)?;
    Ok(())
}

/// Searches, and prints the code and each name that is found.
fn find(
    rt: &impl Print,
    alloc: Global,
    store: &Store,
    request: &SearchRequest,
) -> Result<(), Stop> {
    let answer = again!(search(alloc, &store.reading(), request));
    let shown = format_args!(
        "search: {}, {} evaluated\n",
        answer.code.number(),
        answer.tests
    );
    rt.print(shown)?;
    for found in &answer.entries {
        let entry = again!(found.copied(alloc));
        let shown = format_args!("{} has {}\n", entry.object_name, entry.attributes.len());
        rt.print(shown)?;
    }
    Ok(())
}

/// What a request asks for; behind a search a no-op, so that each takes a number.
fn perform(
    rt: &impl Print,
    alloc: Global,
    store: &mut Store,
    number: u64,
    request: Request,
) -> Result<(), Stop>
    requires { NumbersBelow number store.old.directory.entries }
    ensures { OnOk result (NumbersBelow (number + 1) store.new.directory.entries) }
{
    match request {
        Request::Add(add) => apply(rt, alloc, store, number, Update::Add(add)),
        Request::Delete(name) => apply(rt, alloc, store, number, Update::Delete(name)),
        Request::Modify(modify) => apply(rt, alloc, store, number, Update::Modify(modify)),
        Request::ModifyDn(rename) => apply(rt, alloc, store, number, Update::ModifyDn(rename)),
        Request::Search(asked) => {
            find(rt, alloc, store, &asked)?;
            apply(rt, alloc, store, number, Update::Noop)
        }
        _ => Err(Stop::Other),
    }
}

/// Makes them all in their order, a no-op behind the search, and one at last.
pub fn play(rt: &impl Print, alloc: Global) -> Result<(), Stop> {
    let mut store = empty(alloc)?;
    for (index, text) in MESSAGES.iter().enumerate() {
        let number = index as u64 + 1;
        let given = octets(alloc, text)?;
        let message = again!(decode(alloc, &given));
        let Message {
            id: _,
            op,
            controls: _,
        } = message;
        match op {
            ProtocolOp::Request(request) => perform(rt, alloc, &mut store, number, request)?,
            ProtocolOp::Response(_) => return Err(Stop::Other),
        }
    }
    apply(rt, alloc, &mut store, 8, Update::Noop)
}
