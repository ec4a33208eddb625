//! A directory of items that are made up. Their number flows in, a directory flows out. Searches are not here.
ghost use Rattle.std.specs.Prelude.{◌+◌, ◌<◌, ◌^◌, IfOk, OnOk};
ghost use Rattle.dir_search.specs.indexed_tree.Stored.{NumbersBelow};

use crate::fault::Fault;
use dir_search::{AddRequest, Indexes, Name, ResultCode, Schema};
use dir_store::{Op, Store, Update};
use directory_api::Attribute;
use schema_reader::built_in_schema;
use std::alloc::{AllocError, Global};
use std::sync::Arc;

/// What is indexed. A label may be a ticket, too.
const INDEXES: &str = "label: pres eq\nticket: pres eq\nrank: eq ord\ncn: sub\n";

/// An attribute with one value.
fn attribute(alloc: Global, description: &str, value: String) -> Result<Attribute, AllocError> {
    let mut values = Vec::new(alloc);
    values.push(value.into_bytes())?;
    let description = String::from_str(alloc, description)?;
    Ok(Attribute {
        description,
        values,
    })
}

/// Adds an attribute with one value.
fn push(
    alloc: Global,
    attributes: &mut Vec<Attribute>,
    description: &str,
    value: String,
) -> Result<(), AllocError> {
    let attribute = attribute(alloc, description, value)?;
    attributes.push(attribute)?;
    Ok(())
}

/// Adds the class of an entry.
fn push_class(
    alloc: Global,
    attributes: &mut Vec<Attribute>,
    class: &str,
) -> Result<(), AllocError> {
    push(
        alloc,
        attributes,
        "objectClass",
        String::from_str(alloc, class)?,
    )
}

/// Adds a letter and a number as a value.
fn push_numbered(
    alloc: Global,
    attributes: &mut Vec<Attribute>,
    description: &str,
    letter: &str,
    number: u64,
) -> Result<(), AllocError> {
    let value = format!(in alloc; "{letter}{number}")?;
    push(alloc, attributes, description, value)
}

/// Adds what an item has: one of a hundred labels, one of seven descriptions, its place as its rank, and a name with its place.
fn push_item(alloc: Global, attributes: &mut Vec<Attribute>, place: u64) -> Result<(), AllocError> {
    push_class(alloc, attributes, "item")?;
    push_numbered(alloc, attributes, "label", "l", place % 100)?;
    push_numbered(alloc, attributes, "description", "d", place % 7)?;
    push_numbered(alloc, attributes, "rank", "", place)?;
    push_numbered(alloc, attributes, "cn", "item", place)
}

/// The add of an entry above the items.
fn upper(alloc: Global, name: &str, class: &str) -> Result<AddRequest, AllocError> {
    let mut attributes = Vec::new(alloc);
    push_class(alloc, &mut attributes, class)?;
    let entry = String::from_str(alloc, name)?;
    Ok(AddRequest { entry, attributes })
}

/// The add of the item at a place; the first is at 0.
fn item(alloc: Global, place: u64) -> Result<AddRequest, AllocError> {
    let mut attributes = Vec::new(alloc);
    push_item(alloc, &mut attributes, place)?;
    let entry = format!(in alloc; "cn=item{place},ou=Items,dc=example,dc=com")?;
    Ok(AddRequest { entry, attributes })
}

/// Adds an entry under a number above all, which is to be accepted.
fn add(alloc: Global, store: &mut Store, number: u64, request: AddRequest) -> Result<(), Fault>
    requires { NumbersBelow number store.old.directory.entries }
    ensures { OnOk result (NumbersBelow (number + 1) store.new.directory.entries) }
{
    let op = Op::new(alloc, Update::Add(request))?;
    let reply = store.apply(alloc, number, &op)?;
    if reply.code != ResultCode::SUCCESS {
        return Err(Fault::AddRefused { number });
    }
    Ok(())
}

/// The name of the root.
fn suffix(alloc: Global, schema: &Schema) -> Result<Name, Fault> {
    let suffix = Name::read(alloc, schema, "dc=example,dc=com")?;
    Ok(suffix)
}

/// The index choice.
fn indexes(alloc: Global, schema: &Schema) -> Result<Indexes, Fault> {
    let indexes = Indexes::read(alloc, schema, INDEXES)?;
    Ok(indexes)
}

/// A directory without entries.
fn empty(alloc: Global) -> Result<Store, Fault>
    ensures { IfOk result (λ store. NumbersBelow 1 store.directory.entries) }
{
    let schema = built_in_schema(alloc)?;
    let suffix = suffix(alloc, &schema)?;
    let indexes = indexes(alloc, &schema)?;
    let schema = Arc::new(alloc, schema)?;
    Ok(Store::new(alloc, schema, indexes, suffix))
}

/// A directory without items, of two entries.
fn begun(alloc: Global) -> Result<Store, Fault>
    ensures { IfOk result (λ store. NumbersBelow 3 store.directory.entries) }
{
    let mut store = empty(alloc)?;
    add(
        alloc,
        &mut store,
        1,
        upper(alloc, "dc=example,dc=com", "domain")?,
    )?;
    let items = upper(alloc, "ou=Items,dc=example,dc=com", "organizationalUnit")?;
    add(alloc, &mut store, 2, items)?;
    Ok(store)
}

/// Adds the item at a place; the first has the number 3.
fn add_item(alloc: Global, store: &mut Store, place: u64) -> Result<(), Fault>
    requires below { NumbersBelow (place + 3) store.old.directory.entries }
    requires few { place < 2 ^ 32 }
    ensures { OnOk result (NumbersBelow (place + 1 + 3) store.new.directory.entries) }
{
    let request = item(alloc, place)?;
    add(alloc, store, place + 3, request)
}

/// A directory of so many items.
pub fn filled(alloc: Global, count: u32) -> Result<Store, Fault>
    ensures { IfOk result (λ store. NumbersBelow (count + 3) store.directory.entries) }
{
    let mut store = begun(alloc)?;
    for place in 0..count as u64 {
        add_item(alloc, &mut store, place)?;
    }
    Ok(store)
}
