//! A directory of the sample's entries under an index choice. The text of a choice flows in, a directory flows out. No expectation is here.
ghost use Rattle.std.specs.Prelude.{◌+◌, IfOk, OnOk};
ghost use Rattle.dir_search.specs.indexed_tree.Stored.{NumbersBelow};

use dir_search::{AddRequest, Indexes, Name, ResultCode};
use dir_store::{Op, Store, Update};
use directory_api::Attribute;
use schema_reader::built_in_schema;
use std::alloc::{AllocError, Global};
use std::process::Abort;
use std::sync::Arc;
use std::test::*;

/// An entry to be added: its name, and its attributes with one value each.
pub struct Given {
    pub name: &'static str,
    pub attributes: &'static [(&'static str, &'static str)],
}

/// The sample's six entries, operations 1 to 6.
pub const SAMPLE: &[Given] = &[
    Given {
        name: "dc=example,dc=com",
        attributes: &[("objectClass", "domain"), ("dc", "example")],
    },
    Given {
        name: "ou=Items,dc=example,dc=com",
        attributes: &[("objectClass", "organizationalUnit"), ("ou", "Items")],
    },
    Given {
        name: "cn=Ana,ou=Items,dc=example,dc=com",
        attributes: &[
            ("objectClass", "item"),
            ("cn", "Ana"),
            ("description", "first"),
            ("label", "abc"),
            ("rank", "9"),
        ],
    },
    Given {
        name: "cn=Anna,ou=Items,dc=example,dc=com",
        attributes: &[
            ("objectClass", "item"),
            ("cn", "Anna"),
            ("label", "xyz"),
            ("rank", "10"),
        ],
    },
    Given {
        name: "cn=Anana,ou=Items,dc=example,dc=com",
        attributes: &[
            ("objectClass", "item"),
            ("cn", "Anana"),
            ("ticket", "7"),
            ("rank", "-3"),
        ],
    },
    Given {
        name: "cn=An Na,ou=Items,dc=example,dc=com",
        attributes: &[
            ("objectClass", "item"),
            ("cn", "An Na"),
            ("rank", "1234567890123456789012345678901234567890"),
        ],
    },
];

/// An item with a label and with a ticket, which is a label too: operation 7.
pub const TWO: Given = Given {
    name: "cn=Two,ou=Items,dc=example,dc=com",
    attributes: &[("objectClass", "item"), ("label", "xyz"), ("ticket", "7")],
};

/// An attribute with one value.
fn attribute(alloc: Global, description: &str, value: &str) -> Result<Attribute, AllocError> {
    let mut values = Vec::new(alloc);
    values.push(value.as_bytes().to_vec(alloc)?)?;
    let description = String::from_str(alloc, description)?;
    Ok(Attribute {
        description,
        values,
    })
}

/// The add of an entry.
fn request(alloc: Global, given: &Given) -> Result<AddRequest, AllocError> {
    let mut attributes = Vec::new(alloc);
    for (description, value) in given.attributes {
        attributes.push(attribute(alloc, description, value)?)?;
    }
    Ok(AddRequest {
        entry: String::from_str(alloc, given.name)?,
        attributes,
    })
}

/// Adds an entry under a number above all, which is to be accepted.
pub fn add(
    rt: &impl Abort,
    alloc: Global,
    store: &mut Store,
    number: u64,
    given: &Given,
) -> Result<(), Fail>
    requires { NumbersBelow number store.old.directory.entries }
    ensures { OnOk result (NumbersBelow (number + 1) store.new.directory.entries) }
{
    let add = Update::Add(request(alloc, given)?);
    let op = Op::new(alloc, add)?;
    let reply = store.apply(alloc, number, &op)?;
    assert_eq!(rt; reply.code, ResultCode::SUCCESS);
    Ok(())
}

/// A directory of the sample under an index choice.
pub fn sampled(rt: &impl Abort, alloc: Global, indexes: &str) -> Result<Store, Fail>
    ensures { IfOk result (λ store. NumbersBelow 7 store.directory.entries) }
{
    let schema = built_in_schema(alloc)?;
    let suffix = Name::read(alloc, &schema, "dc=example,dc=com")?;
    let indexes = Indexes::read(alloc, &schema, indexes)?;
    let schema = Arc::new(alloc, schema)?;
    let mut store = Store::new(alloc, schema, indexes, suffix);
    add(rt, alloc, &mut store, 1, &SAMPLE[0])?;
    add(rt, alloc, &mut store, 2, &SAMPLE[1])?;
    add(rt, alloc, &mut store, 3, &SAMPLE[2])?;
    add(rt, alloc, &mut store, 4, &SAMPLE[3])?;
    add(rt, alloc, &mut store, 5, &SAMPLE[4])?;
    add(rt, alloc, &mut store, 6, &SAMPLE[5])?;
    Ok(store)
}
