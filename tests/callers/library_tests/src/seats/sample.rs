//! Nodes of a test: updates as records of a log, what is executed of it, and a publisher with seats. No expectation is here.
use dir_seats::{Client, Executed, Indexes, LogEntry, Name, Op, Publisher, Seat, Store, seats};
use ldap_op::{AddRequest, Change, ModifyOperation, ModifyRequest, PartialAttribute, Update};
use schema_reader::built_in_schema;
use std::alloc::{AllocError, Global};
use std::sync::{Arc, Wait};
use std::test::*;

/// The node of a test.
pub struct Node;

/// An entry to be added: its name, and its attributes with one value each.
#[derive(Drop)]
pub struct Given {
    pub name: &'static str,
    pub attributes: &'static [(&'static str, &'static str)],
}

/// The sample's first two entries, and items of it.
pub const SUFFIX: Given = Given {
    name: "dc=example,dc=com",
    attributes: &[("objectClass", "domain"), ("dc", "example")],
};

pub const ITEMS: Given = Given {
    name: "ou=Items,dc=example,dc=com",
    attributes: &[("objectClass", "organizationalUnit"), ("ou", "Items")],
};

pub const ANA: Given = Given {
    name: "cn=Ana,ou=Items,dc=example,dc=com",
    attributes: &[
        ("objectClass", "item"),
        ("cn", "Ana"),
        ("label", "abc"),
        ("rank", "9"),
    ],
};

pub const ANANA: Given = Given {
    name: "cn=Anana,ou=Items,dc=example,dc=com",
    attributes: &[
        ("objectClass", "item"),
        ("cn", "Anana"),
        ("ticket", "7"),
        ("rank", "-3"),
    ],
};

pub const Z: Given = Given {
    name: "cn=Z,ou=Items,dc=example,dc=com",
    attributes: &[("objectClass", "item"), ("cn", "Z")],
};

/// An attribute with one value.
fn attribute(
    alloc: Global,
    description: &str,
    value: &str,
) -> Result<PartialAttribute, AllocError> {
    let mut values = Vec::new(alloc);
    values.push(value.as_bytes().to_vec(alloc)?)?;
    let description = String::from_str(alloc, description)?;
    Ok(PartialAttribute {
        description,
        values,
    })
}

/// The record of an update, which is its client's request of this number.
fn record(alloc: Global, number: u64, update: Update) -> Result<LogEntry<Op>, AllocError> {
    let client = Client {
        home: 0,
        life: 0,
        number: 7,
    };
    Ok(LogEntry {
        client,
        request_number: number,
        payload: Op::new(alloc, update)?,
    })
}

/// The record of an add.
pub fn add(alloc: Global, number: u64, given: &Given) -> Result<LogEntry<Op>, AllocError> {
    let mut attributes = Vec::new(alloc);
    for (description, value) in given.attributes {
        attributes.push(attribute(alloc, description, value)?)?;
    }
    let entry = String::from_str(alloc, given.name)?;
    record(alloc, number, Update::Add(AddRequest { entry, attributes }))
}

/// The record of a modify that gives the entry of a name this rank.
pub fn rank(
    alloc: Global,
    number: u64,
    name: &str,
    value: &str,
) -> Result<LogEntry<Op>, AllocError> {
    let change = Change {
        operation: ModifyOperation::Replace,
        modification: attribute(alloc, "rank", value)?,
    };
    let mut changes = Vec::new(alloc);
    changes.push(change)?;
    let object = String::from_str(alloc, name)?;
    record(
        alloc,
        number,
        Update::Modify(ModifyRequest { object, changes }),
    )
}

/// A node of a test: its log, what is executed of it, and its publisher.
pub struct Played<'a, R: Wait> {
    log: Vec<LogEntry<Op>>,
    executed: Executed,
    pub publisher: Publisher<Node, &'a R>,
}

impl<'a, R: Wait> Drop for Played<'a, R> {
    fn drop(self) {
        let Played {
            log: _,
            executed: _,
            publisher: _,
        } = self;
    }
}

impl<'a, R: Wait> Played<'a, R> {
    /// Executes one more record, and appends what then is executed; whether that was done.
    pub fn append(&mut self, alloc: Global, record: LogEntry<Op>) -> Result<bool, AllocError> {
        self.log.push(record)?;
        let count = self.log.len() as u64;
        self.executed.advance(alloc, self.log.as_slice(), count)?;
        Ok(self.publisher.append(&self.executed).is_ok())
    }

    /// Appends one more record and publishes it; whether both were done.
    pub fn publish(&mut self, alloc: Global, record: LogEntry<Op>) -> Result<bool, AllocError> {
        Ok(self.append(alloc, record)? && self.publisher.publish().is_ok())
    }

    /// Appends the add of an entry and publishes it; whether both were done.
    pub fn add(&mut self, alloc: Global, number: u64, given: &Given) -> Result<bool, AllocError> {
        let record = add(alloc, number, given)?;
        self.publish(alloc, record)
    }
}

/// A node of a directory without entries, and so many seats.
pub fn node_with<R: Wait>(
    rt: &R,
    alloc: Global,
    count: usize,
) -> Result<(Played<'_, R>, Vec<Seat<Node>>), Fail> {
    let schema = Arc::new(alloc, built_in_schema(alloc)?)?;
    let suffix = Name::read(alloc, &schema, "dc=example,dc=com")?;
    let (publisher, all) = seats(rt, alloc, &schema, &Indexes::none(alloc), &suffix, count)?;
    let store = Store::new(alloc, schema, Indexes::none(alloc), suffix);
    let node = Played {
        log: Vec::new(alloc),
        executed: Executed::new(alloc, store),
        publisher,
    };
    Ok((node, all))
}
