//! What clients ask for, as messages of the protocol.

use crate::asking::{Change, Over, Question, Shows, Test, Update};
use crate::names::{Path, SUFFIX, is_item, rdn_text};
use filter_text::read_text;
use ldap_msg::{
    AddRequest, AttributeValueAssertion, AuthenticationChoice, BindRequest, Change as Modification,
    CompareRequest, Control, DerefAliases, ExtendedRequest, Message, ModifyDnRequest,
    ModifyOperation, ModifyRequest, PartialAttribute, ProtocolOp, Request, Scope, SearchRequest,
    encode,
};
use std::alloc::{AllocError, Global};

/// The manager's name and password.
pub const MANAGER: &str = "cn=admin,dc=example,dc=com";

pub const PASSWORD: &[u8] = b"secret";

fn text(alloc: Global, text: &str) -> Result<String, AllocError> {
    String::from_str(alloc, text)
}

fn attribute(alloc: Global, kind: &str) -> Result<PartialAttribute, AllocError> {
    Ok(PartialAttribute {
        description: text(alloc, kind)?,
        values: Vec::new(alloc),
    })
}

fn with_value(alloc: Global, kind: &str, value: &str) -> Result<PartialAttribute, AllocError> {
    let mut made = attribute(alloc, kind)?;
    made.values.push(text(alloc, value)?.into_bytes())?;
    Ok(made)
}

/// The text of a description.
fn description(alloc: Global, value: u8) -> Result<String, AllocError> {
    format!(in alloc; "Some v{value}")
}

fn descriptions(alloc: Global, values: &[u8]) -> Result<PartialAttribute, AllocError> {
    let mut made = attribute(alloc, "description")?;
    for value in values {
        made.values.push(description(alloc, *value)?.into_bytes())?;
    }
    Ok(made)
}

fn ranks(alloc: Global, rank: Option<u8>) -> Result<PartialAttribute, AllocError> {
    let mut made = attribute(alloc, "rank")?;
    if let Some(rank) = rank {
        made.values.push(format!(in alloc; "{rank}")?.into_bytes())?;
    }
    Ok(made)
}

fn classed(alloc: Global, path: &Path) -> Result<Vec<PartialAttribute>, AllocError> {
    let mut attributes = Vec::new(alloc);
    if path.depth == 0 {
        attributes.push(with_value(alloc, "objectClass", "domain")?)?;
        attributes.push(with_value(alloc, "dc", "example")?)?;
        return Ok(attributes);
    }
    let (class, kind) = if is_item(path.last()) {
        ("item", "cn")
    } else {
        ("organizationalUnit", "ou")
    };
    attributes.push(with_value(alloc, "objectClass", class)?)?;
    let value = format!(in alloc; "c{}", path.last())?;
    attributes.push(with_value(alloc, kind, value.as_str())?)?;
    Ok(attributes)
}

fn add(
    alloc: Global,
    path: &Path,
    values: &[u8],
    rank: Option<u8>,
    is_loud: bool,
) -> Result<Request, AllocError> {
    let mut attributes = classed(alloc, path)?;
    if !values.is_empty() {
        attributes.push(descriptions(alloc, values)?)?;
    }
    if rank.is_some() {
        attributes.push(ranks(alloc, rank)?)?;
    }
    Ok(Request::Add(AddRequest {
        entry: path.text(alloc, is_loud)?,
        attributes,
    }))
}

fn modification(alloc: Global, change: &Change) -> Result<Modification, AllocError> {
    let (operation, modification) = match change {
        Change::Add(values) => (ModifyOperation::Add, descriptions(alloc, values)?),
        Change::Delete(values) => (ModifyOperation::Delete, descriptions(alloc, values)?),
        Change::Replace(values) => (ModifyOperation::Replace, descriptions(alloc, values)?),
        Change::Rank(rank) => (ModifyOperation::Replace, ranks(alloc, *rank)?),
    };
    Ok(Modification {
        operation,
        modification,
    })
}

/// The request of an update.
pub fn update_request(alloc: Global, update: &Update, is_loud: bool) -> Result<Request, AllocError> {
    Ok(match update {
        Update::Noop => Request::Extended(ExtendedRequest {
            request_name: text(alloc, "2.25.20120103")?,
            request_value: None,
        }),
        Update::Add {
            path,
            descriptions,
            rank,
        } => add(alloc, path, descriptions, *rank, is_loud)?,
        Update::Delete(path) => Request::Delete(path.text(alloc, is_loud)?),
        Update::Modify { path, changes } => {
            let mut made = Vec::new(alloc);
            for change in changes {
                made.push(modification(alloc, change)?)?;
            }
            Request::Modify(ModifyRequest {
                object: path.text(alloc, is_loud)?,
                changes: made,
            })
        }
        Update::Rename {
            path,
            part,
            deletes_old,
            above,
        } => Request::ModifyDn(ModifyDnRequest {
            entry: path.text(alloc, is_loud)?,
            newrdn: rdn_text(alloc, *part, is_loud)?,
            deleteoldrdn: *deletes_old,
            new_superior: match above {
                Some(above) => Some(above.text(alloc, is_loud)?),
                None => None,
            },
        }),
    })
}

fn item(alloc: Global, test: Test, is_loud: bool) -> Result<String, AllocError> {
    match test {
        Test::IsThere => format!(in alloc; "(objectClass=*)"),
        Test::IsItem => format!(in alloc; "(objectClass=item)"),
        Test::Described => format!(in alloc; "(description=*)"),
        Test::DescribedAs(value) => {
            if is_loud {
                format!(in alloc; "(DESCRIPTION=SOME  V{value})")
            } else {
                format!(in alloc; "(description=some v{value})")
            }
        }
        Test::HasDigit(value) => format!(in alloc; "(description=*me*{value})"),
        Test::Called(part) => format!(in alloc; "(name=c{part})"),
        Test::UnitCalled(part) => format!(in alloc; "(ou=C{part})"),
        Test::Ranks(value) => format!(in alloc; "(rank={value})"),
        Test::RanksAtLeast(value) => format!(in alloc; "(rank>={value})"),
        Test::RanksAtMost(value) => format!(in alloc; "(rank<={value})"),
        Test::Unknown | Test::Not | Test::And(_) | Test::Or(_) => format!(in alloc; "(foo=1)"),
    }
}

/// The text of a filter.
fn filter(alloc: Global, tests: &[Test], is_loud: bool) -> Result<String, AllocError> {
    let mut texts: Vec<String> = Vec::new(alloc);
    for test in tests {
        let (count, sign) = match test {
            Test::Not => (1, "!"),
            Test::And(count) => (*count, "&"),
            Test::Or(count) => (*count, "|"),
            other => {
                texts.push(item(alloc, *other, is_loud)?)?;
                continue;
            }
        };
        let mut joined = format!(in alloc; "({sign}")?;
        for _ in 0..count {
            if let Some(part) = texts.pop() {
                joined.push_str(part.as_str())?;
            }
        }
        joined.push_str(")")?;
        texts.push(joined)?;
    }
    match texts.pop() {
        Some(text) => Ok(text),
        None => Err(AllocError),
    }
}

/// The request of a question.
pub fn question_request(alloc: Global, question: &Question, is_loud: bool) -> Result<Request, AllocError> {
    match question {
        Question::Compare { path, value } => Ok(Request::Compare(CompareRequest {
            entry: path.text(alloc, is_loud)?,
            ava: AttributeValueAssertion {
                attribute_desc: text(alloc, "description")?,
                assertion_value: description(alloc, *value)?.into_bytes(),
            },
        })),
        Question::Search {
            base,
            over,
            tests,
            shows,
        } => {
            let written = filter(alloc, tests, is_loud)?;
            let Ok(filter) = read_text(alloc, written.as_str()) else {
                return Err(AllocError);
            };
            let mut attributes = Vec::new(alloc);
            let wanted: &[&str] = match shows {
                Shows::Nothing => &["1.1"],
                Shows::Descriptions => &["description"],
                Shows::All => &["description", "cn", "OU", "rank"],
            };
            for kind in wanted {
                attributes.push(text(alloc, kind)?)?;
            }
            Ok(Request::Search(SearchRequest {
                base: base.text(alloc, is_loud)?,
                scope: match over {
                    Over::Base => Scope::BaseObject,
                    Over::One => Scope::SingleLevel,
                    Over::Subtree => Scope::WholeSubtree,
                },
                deref_aliases: DerefAliases::NeverDerefAliases,
                size_limit: 0,
                time_limit: 0,
                types_only: false,
                filter,
                attributes,
            }))
        }
    }
}

/// The bind of the manager.
pub fn bind_request(alloc: Global) -> Result<Request, AllocError> {
    Ok(Request::Bind(BindRequest {
        version: 3,
        name: text(alloc, MANAGER)?,
        authentication: AuthenticationChoice::Simple(PASSWORD.to_vec(alloc)?),
    }))
}

/// The octets of a message with the number control, and, where a client names itself, the request control.
pub fn octets(
    alloc: Global,
    id: u32,
    request: Request,
    named: Option<u64>,
    request_of: Option<(u64, u64)>,
) -> Result<Vec<u8>, AllocError> {
    let mut controls = Vec::new(alloc);
    if let Some(number) = named {
        controls.push(Control {
            control_type: text(alloc, "2.25.20120101")?,
            criticality: true,
            value: Some(format!(in alloc; "{number}")?.into_bytes()),
        })?;
    }
    if let Some((client, number)) = request_of {
        controls.push(Control {
            control_type: text(alloc, "2.25.20120102")?,
            criticality: true,
            value: Some(format!(in alloc; "{client}:{number}")?.into_bytes()),
        })?;
    }
    let message = Message {
        id,
        op: ProtocolOp::Request(request),
        controls,
    };
    match encode(alloc, &message) {
        Ok(octets) => Ok(octets),
        Err(_) => Err(AllocError),
    }
}

/// The suffix, for those that name it.
pub fn suffix() -> &'static str {
    SUFFIX
}
