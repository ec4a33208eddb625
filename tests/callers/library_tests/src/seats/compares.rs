//! Compares through a seat: each check in its order, and three answers.
use crate::seats::asking::compared;
use crate::seats::sample::{ANA, ANANA, ITEMS, Node, Played, SUFFIX, node_with};
use dir_seats::Seat;
use std::alloc::Global;
use std::process::Abort;
use std::sync::Wait;
use std::test::*;

/// Of which entry it is asked, a description, a value, and what is said.
struct Row(&'static str, &'static str, &'static str, &'static str);

const ROWS: &[Row] = &[
    Row(
        "cn=Ana,ou=Items,dc=example,dc=com",
        "label",
        "ABC",
        "at 4 code 6",
    ),
    Row(
        "cn=Ana,ou=Items,dc=example,dc=com",
        "label",
        "zzz",
        "at 4 code 5",
    ),
    Row(
        "cn=Anana,ou=Items,dc=example,dc=com",
        "label",
        "abc",
        "at 4 code 21",
    ),
    Row(
        "cn=Anana,ou=Items,dc=example,dc=com",
        "description",
        "x",
        "at 4 code 16",
    ),
    Row(
        "cn=Ana,ou=Items,dc=example,dc=com",
        "rank",
        "09",
        "at 4 code 21",
    ),
    Row(
        "cn=Ana,ou=Items,dc=example,dc=com",
        "nosuch",
        "1",
        "at 4 code 17",
    ),
    Row(
        "cn=No,ou=Items,dc=example,dc=com",
        "nosuch",
        "1",
        "at 4 code 32",
    ),
    Row("cn=", "nosuch", "1", "at 4 code 34"),
];

/// Publishes four entries, and asks.
fn ask<R: Wait + Abort>(
    rt: &R,
    alloc: Global,
    node: &mut Played<'_, R>,
    seat: &mut Seat<Node>,
) -> Result<(), Fail> {
    assert!(rt; node.add(alloc, 1, &SUFFIX)?);
    assert!(rt; node.add(alloc, 2, &ITEMS)?);
    assert!(rt; node.add(alloc, 3, &ANA)?);
    assert!(rt; node.add(alloc, 4, &ANANA)?);
    for Row(entry, description, value, expected) in ROWS {
        let line = compared(alloc, seat, 4, entry, description, value)?;
        assert_eq!(rt; line.as_str(), *expected);
    }
    let line = compared(alloc, seat, 5, "cn=", "nosuch", "1")?;
    assert_eq!(rt; line.as_str(), "not yet at 4");
    Ok(())
}

#[test]
fn a_seat_compares(rt: HostRuntime) -> Result<(), Fail> {
    let alloc = rt.alloc();
    let (mut node, mut all) = node_with(&rt, alloc, 2)?;
    let Some(mut seat) = all.pop() else {
        return Err(Fail::from("a seat"));
    };
    let asked = ask(&rt, alloc, &mut node, &mut seat);
    drop(node);
    asked?;
    let line = compared(alloc, &mut seat, 0, "cn=", "nosuch", "1")?;
    assert_eq!(&rt; line.as_str(), "gone");
    Ok(())
}
