//! What seats find round publications: before and after one, told of it and not told, and once the publisher is gone.
use crate::seats::asking::found;
use crate::seats::sample::{ITEMS, Node, Played, SUFFIX, Z, add, node_with};
use dir_seats::Seat;
use std::alloc::Global;
use std::process::Abort;
use std::sync::Wait;
use std::test::*;

/// Compares what a seat finds of the item Z.
fn finds(
    rt: &impl Abort,
    alloc: Global,
    seat: &mut Seat<Node>,
    named: u64,
    expected: &str,
) -> Result<(), Fail> {
    let line = found(alloc, seat, named, "(cn=z)")?;
    assert_eq!(rt; line.as_str(), expected);
    Ok(())
}

/// Two seats round the add of an item: one that looks by itself, and one that was silent, and then is told.
fn tell_one<R: Wait + Abort>(
    rt: &R,
    alloc: Global,
    node: &mut Played<'_, R>,
    one: &mut Seat<Node>,
    other: &mut Seat<Node>,
) -> Result<(), Fail> {
    finds(rt, alloc, one, 0, "at 0 code 32 entries 0")?;
    finds(rt, alloc, one, 1, "not yet at 0")?;
    assert!(rt; node.add(alloc, 1, &SUFFIX)?);
    assert!(rt; node.add(alloc, 2, &ITEMS)?);
    finds(rt, alloc, one, 2, "at 2 code 0 entries 0")?;
    let record = add(alloc, 3, &Z)?;
    assert!(rt; node.append(alloc, record)?);
    finds(rt, alloc, one, 0, "at 2 code 0 entries 0")?;
    finds(rt, alloc, one, 3, "not yet at 2")?;
    assert!(rt; node.publisher.publish().is_ok());
    other.learn(node.publisher.tell()?);
    finds(rt, alloc, other, 3, "at 3 code 0 entries 1")?;
    finds(rt, alloc, one, 0, "at 3 code 0 entries 1")?;
    finds(rt, alloc, one, 3, "at 3 code 0 entries 1")?;
    finds(rt, alloc, other, 4, "not yet at 3")
}

/// A seat that is told an older list than it has seen stays where it is; one that is told a newer list goes there before it looks.
fn tell_old<R: Wait + Abort>(
    rt: &R,
    alloc: Global,
    node: &mut Played<'_, R>,
    one: &mut Seat<Node>,
    other: &mut Seat<Node>,
) -> Result<(), Fail> {
    let old = node.publisher.tell()?;
    assert!(rt; node.add(alloc, 4, &Z)?);
    finds(rt, alloc, one, 4, "at 4 code 0 entries 1")?;
    one.learn(old);
    finds(rt, alloc, one, 4, "at 4 code 0 entries 1")?;
    let new = node.publisher.tell()?;
    other.learn(new);
    finds(rt, alloc, other, 4, "at 4 code 0 entries 1")
}

/// Both, one after the other.
fn tell_both<R: Wait + Abort>(
    rt: &R,
    alloc: Global,
    node: &mut Played<'_, R>,
    one: &mut Seat<Node>,
    other: &mut Seat<Node>,
) -> Result<(), Fail> {
    tell_one(rt, alloc, node, one, other)?;
    tell_old(rt, alloc, node, one, other)
}

#[test]
fn seats_find_what_is_published(rt: HostRuntime) -> Result<(), Fail> {
    let alloc = rt.alloc();
    let (mut node, mut all) = node_with(&rt, alloc, 2)?;
    let (one, other) = (all.pop(), all.pop());
    let (Some(mut one), Some(mut other)) = (one, other) else {
        return Err(Fail::from("two seats"));
    };
    let told = tell_both(&rt, alloc, &mut node, &mut one, &mut other);
    drop(node);
    told?;
    finds(&rt, alloc, &mut one, 0, "gone")?;
    finds(&rt, alloc, &mut other, 9, "gone")
}
