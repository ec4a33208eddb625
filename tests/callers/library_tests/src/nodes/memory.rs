//! Memory that is refused once. Frames flow in; what a node has executed is compared. With all memory given this shows that nothing is left to be
//! executed; with one allocation refused (`rt try --test --fail-alloc N`), wherever in an event that is, that the next event goes on with what is left.

use crate::nodes::frames::{COMMIT_1, PREPARE_ADD};
use crate::nodes::player::{handle, heard};
use crate::nodes::sample::{Log, SEVEN, device, fresh};
use dir_node::{Device, Node, Outcome};
use std::alloc::Global;
use std::process::Abort;
use std::test::*;
use view_store::Fault;

/// Hands the message of a frame to a node, and once more where memory was refused: whether records are left to be executed.
fn hand_over<D: Device>(
    rt: &impl Abort,
    alloc: Global,
    node: &mut Node<D, Log>,
    text: &str,
) -> Option<bool> {
    for _ in 0..2 {
        if let Some(event) = heard(rt, alloc, text) {
            if let Ok(handled) = handle(alloc, node, event) {
                return Some(handled.behind);
            }
        }
    }
    None
}

/// Whether client 7's request 5 is done, as the first record and with success.
fn is_done<D: Device>(node: &Node<D, Log>) -> bool {
    match node.outcome(SEVEN, 5) {
        Outcome::Done { number, reply } => number == 1 && reply.code.number() == 0,
        Outcome::Pending => false,
        Outcome::Stale => false,
        Outcome::Lost => false,
    }
}

/// A backup takes a record in, and hears twice that it is committed: the first time it is executed unless the node says that it is left, and then at
/// the second.
fn check<D: Device>(rt: &impl Abort, alloc: Global, node: &mut Node<D, Log>) {
    assert_eq!(rt; hand_over(rt, alloc, node, PREPARE_ADD), Some(false));
    let first = hand_over(rt, alloc, node, COMMIT_1);
    assert_eq!(rt; first, Some(node.executed_len() == 0));
    assert_eq!(rt; is_done(node), first == Some(false));
    assert_eq!(rt; hand_over(rt, alloc, node, COMMIT_1), Some(false));
    assert!(rt; is_done(node) && node.executed_len() == 1);
}

#[test]
fn what_is_left_is_executed_at_the_next_event(rt: HostRuntime) -> Result<(), Fail> {
    let alloc = rt.alloc();
    let (mut node, _) = fresh(&rt, alloc, 1, device(alloc, "", Fault::None)?)?;
    check(&rt, alloc, &mut node);
    Ok(())
}
