//! Four seats that search in threads of their own while a fifth thread publishes updates: each answer is that of its number, and no number falls.
use crate::seats::asking::asked;
use crate::seats::sample::{Given, Node, Played, SUFFIX, add, node_with, rank};
use dir_seats::{Found, SearchAnswer, SearchRequest, Seat};
use directory_api::FoundEntry;
use std::alloc::{AllocError, Global};
use std::sync::Wait;
use std::sync::atomic::{AtomicU64, Ordering};
use std::test::*;
use std::thread;
use std::thread::Threads;

/// How many updates there are: the first two add entries, and from the third on each gives the item the rank of its own number.
const UPDATES: u64 = 1_000;

const ITEM: Given = Given {
    name: "cn=Ana,dc=example,dc=com",
    attributes: &[("objectClass", "item"), ("cn", "Ana"), ("rank", "2")],
};

/// The number that digits stand for.
fn number_of(digits: &[u8]) -> u64 {
    let mut number = 0u64;
    for digit in digits {
        number = number
            .wrapping_mul(10)
            .wrapping_add((*digit as u64).wrapping_sub(48));
    }
    number
}

/// The rank that an entry shows.
fn rank_of(alloc: Global, entry: &FoundEntry) -> Option<u64> {
    let shown = entry.copied(alloc).ok()?;
    let value = shown.attributes.first()?.values.first()?;
    Some(number_of(value))
}

/// Whether this is the answer of its number.
fn is_right(alloc: Global, found: &Found<SearchAnswer>) -> bool {
    match found.answer.entries.first() {
        None => found.at < 2 && found.answer.code.number() == 32,
        Some(entry) => {
            found.answer.entries.len() == 1
                && found.answer.code.number() == 0
                && found.at >= 2
                && rank_of(alloc, entry) == Some(found.at)
        }
    }
}

/// Counts the answers that are not those of their number, or that go back.
fn read(alloc: Global, mut seat: Seat<Node>, request: &SearchRequest, ready: &AtomicU64) -> u64 {
    ready.fetch_add(1, Ordering::SeqCst);
    let (mut last, mut wrong) = (0u64, 0u64);
    for _ in 0..50_000_000u64 {
        match seat.search(alloc, last, request) {
            Ok(found) => {
                let bad = found.at < last || !is_right(alloc, &found);
                wrong = wrong.wrapping_add(bad as u64);
                last = found.at;
                if last == UPDATES {
                    return wrong;
                }
            }
            Err(_) => return wrong.wrapping_add(1),
        }
    }
    wrong.wrapping_add(1)
}

/// Appends and publishes the update of this number; whether both were done.
fn write_one<R: Wait>(
    alloc: Global,
    node: &mut Played<'_, R>,
    number: u64,
) -> Result<bool, AllocError> {
    let record = match number {
        1 => add(alloc, number, &SUFFIX)?,
        2 => add(alloc, number, &ITEM)?,
        _ => rank(alloc, number, ITEM.name, &format!(in alloc; "{number}")?)?,
    };
    node.publish(alloc, record)
}

/// Appends and publishes all updates, one by one, once four readers are ready.
fn write<R: Wait>(alloc: Global, node: &mut Played<'_, R>, ready: &AtomicU64) -> bool {
    for _ in 0..50_000_000u64 {
        if ready.load(Ordering::SeqCst) == 4 {
            break;
        }
    }
    let mut fine = true;
    for number in 1..UPDATES + 1 {
        fine = fine && write_one(alloc, node, number).is_ok_and(|done| done);
    }
    fine
}

fn race<R: Threads + Wait + Sync>(
    rt: &R,
    alloc: Global,
    node: &mut Played<'_, R>,
    all: Vec<Seat<Node>>,
    request: &SearchRequest,
) -> (bool, u64) {
    let (wrong, failed, ready) = (AtomicU64::new(0), AtomicU64::new(0), AtomicU64::new(0));
    let (wrong_of, failed_of, ready_of) = (&wrong, &failed, &ready);
    let mut fine = false;
    thread::scope(thread::scope_env(), rt, |scope| {
        for seat in all {
            let started = scope.spawn(move || {
                wrong_of.fetch_add(read(alloc, seat, request, ready_of), Ordering::SeqCst);
            });
            if started.is_err() {
                failed_of.fetch_add(1, Ordering::SeqCst);
            }
        }
        fine = write(alloc, node, ready_of);
    });
    let sum = wrong
        .load(Ordering::SeqCst)
        .wrapping_add(failed.load(Ordering::SeqCst));
    (fine, sum)
}

#[test]
fn four_seats_search_beside_a_publisher(rt: HostRuntime) -> Result<(), Fail> {
    let alloc = rt.alloc();
    let request = asked(alloc, ITEM.name, "(rank>=0)")?;
    let (mut node, all) = node_with(&rt, alloc, 4)?;
    let raced = race(&rt, alloc, &mut node, all, &request);
    drop(node);
    assert_eq!(rt; raced, (true, 0));
    Ok(())
}
