//! What the words of a command line ask to measure. Words flow in; counts flow out as output, and times beside them. How each is measured is not here.
ghost use Rattle.std.specs.Prelude.{◌+◌, ◌<◌, IfOk};
ghost use Rattle.dir_search.specs.indexed_tree.Stored.{NumbersBelow};

use crate::fault::Fault;
use crate::filling::filled;
use crate::framing::frame;
use crate::handling::measure_events;
use crate::logs::{Kind, start_view};
use crate::printing::{print_adds, print_frame, print_search};
use crate::requests::measure_requests;
use crate::searching::{FILTERS, measure, narrow, range};
use dir_store::Store;
use std::alloc::Global;
use std::io::{Eprint, Print};
use std::time::{Clock, Instant};
use vr_wire::Cluster;

/// What the command line asks for.
enum Measurement {
    /// Searches of a directory of so many items.
    Searches(u32),
    /// Requests in a session at a directory of so many items.
    Requests(u32),
    /// Events at a node whose log grows to so many records.
    Events(u32),
    /// Frames of logs of so many records.
    Frames(u32),
}

/// The number that a word of the command line says.
fn count_of(words: &[String], place: usize) -> Result<u32, Fault> {
    let Some(word) = words.get(place) else {
        return Err(Fault::BadCommandLine);
    };
    match word.parse::<u32>() {
        Ok(count) => Ok(count),
        Err(_) => Err(Fault::BadCommandLine),
    }
}

/// What the words ask for.
fn asked(words: &[String]) -> Result<Measurement, Fault> {
    match words.get(1) {
        Some(word) if word.as_str() == "requests" => Ok(Measurement::Requests(count_of(words, 2)?)),
        Some(word) if word.as_str() == "events" => Ok(Measurement::Events(count_of(words, 2)?)),
        Some(word) if word.as_str() == "frames" => Ok(Measurement::Frames(count_of(words, 2)?)),
        _ => Ok(Measurement::Searches(count_of(words, 1)?)),
    }
}

/// A directory of so many items; how long adding them took is printed.
fn fill(rt: &(impl Clock + Eprint), alloc: Global, count: u32) -> Result<Store, Fault>
    ensures { IfOk result (λ store. NumbersBelow (count + 3) store.directory.entries) }
{
    let began = Instant::now(rt)?;
    let store = filled(alloc, count)?;
    let took = began.elapsed(rt)?.as_millis();
    print_adds(rt, count, took)?;
    Ok(store)
}

/// Searches by a filter, and prints what was found, evaluated and taken.
fn show(
    rt: &(impl Clock + Print + Eprint),
    alloc: Global,
    store: &Store,
    filter: &str,
) -> Result<(), Fault> {
    let measured = measure(rt, alloc, store, filter)?;
    print_search(rt, filter, &measured)
}

/// The same by the range.
fn show_range(
    rt: &(impl Clock + Print + Eprint),
    alloc: Global,
    store: &Store,
    count: u32,
) -> Result<(), Fault> {
    let filter = range(alloc, count)?;
    show(rt, alloc, store, &filter)
}

/// The same by the two bounds.
fn show_narrow(
    rt: &(impl Clock + Print + Eprint),
    alloc: Global,
    store: &Store,
    count: u32,
) -> Result<(), Fault> {
    let filter = narrow(alloc, count)?;
    show(rt, alloc, store, &filter)
}

/// The same by each filter.
fn show_all(
    rt: &(impl Clock + Print + Eprint),
    alloc: Global,
    store: &Store,
    count: u32,
) -> Result<(), Fault> {
    for filter in FILTERS {
        show(rt, alloc, store, filter)?;
    }
    show_range(rt, alloc, store, count)?;
    show_narrow(rt, alloc, store, count)
}

/// Measures searches of a directory of so many items.
fn measure_searches(
    rt: &(impl Clock + Print + Eprint),
    alloc: Global,
    count: u32,
) -> Result<(), Fault> {
    let store = fill(rt, alloc, count)?;
    show_all(rt, alloc, &store, count)
}

/// Measures a log of one kind of records, twice: the second time memory that the first gave back is at hand.
fn show_frame(
    rt: &(impl Clock + Print + Eprint),
    alloc: Global,
    kind: Kind,
    count: u32,
) -> Result<(), Fault> {
    let Some(cluster) = Cluster::new(9) else {
        return Ok(());
    };
    let message = start_view(alloc, kind, count)?;
    for _round in 0..2u32 {
        let framed = frame(rt, alloc, cluster, &message)?;
        print_frame(rt, kind.name(), &framed)?;
    }
    Ok(())
}

/// Measures logs of so many records, of each kind.
fn measure_frames(
    rt: &(impl Clock + Print + Eprint),
    alloc: Global,
    count: u32,
) -> Result<(), Fault> {
    show_frame(rt, alloc, Kind::Noops, count)?;
    show_frame(rt, alloc, Kind::Deletes, count)
}

/// Measures what the words ask for: the program's name, and then `N` for searches, `requests N`, `events N` or
/// `frames N`.
pub fn run(
    rt: &(impl Clock + Print + Eprint),
    alloc: Global,
    words: &[String],
) -> Result<(), Fault> {
    match asked(words)? {
        Measurement::Searches(count) => measure_searches(rt, alloc, count),
        Measurement::Requests(count) => {
            let store = fill(rt, alloc, count)?;
            measure_requests(rt, alloc, store, count)
        }
        Measurement::Events(count) => measure_events(rt, alloc, count as u64),
        Measurement::Frames(count) => measure_frames(rt, alloc, count),
    }
}
