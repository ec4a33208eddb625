//! What is measured: how many entries searches find and evaluate over a thousand items, and how long frames of a thousand records are. Counts are worked
//! out by hand; times are not compared.
use measures::{FILTERS, Kind, filled, frame, measure, narrow, range, start_view};
use std::alloc::Global;
use std::process::Abort;
use std::test::*;
use std::time::Clock;
use vr_wire::Cluster;

/// How many items and records there are.
const COUNT: u32 = 1000;

/// How many entries each filter finds, and on how many it is evaluated: the four that name no rank, the last hundredth of the ranks, and ten ranks of the middle.
const SEARCHED: &[(usize, usize)] = &[(10, 0), (990, 0), (2, 10), (143, 1000), (10, 0), (10, 0)];

/// The filters in that order.
fn filters(alloc: Global) -> Result<Vec<String>, Fail> {
    let mut filters = Vec::new(alloc);
    for filter in FILTERS {
        filters.push(String::from_str(alloc, filter)?)?;
    }
    filters.push(range(alloc, COUNT)?)?;
    filters.push(narrow(alloc, COUNT)?)?;
    Ok(filters)
}

#[test]
fn searches_evaluate_what_no_index_answers(rt: HostRuntime) -> Result<(), Fail> {
    let alloc = rt.alloc();
    let store = filled(alloc, COUNT)?;
    let filters = filters(alloc)?;
    assert_eq!(&rt; filters.len(), SEARCHED.len());
    for (filter, counts) in filters.iter().zip(SEARCHED) {
        let measured = measure(&rt, alloc, &store, filter)?;
        assert_eq!(&rt; (measured.found, measured.evaluated), *counts);
    }
    Ok(())
}

/// A frame of a thousand records of one kind has so many octets, and all of them are read again.
fn has_octets(
    rt: &(impl Abort + Clock),
    alloc: Global,
    kind: Kind,
    octets: usize,
) -> Result<(), Fail> {
    let Some(cluster) = Cluster::new(9) else {
        return Err(Fail::from("a cluster"));
    };
    let framed = frame(rt, alloc, cluster, &start_view(alloc, kind, COUNT)?)?;
    assert_eq!(rt; framed.octets, octets);
    assert_eq!(rt; framed.records, COUNT as usize);
    Ok(())
}

#[test]
fn frames_grow_by_their_records(rt: HostRuntime) -> Result<(), Fail> {
    let alloc = rt.alloc();
    has_octets(&rt, alloc, Kind::Noops, 29_033)?;
    has_octets(&rt, alloc, Kind::Deletes, 71_923)
}
