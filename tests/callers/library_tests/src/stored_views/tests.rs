//! The octets that are stored, and what stops and crashes leave of them.

use std::alloc::Global;
use std::process::Abort;
use std::test::*;
use view_store::{Cluster, Fate, Fault, MemoryDevice, Pair, ViewStore, ViewStoreError};

/// The 64 octets after the pair (0, 1) of cluster 9 was stored on a formatted device.
const FIRST: &str =
    "a5020000000000000001000000000000000000000000000000010000000000090000000000000000000000000000000000000000000000000000000000000000";

/// The same after (3, 1) was stored too.
const SECOND: &str =
    "a502000000000000000100000000000000000000000000000001000000000009a502000000000000000200000000000000030000000000000001000000000009";

/// What a store of version 1 left of the pair (0, 1).
const VERSION_1: &str =
    "a5010000000000000001000000000000000000000000000000010000000000000000000000000000000000000000000000000000000000000000000000000000";

/// The same after cluster 9 stored (0, 2).
const MIGRATED: &str =
    "a501000000000000000100000000000000000000000000000001000000000000a502000000000000000200000000000000000000000000000002000000000009";

/// FIRST after (3, 2) was stored with a journal beside it.
const WITH_JOURNAL: &str =
    "a502000000000000000100000000000000000000000000000001000000000009a503000000000000000200000000000000030000000000000002000000000009";

/// A slot that holds nothing.
const EMPTY: &str = "0000000000000000000000000000000000000000000000000000000000000000";

/// Two slots, and what cluster 9 loads of them. In turn: version 1 and 2; each beside a slot of the greater sequence, which
/// decides; no version, no cluster in version 2, a cluster in version 1; version 3, another cluster's and without a cluster.
const LOADS: [(&str, &str, Result<Pair, ViewStoreError>); 15] = [
    (A_OF_ANY, EMPTY, Ok(A)),
    (A_OF_9, EMPTY, Ok(A)),
    (A_OF_8, EMPTY, Err(ViewStoreError::ForeignCluster)),
    (EMPTY, B_OF_9, Ok(B)),
    (EMPTY, B_OF_8, Err(ViewStoreError::ForeignCluster)),
    (A_OF_ANY, B_OF_9, Ok(B)),
    (A_OF_ANY, B_OF_8, Err(ViewStoreError::ForeignCluster)),
    (A_OF_9, B_OF_8, Err(ViewStoreError::ForeignCluster)),
    (A_OF_8, B_OF_9, Ok(B)),
    (
        "a504000000000000000100000000000000000000000000000001000000000009",
        EMPTY,
        Err(ViewStoreError::NoPair),
    ),
    (
        "a502000000000000000100000000000000000000000000000001000000000000",
        EMPTY,
        Err(ViewStoreError::NoPair),
    ),
    (
        "a501000000000000000100000000000000000000000000000001000000000009",
        EMPTY,
        Err(ViewStoreError::NoPair),
    ),
    (
        "a503000000000000000100000000000000000000000000000001000000000009",
        EMPTY,
        Ok(JOURNALED),
    ),
    (
        "a503000000000000000100000000000000000000000000000001000000000008",
        EMPTY,
        Err(ViewStoreError::ForeignCluster),
    ),
    (
        "a503000000000000000100000000000000000000000000000001000000000000",
        EMPTY,
        Err(ViewStoreError::NoPair),
    ),
];

const A_OF_ANY: &str = "a501000000000000000100000000000000000000000000000001000000000000";

const A_OF_8: &str = "a502000000000000000100000000000000000000000000000001000000000008";

const A_OF_9: &str = "a502000000000000000100000000000000000000000000000001000000000009";

const B_OF_8: &str = "a502000000000000000200000000000000030000000000000001000000000008";

const B_OF_9: &str = "a502000000000000000200000000000000030000000000000001000000000009";

const ROOM: usize = 100;

const FATES: [Fate; 5] = [
    Fate::Lost,
    Fate::Done,
    Fate::Filled(0xa5),
    Fate::Filled(0),
    Fate::Filled(0x5a),
];

const A: Pair = Pair {
    view: 0,
    restarts: 1,
    journaled: false,
};

const B: Pair = Pair {
    view: 3,
    restarts: 1,
    journaled: false,
};

/// A, and a journal goes with it.
const JOURNALED: Pair = Pair {
    view: 0,
    restarts: 1,
    journaled: true,
};

/// A pair without a journal.
fn pair(view: u64, restarts: u64) -> Pair {
    Pair {
        view,
        restarts,
        journaled: false,
    }
}

fn device(alloc: Global, text: &str, fault: Fault) -> Result<MemoryDevice, Fail> {
    let bytes = hex::decode(alloc, text)?;
    Ok(MemoryDevice::new(alloc, bytes, ROOM, fault)?)
}

fn nine(rt: &impl Abort) -> Cluster {
    Cluster::new(9).expect(rt, "9 is the number of a cluster")
}

/// What cluster 9 finds after a crash.
fn found_after_crash(
    rt: &impl Abort,
    alloc: Global,
    device: &MemoryDevice,
    fate: Fate,
) -> Result<Option<Pair>, Fail> {
    let image = device.left_by_crash(alloc, fate)?;
    let device = MemoryDevice::new(alloc, image, ROOM, Fault::None)?;
    let mut store = ViewStore::new(device, nine(rt));
    let pair = store.load().ok();
    let _ = store.into_device();
    Ok(pair)
}

#[test]
fn stores_the_pair_in_its_octets(rt: HostRuntime) -> Result<(), Fail> {
    let alloc = rt.alloc();
    let empty = MemoryDevice::new(alloc, Vec::new(alloc), ROOM, Fault::None)?;
    let mut store = ViewStore::new(empty, nine(&rt));
    store.format()?;
    assert_eq!(rt; store.load(), Err(ViewStoreError::NoPair));
    store.format()?;
    store.store(pair(0, 1))?;
    assert_eq!(rt; store.load(), Ok(A));
    let first = store.into_device();
    assert!(rt; hex::encode(alloc, first.bytes())?.as_str() == FIRST);
    let mut store = ViewStore::new(first, nine(&rt));
    assert_eq!(rt; store.load(), Ok(A));
    store.store(pair(3, 1))?;
    assert_eq!(rt; store.load(), Ok(B));
    let second = store.into_device();
    assert!(rt; hex::encode(alloc, second.bytes())?.as_str() == SECOND);
    Ok(())
}

#[test]
fn refuses_what_is_no_pair(rt: HostRuntime) -> Result<(), Fail> {
    let alloc = rt.alloc();
    let mut store = ViewStore::new(device(alloc, FIRST, Fault::None)?, nine(&rt));
    assert_eq!(rt; store.store(pair(0, 2)), Err(ViewStoreError::NoPair));
    assert_eq!(rt; store.load(), Ok(A));
    assert_eq!(rt; store.store(pair(1 << 63, 1)), Err(ViewStoreError::NoPair));
    assert_eq!(rt; store.store(pair(1, 1 << 63)), Err(ViewStoreError::NoPair));
    let kept = store.into_device();
    assert!(rt; hex::encode(alloc, kept.bytes())?.as_str() == FIRST);
    let long = MemoryDevice::new(alloc, vec![in alloc; 0u8; 65]?, ROOM, Fault::None)?;
    let mut store = ViewStore::new(long, nine(&rt));
    assert_eq!(rt; store.load(), Err(ViewStoreError::NoPair));
    assert_eq!(rt; store.format(), Err(ViewStoreError::NoPair));
    let _ = store.into_device();
    Ok(())
}

/// Loads, and stores B with a stop at one of the six device calls that a store makes.
fn stopped_store(
    rt: &impl Abort,
    alloc: Global,
    text: &str,
    at: usize,
) -> Result<MemoryDevice, Fail> {
    let fault = Fault::StopAt(3usize.saturating_add(at));
    let mut store = ViewStore::new(device(alloc, text, fault)?, nine(rt));
    assert_eq!(rt; store.load(), Ok(A));
    let stored = store.store(pair(3, 1));
    if at <= 6 {
        assert_eq!(rt; stored, Err(ViewStoreError::DeviceFailed));
        assert_eq!(rt; store.store(pair(3, 1)), Err(ViewStoreError::Failed));
        assert_eq!(rt; store.load(), Err(ViewStoreError::Failed));
    } else {
        assert_eq!(rt; stored, Ok(()));
    }
    Ok(store.into_device())
}

/// Loads and stores with a stop at each of the six calls, over a device that holds A: what a crash leaves.
fn check_stops(rt: &impl Abort, alloc: Global, text: &str) -> Result<(), Fail> {
    for at in 1..8 {
        let left = stopped_store(rt, alloc, text, at)?;
        for fate in FATES {
            let pair = found_after_crash(rt, alloc, &left, fate)?;
            if at <= 4 {
                assert_eq!(rt; pair, Some(A), "stopped at {at}");
            } else if at <= 6 {
                assert!(rt; pair == Some(A) || pair == Some(B), "stopped at {at}");
            } else {
                assert_eq!(rt; pair, Some(B));
            }
        }
    }
    Ok(())
}

#[test]
fn a_stop_leaves_one_of_the_two_pairs(rt: HostRuntime) -> Result<(), Fail> {
    check_stops(&rt, rt.alloc(), FIRST)
}

#[test]
fn a_stop_of_a_migrating_store_leaves_one_of_the_two_pairs(rt: HostRuntime) -> Result<(), Fail> {
    check_stops(&rt, rt.alloc(), VERSION_1)
}

#[test]
fn a_load_settles_what_a_stop_left(rt: HostRuntime) -> Result<(), Fail> {
    let alloc = rt.alloc();
    for text in [FIRST, VERSION_1] {
        for at in 5..7 {
            let mut left = stopped_store(&rt, alloc, text, at)?;
            left.set_fault(Fault::StopAt(left.count_of_calls().saturating_add(4)));
            let mut store = ViewStore::new(left, nine(&rt));
            let loaded = store.load()?;
            assert_eq!(rt; store.store(pair(5, 1)), Err(ViewStoreError::DeviceFailed));
            let left = store.into_device();
            for fate in FATES {
                assert_eq!(rt; found_after_crash(&rt, alloc, &left, fate)?, Some(loaded));
            }
        }
    }
    Ok(())
}

#[test]
fn a_first_store_that_stops_leaves_no_pair_or_the_new_one(rt: HostRuntime) -> Result<(), Fail> {
    let alloc = rt.alloc();
    for at in 1..7 {
        let empty = MemoryDevice::new(alloc, Vec::new(alloc), ROOM, Fault::None)?;
        let mut store = ViewStore::new(empty, nine(&rt));
        store.format()?;
        let mut formatted = store.into_device();
        formatted.set_fault(Fault::StopAt(
            formatted
                .count_of_calls()
                .saturating_add(at)
                .saturating_add(3),
        ));
        let mut store = ViewStore::new(formatted, nine(&rt));
        store.format()?;
        assert_eq!(rt; store.store(pair(3, 1)), Err(ViewStoreError::DeviceFailed));
        let left = store.into_device();
        for fate in FATES {
            let pair = found_after_crash(&rt, alloc, &left, fate)?;
            assert!(rt;
                pair.is_none() || at > 4 && pair == Some(B),
                "stopped at {at}"
            );
        }
    }
    Ok(())
}

#[test]
fn migrates_a_pair_of_version_1(rt: HostRuntime) -> Result<(), Fail> {
    let alloc = rt.alloc();
    let mut store = ViewStore::new(device(alloc, VERSION_1, Fault::None)?, nine(&rt));
    assert_eq!(rt; store.load(), Ok(A));
    store.store(pair(0, 2))?;
    let migrated = store.into_device();
    assert!(rt; hex::encode(alloc, migrated.bytes())?.as_str() == MIGRATED);
    Ok(())
}

#[test]
fn a_pair_says_whether_a_journal_goes_with_it(rt: HostRuntime) -> Result<(), Fail> {
    let alloc = rt.alloc();
    let mut store = ViewStore::new(device(alloc, FIRST, Fault::None)?, nine(&rt));
    assert_eq!(rt; store.load()?.alone(), Ok(A));
    store.store(Pair {
        view: 3,
        restarts: 2,
        journaled: true,
    })?;
    let pair = store.load()?;
    assert_eq!(rt; pair.journaled, true);
    assert_eq!(rt; pair.alone(), Err(ViewStoreError::KeepsJournal));
    let kept = store.into_device();
    assert!(rt; hex::encode(alloc, kept.bytes())?.as_str() == WITH_JOURNAL);
    Ok(())
}

#[test]
fn loads_the_slot_of_the_greater_sequence(rt: HostRuntime) -> Result<(), Fail> {
    let alloc = rt.alloc();
    for (first, second, want) in LOADS {
        let text = format!(in alloc; "{first}{second}")?;
        let mut store = ViewStore::new(device(alloc, &text, Fault::None)?, nine(&rt));
        assert_eq!(rt; store.load(), want, "{text}");
        if want.is_err() {
            assert_eq!(rt;
                store.store(pair(0, 2)),
                Err(ViewStoreError::NoPair),
                "{text}"
            );
        }
        let kept = store.into_device();
        assert!(rt; hex::encode(alloc, kept.bytes())?.as_str() == text.as_str());
    }
    Ok(())
}

#[test]
fn a_cluster_has_a_number_of_six_octets(rt: HostRuntime) {
    for number in [1, 9, 281474976710655] {
        assert_eq!(rt;
            Cluster::new(number).map(|cluster| cluster.number()),
            Some(number)
        );
    }
    for number in [0, 281474976710656, 18446744073709551615] {
        assert_eq!(rt; Cluster::new(number), None);
    }
}

/// Loads and stores over a device of which one call fails: that call tells it, and all after it.
fn check_failures(rt: &impl Abort, alloc: Global, text: &str) -> Result<(), Fail> {
    for at in 1..10 {
        let mut store = ViewStore::new(device(alloc, text, Fault::FailAt(at))?, nine(rt));
        let loaded = store.load();
        if at <= 3 {
            assert_eq!(rt; loaded, Err(ViewStoreError::DeviceFailed), "call {at}");
        } else {
            assert_eq!(rt; loaded, Ok(A));
            assert_eq!(rt;
                store.store(pair(3, 1)),
                Err(ViewStoreError::DeviceFailed),
                "call {at}"
            );
        }
        assert_eq!(rt; store.store(pair(3, 1)), Err(ViewStoreError::Failed));
        let _ = store.into_device();
    }
    Ok(())
}

#[test]
fn each_call_that_fails_is_told(rt: HostRuntime) -> Result<(), Fail> {
    for text in [FIRST, VERSION_1] {
        check_failures(&rt, rt.alloc(), text)?;
    }
    Ok(())
}
