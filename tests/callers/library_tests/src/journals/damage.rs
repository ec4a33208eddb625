//! Octets of a journal that were changed, lost or cut: what is told is what was told at some earlier moment, or nothing is.

use crate::journals::sample::{Sample, make_sample, text_of, texts};
use journal::{Fault, MemoryDevice, open};
use log_journal::{Batch, Journal, NoteError, put_commit, settle, tell};
use std::alloc::Global;
use std::process::Abort;
use std::test::*;

/// Which of the texts is told of these octets; none, where they are refused. Any other text fails the test.
fn told_of(
    rt: &impl Abort,
    alloc: Global,
    octets: &[u8],
    texts: &[String],
    what: &str,
    at: usize,
) -> Result<Option<usize>, Fail> {
    let mut device = MemoryDevice::new(alloc, octets.to_vec(alloc)?, 100, Fault::None)?;
    let found = open(alloc, &mut device)?;
    let told = match tell(alloc, &found.strings) {
        Ok(told) => told,
        Err(NoteError::NoMemory) => return Err(NoteError::NoMemory.into()),
        Err(_) => return Ok(None),
    };
    let text = text_of(alloc, &told)?;
    for (place, other) in texts.iter().enumerate() {
        if *other == text {
            return Ok(Some(place));
        }
    }
    assert!(rt; false, "{what} at {at}: told {text}");
    Ok(None)
}

#[test]
fn a_journal_tells_its_replica(rt: HostRuntime) -> Result<(), Fail> {
    let alloc = rt.alloc();
    let Sample { octets, last, end } = make_sample(alloc)?;
    let texts = texts(alloc, &octets)?;
    assert!(&rt; last < end && end < octets.len());
    assert_eq!(&rt; texts.len(), 12);
    let whole = texts[11].as_str();
    assert!(&rt;
        whole.starts_with(
            "cluster 9 index 0 of 3, start 1, view 1 after 1, 3 committed, whole true, log 7/1:"
        ),
        "{whole}"
    );
    for record in [" 7/2:", " 8/1:", " 8/2:", " 8/3:", " 8/4:"] {
        assert!(&rt; whole.contains(record), "{record}: {whole}");
    }
    assert!(&rt;
        !whole.contains(" 9/1:") && whole.ends_with("staged"),
        "{whole}"
    );
    Ok(())
}

#[test]
fn a_changed_octet_is_never_read_as_something_else(rt: HostRuntime) -> Result<(), Fail> {
    let alloc = rt.alloc();
    let Sample {
        octets,
        last: _,
        end,
    } = make_sample(alloc)?;
    let texts = texts(alloc, &octets)?;
    let mut refused = 0;
    for at in 0..end + 24 {
        for mask in [1u8, 0x80, 0xff] {
            let mut changed = octets.to_vec(alloc)?;
            changed[at] = changed[at] ^ mask;
            if told_of(&rt, alloc, &changed, &texts, "changed", at)?.is_none() {
                refused += 1;
            }
        }
        let mut lost = octets.to_vec(alloc)?;
        lost[at] = 0;
        let told = told_of(&rt, alloc, &lost, &texts, "lost", at)?;
        assert!(&rt; told.is_some(), "lost at {at}: refused");
    }
    assert!(&rt; refused > end, "{refused} refused");
    Ok(())
}

#[test]
fn a_torn_end_is_taken(rt: HostRuntime) -> Result<(), Fail> {
    let alloc = rt.alloc();
    let Sample { octets, last, end } = make_sample(alloc)?;
    let texts = texts(alloc, &octets)?;
    for at in last..end {
        let mut cut = octets.to_vec(alloc)?;
        let mut begun = octets.to_vec(alloc)?;
        for place in last..end {
            if place >= at {
                cut[place] = 0;
            } else {
                begun[place] = 0;
            }
        }
        let told = told_of(&rt, alloc, &cut, &texts, "cut", at)?;
        assert!(&rt;
            told == Some(9) || told == Some(10),
            "cut at {at}: {told:?}"
        );
        let told = told_of(&rt, alloc, &begun, &texts, "begun", at)?;
        assert!(&rt;
            told == Some(9) || (at == last && told == Some(11)),
            "begun at {at}: {told:?}"
        );
    }
    Ok(())
}

#[test]
fn a_journal_goes_on_behind_a_torn_end(rt: HostRuntime) -> Result<(), Fail> {
    let alloc = rt.alloc();
    let Sample { octets, last, end } = make_sample(alloc)?;
    for lost in [last, last + 5, end - 1] {
        let mut torn = octets.to_vec(alloc)?;
        torn[lost] = 0;
        let mut device = MemoryDevice::new(alloc, torn, 100, Fault::None)?;
        let found = open(alloc, &mut device)?;
        let before = found.strings.len();
        let mut journal = Journal {
            device,
            end: found.end,
        };
        let mut batch = Batch::new(alloc);
        put_commit(alloc, &mut batch, 4)?;
        settle(&mut journal, &batch)?;
        let mut device = journal.device;
        let found = open(alloc, &mut device)?;
        assert_eq!(&rt; found.strings.len(), before + 1);
        assert_eq!(&rt; tell(alloc, &found.strings)?.commit_number, 4);
    }
    Ok(())
}
