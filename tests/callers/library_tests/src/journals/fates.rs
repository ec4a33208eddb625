//! Power cuts at each call of a journal's device, and after each call that fails: whatever they leave of octets that weren't settled, the journal tells the
//! replica as it was after some first of what it noted, and after no less than it had acknowledged.

use crate::journals::sample::{batches, text_of, texts};
use journal::{Device, DeviceFailure, Fault, GrowthError, MemoryDevice, open};
use log_journal::{Batch, Journal, keep_events, put_begin, put_start, settle, tell};
use std::alloc::Global;
use std::process::Abort;
use std::test::*;
use vr_state::replica::Replica;

/// How many octets the disk has.
const ROOM: usize = 4096;

/// At which call, counted from 1, something goes wrong, and whether all later ones fail too.
#[derive(Clone, Copy)]
struct Wrong {
    at: usize,
    is_last: bool,
}

/// A disk in memory. Of octets that aren't settled a power cut leaves the former or the newest, each by itself.
#[derive(Drop)]
struct Disk {
    seen: Vec<u8>,
    settled: Vec<u8>,
    newest: Vec<u8>,
    calls: usize,
    wrong: Wrong,
}

impl Disk {
    fn new(alloc: Global, wrong: Wrong) -> Result<Disk, Fail> {
        Ok(Disk {
            seen: vec![in alloc; 0u8; ROOM]?,
            settled: vec![in alloc; 0u8; ROOM]?,
            newest: vec![in alloc; 0u8; ROOM]?,
            calls: 0,
            wrong,
        })
    }

    /// Counts a call; whether it is to fail.
    fn is_struck(&mut self) -> bool {
        self.calls += 1;
        self.calls == self.wrong.at || (self.wrong.is_last && self.calls > self.wrong.at)
    }

    /// The octets that a power cut leaves where those at these places are the newest, and all others the former ones.
    fn left(&self, alloc: Global, is_newest: &impl Fn(usize) -> bool) -> Result<Vec<u8>, Fail> {
        let mut image = self.settled.to_vec(alloc)?;
        for at in 0..image.len() {
            if is_newest(at) {
                image[at] = self.newest[at];
            }
        }
        Ok(image)
    }
}

impl Device for Disk {
    ghost seen = { λ d. d.seen.items };

    ghost may_leave = { λ _ _. Unit {0} };

    ghost moment = { λ _. 0 };

    ghost left_since = { λ _ _ _. Unit {0} };

    ghost failure_count = { λ d. d.calls };

    fn len(&mut self) -> Result<u64, DeviceFailure> {
        if self.is_struck() {
            return Err(DeviceFailure);
        }
        Ok(self.seen.len() as u64)
    }

    fn read(&mut self, at: u64, buffer: &mut [u8]) -> Result<(), DeviceFailure> {
        if self.is_struck() {
            return Err(DeviceFailure);
        }
        let at = at as usize;
        for place in 0..buffer.len() {
            buffer[place] = self.seen[at + place];
        }
        Ok(())
    }

    fn forget(&mut self, _before: u64) {}

    fn write_at(&mut self, at: u64, octets: &[u8]) -> Result<(), DeviceFailure> {
        let fails = self.is_struck();
        let at = at as usize;
        for place in 0..octets.len() {
            self.newest[at + place] = octets[place];
            if !fails {
                self.seen[at + place] = octets[place];
            }
        }
        if fails {
            return Err(DeviceFailure);
        }
        Ok(())
    }

    fn sync(&mut self) -> Result<(), DeviceFailure> {
        if self.is_struck() {
            return Err(DeviceFailure);
        }
        for place in 0..self.seen.len() {
            self.settled[place] = self.seen[place];
            self.newest[place] = self.seen[place];
        }
        Ok(())
    }

    fn grow(&mut self, _octets: u64) -> Result<(), GrowthError> {
        Err(GrowthError::Full)
    }

    ghost counts_now = { λ _ _ _ _ _. tt };

    ghost only_now = { λ _ _ _. tt };
}

/// How many strings a journal has after its start, and after each batch.
fn counts(alloc: Global) -> Result<Vec<usize>, Fail> {
    let never = Wrong {
        at: 0,
        is_last: false,
    };
    let (disk, _) = play(alloc, never, None)?;
    let found = open(
        alloc,
        &mut MemoryDevice::new(alloc, disk.seen.to_vec(alloc)?, 100, Fault::None)?,
    )?;
    let mut counts = Vec::new(alloc);
    for batch in 0..batches(alloc)?.len() {
        let (disk, _) = play(alloc, never, Some(batch))?;
        let mut device = MemoryDevice::new(alloc, disk.seen.to_vec(alloc)?, 100, Fault::None)?;
        counts.push(open(alloc, &mut device)?.strings.len())?;
    }
    counts.push(found.strings.len())?;
    Ok(counts)
}

/// Begins a journal and keeps a replica in it, until a call fails or so many batches are kept: the disk, and how many settled; none, where not even the
/// start did.
fn play(alloc: Global, wrong: Wrong, most: Option<usize>) -> Result<(Disk, Option<usize>), Fail> {
    let mut disk = Disk::new(alloc, wrong)?;
    let Ok(found) = open(alloc, &mut disk) else {
        return Ok((disk, None));
    };
    let mut journal = Journal {
        device: disk,
        end: found.end,
    };
    let mut batch = Batch::new(alloc);
    put_begin(alloc, &mut batch, 9, 0, 3)?;
    put_start(alloc, &mut batch, 1, 0, true)?;
    if settle(&mut journal, &batch).is_err() {
        return Ok((journal.device, None));
    }
    let mut replica = Replica::first(alloc, 0, 3)?;
    let mut kept = 0;
    for events in batches(alloc)? {
        if Some(kept) == most || keep_events(alloc, &mut replica, &mut journal, events).is_err() {
            return Ok((journal.device, Some(kept)));
        }
        kept += 1;
    }
    Ok((journal.device, Some(kept)))
}

/// These octets tell one of these texts.
fn tells_one(
    rt: &impl Abort,
    alloc: Global,
    octets: Vec<u8>,
    texts: &[String],
    what: &str,
) -> Result<(), Fail> {
    let mut device = MemoryDevice::new(alloc, octets, 100, Fault::None)?;
    let found = open(alloc, &mut device)?;
    let told = tell(alloc, &found.strings)?;
    let text = text_of(alloc, &told)?;
    let mut is_one = false;
    for other in texts {
        is_one = is_one || *other == text;
    }
    assert!(rt; is_one, "{what}: told {text}");
    Ok(())
}

/// Whatever a power cut leaves of a disk tells one of these texts.
fn each_cut_tells_one(
    rt: &impl Abort,
    alloc: Global,
    disk: &Disk,
    texts: &[String],
    what: &str,
) -> Result<(), Fail> {
    tells_one(rt, alloc, disk.left(alloc, &|_| false)?, texts, what)?;
    tells_one(rt, alloc, disk.left(alloc, &|_| true)?, texts, what)?;
    tells_one(rt, alloc, disk.left(alloc, &|at| at % 2 == 0)?, texts, what)?;
    tells_one(rt, alloc, disk.left(alloc, &|at| at % 2 == 1)?, texts, what)?;
    for cut in 0..ROOM {
        if disk.settled[cut] != disk.newest[cut] {
            tells_one(rt, alloc, disk.left(alloc, &|at| at < cut)?, texts, what)?;
            tells_one(rt, alloc, disk.left(alloc, &|at| at > cut)?, texts, what)?;
            tells_one(rt, alloc, disk.left(alloc, &|at| at != cut)?, texts, what)?;
        }
    }
    Ok(())
}

/// One run in which something goes wrong; whether it did.
fn survives(
    rt: &impl Abort,
    alloc: Global,
    wrong: Wrong,
    counts: &[usize],
    texts: &[String],
) -> Result<bool, Fail> {
    let (disk, kept) = play(alloc, wrong, None)?;
    let (least, most) = match kept {
        None => (0, counts[0]),
        Some(kept) => (counts[kept], counts[(kept + 1).min(counts.len() - 1)]),
    };
    let what = format!(in alloc; "call {}, kept {kept:?}", wrong.at)?;
    each_cut_tells_one(rt, alloc, &disk, &texts[least..=most], what.as_str())?;
    Ok(disk.calls >= wrong.at)
}

#[test]
fn each_call_may_fail_or_be_the_last(rt: HostRuntime) -> Result<(), Fail> {
    let alloc = rt.alloc();
    let counts = counts(alloc)?;
    let never = Wrong {
        at: 0,
        is_last: false,
    };
    let (whole, _) = play(alloc, never, None)?;
    let texts = texts(alloc, &whole.seen)?;
    assert_eq!(&rt; texts.len(), counts[counts.len() - 1] + 1);
    let mut struck = 0;
    for at in 1..100 {
        let fails = Wrong { at, is_last: false };
        let stops = Wrong { at, is_last: true };
        let has_failed = survives(&rt, alloc, fails, &counts, &texts)?;
        let has_stopped = survives(&rt, alloc, stops, &counts, &texts)?;
        if has_failed && has_stopped {
            struck += 1;
        }
    }
    assert!(&rt; struck > 10 && struck < 99, "{struck} calls");
    Ok(())
}
