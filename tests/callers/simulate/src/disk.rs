//! A disk: what a read gives, what is settled, and which writes no sync has settled yet. A crash leaves of each such write what chance says.

use crate::chance::Chance;
use crate::growth::{pause, resume};
use std::alloc::{AllocError, Global};

/// A write that no sync has settled.
#[derive(Drop)]
struct Unsettled {
    at: usize,
    octets: Vec<u8>,
}

/// What goes wrong with a disk.
#[derive(Clone, Copy, Debug, PartialEq, Eq)]
pub enum Trouble {
    Nothing,
    /// After so many further calls one is not done, or done in part.
    Fails(u64),
    /// Planted: a sync says that it is done, and settles nothing.
    ForgetsSyncs,
}

/// A disk in memory, for a stored view or for a journal.
#[derive(Drop)]
pub struct Disk {
    alloc: Global,
    seen: Vec<u8>,
    settled: Vec<u8>,
    unsettled: Vec<Unsettled>,
    pub trouble: Trouble,
    failures: u64,
    pub syncs: u64,
}

/// Puts octets over and behind what is there.
fn put(image: &mut Vec<u8>, at: usize, octets: &[u8]) -> Result<(), AllocError> {
    for place in 0..octets.len() {
        if at + place < image.len() {
            image[at + place] = octets[place];
        } else {
            image.push(octets[place])?;
        }
    }
    Ok(())
}

impl Disk {
    /// A disk that holds nothing.
    pub fn new(alloc: Global) -> Disk {
        Disk {
            alloc,
            seen: Vec::new(alloc),
            settled: Vec::new(alloc),
            unsettled: Vec::new(alloc),
            trouble: Trouble::Nothing,
            failures: 0,
            syncs: 0,
        }
    }

    /// Counts a call; whether it fails.
    fn is_struck(&mut self) -> bool {
        match self.trouble {
            Trouble::Fails(0) => {
                self.failures += 1;
                true
            }
            Trouble::Fails(left) => {
                self.trouble = Trouble::Fails(left - 1);
                false
            }
            Trouble::Nothing | Trouble::ForgetsSyncs => false,
        }
    }

    fn take_len(&mut self) -> Option<u64> {
        if self.is_struck() {
            return None;
        }
        Some(self.seen.len() as u64)
    }

    fn take_read(&mut self, at: u64, buffer: &mut [u8]) -> bool {
        if self.is_struck() {
            return false;
        }
        let at = at as usize;
        for place in 0..buffer.len() {
            buffer[place] = self.seen[at + place];
        }
        true
    }

    /// Writes.
    fn take_write(&mut self, at: u64, octets: &[u8]) -> bool {
        pause();
        let is_done = self.write_now(at, octets);
        resume();
        is_done
    }

    /// Writes; of a write that fails the first half is there.
    fn write_now(&mut self, at: u64, octets: &[u8]) -> bool {
        let fails = self.is_struck();
        let at = at as usize;
        let count = if fails { octets.len() / 2 } else { octets.len() };
        let Ok(copy) = octets.to_vec(self.alloc) else {
            return false;
        };
        let noted = self.unsettled.push(Unsettled { at, octets: copy });
        noted.is_ok() && put(&mut self.seen, at, &octets[..count]).is_ok() && !fails
    }

    fn take_sync(&mut self) -> bool {
        pause();
        let is_done = self.sync_now();
        resume();
        is_done
    }

    fn sync_now(&mut self) -> bool {
        self.syncs += 1;
        if self.is_struck() {
            return false;
        }
        if self.trouble == Trouble::ForgetsSyncs {
            return true;
        }
        self.settle().is_ok()
    }

    /// All that was written is settled.
    fn settle(&mut self) -> Result<(), AllocError> {
        for write in &self.unsettled {
            put(&mut self.settled, write.at, &write.octets)?;
        }
        self.unsettled = Vec::new(self.alloc);
        Ok(())
    }

    fn take_grow(&mut self, octets: u64) -> bool {
        pause();
        let is_done = self.grow_now(octets);
        resume();
        is_done
    }

    fn grow_now(&mut self, octets: u64) -> bool {
        if self.is_struck() {
            return false;
        }
        for _ in 0..octets {
            if self.seen.push(0).is_err() || self.settled.push(0).is_err() {
                return false;
            }
        }
        true
    }

    /// Whether a write waits for a sync.
    pub fn is_unsettled(&self) -> bool {
        !self.unsettled.is_empty()
    }

    /// Its machine loses its power: of each unsettled write all, nothing, a first part, or single octets stay.
    pub fn lose_power(&mut self, chance: &mut Chance, may_mix: bool) -> Result<(), AllocError> {
        let mut left = self.settled.to_vec(self.alloc)?;
        for write in &self.unsettled {
            let fate = chance.below(4);
            let cut = chance.below(write.octets.len() as u64 + 1) as usize;
            for place in 0..write.octets.len() {
                let is_kept = match fate {
                    0 => false,
                    1 => true,
                    2 => place < cut,
                    _ => may_mix && chance.hits(500),
                };
                if is_kept {
                    let to = (write.at + place).min(left.len());
                    put(&mut left, to, &[write.octets[place]])?;
                }
            }
        }
        self.seen = left.to_vec(self.alloc)?;
        self.settled = left;
        self.unsettled = Vec::new(self.alloc);
        self.trouble = Trouble::Nothing;
        Ok(())
    }

    /// Its process is killed: all that was written is there, and is settled in time.
    pub fn lose_process(&mut self) -> Result<(), AllocError> {
        self.settled = self.seen.to_vec(self.alloc)?;
        self.unsettled = Vec::new(self.alloc);
        self.trouble = Trouble::Nothing;
        Ok(())
    }
}

impl view_store::Device for Disk {
    ghost seen = { λ d. d.seen.items };

    ghost may_leave = { λ _ _. Unit {0} };

    ghost moment = { λ _. 0 };

    ghost left_since = { λ _ _ _. Unit {0} };

    ghost failure_count = { λ d. d.failures };

    fn len(&mut self) -> Result<u64, view_store::DeviceFailure> {
        self.take_len().ok_or(view_store::DeviceFailure)
    }

    fn read(&mut self, at: u64, buffer: &mut [u8]) -> Result<(), view_store::DeviceFailure> {
        if self.take_read(at, buffer) {
            Ok(())
        } else {
            Err(view_store::DeviceFailure)
        }
    }

    fn write_at(&mut self, at: u64, octets: &[u8]) -> Result<(), view_store::DeviceFailure> {
        if self.take_write(at, octets) {
            Ok(())
        } else {
            Err(view_store::DeviceFailure)
        }
    }

    fn sync(&mut self) -> Result<(), view_store::DeviceFailure> {
        if self.take_sync() {
            Ok(())
        } else {
            Err(view_store::DeviceFailure)
        }
    }

    fn failures(&self) -> u64 {
        self.failures
    }

    ghost counts_now = { λ _ _ _ _ _. tt };

    ghost only_now = { λ _ _ _. tt };
}

impl journal::Device for Disk {
    ghost seen = { λ d. d.seen.items };

    ghost may_leave = { λ _ _. Unit {0} };

    ghost moment = { λ _. 0 };

    ghost left_since = { λ _ _ _. Unit {0} };

    ghost failure_count = { λ d. d.failures };

    fn len(&mut self) -> Result<u64, journal::DeviceFailure> {
        self.take_len().ok_or(journal::DeviceFailure)
    }

    fn read(&mut self, at: u64, buffer: &mut [u8]) -> Result<(), journal::DeviceFailure> {
        if self.take_read(at, buffer) {
            Ok(())
        } else {
            Err(journal::DeviceFailure)
        }
    }

    fn forget(&mut self, _before: u64) {}

    fn write_at(&mut self, at: u64, octets: &[u8]) -> Result<(), journal::DeviceFailure> {
        if self.take_write(at, octets) {
            Ok(())
        } else {
            Err(journal::DeviceFailure)
        }
    }

    fn sync(&mut self) -> Result<(), journal::DeviceFailure> {
        if self.take_sync() {
            Ok(())
        } else {
            Err(journal::DeviceFailure)
        }
    }

    fn grow(&mut self, octets: u64) -> Result<(), journal::GrowthError> {
        if self.take_grow(octets) {
            Ok(())
        } else {
            Err(journal::GrowthError::DeviceFailed)
        }
    }

    ghost counts_now = { λ _ _ _ _ _. tt };

    ghost only_now = { λ _ _ _. tt };
}
