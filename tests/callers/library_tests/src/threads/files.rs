//! A stored view in a real file. A path flows in; what a file gives again is compared.

use file_device::{Cluster, Device, FileDevice, FileDeviceError, Pair, ViewStore, ViewStoreError};
use std::fs;
use std::io::ErrorKind;
use std::process::Abort;
use std::test::*;

#[test]
fn a_file_gives_what_was_written(rt: HostRuntime) -> Result<(), Fail> {
    let path = "octets_of_a_device";
    let _was_there = fs::remove_file(&rt, path).is_ok();
    let mut device = FileDevice::open(&rt, rt.alloc(), path, true)?;
    assert!(rt; device.len() == Ok(0));
    assert!(rt; device.write_at(0, b"abcdefgh").is_ok() && device.sync().is_ok());
    assert!(rt; FileDevice::open(&rt, rt.alloc(), path, true).err() == Some(FileDeviceError::InUse));
    drop(device);
    let mut again = FileDevice::open(&rt, rt.alloc(), path, true)?;
    assert!(rt; again.len() == Ok(8));
    let mut octets = [0u8; 3];
    assert!(rt; again.read(2, &mut octets).is_ok());
    assert!(rt; octets == *b"cde");
    fs::write(&rt, path, "abcdEfgh")?;
    assert!(rt; again.read(2, &mut octets).is_err());
    assert_eq!(rt; again.failures(), 1);
    fs::remove_file(&rt, path)?;
    Ok(())
}

#[test]
fn a_file_is_made_in_the_folder_of_its_path(rt: HostRuntime) -> Result<(), Fail> {
    let path = "./folder_of_a_device";
    let _was_there = fs::remove_file(&rt, path).is_ok();
    let unmade = FileDevice::open(&rt, rt.alloc(), path, false);
    let is_there = fs::exists(&rt, path)?;
    assert!(rt; unmade.is_err() && !is_there);
    drop(FileDevice::open(&rt, rt.alloc(), path, true)?);
    fs::remove_file(&rt, path)?;
    let nowhere = FileDevice::open(&rt, rt.alloc(), "no_folder_of_a_device/file", true);
    assert!(rt; nowhere.err() == Some(FileDeviceError::Failed(ErrorKind::NotFound)));
    Ok(())
}

/// A pair without a journal.
fn pair(view: u64, restarts: u64) -> Pair {
    Pair {
        view,
        restarts,
        journaled: false,
    }
}

#[test]
fn a_stored_view_is_loaded_from_its_file(rt: HostRuntime) -> Result<(), Fail> {
    let path = "stored_view_of_a_replica";
    let _was_there = fs::remove_file(&rt, path).is_ok();
    let cluster = Cluster::new(9).expect(&rt, "9 is the number of a cluster");
    let mut first = ViewStore::new(FileDevice::open(&rt, rt.alloc(), path, true)?, cluster);
    assert!(rt; first.format().is_ok() && first.store(pair(3, 1)).is_ok());
    drop(first);
    let mut second = ViewStore::new(FileDevice::open(&rt, rt.alloc(), path, true)?, cluster);
    assert!(rt; second.load() == Ok(pair(3, 1)));
    assert!(rt; second.store(pair(4, 2)).is_ok() && second.load() == Ok(pair(4, 2)));
    drop(second);
    let other = Cluster::new(8).expect(&rt, "8 is the number of a cluster");
    let mut third = ViewStore::new(FileDevice::open(&rt, rt.alloc(), path, true)?, other);
    assert!(rt; third.load() == Err(ViewStoreError::ForeignCluster));
    drop(third);
    fs::remove_file(&rt, path)?;
    Ok(())
}
