//! A reader and the plain reading give the same strings: of many lengths, at the ends of pieces, and behind a torn end.

use journal::{Fault, MemoryDevice, StringReader, open, put_string};
use std::alloc::Global;
use std::process::Abort;
use std::test::*;

/// Strings of lengths about those of a piece, which is 65536 octets, and of many small ones.
fn lengths(alloc: Global) -> Result<Vec<usize>, Fail> {
    let mut lengths = Vec::new(alloc);
    for length in [
        0, 1, 9, 65_000, 526, 65_525, 65_526, 65_527, 200_000, 3, 0, 131_072,
    ] {
        lengths.push(length)?;
    }
    for length in 0..500 {
        lengths.push(length)?;
    }
    Ok(lengths)
}

/// A reader gives the strings of these octets, and ends where the plain reading ends.
fn reads_alike(rt: &impl Abort, alloc: Global, octets: &[u8], what: &str) -> Result<usize, Fail> {
    let mut plain = MemoryDevice::new(alloc, octets.to_vec(alloc)?, 100, Fault::None)?;
    let found = open(alloc, &mut plain)?;
    let mut device = MemoryDevice::new(alloc, octets.to_vec(alloc)?, 1000, Fault::None)?;
    let mut reader = StringReader::new(alloc, &mut device)?;
    let mut count = 0;
    for _ in 0..octets.len() + 1 {
        if !reader.advance(&mut device)? {
            break;
        }
        assert!(rt;
            count < found.strings.len(),
            "{what}: more strings than {count}"
        );
        assert!(rt;
            reader.string() == found.strings[count].as_slice(),
            "{what}: string {count}"
        );
        count += 1;
    }
    assert_eq!(rt; count, found.strings.len(), "{what}");
    assert_eq!(rt; reader.end, found.end, "{what}");
    reader.clear(alloc, &mut device)?;
    assert!(rt;
        device.bytes() == plain.bytes(),
        "{what}: cleared otherwise"
    );
    Ok(count)
}

#[test]
fn a_reader_gives_all_strings(rt: HostRuntime) -> Result<(), Fail> {
    let alloc = rt.alloc();
    let lengths = lengths(alloc)?;
    let mut octets = Vec::new(alloc);
    for (at, length) in lengths.iter().enumerate() {
        let string = vec![in alloc; (at % 251) as u8; *length]?;
        put_string(&mut octets, string.as_slice())?;
    }
    let end = octets.len();
    octets.resize(end + 200_000, 0)?;
    assert_eq!(&rt;
        reads_alike(&rt, alloc, octets.as_slice(), "whole")?,
        lengths.len()
    );
    octets.truncate(end);
    assert_eq!(&rt;
        reads_alike(&rt, alloc, octets.as_slice(), "full")?,
        lengths.len()
    );
    for cut in [1, 10, 300, 499, 505, 509, 510] {
        let read = reads_alike(&rt, alloc, &octets.as_slice()[..end - cut], "cut")?;
        assert!(&rt; read < lengths.len(), "cut {cut}");
    }
    octets.resize(end + 9, 255)?;
    assert_eq!(&rt;
        reads_alike(&rt, alloc, octets.as_slice(), "half a header")?,
        lengths.len()
    );
    octets.resize(end + 100_000, 255)?;
    assert_eq!(&rt;
        reads_alike(&rt, alloc, octets.as_slice(), "a header of too much")?,
        lengths.len()
    );
    assert_eq!(&rt; reads_alike(&rt, alloc, &[], "nothing")?, 0);
    Ok(())
}
