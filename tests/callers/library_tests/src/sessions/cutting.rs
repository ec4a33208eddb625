//! Streams cut anywhere, readers that fail and writers that fail or take little, at every place of one session. The session and its responses
//! are those of worked examples. What clauses say already is not here.

use crate::sessions::sample::{BIND, Site, config, octets, sample, talk};
use ldap_session::{SessionEnd, serve};
use std::alloc::Global;
use std::io::{self, ErrorKind, Read, Write};
use std::process::Abort;
use std::test::*;

/// A request, and the responses to it.
#[derive(Clone, Copy)]
struct Step {
    request: &'static str,
    responses: &'static str,
}

/// A search.
const SEARCH: Step = Step {
    request: "302a020101632504000a01020a0100020100020100010100a30c04056c6162656c040361626330040402636e",
    responses: "303702010164320421636e3d416e612c6f753d4974656d732c64633d6578616d706c652c64633d636f6d300d300b0402636e31050403416e61300c02010165070a010004000400",
};

/// The same search, naming the number reached.
const NAMING: Step = Step {
    request: "3040020101632504000a01020a0100020100020100010100a30c04056c6162656c040361626330040402636ea0143012040d322e32352e3230313230313031040136",
    responses: "303702010164320421636e3d416e612c6f753d4974656d732c64633d6578616d706c652c64633d636f6d300d300b0402636e31050403416e61302202010165070a010004000400a0143012040d322e32352e3230313230313031040136",
};

/// The same search, naming a number that isn't reached.
const TOO_SOON: Step = Step {
    request: "3040020101632504000a01020a0100020100020100010100a30c04056c6162656c040361626330040402636ea0143012040d322e32352e3230313230313031040137",
    responses: "302202010165070a013304000400a0143012040d322e32352e3230313230313031040136",
};

/// The octets of all requests.
fn requests(alloc: Global) -> Result<Vec<u8>, Fail> {
    octets(alloc, &[SEARCH.request, NAMING.request, TOO_SOON.request])
}

/// The responses to the requests that stand whole in so many octets.
fn responses_by(alloc: Global, read: usize) -> Result<Vec<u8>, Fail> {
    let mut needed = Vec::new(alloc);
    let mut all = Vec::new(alloc);
    for step in [SEARCH, NAMING, TOO_SOON] {
        needed.extend_from_slice(&hex::decode(alloc, step.request)?)?;
        if needed.len() <= read {
            all.extend_from_slice(&hex::decode(alloc, step.responses)?)?;
        }
    }
    Ok(all)
}

/// Octets that are read so many at a time, the first time perhaps fewer, until a read fails.
#[derive(Drop)]
struct Reader<'a> {
    left: &'a [u8],
    first: usize,
    most: usize,
    reads: usize,
}

impl Read for Reader<'_> {
    fn read(&mut self, buf: &mut [u8]) -> io::Result<usize> {
        if self.reads == 0 {
            return Err(io::Error::from(ErrorKind::Other));
        }
        self.reads -= 1;
        let count = self.left.len().min(buf.len()).min(self.first);
        let (given, left) = self.left.split_at(count);
        buf[..count].copy_from_slice(given);
        self.left = left;
        self.first = self.most;
        Ok(count)
    }
}

/// What is written, so many octets at a time, until a write fails.
#[derive(Drop)]
struct Writer {
    written: Vec<u8>,
    most: usize,
    writes: usize,
}

impl Write for Writer {
    fn write(&mut self, buf: &[u8]) -> io::Result<usize> {
        if self.writes == 0 {
            return Err(io::Error::from(ErrorKind::Other));
        }
        self.writes -= 1;
        let count = buf.len().min(self.most);
        if self.written.extend_from_slice(&buf[..count]).is_err() {
            return Err(io::Error::from(ErrorKind::OutOfMemory));
        }
        Ok(count)
    }

    fn flush(&mut self) -> io::Result<()> {
        Ok(())
    }
}

/// A session over the sample, read and written so: what is written, and how it ends.
fn served(
    alloc: Global,
    site: &mut Site,
    mut reader: Reader<'_>,
    most: usize,
    writes: usize,
) -> Result<(Vec<u8>, SessionEnd), Fail> {
    let Site {
        schema,
        manager,
        directory,
    } = site;
    let config = config(schema, manager, 3);
    let mut writer = Writer {
        written: Vec::new(alloc),
        most,
        writes,
    };
    let end = serve(alloc, &mut reader, &mut writer, directory, &config);
    Ok((writer.written, end))
}

/// Octets that are read so many at a time, the first time perhaps fewer.
fn pieces(left: &[u8], first: usize, most: usize) -> Reader<'_> {
    Reader {
        left,
        first,
        most,
        reads: usize::MAX,
    }
}

/// Compares what is written.
fn is_written(rt: &impl Abort, alloc: Global, written: &[u8], responses: &str) -> Result<(), Fail> {
    let wanted = octets(alloc, &[responses])?;
    assert!(rt; written == wanted.as_slice());
    Ok(())
}

/// Reads the first request so, and compares what is written.
fn check_read(
    rt: &impl Abort,
    alloc: Global,
    site: &mut Site,
    reader: Reader<'_>,
) -> Result<(), Fail> {
    let (written, end) = served(alloc, site, reader, usize::MAX, usize::MAX)?;
    assert_eq!(rt; end, SessionEnd::EndOfInput);
    is_written(rt, alloc, &written, SEARCH.responses)
}

/// Cuts the request at this place alone, and into pieces of this length.
fn check_cut(
    rt: &impl Abort,
    alloc: Global,
    site: &mut Site,
    input: &[u8],
    place: usize,
) -> Result<(), Fail> {
    check_read(rt, alloc, site, pieces(input, place, usize::MAX))?;
    check_read(rt, alloc, site, pieces(input, place, place))
}

/// Cuts the request at each place.
fn check_cuts(rt: &impl Abort, alloc: Global, site: &mut Site, input: &[u8]) -> Result<(), Fail> {
    for place in 1..=input.len() {
        check_cut(rt, alloc, site, input, place)?;
    }
    Ok(())
}

#[test]
fn a_request_is_read_cut_at_any_place(rt: HostRuntime) -> Result<(), Fail> {
    let alloc = rt.alloc();
    let mut site = sample(alloc)?;
    let input = octets(alloc, &[SEARCH.request])?;
    check_cuts(&rt, alloc, &mut site, &input)
}

/// Compares what is written with the responses to the requests that stand whole in so many octets.
fn is_written_by(rt: &impl Abort, alloc: Global, written: &[u8], read: usize) -> Result<(), Fail> {
    let wanted = responses_by(alloc, read)?;
    assert!(rt; written == wanted.as_slice());
    Ok(())
}

/// Reads octet by octet until a read fails.
fn check_failing_read(
    rt: &impl Abort,
    alloc: Global,
    site: &mut Site,
    input: &[u8],
    reads: usize,
) -> Result<(), Fail> {
    let mut reader = pieces(input, 1, 1);
    reader.reads = reads;
    let (written, end) = served(alloc, site, reader, usize::MAX, usize::MAX)?;
    assert_eq!(rt; end, SessionEnd::ReadFailed);
    is_written_by(rt, alloc, &written, reads)
}

/// Fails at each read.
fn check_failing_reads(
    rt: &impl Abort,
    alloc: Global,
    site: &mut Site,
    input: &[u8],
) -> Result<(), Fail> {
    for reads in 0..=input.len() {
        check_failing_read(rt, alloc, site, input, reads)?;
    }
    Ok(())
}

#[test]
fn a_reader_fails_at_any_read(rt: HostRuntime) -> Result<(), Fail> {
    let alloc = rt.alloc();
    let mut site = sample(alloc)?;
    let input = requests(alloc)?;
    check_failing_reads(&rt, alloc, &mut site, &input)
}

/// Writes octet by octet until a write fails: a front of the responses is written, as long as there were writes.
fn check_failing_write(
    rt: &impl Abort,
    alloc: Global,
    site: &mut Site,
    input: &[u8],
    all: &[u8],
    writes: usize,
) -> Result<(), Fail> {
    let (written, end) = served(alloc, site, pieces(input, input.len(), 1), 1, writes)?;
    assert_eq!(rt; written.len(), writes);
    assert!(rt; all.starts_with(&written));
    if writes < all.len() {
        assert_eq!(rt; end, SessionEnd::WriteFailed);
    } else {
        assert_eq!(rt; end, SessionEnd::EndOfInput);
    }
    Ok(())
}

/// Fails at each write, and at none.
fn check_failing_writes(
    rt: &impl Abort,
    alloc: Global,
    site: &mut Site,
    input: &[u8],
) -> Result<(), Fail> {
    let all = responses_by(alloc, usize::MAX)?;
    for writes in 0..=all.len() {
        check_failing_write(rt, alloc, site, input, &all, writes)?;
    }
    Ok(())
}

#[test]
fn a_writer_fails_at_any_write(rt: HostRuntime) -> Result<(), Fail> {
    let alloc = rt.alloc();
    let mut site = sample(alloc)?;
    let input = requests(alloc)?;
    check_failing_writes(&rt, alloc, &mut site, &input)
}

/// Nothing is written to a message that is cut off.
fn check_part(rt: &impl Abort, alloc: Global, site: &mut Site, part: &[u8]) -> Result<(), Fail> {
    let (written, end) = talk(alloc, site, 3, part)?;
    assert!(rt; written.is_empty());
    assert_eq!(rt; end, SessionEnd::Truncated);
    Ok(())
}

/// Ends at each place inside of the message.
fn check_parts(rt: &impl Abort, alloc: Global, site: &mut Site, input: &[u8]) -> Result<(), Fail> {
    for length in 1..input.len() {
        check_part(rt, alloc, site, &input[..length])?;
    }
    Ok(())
}

#[test]
fn a_session_ends_inside_a_message(rt: HostRuntime) -> Result<(), Fail> {
    let alloc = rt.alloc();
    let mut site = sample(alloc)?;
    let input = octets(alloc, &[BIND])?;
    check_parts(&rt, alloc, &mut site, &input)
}
