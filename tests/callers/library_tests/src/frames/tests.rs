//! Frames as octets, which were made by hand from the table of frames.

use hex::{decode, encode};
use std::alloc::Global;
use std::process::Abort;
use std::test::*;
use vr_state::message::PeerMessage;
use vr_wire::{Came, Cluster, FrameSizes, Frames, Gathering, WireError, read, rest, write};

/// Replica 0 of cluster 9 says in view 0 that four records are committed.
const COMMIT: &str = "0000001902000000000009030000000000000000000000000000000004";

/// Frames of cluster 9.
const FRAMES: &[(&str, &str)] = &[
    (
        "a PREPARE of a no-op",
        "0000003e0200000000000901010000000000000005000000000000000700000000000000060100000000000000010000000000000001000000000000000300000000",
    ),
    (
        "a PREPARE of a delete by a named client",
        "0000004402000000000009010100000000000000050000000000000007000000000000000600000000000000000000000000000000070000000000000002000000064a0464633d78",
    ),
    (
        "a PREPAREOK",
        "0000001902000000000009020100000000000000050000000000000007",
    ),
    (
        "a COMMIT",
        "0000001902000000000009030100000000000000050000000000000006",
    ),
    (
        "a STARTVIEWCHANGE",
        "000000110200000000000904010000000000000006",
    ),
    (
        "a DOVIEWCHANGE",
        "000000650200000000000905010000000000000006000000000000000500000000000000010000000202000000000000000900000000000000070000000000000002000000064a0464633d780100000000000000010000000000000001000000000000000300000000",
    ),
    (
        "a DOVIEWCHANGE without records",
        "0000002502000000000009050100000000000000060000000000000005000000000000000000000000",
    ),
    (
        "a STARTVIEW",
        "0000005d020000000000090601000000000000000600000000000000010000000200000000000000000000000000000000070000000000000002000000064a0464633d780100000000000000010000000000000001000000000000000300000000",
    ),
    ("a RECOVERY", "000000110200000000000909010000000000000002"),
    (
        "a RECOVERYRESPONSE of a backup",
        "0000001a020000000000090a010000000000000006000000000000000200",
    ),
    (
        "a RECOVERYRESPONSE of the primary",
        "00000049020000000000090a01000000000000000600000000000000020100000000000000010000000100000000000000000000000000000000070000000000000002000000064a0464633d78",
    ),
    (
        "a GETSTATE",
        "00000019020000000000090b0100000000000000060000000000000001",
    ),
    (
        "a NEWSTATE",
        "0000005f020000000000090c000000000000000000000000000000000400000000000000020000000201000000000000000100000000000000010000000000000003000000000100000000000000010000000000000001000000000000000400000000",
    ),
    (
        "greatest numbers",
        "000000190200000000000902ff7fffffffffffffff7fffffffffffffff",
    ),
];

/// Octets that are no frame.
const NO_FRAMES: &[(&str, &str)] = &[
    ("nothing", ""),
    ("a length alone", "00000000"),
    ("three octets", "000000"),
    (
        "version 1",
        "0000001301030000000000000000000000000000000004",
    ),
    (
        "version 1 with a cluster",
        "0000001901000000000009030100000000000000000000000000000004",
    ),
    (
        "version 3",
        "0000001903000000000009030100000000000000000000000000000004",
    ),
    (
        "cluster 0",
        "0000001902000000000000030100000000000000000000000000000004",
    ),
    (
        "kind 0",
        "0000001902000000000009000100000000000000000000000000000004",
    ),
    ("kind 7", "000000110200000000000907010000000000000000"),
    (
        "kind 8",
        "0000001d0200000000000908010000000000000000000000000000000000000000",
    ),
    (
        "kind 13",
        "00000019020000000000090d0100000000000000000000000000000004",
    ),
    (
        "an octet more",
        "0000001a0200000000000903010000000000000000000000000000000400",
    ),
    (
        "an octet less",
        "00000018020000000000090301000000000000000000000000000000",
    ),
    (
        "a length that is too great",
        "0000001a02000000000009030100000000000000000000000000000004",
    ),
    (
        "a length that counts itself",
        "0000001d02000000000009030100000000000000000000000000000004",
    ),
    (
        "a number of 64 bits",
        "0000001902000000000009030100000000000000008000000000000000",
    ),
    (
        "a life of a named client",
        "0000003e0200000000000901010000000000000005000000000000000700000000000000060000000000000000010000000000000007000000000000000200000000",
    ),
    (
        "a payload that is no update",
        "0000004002000000000009010100000000000000050000000000000007000000000000000601000000000000000100000000000000070000000000000002000000023000",
    ),
    (
        "octets after a payload's element",
        "0000004502000000000009010100000000000000050000000000000007000000000000000601000000000000000100000000000000070000000000000002000000074a0464633d7800",
    ),
    (
        "a count without records",
        "0000001d02000000000009060100000000000000060000000000000001ffffffff",
    ),
    (
        "2 for a log that may be missing",
        "0000001a020000000000090a010000000000000006000000000000000202",
    ),
];

fn cluster(rt: &impl Abort, number: u64) -> Cluster {
    Cluster::new(number).expect(rt, "a number of a cluster")
}

/// What the octets of a frame of cluster 9 are read as, written again.
fn again(rt: &impl Abort, alloc: Global, text: &str) -> Result<String, Fail> {
    let frame = decode(alloc, text)?;
    let (sender, message) = read(alloc, &frame, cluster(rt, 9))?;
    let written = write(alloc, cluster(rt, 9), sender, &message)?;
    Ok(encode(alloc, written)?)
}

/// Why the octets are refused.
fn refused(
    rt: &impl Abort,
    alloc: Global,
    text: &str,
    number: u64,
) -> Result<Option<WireError>, Fail> {
    let frame = decode(alloc, text)?;
    match read(alloc, &frame, cluster(rt, number)) {
        Ok(_) => Ok(None),
        Err(error) => Ok(Some(error)),
    }
}

#[test]
fn writes_a_commit(rt: HostRuntime) -> Result<(), Fail> {
    let alloc = rt.alloc();
    let message = PeerMessage::Commit {
        view_number: 0,
        commit_number: 4,
    };
    let frame = write(alloc, cluster(&rt, 9), 0, &message)?;
    assert!(rt; encode(alloc, frame)?.as_str() == COMMIT);
    assert!(rt; again(&rt, alloc, COMMIT)?.as_str() == COMMIT);
    Ok(())
}

#[test]
fn writes_again_what_it_reads(rt: HostRuntime) -> Result<(), Fail> {
    for (name, text) in FRAMES {
        assert!(rt; again(&rt, rt.alloc(), text)?.as_str() == *text, "{name}");
    }
    Ok(())
}

#[test]
fn refuses_what_is_no_frame(rt: HostRuntime) -> Result<(), Fail> {
    for (name, text) in NO_FRAMES {
        for number in [9, 8] {
            let error = refused(&rt, rt.alloc(), text, number)?;
            assert_eq!(rt; error, Some(WireError::BadFrame), "{name}");
        }
    }
    Ok(())
}

#[test]
fn refuses_frames_of_another_cluster(rt: HostRuntime) -> Result<(), Fail> {
    for (name, text) in FRAMES {
        let error = refused(&rt, rt.alloc(), text, 0xffff_ffff_ffff)?;
        assert_eq!(rt; error, Some(WireError::ForeignFrame), "{name}");
    }
    Ok(())
}

#[test]
fn knows_the_limit(rt: HostRuntime) -> Result<(), Fail> {
    assert_eq!(rt; rest([0x0f, 0xff, 0xff, 0xfd]), Err(WireError::BadFrame));
    assert_eq!(rt; rest([0x0f, 0xff, 0xff, 0xfc]), Ok(268_435_452));
    assert_eq!(rt; rest([0xff, 0xff, 0xff, 0xff]), Err(WireError::BadFrame));
    Ok(())
}

/// The frames of a message in cluster 9, where a frame has at most 10 octets: its parts, of so many octets of the message each.
fn parts_of(
    rt: &impl Abort,
    alloc: Global,
    number: u64,
    size: usize,
    text: &str,
) -> Result<Vec<Vec<u8>>, Fail> {
    let (sender, message) = read(alloc, &decode(alloc, text)?, cluster(rt, 9))?;
    let sizes = FrameSizes {
        most: 10,
        part_size: size,
    };
    let mut frames = Frames::of(alloc, cluster(rt, 9), sender, number, sizes, &message)?;
    let mut parts = Vec::new(alloc);
    for _ in 0..1000 {
        match frames.next(alloc)? {
            Some(frame) => parts.push(frame)?,
            None => break,
        }
    }
    Ok(parts)
}

/// What comes of these frames, a letter each: p for a part, d for one that is dropped, m for the message of `text`, ? for another.
fn come_of(
    rt: &impl Abort,
    alloc: Global,
    frames: &[&Vec<u8>],
    text: &str,
) -> Result<String, Fail> {
    let mut gathering = Gathering::new();
    let mut told = String::new(alloc);
    for frame in frames {
        let letter = match gathering.take(alloc, frame, cluster(rt, 9))? {
            Came::Part(_) => 'p',
            Came::Dropped(_) => 'd',
            Came::Message(sender, message) => {
                let again = write(alloc, cluster(rt, 9), sender, &message)?;
                if encode(alloc, again)?.as_str() == text {
                    'm'
                } else {
                    '?'
                }
            }
        };
        told.push(letter)?;
    }
    Ok(told)
}

/// The STARTVIEW of the table: 85 octets are cut in parts, its kind and those behind its sender.
const LONG: &str =
    "0000005d020000000000090601000000000000000600000000000000010000000200000000000000000000000000000000070000000000000002000000064a0464633d780100000000000000010000000000000001000000000000000300000000";

#[test]
fn parts_give_their_message_and_nothing_else_does(rt: HostRuntime) -> Result<(), Fail> {
    let alloc = rt.alloc();
    let parts = parts_of(&rt, alloc, 7, 32, LONG)?;
    let others = parts_of(&rt, alloc, 8, 32, LONG)?;
    let commit = decode(alloc, COMMIT)?;
    assert_eq!(&rt; parts.len(), 3);
    assert!(&rt;
        encode(alloc, &parts[2])?.as_str()
            == "0000002e020000000000090d0100000000000000070000000200000003010000000000000001000000000000000300000000"
    );
    let [a, b, c] = [&parts[0], &parts[1], &parts[2]];
    let rows: [(&str, &[&Vec<u8>], &str); 7] = [
        ("all in their order", &[a, b, c], "ppm"),
        ("one lost", &[a, c], "pd"),
        ("one doubled", &[a, b, b, c], "ppdd"),
        ("another message between", &[a, b, &commit, c], "pp?d"),
        ("one of another message", &[a, &others[1], c], "pdd"),
        ("begun anew", &[a, b, a, b, c], "ppppm"),
        (
            "two messages",
            &[a, b, c, &others[0], &others[1], &others[2]],
            "ppmppm",
        ),
    ];
    for (name, frames, wanted) in rows {
        let told = come_of(&rt, alloc, frames, LONG)?;
        assert!(&rt; told.as_str() == wanted, "{name}: {told}");
    }
    for size in 1..90 {
        let parts = parts_of(&rt, alloc, 1, size, LONG)?;
        let mut frames = Vec::new(alloc);
        for part in &parts {
            frames.push(part)?;
        }
        let told = come_of(&rt, alloc, &frames, LONG)?;
        assert!(&rt;
            told.ends_with('m') && told.len() == 85_usize.div_ceil(size),
            "{size}: {told}"
        );
    }
    Ok(())
}
