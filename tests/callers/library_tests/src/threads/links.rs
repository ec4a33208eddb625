//! Links over this machine's loopback, and the frames of streams in memory. Frames flow out and in, and are compared.

use crate::threads::signal::Signal;
use peer_link::{
    Address, Bytes, Dial, FrameEnd, Framing, StreamState, LinkTimes, Outbox, REFUSAL, SocketDialer,
    read_head, read_rest, send_all,
};
use std::alloc::{AllocError, Global};
use std::io::Write;
use std::net::{Net, TcpListener, TcpStream};
use std::process::Abort;
use std::sync::{Mutex, Wait};
use std::test::*;
use std::thread::Threads;
use std::time::{Clock, Duration};
use std::{io, thread};

/// The other end is asked ten times a second whether it is there, and may be silent for half a second.
fn times() -> LinkTimes {
    LinkTimes {
        beat: Duration::from_millis(100),
        silence: Duration::from_millis(500),
    }
}

/// Frames that are sent as they are.
#[derive(Drop)]
struct AsTheyAre {
    next: Option<Bytes>,
}

impl Framing<Bytes> for AsTheyAre {
    fn greeting(&mut self) -> Option<Bytes> {
        Some(Bytes::new())
    }

    fn begin(&mut self, frame: Bytes) {
        self.next = Some(frame);
    }

    fn next_frame(&mut self) -> Option<Bytes> {
        self.next.take()
    }

    fn fail(&mut self) {}

    fn heard(&mut self) {}

    fn refused(&mut self, _why: [u8; REFUSAL]) {}

    fn silent(&mut self) {}
}

/// A frame of one octet.
fn frame(alloc: Global, octet: u8) -> Result<Bytes, AllocError> {
    Ok(Bytes::from_vec(vec![in alloc; 0, 0, 0, 1, octet]?)?)
}

/// Takes a connection and one frame of it, and closes it: the frame's octet.
fn take_one(alloc: Global, listener: &TcpListener) -> io::Result<u8> {
    let (mut stream, _) = listener.accept()?;
    let Ok(head) = read_head(&mut stream) else {
        return Ok(0);
    };
    match read_rest(alloc, &mut stream, head, u32::from_be_bytes(head)) {
        Ok(frame) => Ok(frame.last().copied().unwrap_or(0)),
        Err(_) => Ok(0),
    }
}

/// Puts a frame now and then, until that is no longer needed.
fn put_until<R: Wait + Clock>(
    rt: &R,
    alloc: Global,
    outbox: &Outbox<Bytes, TcpStream>,
    taken: &Signal,
) -> Result<(), AllocError> {
    for _ in rt.forever() {
        if taken.has_come(rt) {
            break;
        }
        outbox.put(rt, frame(alloc, 2)?, 5);
        thread::sleep(rt, Duration::from_millis(5));
    }
    Ok(())
}

/// Takes a frame, and says so.
fn take_and_tell<R: Wait>(
    rt: &R,
    alloc: Global,
    listener: &TcpListener,
    taken: &Signal,
) -> io::Result<u8> {
    let octet = take_one(alloc, listener);
    taken.give(rt);
    octet
}

/// Takes one frame of a link, closes it, and takes a frame of the next while frames are put.
fn take_two<R: Wait + Clock + Threads + Sync>(
    rt: &R,
    alloc: Global,
    listener: &TcpListener,
    outbox: &Outbox<Bytes, TcpStream>,
) -> io::Result<(u8, u8)> {
    let first = take_one(alloc, listener)?;
    let taken = Signal::new();
    let (second, put) = thread::join(
        rt,
        || take_and_tell(rt, alloc, listener, &taken),
        || put_until(rt, alloc, outbox, &taken),
    );
    put?;
    Ok((first, second?))
}

/// Takes one frame of a link, closes it, and takes the one that is put long after.
fn take_late<R: Wait + Clock>(
    rt: &R,
    alloc: Global,
    listener: &TcpListener,
    outbox: &Outbox<Bytes, TcpStream>,
) -> io::Result<(u8, u8)> {
    let first = take_one(alloc, listener)?;
    thread::sleep(rt, Duration::from_millis(1100));
    outbox.put(rt, frame(alloc, 3)?, 5);
    Ok((first, take_one(alloc, listener)?))
}

/// Stops a link when this is done.
fn and_stop<R: Wait, I, S: Drop, T>(rt: &R, outbox: &Outbox<I, S>, done: T) -> T {
    outbox.stop(rt);
    done
}

#[test]
fn a_closed_link_is_made_again(rt: HostRuntime) -> Result<(), Fail> {
    let listener = TcpListener::bind(&rt, "127.0.0.1:0")?;
    let at = listener.local_addr()?;
    let outbox = Outbox::new(rt.alloc(), 8, 1000)?;
    outbox.put(&rt, frame(rt.alloc(), 1)?, 5);
    let (taken, ()) = thread::join(
        &rt,
        || and_stop(&rt, &outbox, take_two(&rt, rt.alloc(), &listener, &outbox)),
        || {
            let mut dialer = SocketDialer::new(&rt, Address::Numbers(at), Duration::from_secs(5));
            send_all(&rt, rt.alloc(), &outbox, &mut AsTheyAre { next: None }, &mut dialer, times());
        },
    );
    let (first, second) = taken?;
    assert_eq!(rt; first, 1);
    assert_eq!(rt; second, 2);
    Ok(())
}

#[test]
fn an_idle_link_that_was_closed_loses_no_frame(rt: HostRuntime) -> Result<(), Fail> {
    let listener = TcpListener::bind(&rt, "127.0.0.1:0")?;
    let at = listener.local_addr()?;
    let outbox = Outbox::new(rt.alloc(), 8, 1000)?;
    outbox.put(&rt, frame(rt.alloc(), 1)?, 5);
    let (taken, ()) = thread::join(
        &rt,
        || and_stop(&rt, &outbox, take_late(&rt, rt.alloc(), &listener, &outbox)),
        || {
            let mut dialer = SocketDialer::new(&rt, Address::Numbers(at), Duration::from_secs(5));
            send_all(&rt, rt.alloc(), &outbox, &mut AsTheyAre { next: None }, &mut dialer, times());
        },
    );
    let (first, second) = taken?;
    assert_eq!(rt; first, 1);
    assert_eq!(rt; second, 3);
    Ok(())
}

/// The next frame of a stream in memory.
fn next(alloc: Global, stream: &mut &[u8]) -> Result<Vec<u8>, FrameEnd> {
    let head = read_head(stream)?;
    read_rest(alloc, stream, head, u32::from_be_bytes(head))
}

#[test]
fn frames_end_with_their_stream(rt: HostRuntime) -> Result<(), Fail> {
    let octets = b"\x00\x00\x00\x02ab\x00\x00\x00\x00\x00\x00\x00\x03ab";
    let mut stream: &[u8] = &octets[..];
    assert!(rt; next(rt.alloc(), &mut stream)?.as_slice() == &b"\x00\x00\x00\x02ab"[..]);
    assert!(rt; next(rt.alloc(), &mut stream)?.as_slice() == &b"\x00\x00\x00\x00"[..]);
    assert!(rt; next(rt.alloc(), &mut stream).err() == Some(FrameEnd::Cut));
    assert!(rt; next(rt.alloc(), &mut stream).err() == Some(FrameEnd::Closed));
    let mut head: &[u8] = &octets[..3];
    assert!(rt; next(rt.alloc(), &mut head).err() == Some(FrameEnd::Cut));
    Ok(())
}

/// What was written, 255 behind each write, and a place that says so when the last octet has come.
#[derive(Drop)]
struct Paper<'a, R> {
    rt: &'a R,
    written: &'a Mutex<Vec<u8>>,
    whole: &'a Signal,
    /// What the last octet is.
    last: u8,
}

impl<'a, R: Wait> Write for Paper<'a, R> {
    fn write(&mut self, octets: &[u8]) -> io::Result<usize> {
        self.written.lock(self.rt).extend_from_slice(octets)?;
        self.written.lock(self.rt).push(255)?;
        if octets.last().copied() == Some(self.last) {
            self.whole.give(self.rt);
        }
        Ok(octets.len())
    }

    fn flush(&mut self) -> io::Result<()> {
        Ok(())
    }
}

/// Makes streams that write on one paper.
#[derive(Drop)]
struct PaperDialer<'a, R> {
    rt: &'a R,
    written: &'a Mutex<Vec<u8>>,
    whole: &'a Signal,
    last: u8,
}

impl<'a, R: Wait> Dial for PaperDialer<'a, R> {
    type Stream = Paper<'a, R>;

    fn dial(&mut self) -> Option<Paper<'a, R>> {
        Some(Paper {
            rt: self.rt,
            written: self.written,
            whole: self.whole,
            last: self.last,
        })
    }

    fn hear(&mut self, _stream: &Paper<'a, R>) -> StreamState {
        StreamState::Nothing
    }
}

/// Greets by 200. Makes two frames of each number below 100, the number and 100 more; of 7 none. As it begins with 1 it puts 9 into the queue itself, which would
/// wait for ever if the queue's lock were held.
#[derive(Drop)]
struct InTwo<'b, 'a, R> {
    rt: &'b R,
    alloc: Global,
    outbox: &'b Outbox<u8, Paper<'a, R>>,
    left: [Option<u8>; 2],
}

impl<'b, 'a, R: Wait> Framing<u8> for InTwo<'b, 'a, R> {
    fn greeting(&mut self) -> Option<Bytes> {
        Bytes::from_vec(vec![in self.alloc; 200].ok()?).ok()
    }

    fn begin(&mut self, number: u8) {
        if number == 1 {
            self.outbox.put(self.rt, 9, 1);
        }
        self.left = if number == 7 {
            [None, None]
        } else {
            [Some(number), number.checked_add(100)]
        };
    }

    fn next_frame(&mut self) -> Option<Bytes> {
        let [first, second] = self.left;
        self.left = [second, None];
        Bytes::from_vec(vec![in self.alloc; first?].ok()?).ok()
    }

    fn fail(&mut self) {}

    fn heard(&mut self) {}

    fn refused(&mut self, _why: [u8; REFUSAL]) {}

    fn silent(&mut self) {}
}

#[test]
fn items_that_wait_go_out_in_one_write_outside_the_lock(rt: HostRuntime) -> Result<(), Fail> {
    let written = Mutex::new(Vec::new(rt.alloc()));
    let whole = Signal::new();
    let outbox = Outbox::new(rt.alloc(), 8, 1000)?;
    for number in [1u8, 2, 7, 3] {
        outbox.put(&rt, number, 1);
    }
    let (has_come, ()) = thread::join(
        &rt,
        || and_stop(&rt, &outbox, whole.wait(&rt, Duration::from_secs(20))),
        || {
            let mut dialer = PaperDialer {
                rt: &rt,
                written: &written,
                whole: &whole,
                last: 109,
            };
            let mut frames = InTwo {
                rt: &rt,
                alloc: rt.alloc(),
                outbox: &outbox,
                left: [None, None],
            };
            send_all(&rt, rt.alloc(), &outbox, &mut frames, &mut dialer, times());
        },
    );
    assert!(rt; has_come);
    assert!(rt; written.lock(&rt).as_slice() == &[200u8, 255, 1, 101, 2, 102, 3, 103, 9, 109, 255][..]);
    Ok(())
}

/// Makes no stream at first; then one, once 3 was put into the queue.
#[derive(Drop)]
struct LateDialer<'b, 'a, R> {
    paper: PaperDialer<'a, R>,
    outbox: &'b Outbox<u8, Paper<'a, R>>,
    was_asked: bool,
}

impl<'b, 'a, R: Wait> Dial for LateDialer<'b, 'a, R> {
    type Stream = Paper<'a, R>;

    fn dial(&mut self) -> Option<Paper<'a, R>> {
        if !self.was_asked {
            self.was_asked = true;
            return None;
        }
        self.outbox.put(self.paper.rt, 3, 1);
        self.paper.dial()
    }

    fn hear(&mut self, _stream: &Paper<'a, R>) -> StreamState {
        StreamState::Nothing
    }
}

#[test]
fn what_waits_too_long_for_a_stream_is_forgotten(rt: HostRuntime) -> Result<(), Fail> {
    let written = Mutex::new(Vec::new(rt.alloc()));
    let whole = Signal::new();
    let outbox = Outbox::new(rt.alloc(), 8, 1000)?;
    for number in [4u8, 5] {
        outbox.put(&rt, number, 1);
    }
    let at_once = LinkTimes {
        beat: Duration::from_millis(100),
        silence: Duration::from_millis(0),
    };
    let (has_come, ()) = thread::join(
        &rt,
        || and_stop(&rt, &outbox, whole.wait(&rt, Duration::from_secs(20))),
        || {
            let mut dialer = LateDialer {
                paper: PaperDialer {
                    rt: &rt,
                    written: &written,
                    whole: &whole,
                    last: 103,
                },
                outbox: &outbox,
                was_asked: false,
            };
            let mut frames = InTwo {
                rt: &rt,
                alloc: rt.alloc(),
                outbox: &outbox,
                left: [None, None],
            };
            send_all(&rt, rt.alloc(), &outbox, &mut frames, &mut dialer, at_once);
        },
    );
    assert!(rt; has_come);
    assert!(rt; written.lock(&rt).as_slice() == &[200u8, 255, 3, 103, 255][..]);
    Ok(())
}
