//! Messages that are read whole, and from a stream in pieces. Octets flow in; what is read is printed as it is written again.
use crate::again::{again, print_octets};
use crate::stop::Stop;
use ldap_framer::Framer;
use ldap_msg::{Message, decode, encode};
use std::alloc::Global;
use std::io::Print;

/// The adds of a root, of an item and of a unit, a modify, a modifyDN, a search and a delete, as RFC 4511 spells them.
pub const MESSAGES: &[&str] = &[
    "3044020101683f041164633d6578616d706c652c64633d636f6d302a3017040b6f626a656374436c61737331080406646f6d61696e300f04026463310904076578616d706c65",
    "306802010268630418636e3d416e612c64633d6578616d706c652c64633d636f6d30473015040b6f626a656374436c617373310604046974656d300b0402636e31050403416e61301404056c6162656c310b04036162630404c3a42062300b040472616e6b3103040139",
    "30570201036852041a6f753d4974656d732c64633d6578616d706c652c64633d636f6d30343023040b6f626a656374436c617373311404126f7267616e697a6174696f6e616c556e6974300d04026f75310704054974656d73",
    "305e02010466590418636e3d416e612c64633d6578616d706c652c64633d636f6d303d30130a0100300e04056c6162656c3105040378797a30130a0101300e04056c6162656c3105040361626330110a0102300c040472616e6b310404023130",
    "302b0201056c260418636e3d416e612c64633d6578616d706c652c64633d636f6d0407636e3d416e6e61010100",
    "303f020106633a041164633d6578616d706c652c64633d636f6d0a01020a0100020100020100010100a114a30c04056c6162656c040358595aa2048702636e3000",
    "301e0201074a19636e3d416e6e612c64633d6578616d706c652c64633d636f6d",
];

/// Of how many octets a piece of the stream is.
const PIECE: usize = 50;

/// How many messages a piece ends at most.
const MOST: usize = 8;

/// The octets of a text in hex.
pub fn octets(alloc: Global, text: &str) -> Result<Vec<u8>, Stop> {
    Ok(again!(hex::decode(alloc, text)))
}

/// Prints a message as it is written.
fn print_message(rt: &impl Print, alloc: Global, message: &Message) -> Result<(), Stop> {
    let written = again!(encode(alloc, message));
    print_octets(rt, "message", &written)
}

/// Reads each message whole.
fn read_whole(rt: &impl Print, alloc: Global) -> Result<(), Stop> {
    for text in MESSAGES {
        let given = octets(alloc, text)?;
        let message = again!(decode(alloc, &given));
        print_message(rt, alloc, &message)?;
    }
    Ok(())
}

/// Feeds a piece, and prints the messages that are whole by it.
fn feed(rt: &impl Print, alloc: Global, framer: &mut Framer, piece: &[u8]) -> Result<(), Stop> {
    again!(framer.feed(piece));
    for _ in 0..MOST {
        match framer.next() {
            Some(message) => print_message(rt, alloc, &message)?,
            None => break,
        }
    }
    Ok(())
}

/// Reads the messages from a stream.
fn read_stream(rt: &impl Print, alloc: Global) -> Result<(), Stop> {
    let mut framer = Framer::new(alloc);
    for text in MESSAGES {
        let given = octets(alloc, text)?;
        for piece in given.chunks(PIECE) {
            feed(rt, alloc, &mut framer, piece)?;
        }
    }
    Ok(())
}

/// Reads them both ways.
pub fn play(rt: &impl Print, alloc: Global) -> Result<(), Stop> {
    read_whole(rt, alloc)?;
    read_stream(rt, alloc)
}
