//! The words of the command line. Words flow in, a wish flows out.
use measures::{ASKS, Ask};
use std::net::SocketAddr;
use std::time::Duration;

/// What is to be loaded, and how.
#[derive(Clone, Copy)]
pub struct Wish {
    pub address: SocketAddr,
    pub ask: Ask,
    /// How many items the server has.
    pub items: u32,
    pub clients: usize,
    /// How many requests of each client are under way.
    pub outstanding: usize,
    pub time: Duration,
}

/// The kind of request of this name.
fn ask_of(name: &str) -> Option<Ask> {
    for (ask, known) in ASKS {
        if name == *known {
            return Some(*ask);
        }
    }
    None
}

/// The number that a word says.
fn number(words: &[String], place: usize) -> Option<u32> {
    words.get(place)?.parse::<u32>().ok()
}

/// What the words ask for, the program's name first; none where they aren't known.
pub fn wish_of(words: &[String]) -> Option<Wish> {
    Some(Wish {
        address: words.get(1)?.parse::<SocketAddr>().ok()?,
        ask: ask_of(words.get(2)?.as_str())?,
        items: number(words, 3)?,
        clients: number(words, 4)? as usize,
        outstanding: number(words, 5)? as usize,
        time: Duration::from_millis(number(words, 6)? as u64),
    })
}
