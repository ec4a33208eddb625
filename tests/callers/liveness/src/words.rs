//! The words of the command line.

use crate::judging::WRONGS;
use crate::setting::{ALL, NAMES, Setting};

/// What is to be played.
#[derive(Clone, Copy)]
pub struct Wish {
    pub first: u64,
    pub seeds: u64,
    pub setting: Setting,
    /// Whether the old rule is played first, until a seed fails.
    pub checks_itself: bool,
    /// Seeds that fail by these alone count as passed.
    pub without: u64,
}

/// What the words say; none, where one isn't known.
pub fn wish_of(words: &Vec<String>) -> Option<Wish> {
    let mut wish = Wish {
        first: 1,
        seeds: 100,
        setting: Setting {
            count: 0,
            is_old: false,
            beats_on: false,
            is_unheeding: false,
            never_asks: false,
            mends: false,
            traces: false,
            kinds: ALL,
            faults_time: 600_000_000,
            bound: 12,
        },
        checks_itself: false,
        without: 0,
    };
    let mut place = 1;
    while place < words.len() {
        let word = words[place].as_str();
        let next = if place + 1 < words.len() {
            words[place + 1].as_str()
        } else {
            ""
        };
        place += take(&mut wish, word, next)?;
    }
    Some(wish)
}

/// Takes a word, or two; how many.
fn take(wish: &mut Wish, word: &str, next: &str) -> Option<usize> {
    match word {
        "--old" => wish.setting.is_old = true,
        "--beat-on" => wish.setting.beats_on = true,
        "--unheeding" => wish.setting.is_unheeding = true,
        "--unasked" => wish.setting.never_asks = true,
        "--mend" => wish.setting.mends = true,
        "--trace" => wish.setting.traces = true,
        "--self-check" => wish.checks_itself = true,
        _ => return take_two(wish, word, next),
    }
    Some(1)
}

fn take_two(wish: &mut Wish, word: &str, next: &str) -> Option<usize> {
    if word == "--faults" {
        wish.setting.kinds = bits_of(next, |place| NAMES.get(place).copied())?;
        return Some(2);
    }
    if word == "--without" {
        wish.without = bits_of(next, |place| WRONGS.get(place).map(|wrong| wrong.0))?;
        return Some(2);
    }
    let number = next.parse::<u64>().ok()?;
    match word {
        "--seeds" => wish.seeds = number,
        "--first" => wish.first = number,
        "--replicas" => wish.setting.count = number,
        "--bound" => wish.setting.bound = number,
        "--minutes" => wish.setting.faults_time = number * 60_000_000,
        _ => return None,
    }
    Some(2)
}

/// The bits of the names that commas stand between; `none` has no bit.
fn bits_of<F: Fn(usize) -> Option<&'static str>>(text: &str, name_at: F) -> Option<u64> {
    let mut bits = 0;
    for name in text.split(',') {
        if name != "none" {
            bits |= bit_of(name, &name_at)?;
        }
    }
    Some(bits)
}

fn bit_of<F: Fn(usize) -> Option<&'static str>>(name: &str, name_at: &F) -> Option<u64> {
    for place in 0..64 {
        if name_at(place)? == name {
            return Some(1 << place);
        }
    }
    None
}
