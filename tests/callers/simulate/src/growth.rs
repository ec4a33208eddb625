//! Growths that are refused: a library that `tests/simulate` loads before the system's counts them, and refuses one where it is asked to.

use libc::getrlimit;
use libc::types::rlimit;

/// The library takes a limit of a resource from this number on for a question: at so many more than this one it refuses that growth of those that follow; at
/// none more it refuses none.
const ASKED: i32 = 1_000_000;

/// What the library answers as the greatest limit: no limit is this one.
const IS_THERE: u64 = 0x6772_6f77;

/// From this number on it counts none, and behind it it goes on: what a disk of the test keeps is no growth of the replica.
const PAUSES: i32 = 2_000_000;

/// How many growths were refused since the last question; nothing, where the library isn't there.
fn ask(nth: u64) -> Option<u64> {
    told(ASKED + (nth % 1000) as i32)
}

fn told(resource: i32) -> Option<u64> {
    let mut limit = rlimit {
        rlim_cur: 0,
        rlim_max: 0,
    };
    if getrlimit(resource, &mut limit) != 0 || limit.rlim_max != IS_THERE {
        return None;
    }
    Some(limit.rlim_cur)
}

/// Whether growths can be refused.
pub fn can_be_refused() -> bool {
    ask(0).is_some()
}

/// Has the growth of this number refused, of those that follow; at 0 none.
pub fn refuse(nth: u64) {
    if nth > 0 {
        ask(nth);
    }
}

/// Has no growth refused any more; whether one was.
pub fn grant(nth: u64) -> bool {
    nth > 0 && ask(0).unwrap_or(0) > 0
}

/// Growths that follow aren't counted.
pub fn pause() {
    told(PAUSES);
}

/// Growths are counted again.
pub fn resume() {
    told(PAUSES + 1);
}
