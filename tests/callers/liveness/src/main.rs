//! Plays replicas of the protocol with their clocks, a simulated network and simulated clients, and tells whether all is well some time after all faults have
//! ended: one seed, one run. The words are told by `tests/liveness`.
#![tactic(auto)]

mod agenda;
mod chance;
mod clients;
mod faults;
mod judging;
mod links;
mod machine;
mod mark;
mod playing;
mod setting;
mod timer;
mod watch;
mod words;
mod world;

use crate::playing::play;
use crate::words::wish_of;
use std::process::ExitCode;

fn main(rt: HostRuntime) -> std::io::Result<ExitCode> {
    let words: Vec<String> = std::env::args(&rt)?.collect(rt.alloc())?;
    match wish_of(&words) {
        None => {
            println!(rt; "words that aren't known")?;
            Ok(ExitCode::FAILURE)
        }
        Some(wish) => {
            if play(&rt, &wish)? {
                Ok(ExitCode::SUCCESS)
            } else {
                Ok(ExitCode::FAILURE)
            }
        }
    }
}
