//! Plays clusters of whole replicas: the code of sessions, seats, nodes, frames and clocks that a process runs, over a simulated network, simulated disks and
//! simulated clients, and judges each octet that a client is answered by a plain directory. One seed, one run. `tests/simulate` tells the arguments.
#![tactic(auto)]

mod asking;
mod caller;
mod chance;
mod disk;
mod gates;
mod growth;
mod judging;
mod machine;
mod names;
mod plain;
mod playing;
mod setting;
mod spelling;
mod world;

use crate::playing::{play, wish_of};
use std::process::ExitCode;

fn main(rt: HostRuntime) -> std::io::Result<ExitCode> {
    let words: Vec<String> = std::env::args(&rt)?.collect(rt.alloc())?;
    match wish_of(&words) {
        None => {
            println!(rt; "arguments that aren't known")?;
            Ok(ExitCode::FAILURE)
        }
        Some(wish) => {
            if play(&rt, rt.alloc(), &wish)? {
                Ok(ExitCode::SUCCESS)
            } else {
                Ok(ExitCode::FAILURE)
            }
        }
    }
}
