//! Calls of the libraries, each of which is made once more where it answers an error: with every growth granted no call is, and with one refused what it
//! prints has to stay the same. Which growth is refused is `tests/refusals`'s to say. No expectation is here.
#![tactic(auto)]

mod again;
mod messages;
mod replicas;
mod stop;
mod updates;

use std::alloc::Global;
use std::io::Print;
use std::process::ExitCode;
use stop::Stop;

/// Makes all calls.
fn play(rt: &impl Print, alloc: Global) -> Result<(), Stop> {
    messages::play(rt, alloc)?;
    updates::play(rt, alloc)?;
    replicas::play(rt, alloc)?;
    rt.print("all calls are made\n")?;
    Ok(())
}

/// The status is 0 where all calls were made, 3 where a growth of this program's own was refused, and 1 where a call answered an error twice, or another
/// thing than it has to.
fn main(rt: HostRuntime) -> ExitCode {
    match play(&rt, rt.alloc()) {
        Ok(()) => ExitCode::SUCCESS,
        Err(Stop::Own) => ExitCode::from(3),
        Err(Stop::Twice | Stop::Other) => ExitCode::FAILURE,
    }
}
