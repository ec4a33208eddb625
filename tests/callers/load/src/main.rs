//! A load for a server that holds the items of `./measure`: clients that ask for items, each again as soon as it is answered. The words are told by `tests/load`.
#![tactic(auto)]

mod client;
mod counts;
mod fault;
mod loading;
mod words;

use crate::loading::load;
use crate::words::wish_of;
use std::process::ExitCode;

fn main(rt: HostRuntime) -> std::io::Result<ExitCode> {
    let words: Vec<String> = std::env::args(&rt)?.collect(rt.alloc())?;
    let Some(wish) = wish_of(&words) else {
        rt.eprintln("usage: load ADDRESS KIND ITEMS CLIENTS OUTSTANDING MILLISECONDS")?;
        return Ok(ExitCode::FAILURE);
    };
    match load(&rt, rt.alloc(), &wish) {
        Ok(()) => Ok(ExitCode::SUCCESS),
        Err(fault) => {
            rt.eprintln(fault)?;
            Ok(ExitCode::FAILURE)
        }
    }
}
