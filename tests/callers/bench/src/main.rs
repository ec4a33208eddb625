//! Measures what the command line asks for, and prints it. What is measured, and how, is not here.
#![tactic(auto)]

use measures::run;
use std::process::ExitCode;

fn main(rt: HostRuntime) -> std::io::Result<ExitCode> {
    let words: Vec<String> = std::env::args(&rt)?.collect(rt.alloc())?;
    match run(&rt, rt.alloc(), &words) {
        Ok(()) => Ok(ExitCode::SUCCESS),
        Err(fault) => {
            rt.eprintln(fault)?;
            Ok(ExitCode::FAILURE)
        }
    }
}
