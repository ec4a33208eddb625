//! What is printed: counts as output, and times, which differ from run to run, beside them. How they were measured is not here.
use crate::fault::Fault;
use crate::framing::Framed;
use crate::searching::Measured;
use std::io::{Eprint, Print};

/// Prints how long adding items took.
pub fn print_adds(rt: &impl Eprint, count: u32, milliseconds: u128) -> Result<(), Fault> {
    eprintln!(rt; "{count} items added in {milliseconds} ms")?;
    Ok(())
}

/// Prints how many entries a search found and evaluated.
fn print_counts(
    rt: &impl Print,
    filter: &str,
    found: usize,
    evaluated: usize,
) -> Result<(), Fault> {
    println!(rt; "{filter} found={found} evaluated={evaluated}")?;
    Ok(())
}

/// Prints how long a search took.
fn print_time(rt: &impl Eprint, microseconds: u128) -> Result<(), Fault> {
    eprintln!(rt; "  in {microseconds} us")?;
    Ok(())
}

/// Prints what a search found, evaluated and took.
pub fn print_search(
    rt: &(impl Print + Eprint),
    filter: &str,
    measured: &Measured,
) -> Result<(), Fault> {
    print_counts(rt, filter, measured.found, measured.evaluated)?;
    print_time(rt, measured.microseconds)
}

/// Prints how long an event took over a log of so many records, in the middle window, the shortest and the longest.
pub fn print_events(
    rt: &impl Eprint,
    records: u64,
    middle: u64,
    least: u64,
    most: u64,
) -> Result<(), Fault> {
    eprintln!(rt; "{records} records: {middle} ns an event ({least} to {most})")?;
    Ok(())
}

/// Prints how many records were executed.
pub fn print_executed(rt: &impl Print, executed: usize) -> Result<(), Fault> {
    println!(rt; "executed={executed}")?;
    Ok(())
}

/// Prints how many records were read of a frame of so many octets.
fn print_records(rt: &impl Print, kind: &str, records: usize, octets: usize) -> Result<(), Fault> {
    println!(rt; "{kind} records={records} octets={octets}")?;
    Ok(())
}

/// Prints how long a frame took.
fn print_times(rt: &impl Eprint, writing: u128, reading: u128) -> Result<(), Fault> {
    eprintln!(rt; "  written in {writing} us, read in {reading} us")?;
    Ok(())
}

/// Prints what was measured of a log of one kind of records.
pub fn print_frame(rt: &(impl Print + Eprint), kind: &str, framed: &Framed) -> Result<(), Fault> {
    print_records(rt, kind, framed.records, framed.octets)?;
    print_times(rt, framed.writing, framed.reading)
}

/// Prints how many octets the responses to requests of a kind have.
pub fn print_answered(rt: &impl Print, kind: &str, octets: usize) -> Result<(), Fault> {
    println!(rt; "{kind} octets={octets}")?;
    Ok(())
}

/// Prints how long one request took.
pub fn print_request(rt: &impl Eprint, nanoseconds: u128) -> Result<(), Fault> {
    eprintln!(rt; "  {nanoseconds} ns a request")?;
    Ok(())
}
