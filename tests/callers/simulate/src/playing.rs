//! The arguments, and one seed after the other.

use crate::chance::Chance;
use crate::setting::{PLANTS, Planted, Setting};
use crate::world::World;
use std::alloc::{AllocError, Global};
use std::io;
use std::io::{Eprint, Print};
use std::sync::Wait;

/// What is to be played.
#[derive(Clone, Copy)]
pub struct Wish {
    pub first: u64,
    pub seeds: u64,
    pub steps: u64,
    /// Within how many suspect periods all has to be well once faults end.
    pub bound: u64,
    pub planted: Planted,
    pub traces: bool,
}

/// What the arguments say; none, where one isn't known.
pub fn wish_of(words: &Vec<String>) -> Option<Wish> {
    let mut wish = Wish {
        first: 1,
        seeds: 20,
        steps: 5000,
        bound: 12,
        planted: Planted::Nothing,
        traces: false,
    };
    let mut place = 1;
    while place < words.len() {
        let word = words[place].as_str();
        if word == "--trace" {
            wish.traces = true;
            place += 1;
            continue;
        }
        if place + 1 >= words.len() {
            return None;
        }
        take(&mut wish, word, words[place + 1].as_str())?;
        place += 2;
    }
    Some(wish)
}

fn take(wish: &mut Wish, word: &str, next: &str) -> Option<()> {
    if word == "--plant" {
        for (name, planted) in PLANTS {
            if *name == next {
                wish.planted = *planted;
                return Some(());
            }
        }
        return None;
    }
    let number = next.parse::<u64>().ok()?;
    match word {
        "--seed" => wish.first = number,
        "--seeds" => wish.seeds = number,
        "--steps" => wish.steps = number,
        "--bound" => wish.bound = number,
        _ => return None,
    }
    Some(())
}

/// What came of a seed: its counts in words, and what was wrong.
/// What came of some seeds.
#[derive(Clone, Copy)]
struct Totals {
    steps: u64,
    messages: u64,
    parts: u64,
    searches: u64,
    updates: u64,
    open: u64,
    committed: u64,
    crashes: u64,
    power_cuts: u64,
    device_failures: u64,
    hangs: u64,
    refused_growths: u64,
    views: u64,
}

fn run<R: Wait + Eprint>(
    rt: &R,
    alloc: Global,
    wish: &Wish,
    seed: u64,
    totals: &mut Totals,
) -> Result<(String, String), AllocError> {
    let mut chance = Chance::new(seed);
    let setting = Setting::of(&mut chance, wish.steps, wish.planted, wish.traces);
    let mut world = World::new(rt, alloc, setting, chance)?;
    for _ in 0..setting.steps {
        world.step()?;
        if !world.record.faults.is_empty() {
            break;
        }
    }
    let is_well = !world.record.faults.is_empty() || world.heal(wish.bound)?;
    if !is_well {
        let state = world.state()?;
        let what = format!(in alloc; "not well after {} suspect periods:{state}", wish.bound)?;
        world.record.blame(what)?;
    }
    world.record.judge()?;
    let counts = world.counts;
    totals.steps += counts.steps;
    totals.messages += counts.messages;
    totals.parts += counts.parts;
    totals.searches += counts.searches;
    totals.updates += counts.updates;
    totals.open += counts.open;
    totals.committed += world.record.committed.len() as u64;
    totals.crashes += counts.crashes;
    totals.power_cuts += counts.power_cuts;
    totals.device_failures += counts.device_failures + counts.refused_starts;
    totals.hangs += counts.hangs;
    totals.refused_growths += counts.refused_growths;
    totals.views += counts.views;
    let text = format!(in alloc; "{} replicas, journals {}: {counts:?}, {} committed",
        setting.count, setting.has_journals, world.record.committed.len())?;
    let faults = world.record.faults.as_str().to_string(alloc)?;
    Ok((text, faults))
}

/// Plays what is wished; whether all passed.
pub fn play<R: Wait + Print + Eprint>(rt: &R, alloc: Global, wish: &Wish) -> io::Result<bool> {
    let mut passed = 0u64;
    let mut failed = 0u64;
    let mut totals = Totals {
        steps: 0,
        messages: 0,
        parts: 0,
        searches: 0,
        updates: 0,
        open: 0,
        committed: 0,
        crashes: 0,
        power_cuts: 0,
        device_failures: 0,
        hangs: 0,
        refused_growths: 0,
        views: 0,
    };
    for seed in wish.first..wish.first + wish.seeds {
        let (counts, faults) = run(rt, alloc, wish, seed, &mut totals)?;
        if faults.is_empty() {
            passed += 1;
            if wish.traces {
                println!(rt; "seed {seed}: {counts}")?;
            }
        } else {
            failed += 1;
            println!(rt; "seed {seed}: {counts}")?;
            print!(rt; "{faults}")?;
        }
    }
    println!(rt;
        "{} steps, {} messages, {} parts before their last, {} updates and {} reads answered, {} left open, {} committed",
        totals.steps, totals.messages, totals.parts, totals.updates, totals.searches, totals.open, totals.committed)?;
    println!(rt;
        "{} crashes, {} power cuts of all, {} failed disks, {} hung disks, {} refused growths, {} views entered",
        totals.crashes, totals.power_cuts, totals.device_failures, totals.hangs, totals.refused_growths, totals.views)?;
    println!(rt; "{passed} passed, {failed} failed")?;
    Ok(failed == 0)
}
