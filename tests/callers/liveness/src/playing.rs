//! Plays one seed after another, and tells what came of them.

use crate::judging::Wrong;
use crate::setting::{FORGETS, HANGS, LONG};
use crate::words::Wish;
use crate::world::World;
use std::io;

/// How many lives with long logs are played, and within how many suspect periods they have to be well: a recovery, and a view change of two long messages.
const LONG_SEEDS: u64 = 20;

const LONG_BOUND: u64 = 40;

/// What came of some seeds.
#[derive(Drop)]
struct Tally {
    passed: u64,
    failed: u64,
    steps: u64,
    crashes: u64,
    power_cuts: u64,
    answered: u64,
    needless: u64,
    hasty: u64,
    /// The first seed with a hasty suspicion, if any.
    hasty_seed: u64,
    /// The seed that was well last, and after how many halves of a suspect period.
    slowest: (u64, u64),
    /// How many were well within so many halves of a suspect period.
    halves: Vec<u64>,
}

/// Plays what is wished; whether all passed.
pub fn play(rt: &HostRuntime, wish: &Wish) -> io::Result<bool> {
    let alloc = rt.alloc();
    let mut tally = Tally {
        passed: 0,
        failed: 0,
        steps: 0,
        crashes: 0,
        power_cuts: 0,
        answered: 0,
        needless: 0,
        hasty: 0,
        hasty_seed: 0,
        slowest: (0, 0),
        halves: vec![in alloc; 0; 200]?,
    };
    if wish.checks_itself {
        check_itself(rt, wish, &mut tally)?;
        check_hangs(rt, wish, &mut tally)?;
        check_forgets(rt, wish, &mut tally)?;
        check_long(rt, wish, &mut tally)?;
    }
    for seed in wish.first..wish.first + wish.seeds {
        play_one(rt, wish, seed, &mut tally)?;
    }
    print!(rt; "well after halves of a suspect period:")?;
    for half in 0..tally.halves.len() {
        if tally.halves[half] > 0 {
            let seeds = tally.halves[half];
            print!(rt; " {half}:{seeds}")?;
        }
    }
    println!(rt; "")?;
    println!(rt;
        "{} steps, {} crashes, {} power cuts, {} requests answered, {} needless suspicions at last",
        tally.steps, tally.crashes, tally.power_cuts, tally.answered, tally.needless
    )?;
    if tally.hasty > 0 {
        println!(rt;
            "{} hasty suspicions, first in seed {}",
            tally.hasty, tally.hasty_seed
        )?;
    }
    println!(rt;
        "the slowest is seed {}, {} halves",
        tally.slowest.0, tally.slowest.1
    )?;
    println!(rt; "{} passed, {} failed", tally.passed, tally.failed)?;
    Ok(tally.failed == 0)
}

/// Plays the old rule until a seed fails, which has to come.
fn check_itself(rt: &HostRuntime, wish: &Wish, tally: &mut Tally) -> io::Result<()> {
    let mut setting = wish.setting;
    setting.is_old = true;
    setting.kinds = 1;
    for seed in 1..=20 {
        let mut world = World::new(rt.alloc(), setting, seed)?;
        world.run()?;
        let wrong = world.wrong();
        if wrong != Wrong::Nothing {
            println!(rt; "by the old rule seed {seed} fails, as it has to: {wrong:?}")?;
            tally.passed += 1;
            return Ok(());
        }
    }
    println!(rt; "by the old rule no seed fails")?;
    tally.failed += 1;
    Ok(())
}

/// Plays a hung primary that repeats its last beat for ever, until a seed fails, which has to come.
fn check_hangs(rt: &HostRuntime, wish: &Wish, tally: &mut Tally) -> io::Result<()> {
    let mut setting = wish.setting;
    setting.beats_on = true;
    setting.kinds = HANGS;
    for seed in 1..=20 {
        let mut world = World::new(rt.alloc(), setting, seed)?;
        world.run()?;
        let wrong = world.wrong();
        if wrong != Wrong::Nothing {
            println!(rt; "with beats for ever seed {seed} fails, as it has to: {wrong:?}")?;
            tally.passed += 1;
            return Ok(());
        }
    }
    println!(rt; "with beats for ever no seed fails")?;
    tally.failed += 1;
    Ok(())
}

/// Plays streams that a network forgets, of which nobody asks whether their other end is there, until a seed fails, which has to come.
fn check_forgets(rt: &HostRuntime, wish: &Wish, tally: &mut Tally) -> io::Result<()> {
    let mut setting = wish.setting;
    setting.never_asks = true;
    setting.kinds = FORGETS;
    for seed in 1..=20 {
        let mut world = World::new(rt.alloc(), setting, seed)?;
        world.run()?;
        let wrong = world.wrong();
        if wrong != Wrong::Nothing {
            println!(rt; "with streams unasked seed {seed} fails, as it has to: {wrong:?}")?;
            tally.passed += 1;
            return Ok(());
        }
    }
    println!(rt; "with streams unasked no seed fails")?;
    tally.failed += 1;
    Ok(())
}

/// Plays logs that take ten suspect periods: all has to be well in time; and where nobody takes it for a sign of life that its parts are taken, some seed has
/// to fail.
fn check_long(rt: &HostRuntime, wish: &Wish, tally: &mut Tally) -> io::Result<()> {
    let mut setting = wish.setting;
    // Primaries crash, and come back late.
    setting.kinds = LONG | 2;
    setting.bound = LONG_BOUND;
    for seed in 1..=LONG_SEEDS {
        let mut long = *wish;
        long.setting = setting;
        play_one(rt, &long, seed, tally)?;
    }
    setting.is_unheeding = true;
    for seed in 1..=20 {
        let mut world = World::new(rt.alloc(), setting, seed)?;
        world.run()?;
        let wrong = world.wrong();
        if wrong != Wrong::Nothing {
            println!(rt; "with parts unheeded seed {seed} fails, as it has to: {wrong:?}")?;
            tally.passed += 1;
            return Ok(());
        }
    }
    println!(rt; "with parts unheeded no seed fails")?;
    tally.failed += 1;
    Ok(())
}

/// Plays one seed.
fn play_one(rt: &HostRuntime, wish: &Wish, seed: u64, tally: &mut Tally) -> io::Result<()> {
    let setting = wish.setting;
    let mut world = World::new(rt.alloc(), setting, seed)?;
    world.run()?;
    let wrong = world.wrong();
    tally.steps += world.steps;
    tally.crashes += world.crashes;
    tally.power_cuts += world.power_cuts;
    tally.answered += world.answered;
    tally.needless += world.needless;
    tally.hasty += world.hasty;
    if world.hasty > 0 && tally.hasty_seed == 0 {
        tally.hasty_seed = seed;
    }
    if let Some(since) = world.well_since {
        let half = (since - setting.faults_time) * 2 / world.period;
        if (half as usize) < tally.halves.len() {
            tally.halves[half as usize] += 1;
        }
        if half > tally.slowest.1 {
            tally.slowest = (seed, half);
        }
    }
    if setting.traces {
        rt.print(world.notes.as_str())?;
    }
    if wrong == Wrong::Nothing || wrong.is_in(wish.without) {
        tally.passed += 1;
    } else {
        tally.failed += 1;
    }
    if wrong != Wrong::Nothing {
        println!(rt; "seed {seed}: {wrong:?}")?;
        tell_state(rt, &world)?;
    }
    Ok(())
}

/// Tells what state the replicas are in.
fn tell_state(rt: &HostRuntime, world: &World) -> io::Result<()> {
    for at in 0..world.machines.len() {
        let machine = &world.machines[at];
        match &machine.replica {
            None => println!(rt; "  {at}: crashed, stored view {}", machine.stored_view)?,
            Some(replica) => {
                let status = replica.status;
                let view = replica.view_number;
                let commit = replica.commit_number;
                let length = replica.log.len();
                println!(rt;
                    "  {at}: {status:?} in view {view}, {commit} of {length} committed, clock {}",
                    machine.speed
                )?;
            }
        }
    }
    for caller in world.callers.iter() {
        if caller.is_waiting {
            let number = caller.number;
            println!(rt; "  a client waits for its request {number}")?;
        }
    }
    Ok(())
}
