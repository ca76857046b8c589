//! Small games that stalled an engine, and large ones of the same shape: the library must decide
//! them rightly, and about as fast as it decides a full-size relay-like game.

// What the second program and the benchmark use of these modules is more than what is used here.
#[allow(dead_code)]
#[path = "../second/families.rs"]
mod families;
// Where the archive cannot be linked the calls go another way.
#[cfg(not(far))]
#[allow(dead_code)]
#[path = "../second/ffi.rs"]
mod ffi;
#[cfg(far)]
#[allow(dead_code)]
#[path = "../second/far.rs"]
mod ffi;
#[allow(dead_code)]
#[path = "../second/game.rs"]
mod game;
#[allow(dead_code)]
#[path = "../second/judge.rs"]
mod judge;
#[allow(dead_code)]
#[path = "../../bench/library.rs"]
mod library;
#[allow(dead_code)]
#[path = "../second/prng.rs"]
mod prng;
#[allow(dead_code)]
#[path = "../second/said.rs"]
mod said;
#[allow(dead_code)]
#[path = "../second/shapes.rs"]
mod shapes;
#[allow(dead_code)]
#[path = "../../bench/timing.rs"]
mod timing;
#[allow(dead_code)]
#[path = "../second/zielonka.rs"]
mod zielonka;

mod games;
mod text;
mod yardstick;

use game::{Answer, Tables};
use library::Buffers;
use std::cell::Cell;
use std::process::ExitCode;
use timing::median;

/// How many times a relay-like game's time each game may take. Most of these games take less than
/// that time once, and the worst about twice; the rest is for machines that others use meanwhile,
/// and for compilers that weigh the parts of the work otherwise. What stalls takes thousands of
/// times as long, or does not return.
const MOST: f64 = 5.0;

/// Where Zielonka's method is given up: many more subgames than any of these games takes.
const MOST_SUBGAMES: u64 = 20_000;

fn main() -> ExitCode {
    match run_all() {
        Ok(0) => ExitCode::SUCCESS,
        Ok(_) => ExitCode::FAILURE,
        Err(what) => {
            println!("{what}");
            ExitCode::FAILURE
        }
    }
}

/// Tests every game, tells how it went, and gives how many failed.
fn run_all() -> Result<usize, String> {
    let mut all = games::files()?;
    all.extend(games::circles());
    let (mut passed, mut failed) = (0, 0);
    for named in all {
        match test(&named.game) {
            Ok(how) => {
                println!("passed: {} ({how})", named.name);
                passed += 1;
            }
            Err(what) => {
                println!("failed: {}: {what}", named.name);
                failed += 1;
            }
        }
    }
    println!("{passed} passed, {failed} failed");
    Ok(failed)
}

fn test(game: &Tables) -> Result<String, String> {
    let mut buffers = Buffers::new(game.n());
    // One just after the other, so that both meet the same machine.
    let relay = yardstick::relay()?;
    let time = median(&mut buffers, Buffers::spoil, |buffers| buffers.solve(game))?;
    let ratio = time.over(relay);
    let answer = buffers.answer();
    if let Some(fault) = judge::answer(game, &answer.winners, &answer.moves) {
        return Err(format!("the answer {answer:?} is wrong: {fault:?}"));
    }
    let second = by_second_method(game);
    if second.as_ref().is_some_and(|second| second.winners != answer.winners) {
        return Err(format!("{answer:?}, not {second:?}"));
    }
    let told = format!("{time:.3} ms, {ratio:.2} times a relay-like game");
    if ratio > MOST {
        return Err(told);
    }
    let beside = if second.is_some() { "agrees" } else { "was given up" };
    Ok(format!("{told}; Zielonka's method {beside}"))
}

/// Zielonka's answer, unless the method takes too long: there the judge's acceptance alone shows
/// the winners.
fn by_second_method(game: &Tables) -> Option<Answer> {
    let subgames = Cell::new(0);
    zielonka::solve_unless(game, &|| {
        subgames.set(subgames.get() + 1);
        subgames.get() > MOST_SUBGAMES
    })
}
