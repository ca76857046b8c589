//! The library's calls on full-size games of every family, on moves that are no successors and on
//! the largest file, as the benchmark measures them, and nothing else: a line for each family and
//! call, milliseconds.
//! bench/compare links it to two archives and puts them side by side.

// What the second program uses of these modules is more than what is used here.
#[allow(dead_code)]
#[path = "../tests/second/families.rs"]
mod families;
#[allow(dead_code)]
#[path = "../tests/second/ffi.rs"]
mod ffi;
#[allow(dead_code)]
#[path = "../tests/second/game.rs"]
mod game;
#[allow(dead_code)]
#[path = "../tests/second/judge.rs"]
mod judge;
#[allow(dead_code)]
#[path = "../tests/second/prng.rs"]
mod prng;
#[allow(dead_code)]
#[path = "../tests/second/said.rs"]
mod said;
#[allow(dead_code)]
#[path = "../tests/second/shapes.rs"]
mod shapes;

#[allow(dead_code)]
mod library;
mod refused;
#[allow(dead_code)]
mod timing;
mod updates;

use families::Family;
use game::Tables;
use library::{Buffers, Lent};
use prng::Prng;
use std::process::ExitCode;
use timing::{median, Time};
use updates::{seldom_reached, with_other_owner};

const GAMES: u64 = 3;
const CALLS: [&str; 4] = ["solve", "check", "update, few reached", "update, any vertex"];

/// A file of 84 blocks: 2,048 vertices and 16,384 edges.
const LARGEST: &[u8] = include_bytes!("../tests/listing/largest_84_blocks.game");

fn main() -> ExitCode {
    match print_all() {
        Ok(()) => ExitCode::SUCCESS,
        Err(what) => {
            println!("{what}");
            ExitCode::FAILURE
        }
    }
}

fn print_all() -> Result<(), String> {
    let read = median(&mut Lent::new(), Lent::spoil, |lent| lent.read(LARGEST));
    println!("the largest file;read;{:.4}", read.map_err(|what| format!("read: {what}"))?);
    for family in families::ALL {
        let times = figures(family).map_err(|what| format!("{}: {what}", family.name()))?;
        for (call, time) in CALLS.iter().zip(times) {
            println!("{};{call};{time:.4}", family.name());
        }
    }
    for (place, time) in refused::times()? {
        println!("{}, {place};check;{time:.4}", refused::NAME);
    }
    Ok(())
}

/// Of three games the worst.
fn figures(family: Family) -> Result<[Time; 4], String> {
    let mut worst = [Time::ZERO; 4];
    for seed in 0..GAMES {
        let mut rng = Prng::new(900 + seed);
        let game = family.make(&mut rng);
        for (old, time) in worst.iter_mut().zip(of_game(&game, &mut rng)?) {
            *old = old.worse(time);
        }
    }
    Ok(worst)
}

/// The calls in their order.
fn of_game(game: &Tables, rng: &mut Prng) -> Result<[Time; 4], String> {
    let mut buffers = Buffers::new(game.n());
    let solve = median(&mut buffers, Buffers::spoil, |buffers| buffers.solve(game))?;
    let answer = buffers.answer();
    let check = median(&mut buffers, Buffers::spoil, |buffers| buffers.check(game, &answer))?;
    let mut update = |v| {
        let second = with_other_owner(game, v);
        median(&mut buffers, Buffers::spoil, |buffers| {
            buffers.update(game, &second, &answer).map(drop)
        })
    };
    let few = update(seldom_reached(game, rng))?;
    let any = update(rng.below(game.n()))?;
    Ok([solve, check, few, any])
}
