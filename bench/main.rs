//! The benchmark: the library beside Zielonka's method, the method of source document 000 and a
//! plain Rust version of the library's own method, on full-size games of every family, all in one
//! run. Times are milliseconds: of each game the median of several runs, of each family its worst
//! game. Then the games of tests/hard, with what the Rust version counts. The Rust version must give
//! the library's own answers, moves and all.

// What the second program uses of these modules is more than what is used here.
#[allow(dead_code)]
#[path = "../tests/second/families.rs"]
mod families;
#[allow(dead_code)]
#[path = "../tests/second/ffi.rs"]
mod ffi;
#[allow(dead_code)]
#[path = "../tests/second/game.rs"]
mod game;
#[path = "../tests/hard/games.rs"]
mod games;
#[allow(dead_code)]
#[path = "../tests/second/judge.rs"]
mod judge;
#[allow(dead_code)]
#[path = "../tests/second/prng.rs"]
mod prng;
#[allow(dead_code)]
#[path = "../tests/second/said.rs"]
mod said;
#[allow(dead_code)]
#[path = "../tests/second/shapes.rs"]
mod shapes;
#[path = "../tests/hard/text.rs"]
mod text;
#[path = "../tests/hard/yardstick.rs"]
mod yardstick;
#[allow(dead_code)]
#[path = "../tests/second/zielonka.rs"]
mod zielonka;

mod beside;
mod freezing;
mod hard;
mod justifications;
mod library;
mod refused;
mod timing;
mod updates;

use families::Family;
use game::{Answer, Tables};
use library::{Buffers, Lent, Output};
use prng::Prng;
use std::process::ExitCode;
use timing::{median, median_within, Time};
use updates::{seldom_reached, with_other_owner};

const GAMES: u64 = 3;

/// A file of 84 blocks: 2,048 vertices and 16,384 edges.
const LARGEST: &[u8] = include_bytes!("../tests/listing/largest_84_blocks.game");

const COLUMNS: [&str; 9] = [
    "family",
    "solve",
    "check",
    "update, few reached",
    "update, any vertex",
    "Zielonka",
    "freezing (000)",
    "Rust version",
    "solve / Rust version",
];

/// What a reader of the table must know.
const NOTES: &str = "\
Milliseconds: of three games a family the worst, of each game the median of seven runs.
Buffers are not cleared: before each run, outside the time, they are filled with other content.
The Rust version tests the tables (1 to 7) too, by the second program's test; the other two
methods do not.
An update changes one vertex's owner: of a vertex that few reach, then of any; in brackets the
vertices that are decided anew.";

/// One game's times, and for the two updates how many vertices they reach.
struct Measured {
    solve: Time,
    check: Time,
    few: (Time, u64),
    any: (Time, u64),
    zielonka: Time,
    freezing: Time,
    rust: Time,
}

fn main() -> ExitCode {
    match print_all() {
        Ok(()) => ExitCode::SUCCESS,
        Err(what) => {
            println!("{what}");
            ExitCode::FAILURE
        }
    }
}

fn print_all() -> Result<(), String> {
    println!("| {} |", COLUMNS.join(" | "));
    println!("|{}", "---|".repeat(COLUMNS.len()));
    for family in families::ALL {
        println!("{}", row(family).map_err(|what| format!("{}: {what}", family.name()))?);
    }
    println!("\n{}:", refused::NAME);
    for (place, time) in refused::times()? {
        println!("{place}: check {time:.3}");
    }
    let (read, write) = largest_file().map_err(|what| format!("the largest file: {what}"))?;
    println!(
        "\nthe largest file: read {read:.3}, write {write:.3}, write / read {:.2}",
        write.over(read)
    );
    println!("\n{NOTES}");
    hard::table()
}

/// Read, and written from what was read.
fn largest_file() -> Result<(Time, Time), String> {
    let mut lent = Lent::new();
    let read = median(&mut lent, Lent::spoil, |lent| lent.read(LARGEST))?;
    let game = lent.filled();
    let mut output = Output::new(LARGEST.len());
    let write = median(&mut output, Output::spoil, |output| output.write(&game))?;
    Ok((read, write))
}

fn row(family: Family) -> Result<String, String> {
    let mut all = Vec::new();
    for seed in 0..GAMES {
        let mut rng = Prng::new(900 + seed);
        all.push(measure(&family.make(&mut rng), &mut rng)?);
    }
    let worst = |time: fn(&Measured) -> Time| all.iter().map(time).fold(Time::ZERO, Time::worse);
    let worst_update = |update: fn(&Measured) -> (Time, u64)| {
        all.iter()
            .map(update)
            .fold((Time::ZERO, 0), |a, b| if b.0.worse(a.0) == b.0 { b } else { a })
    };
    let ratio = all.iter().map(|m| m.solve.over(m.rust)).fold(0.0, f64::max);
    let (few, any) = (worst_update(|m| m.few), worst_update(|m| m.any));
    Ok(format!(
        "| {} | {} | {} | {} ({}) | {} ({}) | {} | {} | {} | {ratio:.1} |",
        family.name(),
        worst(|m| m.solve),
        worst(|m| m.check),
        few.0,
        few.1,
        any.0,
        any.1,
        worst(|m| m.zielonka),
        worst(|m| m.freezing),
        worst(|m| m.rust),
    ))
}

fn measure(game: &Tables, rng: &mut Prng) -> Result<Measured, String> {
    let mut buffers = Buffers::new(game.n());
    let solve = median(&mut buffers, Buffers::spoil, |buffers| buffers.solve(game))?;
    let answer = buffers.answer();
    right(game, &answer)?;
    let check = median(&mut buffers, Buffers::spoil, |buffers| buffers.check(game, &answer))?;
    let seldom = seldom_reached(game, rng);
    let any = rng.below(game.n());
    let mut zielonka = None;
    let mut freezing = None;
    let mut rust = None;
    let measured = Measured {
        solve,
        check,
        few: update(&mut buffers, game, &answer, seldom)?,
        any: update(&mut buffers, game, &answer, any)?,
        zielonka: median_within(|stop| {
            zielonka = zielonka::solve_unless(game, stop);
            zielonka.is_some()
        }),
        freezing: median_within(|stop| {
            freezing = freezing::solve_unless(game, stop);
            freezing.is_some()
        }),
        rust: median_within(|_| {
            rust = judge::tables(game).is_none().then(|| justifications::solve(game));
            rust.is_some()
        }),
    };
    let rust = rust.ok_or("the Rust version's test refuses the tables")?;
    beside::same(&answer, &rust)?;
    // A method that gives other winners is not worth its time.
    for other in [zielonka, freezing].into_iter().flatten() {
        right(game, &other)?;
        if other.winners != answer.winners {
            return Err("the methods give different winners".to_string());
        }
    }
    Ok(measured)
}

/// The time of an update that changes v's owner, and its count.
fn update(
    buffers: &mut Buffers,
    game: &Tables,
    answer: &Answer,
    v: usize,
) -> Result<(Time, u64), String> {
    let second = with_other_owner(game, v);
    let mut count = 0;
    let time = median(buffers, Buffers::spoil, |buffers| {
        count = buffers.update(game, &second, answer)?;
        Ok(())
    })?;
    right(&second, &buffers.answer())?;
    Ok((time, count))
}

fn right(game: &Tables, answer: &Answer) -> Result<(), String> {
    match judge::answer(game, &answer.winners, &answer.moves) {
        Some(fault) => Err(format!("a wrong answer: {fault:?}")),
        None => Ok(()),
    }
}
