//! What the library takes on the games of tests/hard, and on the busiest game of each family, and
//! what the Rust version of its method counts there.

use crate::beside;
use crate::families::{self, Family};
use crate::games::{self, Named};
use crate::justifications::{lowest_first, solve_counted};
use crate::prng::Prng;
use crate::timing::Time;
use crate::yardstick;

const COLUMNS: [&str; 8] = [
    "game",
    "solve",
    "solve / relay-like",
    "edges visited",
    "tests",
    "turns",
    "restarts",
    "edges visited, lowest first alone",
];

/// What a reader of the table must know.
const NOTES: &str = "\
Of each family the game with the most edges visited; of all games the median of seven runs; the
relay-like game to compare with is the family's slowest. Edges, tests, turns and restarts are those
of the Rust version, which gives the library's answers, moves and all. Lowest first alone is given
up after 100,000 steps.";

/// After so many steps lowest first alone is given up.
const MOST_STEPS: u64 = 100_000;

/// Prints the table, or says which game's answer differs from the Rust version's.
pub fn table() -> Result<(), String> {
    let relay = yardstick::relay()?;
    println!("\n| {} |", COLUMNS.join(" | "));
    println!("|{}", "---|".repeat(COLUMNS.len()));
    for named in all()? {
        let row = row(&named, relay).map_err(|what| format!("{}: {what}", named.name))?;
        println!("{row}");
    }
    println!("\n{NOTES}");
    Ok(())
}

/// Of the circles the smallest and the largest.
fn all() -> Result<Vec<Named>, String> {
    let mut all: Vec<Named> = families::ALL.into_iter().filter_map(busiest).collect();
    all.extend(games::circles().into_iter().filter(|named| [48, 2_048].contains(&named.game.n())));
    all.extend(games::files()?);
    Ok(all)
}

/// Of a family's three games the one that visits the most edges.
fn busiest(family: Family) -> Option<Named> {
    let game = (900..903)
        .map(|seed| family.make(&mut Prng::new(seed)))
        .max_by_key(|game| solve_counted(game).1.edges)?;
    Some(Named { name: family.name().to_string(), game })
}

fn row(named: &Named, relay: Time) -> Result<String, String> {
    let (answer, counts) = solve_counted(&named.game);
    let time = beside::time(&named.game, &answer)?;
    let (lowest, alone) = lowest_first(&named.game, MOST_STEPS);
    if lowest.as_ref().is_some_and(|lowest| lowest.winners != answer.winners) {
        return Err("lowest first alone gives other winners".to_string());
    }
    Ok(format!(
        "| {} | {time:.3} | {:.2} | {} | {} | {} | {} | {}{} |",
        named.name,
        time.over(relay),
        counts.edges,
        counts.tests,
        counts.turns,
        counts.restarts,
        if lowest.is_some() { "" } else { "> " },
        alone.edges,
    ))
}
