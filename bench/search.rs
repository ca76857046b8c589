//! The search for small games that keep the library busy. It climbs from random games to slow ones,
//! by the edges that the Rust version of the library's method visits, at one size after the other;
//! and it fails if a game is beyond what is promised, if an answer is wrong, or if the library,
//! where it is linked, gives another answer.

// What other programs use of these modules is more than what is used here.
#[cfg(linked)]
#[allow(dead_code)]
#[path = "../tests/second/families.rs"]
mod families;
#[cfg(linked)]
#[allow(dead_code)]
#[path = "../tests/second/ffi.rs"]
mod ffi;
#[allow(dead_code)]
#[path = "../tests/second/game.rs"]
mod game;
#[allow(dead_code)]
#[path = "../tests/second/judge.rs"]
mod judge;
#[allow(dead_code)]
mod justifications;
#[cfg(linked)]
#[allow(dead_code)]
mod library;
#[allow(dead_code)]
#[path = "../tests/second/prng.rs"]
mod prng;
#[cfg(linked)]
#[allow(dead_code)]
#[path = "../tests/second/said.rs"]
mod said;
#[allow(dead_code)]
#[path = "../tests/second/shapes.rs"]
mod shapes;
#[cfg(linked)]
#[allow(dead_code)]
mod timing;
#[cfg(linked)]
#[path = "../tests/hard/yardstick.rs"]
mod yardstick;
#[allow(dead_code)]
#[path = "../tests/second/zielonka.rs"]
mod zielonka;

#[cfg(linked)]
mod beside;
mod climb;

use climb::Climber;
use game::{Answer, Tables, Vertex};
use prng::Prng;
use std::path::{Path, PathBuf};
use std::process::ExitCode;
use std::time::{Duration, Instant};

/// Each begins from the game found at the size before.
const SIZES: [usize; 5] = [8, 16, 24, 32, 48];

/// The most edges that a game of so many vertices may make the library visit.
const LIMITS: [(usize, u64); 2] = [(24, 60_000), (48, 400_000)];

/// How many random games are compared before the search.
const COMPARED: usize = 20_000;

/// So often the search says how far it is.
const NEWS: Duration = Duration::from_secs(5);

struct Wishes {
    seconds: u64,
    seed: u64,
    directory: Option<PathBuf>,
}

fn main() -> ExitCode {
    match wishes().and_then(|wishes| search(&wishes)) {
        Ok(()) => ExitCode::SUCCESS,
        Err(what) => {
            println!("failed: {what}");
            ExitCode::FAILURE
        }
    }
}

fn wishes() -> Result<Wishes, String> {
    let arguments: Vec<String> = std::env::args().skip(1).collect();
    let number = |place: usize, otherwise: u64| match arguments.get(place) {
        Some(word) => word.parse().map_err(|_| format!("not a number: {word}")),
        None => Ok(otherwise),
    };
    Ok(Wishes {
        seconds: number(0, 15)?,
        seed: number(1, 1)?,
        directory: arguments.get(2).map(PathBuf::from),
    })
}

fn search(wishes: &Wishes) -> Result<(), String> {
    let mut rng = Prng::new(wishes.seed);
    compare_random(&mut rng)?;
    let mut vertices = climb::random(SIZES[0], &mut rng);
    let mut beyond = Vec::new();
    for n in SIZES {
        let mut climber = Climber::from(climb::grown(vertices, n, &mut rng));
        climb(&mut climber, wishes.seconds, &mut rng);
        let game = Tables::of(&climber.vertices);
        let (answer, _) = justifications::solve_counted(&game);
        right(&game, &answer)?;
        let library = library_on(&game, &answer)?;
        println!(
            "{n} vertices: at worst {} edges visited, {} games tried{library}",
            climber.edges, climber.tried
        );
        if let Some(directory) = &wishes.directory {
            write(directory, &climber.vertices)?;
        }
        if LIMITS.iter().any(|&(size, limit)| size == n && climber.edges > limit) {
            beyond.push(n.to_string());
        }
        vertices = climber.vertices;
    }
    if beyond.is_empty() {
        return Ok(());
    }
    Err(format!("more edges visited than promised at {} vertices", beyond.join(" and ")))
}

/// A count says something only if the Rust version is right, and is the library's own method.
fn compare_random(rng: &mut Prng) -> Result<(), String> {
    for _ in 0..COMPARED {
        let game = shapes::any(rng);
        let (answer, _) = justifications::solve_counted(&game);
        let compare = || {
            right(&game, &answer)?;
            if answer.winners != zielonka::solve(&game).winners {
                return Err("other winners than by Zielonka's method".to_string());
            }
            #[cfg(linked)]
            {
                let mut buffers = library::Buffers::new(game.n());
                buffers.solve(&game)?;
                beside::same(&buffers.answer(), &answer)?;
            }
            Ok(())
        };
        compare().map_err(|what| format!("{what}\n{game:?}"))?;
    }
    let library = if cfg!(linked) { ", the library gives the same moves" } else { "" };
    println!("{COMPARED} random games: right answers{library}");
    Ok(())
}

fn right(game: &Tables, answer: &Answer) -> Result<(), String> {
    match judge::answer(game, &answer.winners, &answer.moves) {
        Some(fault) => Err(format!("a wrong answer: {fault:?}")),
        None => Ok(()),
    }
}

/// Climbs for so long, and says now and then how far it is.
fn climb(climber: &mut Climber, seconds: u64, rng: &mut Prng) {
    let n = climber.vertices.len();
    println!("{n} vertices: climbing for {seconds} s from {} edges visited", climber.edges);
    let begin = Instant::now();
    let end = begin + Duration::from_secs(seconds);
    while Instant::now() < end {
        climber.climb(end.min(Instant::now() + NEWS), rng);
        let spent = begin.elapsed().as_secs();
        println!("  {spent} s: {} edges visited, {} games tried", climber.edges, climber.tried);
    }
}

/// What the library takes on the game, beside a relay-like game.
#[cfg(linked)]
fn library_on(game: &Tables, answer: &Answer) -> Result<String, String> {
    let time = beside::time(game, answer)?;
    let relay = yardstick::relay()?;
    let ratio = time.over(relay);
    Ok(format!(", the library takes {time:.3} ms, {ratio:.2} of a relay-like game's {relay:.3}"))
}

#[cfg(not(linked))]
fn library_on(_: &Tables, _: &Answer) -> Result<String, String> {
    Ok(String::new())
}

/// In the form that tests/hard/text.rs reads.
fn write(directory: &Path, vertices: &[Vertex]) -> Result<(), String> {
    let mut text = format!("{}\n", vertices.len());
    for vertex in vertices {
        text += &format!("{} {}", vertex.owner, vertex.priority);
        for w in &vertex.next {
            text += &format!(" {w}");
        }
        text += "\n";
    }
    let path = directory.join(format!("worst.{}", vertices.len()));
    std::fs::create_dir_all(directory)
        .and_then(|()| std::fs::write(&path, text))
        .map_err(|what| format!("{}: {what}", path.display()))
}
