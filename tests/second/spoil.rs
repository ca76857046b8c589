//! Well-formed games made malformed.

use crate::game::{Tables, Vertex, MOST_EDGES, MOST_VERTICES};
use crate::prng::Prng;
use crate::shapes;

/// A well-formed game's tables with faults of these numbers, 1 to 7, at random places. A single
/// number is then the only fault; of several one may hide or undo another.
pub fn tables(game: &Tables, numbers: &[u64], rng: &mut Prng) -> Tables {
    let mut vertices = game.vertices();
    // Lists first, then entries, then what is laid over them.
    for number in [7, 6, 5, 3, 2] {
        if numbers.contains(&number) {
            for _ in 0..rng.between(1, 3) {
                let v = rng.below(vertices.len());
                spoil_vertex(&mut vertices[v], game.n(), number, rng);
            }
        }
    }
    let mut spoiled = Tables::of(&vertices);
    if numbers.contains(&4) {
        spoil_starts(&mut spoiled, rng);
    }
    if numbers.contains(&1) {
        spoil_sizes(&mut spoiled, rng);
    }
    spoiled
}

fn spoil_vertex(vertex: &mut Vertex, n: usize, number: u64, rng: &mut Prng) {
    match number {
        2 => vertex.owner = rng.between(2, 255) as u8,
        3 => vertex.priority = 255,
        5 => vertex.next.clear(),
        6 => {
            let place = rng.below(vertex.next.len());
            vertex.next[place] = rng.one_of(&[n, n + 1, n + 256, MOST_VERTICES, 65_535]) as u16;
        }
        _ => {
            // A target given again, at its side or behind all; a loop is listed twice in the same
            // way.
            let place = rng.below(vertex.next.len());
            let at = rng.one_of(&[place, vertex.next.len()]);
            vertex.next.insert(at, vertex.next[place]);
        }
    }
}

fn spoil_starts(game: &mut Tables, rng: &mut Prng) {
    let last = game.starts.len() - 1;
    let place = rng.between(0, last);
    match rng.below(5) {
        0 => game.starts[0] = rng.between(1, 65_535) as u16,
        1 => game.starts[last] += 1,
        2 => game.starts[last] = game.starts[last].wrapping_sub(1),
        // Too high in the middle shows at the place after it.
        3 => game.starts[place] = rng.between(game.targets.len() + 1, 65_535) as u16,
        _ => game.starts.reverse(),
    }
}

fn spoil_sizes(game: &mut Tables, rng: &mut Prng) {
    match rng.below(20) {
        0 => *game = Tables { owners: vec![], priorities: vec![], starts: vec![], targets: vec![] },
        1 => {
            *game = Tables { owners: vec![], priorities: vec![], starts: vec![0], targets: vec![] }
        }
        2 => *game = oversized(rng),
        3 => lengthen(game, rng),
        4..=7 => change_length(&mut game.owners, rng),
        8..=11 => change_length(&mut game.priorities, rng),
        _ => change_length(&mut game.starts, rng),
    }
}

fn change_length<T: Copy + Default>(table: &mut Vec<T>, rng: &mut Prng) {
    let length = rng.one_of(&[0, table.len() - 1, table.len() + 1, 2 * table.len()]);
    table.resize(length, T::default());
}

/// Lengths that 16 bits cannot tell from the right ones, of all tables or of one kind.
fn lengthen(game: &mut Tables, rng: &mut Prng) {
    let which = rng.below(3);
    if which != 0 {
        game.owners.resize(game.owners.len() + 65_536, 0);
        game.priorities.resize(game.priorities.len() + 65_536, 0);
        game.starts.resize(game.starts.len() + 65_536, 0);
    }
    if which != 1 {
        game.targets.resize(game.targets.len() + 65_536, 0);
    }
}

/// A game that is well formed but for its size: a vertex too many or an edge too many.
fn oversized(rng: &mut Prng) -> Tables {
    let (n, edges) =
        rng.one_of(&[(MOST_VERTICES + 1, MOST_VERTICES + 1), (MOST_VERTICES, MOST_EDGES + 1)]);
    shapes::of_size(n, edges, rng)
}
