//! What each call must say, by the rules: for every number of refusal the places at fault, the
//! first number in order that has one, its lowest place. Nothing here is meant to be fast or
//! clever.

use crate::game::{parity, Tables, MOST_EDGES, MOST_VERTICES, NO_MOVE};

#[derive(Clone, Copy, PartialEq, Eq, Debug)]
pub struct Fault {
    pub number: u64,
    pub place: u64,
}

/// The lengths of the buffers that a call writes.
#[derive(Clone, Copy, PartialEq, Eq, Debug)]
pub struct Room {
    pub winners: usize,
    pub moves: usize,
    pub work: usize,
}

impl Room {
    /// The fixed lengths for n vertices.
    pub fn for_vertices(n: usize) -> Self {
        Room { winners: n, moves: n, work: 4 * n }
    }
}

/// The number with the lowest of the places, which come in ascending order.
fn lowest(number: u64, mut places: impl Iterator<Item = usize>) -> Option<Fault> {
    places.next().map(|place| Fault { number, place: place as u64 })
}

fn at_zero(number: u64, applies: bool) -> Option<Fault> {
    applies.then_some(Fault { number, place: 0 })
}

/// 1 to 7.
pub fn tables(game: &Tables) -> Option<Fault> {
    let n = game.owners.len();
    let Tables { owners, priorities, starts, targets } = game;
    let sizes = n == 0
        || n > MOST_VERTICES
        || priorities.len() != n
        || starts.len() != n + 1
        || targets.len() > MOST_EDGES;
    at_zero(1, sizes)
        .or_else(|| lowest(2, (0..n).filter(|&v| owners[v] > 1)))
        .or_else(|| lowest(3, (0..n).filter(|&v| priorities[v] == 255)))
        .or_else(|| lowest(4, (0..=n).filter(|&i| start_at_fault(starts, targets.len(), i))))
        .or_else(|| lowest(5, (0..n).filter(|&v| starts[v] == starts[v + 1])))
        .or_else(|| lowest(6, (0..targets.len()).filter(|&e| targets[e] as usize >= n)))
        .or_else(|| {
            lowest(
                7,
                (1..targets.len()).filter(|&e| !begins(starts, e) && targets[e] <= targets[e - 1]),
            )
        })
}

fn start_at_fault(starts: &[u16], targets: usize, i: usize) -> bool {
    let first = i == 0 && starts[0] != 0;
    let falls = i > 0 && starts[i] < starts[i - 1];
    let last = i == starts.len() - 1 && starts[i] as usize != targets;
    first || falls || last
}

/// Whether place e begins some vertex's successors, in ascending starts.
fn begins(starts: &[u16], e: usize) -> bool {
    starts.binary_search(&(e as u16)).is_ok()
}

/// 1 to 8, as the solver tests them.
pub fn solve(game: &Tables, room: Room) -> Option<Fault> {
    tables(game).or_else(|| at_zero(8, room != Room::for_vertices(game.n())))
}

/// 1 to 8 and 11 to 14, as the checker tests them.
pub fn check(game: &Tables, winners: &[u8], moves: &[u16], work: usize) -> Option<Fault> {
    let room = Room { winners: winners.len(), moves: moves.len(), work };
    solve(game, room).or_else(|| answer(game, winners, moves))
}

/// 1 to 7, 21 to 27, 9, 8, 11 to 14, as the update tests them.
pub fn update(
    first: &Tables,
    second: &Tables,
    winners: &[u8],
    moves: &[u16],
    room: Room,
) -> Option<Fault> {
    let n = first.n();
    let fixed = room == Room::for_vertices(n) && winners.len() == n && moves.len() == n;
    tables(first)
        .or_else(|| tables(second).map(|fault| Fault { number: fault.number + 20, ..fault }))
        .or_else(|| at_zero(9, n != second.n()))
        .or_else(|| at_zero(8, !fixed))
        .or_else(|| answer(first, winners, moves))
}

/// 11 to 14, on a well-formed game and an answer of its length.
pub fn answer(game: &Tables, winners: &[u8], moves: &[u16]) -> Option<Fault> {
    let n = game.n();
    lowest(11, (0..n).filter(|&v| winners[v] > 1))
        .or_else(|| lowest(12, (0..n).filter(|&v| !move_stands(game, winners, moves, v))))
        .or_else(|| lowest(13, (0..n).filter(|&v| loser_escapes(game, winners, v))))
        .or_else(|| lowest(14, (0..n).filter(|&v| tops_wrong_cycle(game, winners, moves, v))))
}

fn move_stands(game: &Tables, winners: &[u8], moves: &[u16], v: usize) -> bool {
    if game.owners[v] != winners[v] {
        return moves[v] == NO_MOVE;
    }
    game.next(v).contains(&moves[v]) && winners[moves[v] as usize] == winners[v]
}

fn loser_escapes(game: &Tables, winners: &[u8], v: usize) -> bool {
    game.owners[v] != winners[v] && game.next(v).iter().any(|&w| winners[w as usize] != winners[v])
}

/// v lies on a cycle by the recorded moves on which its own priority is the highest, and has not
/// the parity of its mark.
fn tops_wrong_cycle(game: &Tables, winners: &[u8], moves: &[u16], v: usize) -> bool {
    let steps = |u: usize| {
        if game.owners[u] == winners[u] {
            &moves[u..=u]
        } else {
            game.next(u)
        }
    };
    parity(game.priorities[v]) != winners[v] && returns_below(game, steps, v)
}

/// Whether one or more steps lead from v back to v through priorities that do not exceed v's.
pub fn returns_below<'a>(game: &Tables, steps: impl Fn(usize) -> &'a [u16], v: usize) -> bool {
    let mut seen = vec![false; game.n()];
    let mut pending = vec![v];
    while let Some(u) = pending.pop() {
        for &w in steps(u) {
            let w = w as usize;
            if w == v {
                return true;
            }
            if !seen[w] && game.priorities[w] <= game.priorities[v] {
                seen[w] = true;
                pending.push(w);
            }
        }
    }
    false
}

/// For each vertex whether it has, in `game`, a path of no or more steps to one that differs
/// between the two games.
pub fn reaching(game: &Tables, first: &Tables, second: &Tables) -> Vec<bool> {
    let n = game.n();
    let mut reached: Vec<bool> = (0..n)
        .map(|v| {
            first.owners[v] != second.owners[v]
                || first.priorities[v] != second.priorities[v]
                || first.next(v) != second.next(v)
        })
        .collect();
    let mut before = vec![Vec::new(); n];
    for v in 0..n {
        for &w in game.next(v) {
            before[w as usize].push(v);
        }
    }
    let mut pending: Vec<usize> = (0..n).filter(|&v| reached[v]).collect();
    while let Some(w) = pending.pop() {
        for &v in &before[w] {
            if !reached[v] {
                reached[v] = true;
                pending.push(v);
            }
        }
    }
    reached
}
