//! Amended games, and answers changed: into other right ones, or so that they may be wrong.

use crate::game::{Answer, Tables, MOST_EDGES, NO_MOVE};
use crate::judge;
use crate::prng::Prng;
use crate::shapes::drawn;

/// The game with up to `count` vertices changed in owner, priority or successors; a change may
/// happen to restore what was there.
pub fn game(game: &Tables, count: usize, rng: &mut Prng) -> Tables {
    let n = game.n();
    let mut vertices = game.vertices();
    for _ in 0..count {
        let room = MOST_EDGES - vertices.iter().map(|v| v.next.len()).sum::<usize>();
        let vertex = &mut vertices[rng.below(n)];
        match rng.below(4) {
            0 => vertex.owner = 1 - vertex.owner,
            1 => vertex.priority = rng.between(0, 254) as u8,
            // A neighbouring priority: the parity turns and the order hardly changes.
            2 => vertex.priority = if vertex.priority == 254 { 253 } else { vertex.priority + 1 },
            _ => {
                let most = (vertex.next.len() + room).min(4);
                vertex.next = drawn(rng.between(1, most), || rng.below(n));
            }
        }
    }
    Tables::of(&vertices)
}

/// Takes other moves at up to `tries` vertices where the answer stays right, so that it is not just
/// what one method would give.
pub fn moves(game: &Tables, answer: &mut Answer, tries: usize, rng: &mut Prng) {
    for _ in 0..tries {
        let v = rng.below(game.n());
        let before = answer.moves[v];
        if before != NO_MOVE {
            answer.moves[v] = rng.one_of(game.next(v));
            if judge::answer(game, &answer.winners, &answer.moves).is_some() {
                answer.moves[v] = before;
            }
        }
    }
}

/// One change to an answer that was right.
pub fn answer(game: &Tables, answer: &mut Answer, rng: &mut Prng) {
    let v = rng.below(game.n());
    match rng.below(9) {
        0 => answer.winners[v] = 1 - answer.winners[v].min(1),
        1 => answer.winners[v] = rng.between(2, 255) as u8,
        2 => answer.moves[v] = rng.one_of(game.next(v)),
        3 => answer.moves[v] = rng.below(game.n()) as u16,
        4 => answer.moves[v] = rng.between(game.n(), 65_535) as u16,
        5 => answer.moves[v] = NO_MOVE,
        6 => turn_with_move(game, answer, v, rng),
        7 => other_moves(game, answer, rng),
        _ => all_for_one(game, answer, rng),
    }
}

/// The vertex goes to the other player, with a move of the form that this demands.
fn turn_with_move(game: &Tables, answer: &mut Answer, v: usize, rng: &mut Prng) {
    let winner = 1 - answer.winners[v].min(1);
    answer.winners[v] = winner;
    answer.moves[v] = if game.owners[v] == winner { rng.one_of(game.next(v)) } else { NO_MOVE };
}

/// Winners as they are, and any moves that stay among them: only cycles can be wrong.
fn other_moves(game: &Tables, answer: &mut Answer, rng: &mut Prng) {
    for v in 0..game.n() {
        let staying: Vec<u16> = game
            .next(v)
            .iter()
            .copied()
            .filter(|&w| answer.winners[w as usize] == answer.winners[v])
            .collect();
        if game.owners[v] == answer.winners[v] && !staying.is_empty() {
            answer.moves[v] = rng.one_of(&staying);
        }
    }
}

/// Everything goes to one player, with any moves: again only cycles can be wrong.
fn all_for_one(game: &Tables, answer: &mut Answer, rng: &mut Prng) {
    let winner = rng.below(2) as u8;
    for v in 0..game.n() {
        answer.winners[v] = winner;
        answer.moves[v] = if game.owners[v] == winner { rng.one_of(game.next(v)) } else { NO_MOVE };
    }
}
