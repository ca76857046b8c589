//! The freezing method of the literature: estimates, passes over the priorities,
//! freezing.

use crate::game::{parity, Answer, Tables, NO_MOVE};

/// No vertex is frozen at this priority.
const THAWED: u8 = 255;

/// Winners and moves of a well-formed game, given up once `stop` says so: the method takes very
/// long on some games.
pub fn solve_unless(game: &Tables, stop: &dyn Fn() -> bool) -> Option<Answer> {
    let ranks = ranks(game);
    let mut estimate: Vec<u8> = game.priorities.iter().map(|&p| parity(p)).collect();
    let mut moves = vec![NO_MOVE; game.n()];
    let mut frozen = vec![THAWED; game.n()];
    let mut rank = 0;
    while let Some(vertices) = ranks.get(rank) {
        if stop() {
            return None;
        }
        let priority = game.priorities[vertices[0] as usize];
        let player = parity(priority);
        // Every test reads the estimates from before the pass, so the turning comes after it.
        let mut turned = Vec::new();
        for &v in vertices {
            let v = v as usize;
            if frozen[v] == THAWED && estimate[v] == player {
                let (winner, step) = test(game, &estimate, v);
                moves[v] = step;
                if winner != player {
                    turned.push(v);
                }
            }
        }
        let lower = ranks[..rank].iter().flatten().map(|&u| u as usize);
        if turned.is_empty() {
            for u in lower {
                if frozen[u] == priority {
                    frozen[u] = THAWED;
                }
            }
            rank += 1;
            continue;
        }
        for v in turned {
            estimate[v] = 1 - player;
        }
        for u in lower {
            if frozen[u] != THAWED {
                continue;
            }
            if estimate[u] != player {
                frozen[u] = priority;
            } else {
                estimate[u] = parity(game.priorities[u]);
            }
        }
        rank = 0;
    }
    Some(Answer { winners: estimate, moves })
}

/// The vertices by priority, lowest first.
fn ranks(game: &Tables) -> Vec<Vec<u16>> {
    let mut ranks = vec![Vec::new(); 255];
    for v in 0..game.n() {
        ranks[game.priorities[v] as usize].push(v as u16);
    }
    ranks.retain(|rank| !rank.is_empty());
    ranks
}

fn test(game: &Tables, estimate: &[u8], v: usize) -> (u8, u16) {
    let owner = game.owners[v];
    match game.next(v).iter().find(|&&w| estimate[w as usize] == owner) {
        Some(&w) => (owner, w),
        None => (1 - owner, NO_MOVE),
    }
}
