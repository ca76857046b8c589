//! Who wins, by the definition itself: some choice of moves, one successor fixed for each vertex
//! the player owns, makes every cycle that can be reached have a highest priority of his parity.
//! All choices are tried, so this is for games of a few vertices.

use crate::game::{parity, Tables};
use crate::judge::returns_below;

/// For each vertex whether the player wins it.
pub fn won_by(player: u8, game: &Tables) -> Vec<bool> {
    let n = game.n();
    let mut won = vec![false; n];
    let mut choice = vec![0; n];
    loop {
        let steps = |v: usize| match game.owners[v] == player {
            true => &game.next(v)[choice[v]..=choice[v]],
            false => game.next(v),
        };
        let bad: Vec<bool> = (0..n)
            .map(|v| parity(game.priorities[v]) != player && returns_below(game, steps, v))
            .collect();
        for v in 0..n {
            won[v] = won[v] || !reaches(n, steps, v, &bad);
        }
        if !next_choice(player, game, &mut choice) {
            return won;
        }
    }
}

fn reaches<'a>(n: usize, steps: impl Fn(usize) -> &'a [u16], v: usize, bad: &[bool]) -> bool {
    let mut seen = vec![false; n];
    let mut pending = vec![v];
    while let Some(u) = pending.pop() {
        if bad[u] {
            return true;
        }
        if !seen[u] {
            seen[u] = true;
            pending.extend(steps(u).iter().map(|&w| w as usize));
        }
    }
    false
}

/// Goes on to the player's next choice of moves, as a counter does; false after the last.
fn next_choice(player: u8, game: &Tables, choice: &mut [usize]) -> bool {
    for v in (0..game.n()).filter(|&v| game.owners[v] == player) {
        choice[v] += 1;
        if choice[v] < game.next(v).len() {
            return true;
        }
        choice[v] = 0;
    }
    false
}
