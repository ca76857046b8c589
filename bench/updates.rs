//! The amendments that are measured: one vertex's owner changes.

use crate::game::Tables;
use crate::judge;
use crate::prng::Prng;

pub fn with_other_owner(game: &Tables, v: usize) -> Tables {
    let mut second = game.clone();
    second.owners[v] = 1 - second.owners[v];
    second
}

/// Of some vertices the one that the fewest reach.
pub fn seldom_reached(game: &Tables, rng: &mut Prng) -> usize {
    let reaching = |v: usize| {
        judge::reaching(game, game, &with_other_owner(game, v))
            .into_iter()
            .filter(|&reached| reached)
            .count()
    };
    let some: Vec<usize> = (0..200).map(|_| rng.below(game.n())).collect();
    some.into_iter().min_by_key(|&v| reaching(v)).unwrap_or(0)
}
