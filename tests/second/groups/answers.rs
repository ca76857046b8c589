//! The checker on answers that were right and have been changed.

use crate::amend;
use crate::compare;
use crate::families;
use crate::game::{Answer, Tables, Vertex, NO_MOVE};
use crate::group::Group;
use crate::prng::Prng;
use crate::shapes;
use crate::zielonka;

pub fn small(group: &mut Group) {
    let mut rng = Prng::new(501);
    for _ in 0..8_000 {
        let game = shapes::any(&mut rng);
        let right = zielonka::solve(&game);
        perturbed(group, &game, &right, 3, &mut rng);
    }
    group.must_have_seen(&[0, 11, 12, 13, 14], 300);
}

pub fn full(group: &mut Group) {
    for (i, family) in families::ALL.into_iter().enumerate() {
        let mut rng = Prng::new(510 + i as u64);
        let game = family.make(&mut rng);
        // The library's own answer will do here, as rings are too much for Zielonka's method.
        if let Some(right) = group.take(compare::solve(&game, &mut rng)) {
            perturbed(group, &game, &right, 30, &mut rng);
            last_vertex(group, &game, &right, &mut rng);
        }
    }
    group.must_have_seen(&[11, 12, 13, 14], 5);
}

/// Every number as the move of a hub, in games where all priorities are even: the answer is right
/// exactly if the number is a successor.
pub fn every_move(group: &mut Group) {
    let mut rng = Prng::new(530);
    for (n, many) in [(1, 1), (2, 1), (3, 2), (70, 1), (70, 35), (70, 69), (2_048, 2_000)] {
        let hub = rng.below(n);
        let game = with_hub(n, hub, many, &mut rng);
        let mut answer = zielonka::solve(&game);
        for number in (0..n as u16 + 2).chain([NO_MOVE - 1, NO_MOVE]) {
            answer.moves[hub] = number;
            let accepted = group.take(compare::check(&game, &answer, &mut rng)).is_some();
            group.agree(accepted == game.next(hub).contains(&number), || {
                format!("the move {number} at {hub}: {accepted}\n{game:?}")
            });
        }
    }
    group.must_have_seen(&[0], 2_000);
    group.must_have_seen(&[12], 150);
}

/// A game that Even wins everywhere, with a vertex of his that has so many successors.
fn with_hub(n: usize, hub: usize, many: usize, rng: &mut Prng) -> Tables {
    let vertices: Vec<Vertex> = (0..n)
        .map(|v| Vertex {
            owner: if v == hub { 0 } else { rng.below(2) as u8 },
            priority: rng.one_of(&[0, 2, 4]),
            next: if v == hub {
                shapes::chosen(many, 0..n, rng)
            } else {
                shapes::drawn(3, || rng.below(n))
            },
        })
        .collect();
    Tables::of(&vertices)
}

/// So many answers, each with one to three changes.
fn perturbed(group: &mut Group, game: &Tables, right: &Answer, count: usize, rng: &mut Prng) {
    for _ in 0..count {
        let mut answer = right.clone();
        for _ in 0..rng.between(1, 3) {
            amend::answer(game, &mut answer, rng);
        }
        group.take(compare::check(game, &answer, rng));
    }
}

/// Faults at the last vertex, where the place is largest.
fn last_vertex(group: &mut Group, game: &Tables, right: &Answer, rng: &mut Prng) {
    let last = game.n() - 1;
    let (mark, step) = (right.winners[last], right.moves[last]);
    for (mark, step) in [(2, step), (1 - mark, step), (mark, 0), (mark, NO_MOVE)] {
        let mut answer = right.clone();
        answer.winners[last] = mark;
        answer.moves[last] = step;
        group.take(compare::check(game, &answer, rng));
    }
}
