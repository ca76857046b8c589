//! Games of a few vertices: all of them, and many random ones.

use crate::compare;
use crate::definition;
use crate::game::{Answer, Tables, NO_MOVE};
use crate::group::Group;
use crate::judge;
use crate::prng::Prng;
use crate::shapes;
use crate::zielonka;

const HIGHEST: usize = 3;

/// Solver, Zielonka's method and the definition itself agree; the checker accepts both answers.
pub fn every_game(group: &mut Group) {
    let mut rng = Prng::new(101);
    for n in 1..=3 {
        shapes::every(n, HIGHEST, |game| {
            let even: Vec<bool> = definition::won_by(0, &game);
            let odd: Vec<bool> = definition::won_by(1, &game);
            group.agree(even.iter().zip(&odd).all(|(even, odd)| even != odd), || {
                format!("the definition itself: a vertex is won by both or by none\n{game:?}")
            });
            let winners: Vec<u8> = odd.into_iter().map(u8::from).collect();
            solved_as(group, &game, &winners, &mut rng);
        });
    }
}

/// The winners are the library's and Zielonka's, and both answers are accepted.
fn solved_as(group: &mut Group, game: &Tables, winners: &[u8], rng: &mut Prng) {
    let second = zielonka::solve(game);
    let fault = judge::answer(game, &second.winners, &second.moves);
    group.agree(fault.is_none() && second.winners == winners, || {
        format!("Zielonka's method itself: {second:?}, {fault:?}, not {winners:?}\n{game:?}")
    });
    group.take(compare::check(game, &second, rng));
    if let Some(answer) = group.take(compare::solve(game, rng)) {
        group.agree(answer.winners == winners, || {
            format!("{answer:?}, but the winners are {winners:?}\n{game:?}")
        });
        if answer != second {
            group.take(compare::check(game, &answer, rng));
        }
    }
}

/// The checker over every answer with marks 0 to 2 and moves to each vertex, past the last, or
/// none.
pub fn every_answer(group: &mut Group) {
    let mut rng = Prng::new(102);
    for n in 1..=2 {
        let mut moves: Vec<u16> = (0..=n as u16).collect();
        moves.push(NO_MOVE);
        let kinds = 3 * moves.len();
        shapes::every(n, HIGHEST, |game| {
            for code in 0..kinds.pow(n as u32) {
                let kind = |v: usize| code / kinds.pow(v as u32) % kinds;
                let answer = Answer {
                    winners: (0..n).map(|v| (kind(v) % 3) as u8).collect(),
                    moves: (0..n).map(|v| moves[kind(v) / 3]).collect(),
                };
                group.take(compare::check(&game, &answer, &mut rng));
            }
        });
    }
    group.must_have_seen(&[0, 11, 12, 13, 14], 100);
}

pub fn random_games(group: &mut Group) {
    let mut rng = Prng::new(103);
    for _ in 0..12_000 {
        let game = shapes::any(&mut rng);
        let winners = zielonka::solve(&game).winners;
        solved_as(group, &game, &winners, &mut rng);
    }
}
