//! Malformed tables.

use crate::compare::{self, Amendment};
use crate::families::Family;
use crate::game::{Answer, Tables};
use crate::group::Group;
use crate::judge::Room;
use crate::prng::Prng;
use crate::shapes;
use crate::spoil;
use crate::zielonka;

/// Each number alone, then several at once, for solver and checker.
pub fn one_game(group: &mut Group) {
    let mut rng = Prng::new(301);
    for round in 0..4_000 {
        let number = round % 7 + 1;
        let game = spoil::tables(&shapes::any(&mut rng), &[number], &mut rng);
        for due in both(group, &game, &mut rng) {
            group.agree(due == number, || format!("made for {number}, and {due} is due\n{game:?}"));
        }
    }
    for _ in 0..6_000 {
        let numbers = some_numbers(&mut rng);
        let game = spoil::tables(&shapes::any(&mut rng), &numbers, &mut rng);
        both(group, &game, &mut rng);
    }
    for number in 1..=7 {
        let good = Family::Eight254.make(&mut rng);
        let game = spoil::tables(&good, &[number], &mut rng);
        both(group, &game, &mut rng);
    }
    group.must_have_seen(&[1, 2, 3, 4, 5, 6, 7], 400);
}

/// Solver and checker on the same tables, with buffers that fit and any answer; the numbers that
/// were due.
fn both(group: &mut Group, game: &Tables, rng: &mut Prng) -> Vec<u64> {
    let answer = any_answer(game.n(), rng);
    let solved = group.verdict(compare::solve(game, rng)).map(|outcome| outcome.map(drop));
    let checked = group.verdict(compare::check(game, &answer, rng));
    [solved, checked]
        .into_iter()
        .flatten()
        .map(|outcome| outcome.err().map_or(0, |fault| fault.number))
        .collect()
}

fn any_answer(n: usize, rng: &mut Prng) -> Answer {
    Answer {
        winners: (0..n).map(|_| rng.below(3) as u8).collect(),
        moves: (0..n).map(|_| rng.below(n + 1) as u16).collect(),
    }
}

/// One of 1 to 7, or some of them.
fn some_numbers(rng: &mut Prng) -> Vec<u64> {
    let alone = rng.between(1, 7) as u64;
    let set = rng.between(1, 127);
    if rng.percent(50) {
        return vec![alone];
    }
    // 1 hides all others, so it takes part less often.
    let hide = rng.percent(20);
    (1..=7).filter(|&number| set >> (number - 1) & 1 == 1 && (number > 1 || hide)).collect()
}

/// 1 to 7 in the first game, 21 to 27 in the second, 9, and several of these; wrong buffers and
/// wrong old answers come after all of them.
pub fn two_games(group: &mut Group) {
    let mut rng = Prng::new(302);
    for round in 0..8_000 {
        let mut first = shapes::any(&mut rng);
        let mut old = zielonka::solve(&first);
        let mut second = if rng.percent(50) { first.clone() } else { shapes::any(&mut rng) };
        // Rounds: the first alone, the second alone, both, neither.
        if round % 4 == 0 || round % 4 == 2 {
            first = spoil::tables(&first, &some_numbers(&mut rng), &mut rng);
        }
        if round % 4 == 1 || round % 4 == 2 {
            second = spoil::tables(&second, &some_numbers(&mut rng), &mut rng);
        }
        let mut room = Room::for_vertices(first.n());
        if rng.percent(20) {
            room.work += 1;
        }
        if rng.percent(20) {
            old = any_answer(first.n(), &mut rng);
        }
        group.take(compare::update_in(&Amendment { first, second, old }, room, &mut rng));
    }
    group.must_have_seen(&[1, 2, 3, 4, 5, 6, 7, 9, 21, 22, 23, 24, 25, 26, 27], 30);
}
