//! The update.

use crate::amend;
use crate::compare::{self, Amendment};
use crate::families;
use crate::game::{Answer, Tables};
use crate::group::Group;
use crate::groups::full::by_second_method;
use crate::judge::Room;
use crate::prng::Prng;
use crate::shapes;
use crate::zielonka;

pub fn small(group: &mut Group) {
    let mut rng = Prng::new(601);
    for round in 0..9_000 {
        let first = if round % 3 == 0 { shapes::any(&mut rng) } else { parted(&mut rng) };
        let old = some_right_answer(&first, &mut rng);
        let second = amend::game(&first, round % 6, &mut rng);
        let Some((new, count)) = updated(group, &first, &second, &old, &mut rng) else {
            continue;
        };
        if round % 6 == 0 {
            group.agree(new == old && count == 0, || {
                format!("nothing differs, and the count is {count}: {new:?}\n{first:?}")
            });
        }
        // A second amendment from the library's own answer.
        let third = amend::game(&second, rng.between(0, 5), &mut rng);
        updated(group, &second, &third, &new, &mut rng);
    }
}

fn parted(rng: &mut Prng) -> Tables {
    let n = rng.between(1, 40);
    shapes::parted(n, rng)
}

/// An answer that is right, with moves that are not always those of one method.
fn some_right_answer(game: &Tables, rng: &mut Prng) -> Answer {
    let mut answer = zielonka::solve(game);
    amend::moves(game, &mut answer, 8, rng);
    answer
}

/// One update whose winners are compared with those of Zielonka's method on the second game.
fn updated(
    group: &mut Group,
    first: &Tables,
    second: &Tables,
    old: &Answer,
    rng: &mut Prng,
) -> Option<(Answer, u64)> {
    let given = Amendment { first: first.clone(), second: second.clone(), old: old.clone() };
    let (new, count) = group.take(compare::update(&given, rng))?;
    let winners = zielonka::solve(second).winners;
    group.agree(new.winners == winners, || {
        format!("{new:?}, but the winners are {winners:?}\n{given:?}")
    });
    Some((new, count))
}

pub fn full(group: &mut Group) {
    for (i, family) in families::ALL.into_iter().enumerate() {
        let mut rng = Prng::new(610 + i as u64);
        amended(group, &family.make(&mut rng), &[0, 1, 2, 3, 4, 5], &mut rng);
    }
    // Here some vertices are reached and many are not.
    let mut rng = Prng::new(620);
    for counts in [[0, 1], [1, 1], [2, 3], [4, 5]] {
        amended(group, &shapes::parted(2_048, &mut rng), &counts, &mut rng);
    }
}

/// Amendments of so many vertices of a game that is perhaps too much for Zielonka's method: then
/// the library's own answer, which the judge has accepted, is the old one, and the judge alone
/// shows the new winners.
fn amended(group: &mut Group, first: &Tables, counts: &[usize], rng: &mut Prng) {
    let solved = group.take(compare::solve(first, rng));
    let Some(mut old) = by_second_method(first).or(solved) else {
        return;
    };
    amend::moves(first, &mut old, 40, rng);
    for &count in counts {
        let second = amend::game(first, count, rng);
        let given = Amendment { first: first.clone(), second, old: old.clone() };
        let Some((new, _)) = group.take(compare::update(&given, rng)) else {
            continue;
        };
        if let Some(right) = by_second_method(&given.second) {
            group.agree(new.winners == right.winners, || {
                format!("{new:?}, not {right:?}\n{given:?}")
            });
        }
    }
}

/// The old answer is checked against the first game, whatever the second is.
pub fn wrong_old_answers(group: &mut Group) {
    let mut rng = Prng::new(602);
    for round in 0..6_000 {
        let first = shapes::any(&mut rng);
        let second = amend::game(&first, round % 3, &mut rng);
        let mut old =
            if round % 5 == 0 { zielonka::solve(&second) } else { zielonka::solve(&first) };
        for _ in 0..rng.between(0, 2) {
            amend::answer(&first, &mut old, &mut rng);
        }
        let mut room = Room::for_vertices(first.n());
        if rng.percent(5) {
            room.moves -= 1;
        }
        group.take(compare::update_in(&Amendment { first, second, old }, room, &mut rng));
    }
    group.must_have_seen(&[0, 8, 11, 12, 13, 14], 100);
}
