//! The cases of the rules' own section on small games.

use crate::compare::{self, Amendment};
use crate::game::{Answer, Tables, Vertex, NO_MOVE};
use crate::group::Group;
use crate::housefile::Filing;
use crate::judge::Fault;
use crate::prng::Prng;

fn game_a() -> Tables {
    Tables::of(&[
        Vertex::new(0, 0, &[1, 2]),
        Vertex::new(1, 1, &[0]),
        Vertex::new(0, 2, &[0]),
        Vertex::new(1, 3, &[3]),
    ])
}

fn game_b() -> Tables {
    Tables { owners: vec![1, 1, 0, 1], ..game_a() }
}

fn p1() -> Answer {
    Answer { winners: vec![0, 0, 0, 1], moves: vec![2, NO_MOVE, 0, 3] }
}

fn p2() -> Answer {
    Answer { winners: vec![1, 1, 1, 1], moves: vec![1, 0, NO_MOVE, 3] }
}

pub fn cases(group: &mut Group) {
    solved(group, "P1", &game_a(), p1());
    solved(group, "P2", &game_b(), p2());
    updated(group, "P3", game_b(), (p2(), 3));
    updated(group, "P4", game_a(), (p1(), 0));
    checked(group, "P1", &game_a(), p1(), Ok(()));
    checked(group, "P2", &game_b(), p2(), Ok(()));
    checked(
        group,
        "P5",
        &game_a(),
        Answer { moves: vec![1, NO_MOVE, 0, 3], ..p1() },
        refused(14, 1),
    );
    let even_everywhere = Answer { winners: vec![0, 0, 0, 0], moves: vec![2, NO_MOVE, 0, NO_MOVE] };
    checked(group, "P6", &game_a(), even_everywhere, refused(14, 3));
    checked(
        group,
        "P7",
        &game_a(),
        Answer { winners: vec![0, 1, 0, 1], moves: vec![2, 0, 0, 3] },
        refused(12, 1),
    );
    let escaping = Tables::of(&[Vertex::new(1, 0, &[0, 1]), Vertex::new(1, 1, &[1])]);
    checked(
        group,
        "P8",
        &escaping,
        Answer { winners: vec![0, 1], moves: vec![NO_MOVE, 1] },
        refused(13, 0),
    );
    let idling = Tables::of(&[Vertex::new(0, 1, &[0, 1]), Vertex::new(0, 2, &[1])]);
    solved(group, "P9", &idling, Answer { winners: vec![0, 0], moves: vec![1, 1] });
    solved(group, "P10", &loop_of(254), Answer { winners: vec![0], moves: vec![NO_MOVE] });
    refused_by_solver(group, "P10", &loop_of(255), Fault { number: 3, place: 0 });
    sizes_and_order(group);
    lowest_counts(group);
}

fn refused(number: u64, place: u64) -> Result<(), Fault> {
    Err(Fault { number, place })
}

/// One vertex of Odd with a loop.
fn loop_of(priority: u8) -> Tables {
    Tables::of(&[Vertex::new(1, priority, &[0])])
}

fn solved(group: &mut Group, case: &str, game: &Tables, right: Answer) {
    let answer = group.take(compare::solve(game, &mut Prng::new(1)));
    group.agree(answer.as_ref() == Some(&right), || format!("{case}: {answer:?}, not {right:?}"));
}

fn refused_by_solver(group: &mut Group, case: &str, game: &Tables, right: Fault) {
    let verdict = group.verdict(compare::solve(game, &mut Prng::new(2)));
    group.agree(verdict == Some(Err(right)), || format!("{case}: {verdict:?}, not {right:?}"));
}

fn checked(group: &mut Group, case: &str, game: &Tables, answer: Answer, right: Result<(), Fault>) {
    let verdict = group.verdict(compare::check(game, &answer, &mut Prng::new(3)));
    group.agree(verdict == Some(right), || format!("{case}: {verdict:?}, not {right:?}"));
}

/// From A with P1.
fn updated(group: &mut Group, case: &str, second: Tables, right: (Answer, u64)) {
    let given = Amendment { first: game_a(), second, old: p1() };
    let outcome = group.take(compare::update(&given, &mut Prng::new(4)));
    group.agree(outcome.as_ref() == Some(&right), || format!("{case}: {outcome:?}, not {right:?}"));
}

fn sizes_and_order(group: &mut Group) {
    let loops =
        |n: usize| Tables::of(&(0..n).map(|v| Vertex::new(0, 0, &[v as u16])).collect::<Vec<_>>());
    solved(
        group,
        "2,048 vertices",
        &loops(2_048),
        Answer { winners: vec![0; 2_048], moves: (0..2_048).collect() },
    );
    refused_by_solver(group, "2,049 vertices", &loops(2_049), Fault { number: 1, place: 0 });
    let mut turned = game_a();
    turned.targets.swap(0, 1);
    refused_by_solver(group, "targets 2, 1", &turned, Fault { number: 7, place: 1 });
}

/// Under rule 1 the priorities 1, 2, 4 become 3, 2, 0.
fn lowest_counts(group: &mut Group) {
    let filed = Tables::of(&[1, 2, 4].map(|priority| Vertex::new(0, priority, &[0])));
    let read = group.take(compare::read(&Filing::of(&filed, 1).bytes(), &mut Prng::new(5)));
    let turned = read.map(|game| game.priorities);
    group.agree(turned == Some(vec![3, 2, 0]), || format!("rule 1: {turned:?}, not 3, 2, 0"));
}
