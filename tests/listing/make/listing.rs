//! The listing of a file by the rules, from the second program's reader and solver.

use crate::game::{Answer, Tables, NO_MOVE};
use crate::{housefile, judge, zielonka};
use std::fmt::Write;

/// What is read at most: one block more than the largest file has.
const LIMIT: usize = 43_520;

/// Far more choices than any game here has, and few enough to be tried.
const MOST_CHOICES: usize = 100_000;

pub fn of(file: &[u8]) -> String {
    match housefile::read(&file[..file.len().min(LIMIT)], housefile::ROOM) {
        Err(fault) => format!("refused {} {}\n", fault.number, fault.place),
        Ok(game) => of_game(&game),
    }
}

fn of_game(game: &Tables) -> String {
    let answer = zielonka::solve(game);
    assert!(judge::answer(game, &answer.winners, &answer.moves).is_none(), "a wrong answer");
    assert_eq!(right_choices(game, &answer), 1, "moves must not differ between right answers");
    let mut text = format!("game {} {}\n", game.n(), game.targets.len());
    for v in 0..game.n() {
        let (owner, priority, winner) = (game.owners[v], game.priorities[v], answer.winners[v]);
        write!(text, "{v} {owner} {priority} {winner} ").unwrap();
        match answer.moves[v] {
            NO_MOVE => writeln!(text, "-").unwrap(),
            to => writeln!(text, "{to}").unwrap(),
        }
    }
    text
}

/// How many choices of moves are right with these winners, who are the same in all right answers.
fn right_choices(game: &Tables, answer: &Answer) -> usize {
    let open: Vec<(usize, Vec<u16>)> = (0..game.n())
        .filter(|&v| game.owners[v] == answer.winners[v])
        .map(|v| (v, kept_in(game, answer, v)))
        .filter(|(_, candidates)| candidates.len() > 1)
        .collect();
    let all: usize = open.iter().map(|(_, candidates)| candidates.len()).product();
    assert!(all <= MOST_CHOICES, "too many choices of moves to be tried");
    (0..all).filter(|&choice| is_right(game, answer, &open, choice)).count()
}

/// The successors of v among its winner's vertices.
fn kept_in(game: &Tables, answer: &Answer, v: usize) -> Vec<u16> {
    let winners = &answer.winners;
    game.next(v).iter().copied().filter(|&w| winners[w as usize] == winners[v]).collect()
}

fn is_right(game: &Tables, answer: &Answer, open: &[(usize, Vec<u16>)], choice: usize) -> bool {
    let mut moves = answer.moves.clone();
    let mut rest = choice;
    for (v, candidates) in open {
        moves[*v] = candidates[rest % candidates.len()];
        rest /= candidates.len();
    }
    judge::answer(game, &answer.winners, &moves).is_none()
}
