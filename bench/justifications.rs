//! The library's own method in plain Rust: function by function what crates/pick, levels, step,
//! attract, orders, restart and solver do, over the same structures and in the same order. So it
//! gives the library's own answers, moves and all, and what it counts is what the library does. It
//! takes well-formed games only.

mod attraction;
mod drawing;
mod lines;
mod restart;
mod state;
mod step;

use crate::game::{Answer, Tables};
use state::State;

/// With more priorities than these in use, attraction comes first.
const FEW_PRIORITIES: usize = 6;

/// The first round's budget, for each vertex.
const FIRST_BUDGET: u64 = 16;

/// How many rounds have a budget, each twice the one before it.
const ROUNDS: u32 = 32;

/// What a run did.
#[derive(Clone, Copy, Default)]
pub struct Counts {
    /// Edges visited: successors looked at, and edges walked backwards; and for each restart one
    /// for each vertex.
    pub edges: u64,
    /// Tests of a vertex of least priority.
    pub tests: u64,
    /// Vertices turned to the opponent.
    pub turns: u64,
    pub restarts: u64,
}

/// Nothing is open, or the budget is spent.
#[derive(Clone, Copy, PartialEq, Eq)]
enum Ended {
    Done,
    Spent,
}

pub fn solve(game: &Tables) -> Answer {
    solve_counted(game).0
}

pub fn solve_counted(game: &Tables) -> (Answer, Counts) {
    let mut state = State::all_open(game);
    state.settle();
    let counts = state.counts;
    (state.answer(), counts)
}

/// Lowest first alone, as the library went before; no answer if so many steps do not do.
pub fn lowest_first(game: &Tables, steps: u64) -> (Option<Answer>, Counts) {
    let mut state = State::all_open(game);
    let ended = state.lowest(steps);
    let counts = state.counts;
    ((ended == Ended::Done).then(|| state.answer()), counts)
}

impl State<'_> {
    /// The two orders in turn, each from a fresh start and with twice the budget of the other;
    /// after many rounds, lowest first without end.
    fn settle(&mut self) {
        let mut drawing = self.lines.in_use() > FEW_PRIORITIES;
        let mut budget = FIRST_BUDGET * self.game.n() as u64;
        for _ in 0..ROUNDS {
            let ended = if drawing { self.attraction(budget) } else { self.lowest(budget) };
            if ended == Ended::Done {
                return;
            }
            self.restart();
            drawing = !drawing;
            budget *= 2;
        }
        while self.lowest(u64::MAX) == Ended::Spent {}
    }

    /// Lowest first: again and again an open vertex of least priority, until nothing is open or
    /// the budget, one a step, is spent.
    fn lowest(&mut self, budget: u64) -> Ended {
        let mut low = 0;
        for _ in 0..budget {
            let Some(v) = self.lines.pick(low, &self.open) else {
                return Ended::Done;
            };
            low = self.step_least(v);
        }
        Ended::Spent
    }
}
