//! Attraction from a vertex, open or settled, to the open vertices from which its winner can force
//! a step there.

use super::state::State;
use super::step::Line;
use crate::game::NO_MOVE;

/// The pile takes no more vertices than these.
const PILE: usize = 2_048;

/// What is left of the budget, and a priority from which on nothing has been settled.
pub struct Left {
    pub budget: u64,
    pub top: usize,
}

impl State<'_> {
    /// Its own priority if it is open, else its level.
    fn floor(&self, t: usize) -> u16 {
        if self.open[t] {
            self.game.priorities[t] as u16
        } else {
            self.levels[t]
        }
    }

    /// The least floor of x's successors, if all have the mark of `winner` and a floor that is not
    /// below `bound`.
    fn all_for(&mut self, winner: u8, bound: u16, x: usize) -> Option<u16> {
        let mut least = u16::MAX;
        let mut looked = 0;
        let mut all = true;
        for &t in self.game.next(x) {
            looked += 1;
            let level = self.floor(t as usize);
            if self.winners[t as usize] != winner || level < bound {
                all = false;
                break;
            }
            least = least.min(level);
        }
        self.counts.edges += looked;
        all.then_some(least)
    }

    /// The line that x can get through u: its owner moves there if he is u's winner; else all of
    /// x's successors must be marked as u is. Nothing below x's own priority and `low` may be
    /// leaned on.
    fn offer(&mut self, x: usize, u: usize, low: u16) -> Option<Line> {
        if !self.open[x] {
            return None;
        }
        let bound = low.max(self.game.priorities[x] as u16);
        let winner = self.winners[u];
        if self.game.owners[x] == winner {
            let level = self.floor(u);
            return (level >= bound).then_some(Line { winner, to: u as u16, level });
        }
        let level = self.all_for(winner, bound, x)?;
        Some(Line { winner, to: NO_MOVE, level })
    }

    /// One vertex more; on a full pile it is left out, and waits in its line for a later turn.
    pub fn push(&mut self, x: usize) {
        if self.pile.len() < PILE {
            self.pile.push(x as u16);
        }
    }

    /// Every open vertex from which an edge leads to u gets the line that it can get through u, if
    /// any, and goes on the pile. A priority from which on none of them is.
    fn visit(&mut self, u: usize, low: u16) -> usize {
        let mut top = 0;
        let mut walked = 0;
        let mut edge = self.into.first(u);
        while let Some(e) = edge {
            let (x, next) = self.into.step(e);
            edge = next;
            walked += 1;
            if let Some(line) = self.offer(x, u, low) {
                self.step(x, line, 0);
                self.push(x);
                top = top.max(self.game.priorities[x] as usize + 1);
            }
        }
        self.counts.edges += walked;
        top
    }

    /// Visits the pile's vertices, the last first, until it is empty or the budget, one a visit, is
    /// spent. The pile is empty afterwards.
    pub fn drain(&mut self, low: u16, budget: u64) -> Left {
        let mut top = 0;
        let mut left = budget;
        while left > 0 {
            let Some(u) = self.pile.pop() else {
                return Left { budget: left, top };
            };
            top = top.max(self.visit(u as usize, low));
            left -= 1;
        }
        self.pile.clear();
        Left { budget: 0, top }
    }
}
