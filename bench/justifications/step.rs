//! One step: an open vertex gets a line and is settled with it, or turned to the opponent, and then
//! what leans on it is opened again.

use super::state::State;
use crate::game::{parity, NO_MOVE};

/// A line that a vertex may get: who wins it, his move, none where he does not own it, and a level.
#[derive(Clone, Copy)]
pub struct Line {
    pub winner: u8,
    pub to: u16,
    pub level: u16,
}

impl State<'_> {
    /// The line that v's successors' marks give, with v's own priority as its level.
    fn test(&mut self, v: usize) -> Line {
        let owner = self.game.owners[v];
        let level = self.game.priorities[v] as u16;
        let next = self.game.next(v);
        let hit = next.iter().position(|&w| self.winners[w as usize] == owner);
        self.counts.tests += 1;
        self.counts.edges += hit.map_or(next.len(), |hit| hit + 1) as u64;
        match hit {
            Some(hit) => Line { winner: owner, to: next[hit], level },
            None => Line { winner: 1 - owner, to: NO_MOVE, level },
        }
    }

    /// v, which is open, gets the line. If nothing below `low` is open before, nothing below the
    /// result is afterwards.
    pub fn step(&mut self, v: usize, line: Line, low: usize) -> usize {
        if line.winner == parity(self.game.priorities[v]) {
            self.keep(v, line);
            return low;
        }
        self.turn(v, line, low)
    }

    /// An open vertex of least priority gets the line that the test gives.
    pub fn step_least(&mut self, v: usize) -> usize {
        let line = self.test(v);
        self.step(v, line, self.game.priorities[v] as usize)
    }

    fn keep(&mut self, v: usize, line: Line) {
        self.moves[v] = line.to;
        self.levels[v] = line.level;
        self.open[v] = false;
    }

    fn turn(&mut self, v: usize, line: Line, low: usize) -> usize {
        self.counts.turns += 1;
        self.closure.seed(v);
        self.close();
        let least = self.reopen(low);
        self.closure.clear();
        self.winners[v] = line.winner;
        self.keep(v, line);
        least
    }

    /// Queues every settled vertex that leans on the queue.
    pub fn close(&mut self) {
        let mut walked = 0;
        let mut head = 0;
        while let Some(&w) = self.closure.queue.get(head) {
            head += 1;
            let mut edge = self.into.first(w as usize);
            while let Some(e) = edge {
                let (u, next) = self.into.step(e);
                edge = next;
                walked += 1;
                let free = !self.closure.marked[u] && !self.open[u];
                if free && (self.moves[u] == NO_MOVE || self.moves[u] == w) {
                    self.closure.seed(u);
                }
            }
        }
        self.counts.edges += walked;
    }

    /// Opens the queue's vertices with their own parities' marks; the result is the least of `from`
    /// and their priorities.
    pub fn reopen(&mut self, from: usize) -> usize {
        let mut low = from;
        for &u in &self.closure.queue {
            let priority = self.game.priorities[u as usize];
            self.winners[u as usize] = parity(priority);
            self.lines.stand(u as usize, priority);
            self.open[u as usize] = true;
            low = low.min(priority as usize);
        }
        low
    }
}
