//! Attraction, from the highest priority down; where it comes to a stand an open vertex of least
//! priority is tested.

use super::drawing::Left;
use super::state::State;
use super::Ended;

const PRIORITIES: usize = 256;

impl State<'_> {
    /// The pile of those who are new in a line and open; they are new no longer.
    fn gather(&mut self, priority: usize) {
        let mut next = self.lines.front(priority, &self.open);
        while let Some(v) = next {
            if self.lines.look(v) && self.open[v] {
                self.push(v);
            }
            next = self.lines.behind(v);
        }
    }

    /// From the priority below `top` down to 0: attracts from the new open vertices, and nothing
    /// below their priority is leaned on.
    fn sweep(&mut self, top: usize, budget: u64) -> Left {
        let mut swept = Left { budget, top: 0 };
        for p in (0..top).rev() {
            self.gather(p);
            let drained = self.drain(p as u16, swept.budget);
            swept = Left { budget: drained.budget, top: swept.top.max(drained.top) };
        }
        swept
    }

    /// Tests v, an open vertex of least priority, and attracts from it; the test costs one.
    fn probe(&mut self, v: usize, budget: u64) -> Left {
        self.step_least(v);
        self.push(v);
        let drained = self.drain(0, budget.saturating_sub(1));
        Left { top: drained.top.max(self.game.priorities[v] as usize + 1), ..drained }
    }

    /// Attracts until nothing is open or the budget, one a test and one a visit, is spent.
    pub fn attraction(&mut self, budget: u64) -> Ended {
        let mut left = Left { budget, top: PRIORITIES };
        while left.budget > 0 {
            let swept = self.sweep(left.top, left.budget);
            let Some(v) = self.lines.pick(0, &self.open) else {
                return Ended::Done;
            };
            let probed = self.probe(v, swept.budget);
            left = Left { budget: probed.budget, top: swept.top.max(probed.top) };
        }
        Ended::Spent
    }
}
