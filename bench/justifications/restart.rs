//! A fresh start: what does not lean on an open vertex is decided for good and stays, and
//! everything else is opened again.

use super::state::State;

/// A level above all priorities.
const FIRM: u16 = 256;

impl State<'_> {
    pub fn restart(&mut self) {
        let n = self.game.n();
        self.counts.restarts += 1;
        self.counts.edges += n as u64;
        for v in 0..n {
            if self.open[v] {
                self.closure.seed(v);
            }
        }
        self.close();
        self.reopen(0);
        for v in 0..n {
            if !self.closure.marked[v] {
                self.levels[v] = FIRM;
            }
        }
        self.closure.clear();
    }
}
