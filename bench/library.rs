//! The library's calls, over buffers that are kept from one call to the next.

use crate::ffi;
use crate::game::{Answer, Tables};
use crate::said::Said;

pub struct Buffers {
    winners: Vec<u8>,
    moves: Vec<u16>,
    work: Vec<u16>,
}

impl Buffers {
    pub fn new(n: usize) -> Self {
        Buffers { winners: vec![0; n], moves: vec![0; n], work: vec![0; 4 * n] }
    }

    /// Fills everything with content that no call leaves.
    pub fn spoil(&mut self) {
        self.winners.fill(0xA5);
        self.moves.fill(0xA5A5);
        self.work.fill(0xA5A5);
    }

    pub fn answer(&self) -> Answer {
        Answer { winners: self.winners.clone(), moves: self.moves.clone() }
    }

    pub fn solve(&mut self, game: &Tables) -> Result<(), String> {
        succeeded(ffi::solve(game.view(), &mut self.winners, &mut self.moves, &mut self.work))
            .map(drop)
    }

    pub fn check(&mut self, game: &Tables, answer: &Answer) -> Result<(), String> {
        succeeded(ffi::check(game.view(), &answer.winners, &answer.moves, &mut self.work)).map(drop)
    }

    /// A check that must refuse with this number and place.
    pub fn refused(
        &mut self,
        game: &Tables,
        answer: &Answer,
        number: u64,
        value: u64,
    ) -> Result<(), String> {
        let said = ffi::check(game.view(), &answer.winners, &answer.moves, &mut self.work);
        if said == (Said { number, value }) {
            return Ok(());
        }
        Err(format!("{said:?}, not {number} at {value}"))
    }

    /// The count.
    pub fn update(&mut self, first: &Tables, second: &Tables, old: &Answer) -> Result<u64, String> {
        let Buffers { winners, moves, work } = self;
        succeeded(ffi::update(
            first.view(),
            second.view(),
            &old.winners,
            &old.moves,
            winners,
            moves,
            work,
        ))
    }
}

/// The reader's tables.
pub struct Lent {
    owners: Vec<u8>,
    priorities: Vec<u8>,
    starts: Vec<u16>,
    targets: Vec<u16>,
}

impl Lent {
    pub fn new() -> Self {
        Lent {
            owners: vec![0; 2_048],
            priorities: vec![0; 2_048],
            starts: vec![0; 2_049],
            targets: vec![0; 16_384],
        }
    }

    /// Fills everything with content that no call leaves.
    pub fn spoil(&mut self) {
        self.owners.fill(0xA5);
        self.priorities.fill(0xA5);
        self.starts.fill(0xA5A5);
        self.targets.fill(0xA5A5);
    }

    pub fn read(&mut self, file: &[u8]) -> Result<(), String> {
        let Lent { owners, priorities, starts, targets } = self;
        succeeded(ffi::read(file, owners, priorities, starts, targets)).map(drop)
    }

    /// What a file that fills the tables has left in them.
    pub fn filled(self) -> Tables {
        let Lent { owners, priorities, starts, targets } = self;
        Tables { owners, priorities, starts, targets }
    }
}

/// The writer's output.
pub struct Output {
    file: Vec<u8>,
}

impl Output {
    pub fn new(length: usize) -> Self {
        Output { file: vec![0; length] }
    }

    /// Fills it with content that is no file's.
    pub fn spoil(&mut self) {
        self.file.fill(0xA5);
    }

    pub fn write(&mut self, game: &Tables) -> Result<(), String> {
        succeeded(ffi::write(game.view(), &mut self.file)).map(drop)
    }
}

fn succeeded(said: Said) -> Result<u64, String> {
    match said.number {
        0 => Ok(said.value),
        number => Err(format!("refused with {number} at {}", said.value)),
    }
}
