//! Lent memory under watch: the middle of a larger stretch whose two ends must stay as they are,
//! and a copy of all of it from before.

use crate::game::{Tables, View};
use crate::prng::Prng;

/// How many elements stand before and after what is lent.
const GUARD: usize = 40;

pub trait Element: Copy + PartialEq + Default {
    const CANARY: Self;
    fn any(rng: &mut Prng) -> Self;
}

impl Element for u8 {
    const CANARY: u8 = 0xA7;
    fn any(rng: &mut Prng) -> u8 {
        rng.next() as u8
    }
}

impl Element for u16 {
    const CANARY: u16 = 0xA7C9;
    fn any(rng: &mut Prng) -> u16 {
        rng.next() as u16
    }
}

pub struct Lent<T> {
    whole: Vec<T>,
    entry: Vec<T>,
}

impl<T: Element> Lent<T> {
    pub fn with(content: &[T]) -> Self {
        let mut whole = vec![T::CANARY; GUARD];
        whole.extend_from_slice(content);
        whole.extend_from_slice(&[T::CANARY; GUARD]);
        let entry = whole.clone();
        Lent { whole, entry }
    }

    /// A buffer for an answer, with any content.
    pub fn any(length: usize, rng: &mut Prng) -> Self {
        let content: Vec<T> = (0..length).map(|_| T::any(rng)).collect();
        Lent::with(&content)
    }

    pub fn get(&self) -> &[T] {
        &self.whole[GUARD..self.whole.len() - GUARD]
    }

    pub fn get_mut(&mut self) -> &mut [T] {
        let end = self.whole.len() - GUARD;
        &mut self.whole[GUARD..end]
    }

    /// Lent memory and both ends are as before the call.
    pub fn unchanged(&self, name: &str) -> Result<(), String> {
        if self.whole == self.entry {
            return Ok(());
        }
        self.ends_unchanged(name)?;
        Err(format!("the call changed {name}"))
    }

    pub fn ends_unchanged(&self, name: &str) -> Result<(), String> {
        let end = self.whole.len() - GUARD;
        if self.whole[..GUARD] == self.entry[..GUARD] && self.whole[end..] == self.entry[end..] {
            return Ok(());
        }
        Err(format!("the call changed memory beside {name}"))
    }

    /// Both ends are as before the call and every lent element is zero.
    pub fn zeroed(&self, name: &str) -> Result<(), String> {
        self.ends_unchanged(name)?;
        if self.get().iter().all(|&element| element == T::default()) {
            return Ok(());
        }
        Err(format!("{name} is not all zero"))
    }
}

/// A game lent to be read only.
pub struct LentTables {
    owners: Lent<u8>,
    priorities: Lent<u8>,
    starts: Lent<u16>,
    targets: Lent<u16>,
}

impl LentTables {
    pub fn with(game: &Tables) -> Self {
        LentTables {
            owners: Lent::with(&game.owners),
            priorities: Lent::with(&game.priorities),
            starts: Lent::with(&game.starts),
            targets: Lent::with(&game.targets),
        }
    }

    pub fn view(&self) -> View<'_> {
        View {
            owners: self.owners.get(),
            priorities: self.priorities.get(),
            starts: self.starts.get(),
            targets: self.targets.get(),
        }
    }

    pub fn unchanged(&self) -> Result<(), String> {
        self.owners.unchanged("the owners")?;
        self.priorities.unchanged("the priorities")?;
        self.starts.unchanged("the starts")?;
        self.targets.unchanged("the targets")
    }
}
