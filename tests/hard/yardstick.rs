//! The library's time on a full-size relay-like game, by which the times of other games are
//! measured in the same run: such a game is what the library is for.

use crate::families::Family;
use crate::library::Buffers;
use crate::prng::Prng;
use crate::timing::{median, Time};

/// The worst of three games.
pub fn relay() -> Result<Time, String> {
    let mut worst = Time::ZERO;
    for seed in 0..3 {
        let game = Family::Relay.make(&mut Prng::new(900 + seed));
        let mut buffers = Buffers::new(game.n());
        worst = worst.worse(median(&mut buffers, Buffers::spoil, |buffers| buffers.solve(&game))?);
    }
    Ok(worst)
}
