//! The library beside the Rust version of its method. As long as both give the same answers, moves
//! and all, what the one counts is what the other does.

use crate::game::{Answer, Tables};
use crate::library::Buffers;
use crate::timing::{median, Time};

/// Fails unless the library gives the Rust version's answer; its time on the game.
pub fn time(game: &Tables, rust: &Answer) -> Result<Time, String> {
    let mut buffers = Buffers::new(game.n());
    let time = median(&mut buffers, Buffers::spoil, |buffers| buffers.solve(game))?;
    same(&buffers.answer(), rust)?;
    Ok(time)
}

/// Fails unless the answers are the same, winners and moves.
pub fn same(library: &Answer, rust: &Answer) -> Result<(), String> {
    if library.winners != rust.winners {
        return Err("the library and the Rust version give different winners".to_string());
    }
    if library.moves != rust.moves {
        return Err("the library and the Rust version give different moves".to_string());
    }
    Ok(())
}
