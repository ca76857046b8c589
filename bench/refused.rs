//! The check of an answer that is right but for the move at a hub, which is none of its
//! 2,000 successors: the test of the move must find out that it is not there.

use crate::families::{Family, Place};
use crate::game::Tables;
use crate::library::Buffers;
use crate::prng::Prng;
use crate::timing::{median, Time};

pub const NAME: &str = "hubs of 2,000 successors, a move that is none of them";

/// The move, told by where it would have to stand, and the time until it is refused.
pub fn times() -> Result<[(&'static str, Time); 3], String> {
    let game = Family::Idle(Place::Middle).make(&mut Prng::new(900));
    let time = |strange| time(&game, strange).map_err(|what| format!("{NAME}: {what}"));
    Ok([
        ("below them all", time(0)?),
        ("between them", time(between(&game)?)?),
        ("above them all", time(u16::MAX - 1)?),
    ])
}

fn time(game: &Tables, strange: u16) -> Result<Time, String> {
    let mut buffers = Buffers::new(game.n());
    buffers.solve(game)?;
    let mut answer = buffers.answer();
    answer.moves[0] = strange;
    median(&mut buffers, Buffers::spoil, |buffers| buffers.refused(game, &answer, 12, 0))
}

/// The first vertex behind the middle of vertex 0's successors that is none of them.
fn between(game: &Tables) -> Result<u16, String> {
    let next = game.next(0);
    let gap = next[next.len() / 2..].windows(2).find(|pair| pair[0] + 1 < pair[1]);
    gap.map(|pair| pair[0] + 1).ok_or("no vertex between the successors".to_string())
}
