//! The largest file, 84 blocks, and files that are longer.

use crate::game::{Tables, Vertex, MOST_EDGES, MOST_VERTICES};
use crate::housefile::{Filing, BLOCK};
use crate::prng::Prng;
use crate::Pair;

const SUCCESSORS: usize = MOST_EDGES / MOST_VERTICES;

/// How many of each player's vertices, the last ones, have his highest priority.
const TOPS: usize = 16;

pub fn all() -> Vec<Pair> {
    let file = Filing::of(&largest(), 0).bytes();
    assert_eq!(file.len(), 84 * BLOCK);
    let blocks_85 = [&file[..], &file[..BLOCK]].concat();
    // 88 whole blocks and a part: of these 85 are read
    let beyond = [&blocks_85[..], &file[..3 * BLOCK + 7]].concat();
    vec![
        Pair::computed("largest_84_blocks", file),
        Pair::by_hand("41_85_blocks", blocks_85, "refused 41 85\n"),
        Pair::by_hand("41_beyond_what_is_read", beyond, "refused 41 85\n"),
    ]
}

/// A game of 2,048 vertices and 16,384 edges whose right moves are unique. Each vertex is meant for
/// one player. Where he owns it, one successor is meant for him and the others are not, so there is
/// one move by which he stays; where he does not, all are. Among the vertices meant for one player
/// the edges go upwards, but for those from the last ones, which have the highest priority and his
/// parity: every cycle there is his.
fn largest() -> Tables {
    let mut rng = Prng::new(84);
    let meant: Vec<u8> = (0..MOST_VERTICES).map(|_| rng.below(2) as u8).collect();
    let side = |player: u8| -> Vec<u16> {
        (0..MOST_VERTICES as u16).filter(|&v| meant[v as usize] == player).collect()
    };
    let sides = [side(0), side(1)];
    let vertices: Vec<Vertex> = (0..MOST_VERTICES as u16)
        .map(|v| {
            let player = meant[v as usize];
            let own = &sides[player as usize];
            let first_top = own[own.len() - TOPS];
            let ahead: Vec<u16> =
                own.iter().copied().filter(|&w| w > v || v >= first_top).collect();
            let owner = rng.below(2) as u8;
            let next = match owner == player {
                true => {
                    let stay = rng.one_of(&ahead);
                    let mut next = drawn(&mut rng, &sides[1 - player as usize], SUCCESSORS - 1);
                    next.push(stay);
                    next.sort_unstable();
                    next
                }
                false => drawn(&mut rng, &ahead, SUCCESSORS),
            };
            let top = 254 - player;
            let priority = if v >= first_top { top } else { rng.below(253) as u8 };
            Vertex { owner, priority, next }
        })
        .collect();
    Tables::of(&vertices)
}

/// So many of the vertices, ascending.
fn drawn(rng: &mut Prng, from: &[u16], count: usize) -> Vec<u16> {
    let mut next = Vec::new();
    while next.len() < count {
        let w = rng.one_of(from);
        if !next.contains(&w) {
            next.push(w);
        }
    }
    next.sort_unstable();
    next
}
