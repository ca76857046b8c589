//! The writer of house files, alone and with the reader.

use crate::compare;
use crate::game::Tables;
use crate::group::Group;
use crate::housefile::{self, Filing, BLOCK};
use crate::prng::Prng;
use crate::shapes;
use crate::spoil;

/// Vertices and edges on both sides of a block's edge, and at the limits of the whole.
const VERTICES: [usize; 6] = [1, 125, 126, 127, 252, 2_048];
const EDGES: [usize; 8] = [1, 251, 252, 253, 504, 505, 2_048, 16_384];

/// Games of all these sizes, then small ones of every shape.
fn games(rng: &mut Prng) -> Vec<Tables> {
    let mut games = Vec::new();
    for n in VERTICES {
        for edges in EDGES.into_iter().filter(|&edges| n <= edges && edges <= n * n) {
            games.push(shapes::of_size(n, edges, rng));
        }
    }
    games.extend((0..2_000).map(|_| shapes::any(rng)));
    games
}

/// The bytes are those of the maker, and the reader gives the same tables back.
pub fn good(group: &mut Group) {
    let mut rng = Prng::new(801);
    for game in games(&mut rng) {
        let Some(file) = group.take(compare::write(&game, &mut rng)) else { continue };
        let read = group.take(compare::read(&file, &mut rng));
        group.agree(read.as_ref() == Some(&game), || {
            format!("written, and read back as {read:?}\n{game:?}")
        });
    }
}

/// A file of rule 0 that was read is written as it was; one of rule 1 as its turned game, by rule
/// 0, which is read as the same game.
pub fn back(group: &mut Group) {
    let mut rng = Prng::new(802);
    for (round, game) in games(&mut rng).into_iter().enumerate() {
        let rule = (round % 2) as u8;
        let file = Filing::of(&game, rule).bytes();
        let Some(read) = group.take(compare::read(&file, &mut rng)) else { continue };
        let Some(written) = group.take(compare::write(&read, &mut rng)) else { continue };
        if rule == 0 {
            group.agree(written == file, || format!("a file is written otherwise\n{game:?}"));
        } else {
            let again = group.take(compare::read(&written, &mut rng));
            group.agree(again == Some(read), || {
                format!("read, written, read: not the same\n{game:?}")
            });
        }
    }
}

/// Tables with faults of every number, alone and together, and outputs that fit or do not.
pub fn malformed(group: &mut Group) {
    let mut rng = Prng::new(803);
    for round in 0..6_000 {
        let number = round % 7 + 1;
        let more = rng.between(1, 7) as u64;
        let numbers = if rng.percent(50) { vec![number] } else { vec![number, more] };
        let game = spoil::tables(&shapes::any(&mut rng), &numbers, &mut rng);
        let room = some_length(&game, &mut rng);
        let verdict = group.verdict(compare::write_in(&game, room, &mut rng));
        let due = verdict.map_or(0, |outcome| outcome.err().map_or(0, |fault| fault.number));
        group.agree(numbers.len() > 1 || due == number, || {
            format!("made for {number}, and {due} is due\n{game:?}")
        });
    }
    group.must_have_seen(&[1, 2, 3, 4, 5, 6, 7], 400);
}

/// The length that fits, or some other.
fn some_length(game: &Tables, rng: &mut Prng) -> usize {
    let fits = housefile::length(game.n(), game.targets.len());
    rng.one_of(&[fits, fits, 0, fits - 1, fits + 1])
}

/// 46: empty, shorter, longer, by a byte, by a block, by what 16 bits do not show.
pub fn outputs(group: &mut Group) {
    let mut rng = Prng::new(804);
    for game in games(&mut rng) {
        let fits = housefile::length(game.n(), game.targets.len());
        let lengths = [
            0,
            1,
            BLOCK,
            fits - BLOCK,
            fits - 1,
            fits,
            fits + 1,
            fits + BLOCK,
            2 * fits,
            fits + 65_536,
        ];
        for room in lengths {
            group.take(compare::write_in(&game, room, &mut rng));
        }
    }
    group.must_have_seen(&[0], 2_000);
    group.must_have_seen(&[46], 10_000);
}
