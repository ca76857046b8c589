//! The reader of house files.

use crate::compare;
use crate::damage;
use crate::game::Tables;
use crate::group::Group;
use crate::housefile::{Filing, BLOCK, ROOM};
use crate::prng::Prng;
use crate::shapes;

/// Every number that the reader can give.
const ALL: [u64; 12] = [41, 42, 43, 44, 1, 45, 2, 3, 5, 6, 7, 8];

/// Vertices and edges at the limits of blocks and of the whole.
const SIZES: [(usize, usize); 16] = [
    (1, 1),
    (2, 4),
    (16, 252),
    (16, 253),
    (125, 251),
    (126, 252),
    (127, 253),
    (126, 504),
    (252, 505),
    (253, 16_000),
    (252, 252),
    (300, 16_384),
    (2_016, 16_128),
    (2_047, 16_383),
    (2_048, 2_048),
    (2_048, 16_384),
];

pub fn good(group: &mut Group) {
    let mut rng = Prng::new(701);
    for (n, edges) in SIZES {
        for rule in [0, 1] {
            read_back(group, &shapes::of_size(n, edges, &mut rng), rule, &mut rng);
        }
    }
    for round in 0..2_000 {
        let game = shapes::any(&mut rng);
        read_back(group, &game, (round % 2) as u8, &mut rng);
    }
}

/// What was filed comes back, under rule 1 with each priority taken from the highest.
fn read_back(group: &mut Group, game: &Tables, rule: u8, rng: &mut Prng) {
    let read = group.take(compare::read(&Filing::of(game, rule).bytes(), rng));
    let highest = game.priorities.iter().copied().max().unwrap_or(0);
    let mut filed = game.clone();
    if rule == 1 {
        filed.priorities.iter_mut().for_each(|p| *p = highest - *p);
    }
    group.agree(read.as_ref() == Some(&filed), || {
        format!("filed under rule {rule}, read as {read:?}\n{filed:?}")
    });
}

pub fn faulty(group: &mut Group) {
    let mut rng = Prng::new(702);
    for round in 0..6_000 {
        let game = some_game(&mut rng);
        let filing = Filing::of(&game, rng.below(2) as u8);
        // Every number in turn, then several at once.
        let numbers: Vec<u64> = match round % 2 {
            0 => vec![ALL[round / 2 % ALL.len()]],
            _ => (0..rng.between(2, 4)).map(|_| rng.one_of(&ALL)).collect(),
        };
        let room = if numbers.contains(&8) { [2_048, 2_048, 2_049, 16_383] } else { ROOM };
        group.take(compare::read_in(&damage::file(&filing, &numbers, &mut rng), room, &mut rng));
    }
    no_edges(group, &mut rng);
    unreduced_check(group, &mut rng);
    exchanged_blocks(group, &mut rng);
    group.must_have_seen(&ALL, 50);
}

/// Mostly files of a few blocks, so that damages meet.
fn some_game(rng: &mut Prng) -> Tables {
    if rng.percent(80) {
        return shapes::any(rng);
    }
    let n = rng.between(100, 300);
    let edges = rng.between(n, 4 * n);
    shapes::of_size(n, edges, rng)
}

/// A file that states no edges has no block of kind 3; its vertices have no successors, or their
/// counts do not add up.
fn no_edges(group: &mut Group, rng: &mut Prng) {
    for counts in [[0, 0], [1, 0], [0, 1]] {
        let vertices = counts.map(|count| (0, 0, count)).to_vec();
        let filing = Filing { n: 2, edges: 0, rule: 0, vertices, targets: vec![] };
        group.take(compare::read(&filing.bytes(), rng));
    }
}

/// A stored check that would be right if it were reduced once more is wrong. Few blocks have a
/// check small enough for that to exist.
fn unreduced_check(group: &mut Group, rng: &mut Prng) {
    let mut found = 0;
    while found < 3 {
        let mut file = Filing::of(&shapes::of_size(30, 90, rng), 0).bytes();
        let place = BLOCK + 510;
        let stored = u16::from_le_bytes([file[place], file[place + 1]]);
        if let Some(unreduced) = stored.checked_add(65_521) {
            file[place..place + 2].copy_from_slice(&unreduced.to_le_bytes());
            let verdict = group.verdict(compare::read(&file, rng));
            let refused =
                verdict.is_some_and(|outcome| outcome.is_err_and(|fault| fault.number == 42));
            group.agree(refused, || format!("a check of {unreduced} was not due for 42"));
            found += 1;
        }
    }
}

/// Two good blocks in each other's place.
fn exchanged_blocks(group: &mut Group, rng: &mut Prng) {
    for _ in 0..50 {
        let mut file = Filing::of(&shapes::of_size(400, 1_500, rng), 1).bytes();
        let blocks = file.len() / BLOCK;
        let (a, b) = (rng.below(blocks), rng.below(blocks));
        for i in 0..BLOCK {
            file.swap(a * BLOCK + i, b * BLOCK + i);
        }
        group.take(compare::read(&file, rng));
    }
}

pub fn damaged(group: &mut Group) {
    let mut rng = Prng::new(703);
    for round in 0..8_000 {
        let game = some_game(&mut rng);
        let mut file = Filing::of(&game, rng.below(2) as u8).bytes();
        damage::bytes(&mut file, round % 4 != 0, &mut rng);
        group.take(compare::read(&file, &mut rng));
    }
    group.must_have_seen(&[0, 41, 42, 43, 44, 1, 45, 2, 3, 6, 7], 10);
}

/// Every length of a short file, and some of the largest.
pub fn cut(group: &mut Group) {
    let mut rng = Prng::new(704);
    let short = Filing::of(&shapes::any(&mut rng), 0).bytes();
    for length in 0..short.len() + 2 * BLOCK {
        group.take(compare::read(&of_length(&short, length), &mut rng));
    }
    let largest = Filing::of(&shapes::of_size(2_048, 16_384, &mut rng), 0).bytes();
    for length in [
        0, 1, 511, 512, 513, 1_024, 43_007, 43_008, 43_009, 43_519, 43_520, 43_521, 44_032, 100_000,
    ] {
        group.take(compare::read(&of_length(&largest, length), &mut rng));
    }
    group.must_have_seen(&[0], 2);
    group.must_have_seen(&[41], 1_000);
}

/// Cut, or stretched by the file's own bytes again.
fn of_length(file: &[u8], length: usize) -> Vec<u8> {
    file.iter().copied().cycle().take(length).collect()
}
