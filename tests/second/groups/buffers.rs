//! Buffers of wrong lengths.

use crate::compare::{self, Amendment};
use crate::families::Family;
use crate::ffi;
use crate::game::{Answer, Tables, Vertex, View};
use crate::group::Group;
use crate::housefile::{Filing, ROOM};
use crate::judge::Room;
use crate::prng::Prng;
use crate::said::Said;
use crate::shapes;
use crate::spoil;
use crate::zielonka;

pub fn wrong_lengths(group: &mut Group) {
    let mut rng = Prng::new(401);
    let mut games: Vec<Tables> =
        [1, 2, 3, 7, 40].into_iter().map(|n| shapes::parted(n, &mut rng)).collect();
    games.push(Family::Relay.make(&mut rng));
    for game in games {
        let answer = zielonka::solve(&game);
        one_wrong(group, &game, &answer, &mut rng);
        for _ in 0..20 {
            let lengths: Vec<usize> =
                (0..5).map(|i| rng.one_of(&lengths(game.n(), i == 4))).collect();
            call_all(group, &game, &answer, &lengths, &mut rng);
        }
    }
    tables_before_buffers(group, &mut rng);
    reader(group, &mut rng);
    empty_slices(group);
    group.must_have_seen(&[0, 1, 8, 9], 1);
}

/// Lengths to try for a buffer, the fixed one among them: empty, one short, one long, those of
/// other buffers.
fn lengths(n: usize, work: bool) -> Vec<usize> {
    let right = if work { 4 * n } else { n };
    vec![right, 0, right - 1, right + 1, 2 * right, n, 4 * n, right + 65_536]
}

/// Each buffer with each wrong length, the others fitting.
fn one_wrong(group: &mut Group, game: &Tables, answer: &Answer, rng: &mut Prng) {
    let n = game.n();
    for buffer in 0..5 {
        for length in lengths(n, buffer == 4) {
            let mut all = [n, n, n, n, 4 * n];
            all[buffer] = length;
            call_all(group, game, answer, &all, rng);
        }
    }
}

/// All three calls; the lengths are those of old winners, old moves, winners, moves, work. The
/// checker's answer is the old one.
fn call_all(group: &mut Group, game: &Tables, answer: &Answer, lengths: &[usize], rng: &mut Prng) {
    let room = Room { winners: lengths[2], moves: lengths[3], work: lengths[4] };
    let old = Answer {
        winners: resized(&answer.winners, lengths[0]),
        moves: resized(&answer.moves, lengths[1]),
    };
    group.take(compare::solve_in(game, room, rng));
    group.take(compare::check_in(game, &old, room.work, rng));
    let given = Amendment { first: game.clone(), second: game.clone(), old };
    group.take(compare::update_in(&given, room, rng));
}

fn resized<T: Copy + Default>(list: &[T], length: usize) -> Vec<T> {
    let mut list = list.to_vec();
    list.resize(length, T::default());
    list
}

/// A malformed game, or a second game of another n, is refused before a wrong buffer.
fn tables_before_buffers(group: &mut Group, rng: &mut Prng) {
    for number in 1..=7 {
        let good = shapes::parted(12, rng);
        let game = spoil::tables(&good, &[number], rng);
        let answer = zielonka::solve(&good);
        call_all(group, &game, &answer, &[12, 11, 10, 0, 47], rng);
    }
    let (first, second) = (shapes::parted(9, rng), shapes::parted(10, rng));
    for n in [9, 10, 11] {
        let old = Answer { winners: vec![0; n], moves: vec![0; n] };
        let given = Amendment { first: first.clone(), second: second.clone(), old };
        group.take(compare::update_in(&given, Room::for_vertices(n), rng));
    }
}

/// Each table of the reader with each wrong length, and all others of the file's faults before 8.
fn reader(group: &mut Group, rng: &mut Prng) {
    let game = shapes::any(rng);
    for table in 0..4 {
        for length in
            [0, 1, game.n(), ROOM[table] - 1, ROOM[table], ROOM[table] + 1, 2 * ROOM[table]]
        {
            let mut room = ROOM;
            room[table] = length;
            group.take(compare::read_in(&Filing::of(&game, 0).bytes(), room, rng));
        }
    }
    for number in [2, 3, 5, 6, 7] {
        let file = Filing::of(&spoil::tables(&game, &[number], rng), 0).bytes();
        group.take(compare::read_in(&file, [0, 0, 0, 0], rng));
    }
    group.take(compare::read_in(&[], [0, 0, 0, 0], rng));
}

/// Empty slices as Rust itself makes them, with pointers that lead nowhere.
fn empty_slices(group: &mut Group) {
    let empty = View { owners: &[], priorities: &[], starts: &[], targets: &[] };
    let game = Tables::of(&[Vertex::new(0, 0, &[0])]);
    let calls = [
        (ffi::solve(empty, &mut [], &mut [], &mut []), 1),
        (ffi::check(empty, &[], &[], &mut []), 1),
        (ffi::update(empty, empty, &[], &[], &mut [], &mut [], &mut []), 1),
        (ffi::read(&[], &mut [], &mut [], &mut [], &mut []), 41),
        (ffi::solve(game.view(), &mut [], &mut [], &mut []), 8),
        (ffi::check(game.view(), &[], &[], &mut []), 8),
        (ffi::update(game.view(), empty, &[], &[], &mut [], &mut [], &mut []), 21),
        (ffi::update(game.view(), game.view(), &[], &[], &mut [], &mut [], &mut []), 8),
    ];
    for (call, (said, number)) in calls.into_iter().enumerate() {
        group.agree(said == Said { number, value: 0 }, || {
            format!("empty slices, call {call}: {said:?}, not {number}")
        });
    }
}
