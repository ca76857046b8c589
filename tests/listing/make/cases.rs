//! Games of a few vertices, with their listings by hand.

use crate::game::{Tables, Vertex};
use crate::housefile::Filing;
use crate::Pair;

/// Game A of docs/RULES.md: owner, priority, successors.
pub fn game_a() -> Vec<Vertex> {
    vec![
        Vertex::new(0, 0, &[1, 2]),
        Vertex::new(1, 1, &[0]),
        Vertex::new(0, 2, &[0]),
        Vertex::new(1, 3, &[3]),
    ]
}

/// The file of some vertices under a rule.
pub fn file(vertices: &[Vertex], rule: u8) -> Vec<u8> {
    Filing::of(&Tables::of(vertices), rule).bytes()
}

/// The listing of A.
pub fn a() -> Pair {
    Pair::by_hand("A", file(&game_a(), 0), "game 4 5\n0 0 0 0 2\n1 1 1 0 -\n2 0 2 0 0\n3 1 3 1 3\n")
}

/// A with vertex 0 owned by Odd; the answer is P2's.
pub fn b() -> Pair {
    let mut vertices = game_a();
    vertices[0].owner = 1;
    Pair::by_hand("B", file(&vertices, 0), "game 4 5\n0 1 0 1 1\n1 1 1 1 0\n2 0 2 1 -\n3 1 3 1 3\n")
}

/// "Rule 1, priorities 1, 2, 4: become 3, 2, 0." Even's move at 0 is 2 only as they are turned: by
/// 1 the highest would be 3.
pub fn rule_1() -> Pair {
    let vertices = [Vertex::new(0, 1, &[1, 2]), Vertex::new(1, 2, &[0]), Vertex::new(0, 4, &[2])];
    Pair::by_hand("rule_1", file(&vertices, 1), "game 3 4\n0 0 3 0 2\n1 1 2 0 -\n2 0 0 0 2\n")
}

pub fn all() -> Vec<Pair> {
    vec![
        a(),
        b(),
        rule_1(),
        rule_1_up_to_254(),
        three_digits(),
        two_players_only_loops(),
        move_zero(),
    ]
}

/// 254 becomes 0 and 0 becomes 254; 153 becomes 101 and 155 becomes 99.
fn rule_1_up_to_254() -> Pair {
    let vertices = [
        Vertex::new(1, 254, &[0]),
        Vertex::new(1, 0, &[1]),
        Vertex::new(0, 153, &[2]),
        Vertex::new(1, 155, &[3]),
    ];
    Pair::by_hand(
        "rule_1_up_to_254",
        file(&vertices, 1),
        "game 4 4\n0 1 0 0 -\n1 1 254 0 -\n2 0 101 1 -\n3 1 99 1 3\n",
    )
}

/// Even turns to 2 from 0, since 199 is odd; 1 leads only to 0 and is his, and so on along the row.
fn three_digits() -> Pair {
    let vertices = [
        Vertex::new(0, 100, &[1, 2]),
        Vertex::new(1, 199, &[0]),
        Vertex::new(0, 254, &[0]),
        Vertex::new(1, 253, &[3]),
        Vertex::new(1, 99, &[4]),
        Vertex::new(0, 10, &[5]),
    ];
    Pair::by_hand(
        "three_digits",
        file(&vertices, 0),
        "game 6 7\n0 0 100 0 2\n1 1 199 0 -\n2 0 254 0 0\n3 1 253 1 3\n4 1 99 1 4\n5 0 10 0 5\n",
    )
}

/// One vertex of each owner and parity.
fn two_players_only_loops() -> Pair {
    let vertices = [
        Vertex::new(0, 0, &[0]),
        Vertex::new(0, 1, &[1]),
        Vertex::new(1, 0, &[2]),
        Vertex::new(1, 1, &[3]),
    ];
    Pair::by_hand(
        "loops",
        file(&vertices, 0),
        "game 4 4\n0 0 0 0 0\n1 0 1 1 -\n2 1 0 0 -\n3 1 1 1 3\n",
    )
}

/// A move to vertex 0 is no dash.
fn move_zero() -> Pair {
    let vertices = [Vertex::new(1, 2, &[0]), Vertex::new(0, 1, &[0])];
    Pair::by_hand("move_zero", file(&vertices, 0), "game 2 2\n0 1 2 0 -\n1 0 1 0 0\n")
}
