//! Files that are refused, with the number and place by hand.

use crate::cases::{file, game_a};
use crate::game::{Tables, Vertex};
use crate::housefile::{seal_all, Filing, BLOCK};
use crate::Pair;

/// A's file with some bytes set, each block with the check that its bytes demand.
fn sealed(changes: &[(usize, u8)]) -> Vec<u8> {
    let mut bytes = set(changes);
    seal_all(&mut bytes);
    bytes
}

/// A's file with some bytes set and the checks left as they were.
fn set(changes: &[(usize, u8)]) -> Vec<u8> {
    let mut bytes = file(&game_a(), 0);
    for &(place, byte) in changes {
        bytes[place] = byte;
    }
    bytes
}

/// A as filed, with what it states changed.
fn restated(change: impl Fn(&mut Filing)) -> Vec<u8> {
    let mut filing = Filing::of(&Tables::of(&game_a()), 0);
    change(&mut filing);
    filing.bytes()
}

/// A's vertices changed.
fn amended(change: impl Fn(&mut Vec<Vertex>)) -> Vec<u8> {
    let mut vertices = game_a();
    change(&mut vertices);
    file(&vertices, 0)
}

/// One byte of A's vertex block is another: its check does not hold.
pub fn damaged() -> Pair {
    Pair::by_hand("42_damaged", set(&[(BLOCK + 6, 1)]), "refused 42 1\n")
}

pub fn all() -> Vec<Pair> {
    let mut pairs = lengths();
    pairs.extend(blocks());
    pairs.extend(sizes_and_values());
    pairs.extend(several());
    pairs
}

fn lengths() -> Vec<Pair> {
    let a = file(&game_a(), 0);
    let longer = [&a[..], &[0]].concat();
    vec![
        Pair::by_hand("41_empty", Vec::new(), "refused 41 0\n"),
        Pair::by_hand("41_under_one_block", a[..511].to_vec(), "refused 41 0\n"),
        Pair::by_hand("41_header_alone", a[..BLOCK].to_vec(), "refused 41 1\n"),
        Pair::by_hand("41_one_byte_short", a[..3 * BLOCK - 1].to_vec(), "refused 41 2\n"),
        Pair::by_hand("41_one_byte_long", longer, "refused 41 3\n"),
    ]
}

fn blocks() -> Vec<Pair> {
    vec![
        damaged(),
        Pair::by_hand("42_header", set(&[(510, 0)]), "refused 42 0\n"),
        Pair::by_hand("42_last_block", set(&[(3 * BLOCK - 1, 255)]), "refused 42 2\n"),
        Pair::by_hand("43_header_kind", sealed(&[(2, 2)]), "refused 43 0\n"),
        Pair::by_hand("43_kind", sealed(&[(BLOCK + 2, 3)]), "refused 43 1\n"),
        Pair::by_hand("43_number", sealed(&[(2 * BLOCK + 1, 1)]), "refused 43 2\n"),
        Pair::by_hand("44_byte_3", sealed(&[(BLOCK + 3, 1)]), "refused 44 1\n"),
        Pair::by_hand("44_used_count", sealed(&[(2 * BLOCK + 4, 12)]), "refused 44 2\n"),
        Pair::by_hand("44_last_unused_byte", sealed(&[(BLOCK + 509, 1)]), "refused 44 1\n"),
        Pair::by_hand("44_rule_2", sealed(&[(10, 2)]), "refused 44 0\n"),
    ]
}

fn sizes_and_values() -> Vec<Pair> {
    vec![
        Pair::by_hand("1_no_vertex", restated(|f| f.n = 0), "refused 1 0\n"),
        Pair::by_hand("1_2049_vertices", restated(|f| f.n = 2_049), "refused 1 0\n"),
        Pair::by_hand("1_16385_edges", restated(|f| f.edges = 16_385), "refused 1 0\n"),
        Pair::by_hand("45_counts", restated(|f| f.vertices[2].2 = 2), "refused 45 0\n"),
        Pair::by_hand("2_owner", amended(|v| v[2].owner = 2), "refused 2 2\n"),
        Pair::by_hand("3_priority_255", amended(|v| v[1].priority = 255), "refused 3 1\n"),
        Pair::by_hand("5_no_successor", amended(|v| v[3].next.clear()), "refused 5 3\n"),
        Pair::by_hand("6_target", amended(|v| v[1].next = vec![4]), "refused 6 2\n"),
        Pair::by_hand("7_order", amended(|v| v[0].next = vec![2, 1]), "refused 7 1\n"),
        Pair::by_hand("7_twice", amended(|v| v[3].next = vec![3, 3]), "refused 7 5\n"),
    ]
}

/// Several faults in one file: the first in the reader's order is given.
fn several() -> Vec<Pair> {
    let mut kind_then_check = sealed(&[(BLOCK + 2, 3)]);
    kind_then_check[2 * BLOCK + 6] ^= 1;
    let bytes_then_kind = sealed(&[(BLOCK + 3, 1), (2 * BLOCK + 2, 2)]);
    let mut sizes_then_length = restated(|f| f.n = 0);
    sizes_then_length.truncate(BLOCK);
    let mut length_then_check = set(&[(BLOCK + 6, 1)]);
    length_then_check.push(0);
    vec![
        Pair::by_hand("several_43_at_1_before_42_at_2", kind_then_check, "refused 43 1\n"),
        Pair::by_hand("several_44_at_1_before_43_at_2", bytes_then_kind, "refused 44 1\n"),
        Pair::by_hand("several_42_before_43_and_44", set(&[(0, 1), (3, 1)]), "refused 42 0\n"),
        Pair::by_hand("several_44_before_1", sealed(&[(6, 0), (10, 2)]), "refused 44 0\n"),
        Pair::by_hand("several_1_before_41", sizes_then_length, "refused 1 0\n"),
        Pair::by_hand("several_41_before_42", length_then_check, "refused 41 3\n"),
        Pair::by_hand(
            "several_44_at_2_before_45",
            sealed(&[(BLOCK + 8, 9), (2 * BLOCK + 100, 1)]),
            "refused 44 2\n",
        ),
        Pair::by_hand(
            "several_45_before_2",
            restated(|f| f.vertices[0] = (7, 0, 3)),
            "refused 45 0\n",
        ),
        Pair::by_hand(
            "several_2_before_3",
            amended(|v| (v[3].owner, v[0].priority) = (255, 255)),
            "refused 2 3\n",
        ),
        Pair::by_hand(
            "several_3_before_5",
            amended(|v| {
                v[3].priority = 255;
                v[0].next.clear();
            }),
            "refused 3 3\n",
        ),
        Pair::by_hand(
            "several_5_before_6",
            amended(|v| {
                v[3].next.clear();
                v[0].next = vec![9];
            }),
            "refused 5 3\n",
        ),
        Pair::by_hand(
            "several_6_before_7",
            amended(|v| {
                v[0].next = vec![1, 1];
                v[3].next = vec![65_535];
            }),
            "refused 6 4\n",
        ),
        Pair::by_hand(
            "several_lowest_of_three",
            amended(|v| (v[1].owner, v[2].owner, v[3].owner) = (2, 3, 4)),
            "refused 2 1\n",
        ),
    ]
}
