//! Small games: every game of a few vertices, and random ones of several shapes.

use crate::game::{Tables, Vertex};
use crate::prng::Prng;
use std::ops::Range;

/// Hands over every game of exactly `n` vertices with priorities 0 to `highest`.
pub fn every(n: usize, highest: usize, mut hand_over: impl FnMut(Tables)) {
    let lists = (1 << n) - 1;
    let kinds = 2 * (highest + 1) * lists;
    for code in 0..kinds.pow(n as u32) {
        let mut rest = code;
        let vertices: Vec<Vertex> = (0..n)
            .map(|_| {
                let kind = rest % kinds;
                rest /= kinds;
                let set = kind / 2 / (highest + 1) + 1;
                let next: Vec<u16> = (0..n as u16).filter(|w| set >> w & 1 == 1).collect();
                Vertex::new((kind % 2) as u8, (kind / 2 % (highest + 1)) as u8, &next)
            })
            .collect();
        hand_over(Tables::of(&vertices));
    }
}

/// A well-formed list of successors from some that may coincide.
pub fn list(next: impl Iterator<Item = usize>) -> Vec<u16> {
    let mut next: Vec<u16> = next.map(|w| w as u16).collect();
    next.sort_unstable();
    next.dedup();
    next
}

/// A well-formed list from `count` drawings, at least one.
pub fn drawn(count: usize, mut draw: impl FnMut() -> usize) -> Vec<u16> {
    list((0..count).map(|_| draw()))
}

/// So many of these vertices.
pub fn chosen(many: usize, from: Range<usize>, rng: &mut Prng) -> Vec<u16> {
    let mut all = list(from);
    while all.len() > many {
        all.remove(rng.below(all.len()));
    }
    all
}

/// A random game of 1 to 40 vertices, of any shape.
pub fn any(rng: &mut Prng) -> Tables {
    let n = rng.between(1, 40);
    of_shape(rng.below(SHAPES), n, rng)
}

/// A random game of n vertices in which many vertices do not reach each other, so that amendments
/// reach some and not others.
pub fn parted(n: usize, rng: &mut Prng) -> Tables {
    let shape = rng.one_of(&[CASCADE, PIECES, SINGLE]);
    of_shape(shape, n, rng)
}

const SHAPES: usize = 8;
const SPARSE: usize = 0;
const DENSE: usize = 1;
const RING: usize = 2;
const CASCADE: usize = 3;
const SINGLE: usize = 4;
const PIECES: usize = 5;
const HUB: usize = 6;

fn of_shape(shape: usize, n: usize, rng: &mut Prng) -> Tables {
    let highest = rng.one_of(&[0, 1, 2, 3, 6, 20, 254]);
    // Some games belong to one player alone, or nearly.
    let odd = rng.one_of(&[0, 10, 50, 50, 50, 90, 100]);
    let vertices: Vec<Vertex> = (0..n)
        .map(|v| Vertex {
            owner: rng.percent(odd) as u8,
            priority: rng.between(0, highest) as u8,
            next: list_of_shape(shape, v, n, rng),
        })
        .collect();
    Tables::of(&vertices)
}

fn list_of_shape(shape: usize, v: usize, n: usize, rng: &mut Prng) -> Vec<u16> {
    match shape {
        SPARSE => drawn(rng.between(1, 3), || rng.below(n)),
        DENSE => drawn(rng.between(1, n), || rng.below(n)),
        RING => list([v + 1, v + n - 1].into_iter().map(|w| w % n)),
        // Cycles only among four neighbours; everything else leads upwards.
        CASCADE => drawn(rng.between(1, 3), || {
            let low = if rng.percent(60) { v / 4 * 4 } else { v };
            rng.between(low, n - 1)
        }),
        SINGLE => drawn(1, || rng.below(n)),
        PIECES => drawn(rng.between(1, 3), || rng.between(v / 6 * 6, (v / 6 * 6 + 5).min(n - 1))),
        HUB if v == 0 => (0..n as u16).collect(),
        HUB => drawn(rng.between(1, 2), || if rng.percent(30) { 0 } else { rng.below(n) }),
        // A chain: onwards, back, or staying.
        _ => drawn(rng.between(1, 2), || rng.between(v.saturating_sub(1), (v + 1).min(n - 1))),
    }
}

/// A random game of just so many vertices and edges; each vertex must have a successor, so edges is
/// from n to n × n.
pub fn of_size(n: usize, edges: usize, rng: &mut Prng) -> Tables {
    let vertices: Vec<Vertex> = (0..n)
        .map(|v| {
            let count = edges / n + (v < edges % n) as usize;
            let shift = rng.below(n - count + 1);
            let next: Vec<u16> = (shift..shift + count).map(|w| w as u16).collect();
            Vertex::new(rng.below(2) as u8, rng.between(0, 254) as u8, &next)
        })
        .collect();
    Tables::of(&vertices)
}
