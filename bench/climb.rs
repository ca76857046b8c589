//! Climbing from a random game to slow ones: a game is changed a little, and the change is kept
//! unless the new game is decided in fewer steps.

use crate::game::{Tables, Vertex};
use crate::justifications::solve_counted;
use crate::prng::Prng;
use crate::shapes::drawn;
use std::time::Instant;

/// No vertex has this priority or a higher one.
const PAST_PRIORITIES: usize = 255;

pub struct Climber {
    pub vertices: Vec<Vertex>,
    /// Edges visited to decide this game.
    pub edges: u64,
    /// How many games were tried.
    pub tried: u64,
}

/// A random game of n vertices.
pub fn random(n: usize, rng: &mut Prng) -> Vec<Vertex> {
    (0..n)
        .map(|_| Vertex {
            owner: rng.below(2) as u8,
            priority: rng.below(n) as u8,
            next: drawn(rng.between(1, 4), || rng.below(n)),
        })
        .collect()
}

/// The game grown to n vertices by copies of some, each of either owner.
pub fn grown(mut vertices: Vec<Vertex>, n: usize, rng: &mut Prng) -> Vec<Vertex> {
    while vertices.len() < n {
        let like = vertices[rng.below(vertices.len())].clone();
        vertices.push(Vertex { owner: rng.below(2) as u8, ..like });
    }
    vertices
}

impl Climber {
    pub fn from(vertices: Vec<Vertex>) -> Self {
        let edges = cost(&vertices);
        Climber { vertices, edges, tried: 0 }
    }

    pub fn climb(&mut self, until: Instant, rng: &mut Prng) {
        while Instant::now() < until {
            let changed = changed(&self.vertices, rng);
            let edges = cost(&changed);
            self.tried += 1;
            if edges >= self.edges {
                self.vertices = changed;
                self.edges = edges;
            }
        }
    }
}

fn cost(vertices: &[Vertex]) -> u64 {
    solve_counted(&Tables::of(vertices)).1.edges
}

/// One to three changes, each to one vertex.
fn changed(vertices: &[Vertex], rng: &mut Prng) -> Vec<Vertex> {
    let mut vertices = vertices.to_vec();
    let n = vertices.len();
    for _ in 0..rng.between(1, 3) {
        let v = rng.below(n);
        match rng.below(6) {
            0 => vertices[v].owner = 1 - vertices[v].owner,
            1 => vertices[v].priority = rng.below((2 * n).min(PAST_PRIORITIES)) as u8,
            2 => make_room(&mut vertices, v, rng),
            3 => add(&mut vertices[v].next, rng.below(n)),
            4 => remove(&mut vertices[v].next, rng),
            _ => {
                add(&mut vertices[v].next, rng.below(n));
                remove(&mut vertices[v].next, rng);
            }
        }
    }
    vertices
}

/// All others of v's priority or a higher one go up by one or two, so that v has its own.
fn make_room(vertices: &mut [Vertex], v: usize, rng: &mut Prng) {
    let own = vertices[v].priority;
    let by = rng.between(1, 2);
    for (u, vertex) in vertices.iter_mut().enumerate() {
        let raised = vertex.priority as usize + by;
        if u != v && vertex.priority >= own && raised < PAST_PRIORITIES {
            vertex.priority = raised as u8;
        }
    }
}

fn add(next: &mut Vec<u16>, w: usize) {
    if let Err(place) = next.binary_search(&(w as u16)) {
        next.insert(place, w as u16);
    }
}

/// Unless it is the only one.
fn remove(next: &mut Vec<u16>, rng: &mut Prng) {
    if next.len() > 1 {
        next.remove(rng.below(next.len()));
    }
}
