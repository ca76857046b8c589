//! Full-size games of the families that the design measures.

use crate::game::{Tables, Vertex, MOST_VERTICES};
use crate::prng::Prng;
use crate::shapes::{chosen, drawn, list};

#[derive(Clone, Copy, PartialEq, Eq)]
pub enum Family {
    Relay,
    Sparse10,
    Sparse254,
    Eight254,
    Ring100,
    Ring254,
    Hubs,
    Ladder,
    Idle(Place),
}

/// Where Even's only good move stands among 2,000 successors.
#[derive(Clone, Copy, PartialEq, Eq)]
pub enum Place {
    First,
    Middle,
    Last,
}

pub const ALL: [Family; 11] = [
    Family::Relay,
    Family::Sparse10,
    Family::Sparse254,
    Family::Eight254,
    Family::Ring100,
    Family::Ring254,
    Family::Hubs,
    Family::Ladder,
    Family::Idle(Place::First),
    Family::Idle(Place::Middle),
    Family::Idle(Place::Last),
];

const N: usize = MOST_VERTICES;

impl Family {
    pub fn name(self) -> &'static str {
        match self {
            Family::Relay => "relay-like, priorities 0 to 2",
            Family::Sparse10 => "random, 2 to 3 successors, 10 priorities",
            Family::Sparse254 => "random, 2 to 3 successors, 254 priorities",
            Family::Eight254 => "random, 8 successors, 254 priorities",
            Family::Ring100 => "ring of neighbours, 100 priorities",
            Family::Ring254 => "ring of neighbours, 254 priorities",
            Family::Hubs => "hubs of 1,000 successors, 100 priorities",
            Family::Ladder => "ladder of 400 steps",
            Family::Idle(Place::First) => "hubs of 2,000 successors, the move first",
            Family::Idle(Place::Middle) => "hubs of 2,000 successors, the move in the middle",
            Family::Idle(Place::Last) => "hubs of 2,000 successors, the move last",
        }
    }

    pub fn make(self, rng: &mut Prng) -> Tables {
        match self {
            Family::Relay => relay(rng),
            Family::Sparse10 => full(rng, 10, |_, rng| sparse(rng)),
            Family::Sparse254 => full(rng, 254, |_, rng| sparse(rng)),
            Family::Eight254 => full(rng, 254, |_, rng| exactly(8, rng)),
            Family::Ring100 => full(rng, 100, |v, _| neighbours(v)),
            Family::Ring254 => full(rng, 254, |v, _| neighbours(v)),
            Family::Hubs => {
                full(
                    rng,
                    100,
                    |v, rng| {
                        if v % 256 == 0 {
                            exactly(1_000, rng)
                        } else {
                            sparse(rng)
                        }
                    },
                )
            }
            Family::Ladder => ladder(rng),
            Family::Idle(place) => idle(place, rng),
        }
    }
}

/// Random owners, and priorities from 1 to `count`, so that 254 takes part.
fn full(
    rng: &mut Prng,
    count: usize,
    mut next: impl FnMut(usize, &mut Prng) -> Vec<u16>,
) -> Tables {
    let vertices: Vec<Vertex> = (0..N)
        .map(|v| Vertex {
            owner: rng.below(2) as u8,
            priority: rng.between(1, count) as u8,
            next: next(v, rng),
        })
        .collect();
    Tables::of(&vertices)
}

fn sparse(rng: &mut Prng) -> Vec<u16> {
    let count = rng.between(2, 3);
    exactly(count, rng)
}

fn exactly(count: usize, rng: &mut Prng) -> Vec<u16> {
    let mut next = drawn(count, || rng.below(N));
    while next.len() < count {
        let w = rng.below(N) as u16;
        if let Err(place) = next.binary_search(&w) {
            next.insert(place, w);
        }
    }
    next
}

fn neighbours(v: usize) -> Vec<u16> {
    list([v + 1, v + N - 1].into_iter().map(|w| w % N))
}

/// Most states are silent (0), some are stamps (1), fewer readings (2). The relay chooses among
/// states nearby, a fault sometimes throws it far.
fn relay(rng: &mut Prng) -> Tables {
    let vertices: Vec<Vertex> = (0..N)
        .map(|v| {
            let owner = rng.percent(35) as u8;
            let far = if owner == 1 { 20 } else { 3 };
            let next = drawn(rng.between(1, 4), || {
                if rng.percent(far) {
                    rng.below(N)
                } else {
                    (v + rng.between(0, 12) + N - 4) % N
                }
            });
            Vertex { owner, priority: rng.one_of(&[0, 0, 0, 0, 0, 1, 1, 2]), next }
        })
        .collect();
    Tables::of(&vertices)
}

/// 400 steps of five vertices over a floor where Odd wins. Each step's top (priority 2) leads one
/// step down, and its rung, Even's, may stay or go to the top: only when the step below has fallen
/// to Odd does it fall, so whoever decides step after step does it 400 times.
fn ladder(rng: &mut Prng) -> Tables {
    let floor = 2_000;
    let mut vertices = Vec::new();
    for step in 0..400 {
        let rung = 5 * step;
        let below = if step == 0 { floor } else { rung - 5 };
        let (top, side, bend, end) = (rung + 1, rung + 2, rung + 3, rung + 4);
        // The side's and the end's owners vary, so that the games of the family differ.
        vertices.push(Vertex::new(0, 1, &[rung, top]));
        vertices.push(Vertex::new(1, 2, &[below]));
        vertices.push(Vertex::new(rng.below(2) as u8, 0, &[rung, top]));
        vertices.push(Vertex::new(0, 0, &[side, end]));
        vertices.push(Vertex::new(rng.below(2) as u8, 1, &[side, bend]));
    }
    vertices.push(Vertex::new(0, 1, &[floor]));
    for vertex in &mut vertices {
        vertex.next.sort_unstable();
    }
    Tables::of(&vertices)
}

/// Seven idle states, the lowest vertices, with the same 2,000 successors. At each of these the
/// relay freezes, but for one reading that leads back to an idle state: Even must go there.
fn idle(place: Place, rng: &mut Prng) -> Tables {
    let (hubs, many) = (7, 2_000);
    let next = chosen(many, hubs..N, rng);
    let reading = match place {
        Place::First => next[0],
        Place::Middle => next[many / 2],
        Place::Last => next[many - 1],
    };
    let vertices: Vec<Vertex> = (0..N)
        .map(|v| {
            if v < hubs {
                Vertex::new(0, 0, &next)
            } else if v == reading as usize {
                Vertex::new(rng.below(2) as u8, 2, &[rng.below(hubs) as u16])
            } else {
                Vertex::new(rng.below(2) as u8, 1, &[v as u16])
            }
        })
        .collect();
    Tables::of(&vertices)
}
