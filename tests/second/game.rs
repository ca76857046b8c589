//! Games and answers in the form in which they are lent. Nothing here says that a game is well
//! formed.

pub const MOST_VERTICES: usize = 2_048;
pub const MOST_EDGES: usize = 16_384;

/// What stands in the moves where the owner is not the winner.
pub const NO_MOVE: u16 = 65_535;

/// One vertex, as people write it.
#[derive(Clone, PartialEq, Eq, Debug)]
pub struct Vertex {
    pub owner: u8,
    pub priority: u8,
    pub next: Vec<u16>,
}

/// The four tables of a game.
#[derive(Clone, PartialEq, Eq, Debug)]
pub struct Tables {
    pub owners: Vec<u8>,
    pub priorities: Vec<u8>,
    pub starts: Vec<u16>,
    pub targets: Vec<u16>,
}

/// The four tables, lent.
#[derive(Clone, Copy)]
pub struct View<'a> {
    pub owners: &'a [u8],
    pub priorities: &'a [u8],
    pub starts: &'a [u16],
    pub targets: &'a [u16],
}

#[derive(Clone, PartialEq, Eq, Debug)]
pub struct Answer {
    pub winners: Vec<u8>,
    pub moves: Vec<u16>,
}

impl Vertex {
    pub fn new(owner: u8, priority: u8, next: &[u16]) -> Self {
        Vertex { owner, priority, next: next.to_vec() }
    }
}

impl Tables {
    /// The vertices' lists laid end to end, just as they are.
    pub fn of(vertices: &[Vertex]) -> Self {
        let mut starts = vec![0];
        let mut targets = Vec::new();
        for vertex in vertices {
            targets.extend_from_slice(&vertex.next);
            starts.push(targets.len() as u16);
        }
        Tables {
            owners: vertices.iter().map(|v| v.owner).collect(),
            priorities: vertices.iter().map(|v| v.priority).collect(),
            starts,
            targets,
        }
    }

    /// The inverse of `of`, on well-formed tables.
    pub fn vertices(&self) -> Vec<Vertex> {
        (0..self.n())
            .map(|v| Vertex::new(self.owners[v], self.priorities[v], self.next(v)))
            .collect()
    }

    pub fn n(&self) -> usize {
        self.owners.len()
    }

    /// The successors of v, on well-formed tables.
    pub fn next(&self, v: usize) -> &[u16] {
        &self.targets[self.starts[v] as usize..self.starts[v + 1] as usize]
    }

    pub fn view(&self) -> View<'_> {
        View {
            owners: &self.owners,
            priorities: &self.priorities,
            starts: &self.starts,
            targets: &self.targets,
        }
    }
}

/// The player whose parity a priority has.
pub fn parity(priority: u8) -> u8 {
    priority % 2
}
