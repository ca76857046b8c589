//! The games that stalled an engine, or kept it busiest.

use crate::game::{Tables, Vertex};
use crate::shapes::list;
use crate::text;

pub struct Named {
    pub name: String,
    pub game: Tables,
}

/// Found by climbing from random games to slow ones; the number at the end is that of the vertices.
/// `hard.0` kept lowest first alone busy, `hard.1` attraction from the highest priority down, and
/// `worst` the library's own method: of several runs of bench/search, 15 seconds a size, the game
/// of each size that visits the most edges. Other seeds find worse ones. `restart` are slow for both
/// orders, so that the library starts afresh on them; no game of the second program does that.
const FILES: [(&str, &str); 16] = [
    ("hard.0.20", include_str!("hard.0.20")),
    ("hard.0.24", include_str!("hard.0.24")),
    ("hard.0.28", include_str!("hard.0.28")),
    ("hard.0.36", include_str!("hard.0.36")),
    ("hard.0.48", include_str!("hard.0.48")),
    ("hard.1.24", include_str!("hard.1.24")),
    ("hard.1.36", include_str!("hard.1.36")),
    ("hard.1.48", include_str!("hard.1.48")),
    ("worst.8", include_str!("worst.8")),
    ("worst.16", include_str!("worst.16")),
    ("worst.24", include_str!("worst.24")),
    ("worst.32", include_str!("worst.32")),
    ("worst.48", include_str!("worst.48")),
    ("restart.24", include_str!("restart.24")),
    ("restart.40", include_str!("restart.40")),
    ("restart.64", include_str!("restart.64")),
];

pub fn files() -> Result<Vec<Named>, String> {
    FILES
        .into_iter()
        .map(|(name, file)| match text::read(file) {
            Ok(game) => Ok(Named { name: name.to_string(), game }),
            Err(what) => Err(format!("{name}: {what}")),
        })
        .collect()
}

/// Steps of one and two round a circle, the vertices owned two and two. With a priority for each
/// vertex, lowest first alone takes a number of steps that doubles with every few vertices.
pub fn circles() -> Vec<Named> {
    let mut all = Vec::new();
    for n in [48, 52, 56, 60, 100, 255] {
        all.push(circle(n, "v", |v| v));
    }
    for n in [48, 256, 1_024, 2_048] {
        all.push(circle(n, "0 to 254 in order", |v| v * 255 / n));
    }
    all.push(circle(2_048, "v mod 255", |v| v % 255));
    all
}

fn circle(n: usize, told: &str, priority: impl Fn(usize) -> usize) -> Named {
    let vertices: Vec<Vertex> = (0..n)
        .map(|v| Vertex {
            owner: (v / 2 % 2) as u8,
            priority: priority(v) as u8,
            next: list([v + 1, v + 2].into_iter().map(|w| w % n)),
        })
        .collect();
    Named { name: format!("circle of {n}, priorities {told}"), game: Tables::of(&vertices) }
}
