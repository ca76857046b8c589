//! Makes the game files and listings of tests/listing, the example files, and the listing program's
//! own stdin and stdout. In the repository's root:
//!
//!     rustc --edition 2021 -O -o target/make tests/listing/make.rs && target/make .
//!
//! Nothing of the library takes part: the files come from the second program's maker of house
//! files, and every listing stands here by hand or comes from its reader and its solver
//! (Zielonka's method). What stands here by hand is held against those two besides.

#[path = "make/cases.rs"]
mod cases;
#[path = "make/faults.rs"]
mod faults;
#[allow(dead_code)]
#[path = "../second/game.rs"]
mod game;
#[allow(dead_code)]
#[path = "../second/housefile.rs"]
mod housefile;
#[allow(dead_code)]
#[path = "../second/judge.rs"]
mod judge;
#[path = "make/largest.rs"]
mod largest;
#[path = "make/listing.rs"]
mod listing;
#[allow(dead_code)]
#[path = "../second/prng.rs"]
mod prng;
#[allow(dead_code)]
#[path = "../second/zielonka.rs"]
mod zielonka;

use std::fs;
use std::path::Path;

/// A game file and what the program must print of it.
pub struct Pair {
    pub name: &'static str,
    pub file: Vec<u8>,
    pub listing: String,
}

impl Pair {
    /// A listing written by hand, which must be the one that the second program's pieces give.
    pub fn by_hand(name: &'static str, file: Vec<u8>, listing: &str) -> Self {
        assert_eq!(listing::of(&file), listing, "{name}: the listing by hand");
        Pair { name, file, listing: listing.to_string() }
    }

    /// The listing that the second program's pieces give.
    pub fn computed(name: &'static str, file: Vec<u8>) -> Self {
        let listing = listing::of(&file);
        Pair { name, file, listing }
    }
}

fn main() {
    let root = std::env::args().nth(1).expect("the folder to write to");
    let root = Path::new(&root);
    for folder in ["tests/listing", "examples", "crates/listing"] {
        fs::create_dir_all(root.join(folder)).expect("a folder to write to");
    }
    let write = |path: &str, bytes: &[u8]| fs::write(root.join(path), bytes).expect("a file");
    for pair in cases::all().into_iter().chain(faults::all()).chain(largest::all()) {
        write(&format!("tests/listing/{}.game", pair.name), &pair.file);
        write(&format!("tests/listing/{}.listing", pair.name), pair.listing.as_bytes());
    }
    let a = cases::a();
    write("crates/listing/stdin", &a.file);
    write("crates/listing/stdout", a.listing.as_bytes());
    write("examples/A.game", &a.file);
    write("examples/B.game", &cases::b().file);
    write("examples/rule_1.game", &cases::rule_1().file);
    write("examples/damaged.game", &faults::damaged().file);
}
