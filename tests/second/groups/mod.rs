//! The groups of comparisons, in the order in which they run.

mod amendments;
mod answers;
mod buffers;
mod files;
mod full;
mod paper;
mod small;
mod tables;
mod writing;

use crate::families;
use crate::group::Group;

pub struct Named {
    pub name: String,
    pub run: Box<dyn Fn(&mut Group)>,
}

fn named(name: &str, run: impl Fn(&mut Group) + 'static) -> Named {
    Named { name: name.to_string(), run: Box::new(run) }
}

pub fn all() -> Vec<Named> {
    let mut groups = vec![
        named("P1 to P10 and the other small cases of the paper", paper::cases),
        named("every game of up to 3 vertices, priorities 0 to 3", small::every_game),
        named("every answer to every game of up to 2 vertices", small::every_answer),
        named("random games of 1 to 40 vertices", small::random_games),
    ];
    for family in families::ALL {
        groups.push(named(&format!("full size: {}", family.name()), move |group| {
            full::family(family, group)
        }));
    }
    groups.extend([
        named("malformed tables for solver and checker", tables::one_game),
        named("malformed tables for the update, games that differ in n", tables::two_games),
        named("buffers of wrong lengths", buffers::wrong_lengths),
        named("perturbed answers", answers::small),
        named("perturbed answers, full size", answers::full),
        named("every number as the move of a hub", answers::every_move),
        named("amendments of 0 to 5 vertices", amendments::small),
        named("amendments of 0 to 5 vertices, full size", amendments::full),
        named("updates from a wrong old answer", amendments::wrong_old_answers),
        named("good files of both rules", files::good),
        named("files with faults of every number, alone and together", files::faulty),
        named("files with one to three bytes changed", files::damaged),
        named("files cut and stretched", files::cut),
        named("files written, by the maker's bytes, and read back", writing::good),
        named("files read and written back", writing::back),
        named("malformed tables for the writer", writing::malformed),
        named("outputs of wrong lengths", writing::outputs),
    ]);
    groups
}
