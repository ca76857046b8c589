//! Games of full size.

use crate::compare;
use crate::families::Family;
use crate::game::{Answer, Tables};
use crate::group::Group;
use crate::judge;
use crate::prng::Prng;
use crate::zielonka;
use std::cell::Cell;

const GAMES: u64 = 6;

/// Where Zielonka's method is given up: many more subgames than any family takes but the rings.
const MOST_SUBGAMES: u64 = 20_000;

pub fn family(family: Family, group: &mut Group) {
    for game in 0..GAMES {
        let mut rng = Prng::new(200 + game);
        let game = family.make(&mut rng);
        let Some(answer) = group.take(compare::solve(&game, &mut rng)) else {
            continue;
        };
        group.take(compare::check(&game, &answer, &mut rng));
        let second = by_second_method(&game);
        let ring = matches!(family, Family::Ring100 | Family::Ring254);
        group.agree(second.is_some() || ring, || {
            format!("Zielonka's method itself was given up\n{game:?}")
        });
        if let Some(second) = second {
            let fault = judge::answer(&game, &second.winners, &second.moves);
            group.agree(fault.is_none(), || {
                format!("Zielonka's method itself: {fault:?}\n{game:?}")
            });
            group.agree(answer.winners == second.winners, || {
                format!("{answer:?}, not {second:?}\n{game:?}")
            });
            group.take(compare::check(&game, &second, &mut rng));
        }
    }
}

/// Zielonka's answer, unless the method takes too long, as it does on rings: there the judge's
/// acceptance alone shows the winners.
pub fn by_second_method(game: &Tables) -> Option<Answer> {
    let subgames = Cell::new(0);
    zielonka::solve_unless(game, &|| {
        subgames.set(subgames.get() + 1);
        subgames.get() > MOST_SUBGAMES
    })
}
