//! One call of the library, compared with what the judge says of the same input: number, place or
//! value, and all lent memory.

use crate::ffi;
use crate::game::{Answer, Tables};
use crate::housefile;
use crate::judge::{self, Fault, Room};
use crate::lent::{Element, Lent, LentTables};
use crate::prng::Prng;
use crate::said::{Said, STRAY};

/// A success, or a refusal that was due; or else a difference, told with its input in full.
pub type Compared<T> = Result<Result<T, Fault>, String>;

/// The solver with buffers that fit.
pub fn solve(game: &Tables, rng: &mut Prng) -> Compared<Answer> {
    solve_in(game, Room::for_vertices(game.n()), rng)
}

pub fn solve_in(game: &Tables, room: Room, rng: &mut Prng) -> Compared<Answer> {
    let due = judge::solve(game, room);
    let lent = LentTables::with(game);
    let mut to = Written::any(room, rng);
    let said = ffi::solve(lent.view(), to.winners.get_mut(), to.moves.get_mut(), to.work.get_mut());
    let compare = || {
        lent.unchanged()?;
        expect(said, due, 0)?;
        to.as_due(due)?;
        Ok(match due {
            Some(fault) => Err(fault),
            None => Ok(to.right_answer(game)?),
        })
    };
    compare().map_err(|what: String| format!("solve: {what}\n{room:?}\n{game:?}"))
}

/// The checker with a work space that fits.
pub fn check(game: &Tables, answer: &Answer, rng: &mut Prng) -> Compared<()> {
    check_in(game, answer, 4 * game.n(), rng)
}

pub fn check_in(game: &Tables, answer: &Answer, work: usize, rng: &mut Prng) -> Compared<()> {
    let due = judge::check(game, &answer.winners, &answer.moves, work);
    let lent = LentTables::with(game);
    let winners = Lent::with(&answer.winners);
    let moves = Lent::with(&answer.moves);
    let mut space = Lent::any(work, rng);
    let said = ffi::check(lent.view(), winners.get(), moves.get(), space.get_mut());
    let compare = || {
        lent.unchanged()?;
        winners.unchanged("the winners")?;
        moves.unchanged("the moves")?;
        expect(said, due, 0)?;
        work_as_due(&space, due)?;
        Ok(due.map_or(Ok(()), Err))
    };
    compare()
        .map_err(|what: String| format!("check: {what}\n{answer:?}\nwork space {work}\n{game:?}"))
}

/// The two games and the old answer that an update is given.
#[derive(Clone, Debug)]
pub struct Amendment {
    pub first: Tables,
    pub second: Tables,
    pub old: Answer,
}

/// The update with buffers that fit; on success the new answer and the count.
pub fn update(given: &Amendment, rng: &mut Prng) -> Compared<(Answer, u64)> {
    update_in(given, Room::for_vertices(given.first.n()), rng)
}

pub fn update_in(given: &Amendment, room: Room, rng: &mut Prng) -> Compared<(Answer, u64)> {
    let Amendment { first, second, old } = given;
    let due = judge::update(first, second, &old.winners, &old.moves, room);
    let reached = if due.is_none() { judge::reaching(first, first, second) } else { Vec::new() };
    let count = reached.iter().filter(|&&reached| reached).count() as u64;
    let lent_first = LentTables::with(first);
    let lent_second = LentTables::with(second);
    let old_winners = Lent::with(&old.winners);
    let old_moves = Lent::with(&old.moves);
    let mut to = Written::any(room, rng);
    let said = ffi::update(
        lent_first.view(),
        lent_second.view(),
        old_winners.get(),
        old_moves.get(),
        to.winners.get_mut(),
        to.moves.get_mut(),
        to.work.get_mut(),
    );
    let compare = || {
        lent_first.unchanged()?;
        lent_second.unchanged()?;
        old_winners.unchanged("the old winners")?;
        old_moves.unchanged("the old moves")?;
        expect(said, due, count)?;
        to.as_due(due)?;
        if let Some(fault) = due {
            return Ok(Err(fault));
        }
        if reached != judge::reaching(second, first, second) {
            return Err("the judge itself: the two games do not yield the same set".to_string());
        }
        let new = to.right_answer(second)?;
        kept_lines(old, &new, &reached)?;
        Ok(Ok((new, count)))
    };
    compare().map_err(|what: String| format!("update: {what}\n{room:?}\n{given:?}"))
}

/// The reader with tables that fit; on success the tables as far as they are used.
pub fn read(file: &[u8], rng: &mut Prng) -> Compared<Tables> {
    read_in(file, housefile::ROOM, rng)
}

pub fn read_in(file: &[u8], room: [usize; 4], rng: &mut Prng) -> Compared<Tables> {
    let due = housefile::read(file, room);
    let lent_file = Lent::with(file);
    let mut owners = Lent::any(room[0], rng);
    let mut priorities = Lent::any(room[1], rng);
    let mut starts = Lent::any(room[2], rng);
    let mut targets = Lent::any(room[3], rng);
    let said = ffi::read(
        lent_file.get(),
        owners.get_mut(),
        priorities.get_mut(),
        starts.get_mut(),
        targets.get_mut(),
    );
    let compare = || {
        lent_file.unchanged("the file")?;
        let game = match due {
            Ok(ref game) => game,
            Err(fault) => {
                expect(said, Some(fault), 0)?;
                owners.unchanged("the owners")?;
                priorities.unchanged("the priorities")?;
                starts.unchanged("the starts")?;
                targets.unchanged("the targets")?;
                return Ok(Err(fault));
            }
        };
        expect(said, None, game.targets.len() as u64 * 65_536 + game.n() as u64)?;
        filled(&owners, &game.owners, "the owners")?;
        filled(&priorities, &game.priorities, "the priorities")?;
        filled(&starts, &game.starts, "the starts")?;
        filled(&targets, &game.targets, "the targets")?;
        match judge::tables(game) {
            Some(fault) => Err(format!("the judge itself: a file that is read gives {fault:?}")),
            None => Ok(Ok(game.clone())),
        }
    };
    compare().map_err(|what: String| format!("read: {what}\ntables of {room:?}\nfile {file:?}"))
}

/// The writer with an output that fits; on success the file.
pub fn write(game: &Tables, rng: &mut Prng) -> Compared<Vec<u8>> {
    write_in(game, housefile::length(game.n(), game.targets.len()), rng)
}

pub fn write_in(game: &Tables, room: usize, rng: &mut Prng) -> Compared<Vec<u8>> {
    let due = housefile::write(game, room);
    let lent = LentTables::with(game);
    let mut file = Lent::any(room, rng);
    let said = ffi::write(lent.view(), file.get_mut());
    let compare = || {
        lent.unchanged()?;
        let bytes = match due {
            Ok(ref bytes) => bytes,
            Err(fault) => {
                expect(said, Some(fault), 0)?;
                file.unchanged("the output")?;
                return Ok(Err(fault));
            }
        };
        expect(said, None, bytes.len() as u64)?;
        file.ends_unchanged("the output")?;
        match (0..bytes.len()).find(|&i| file.get()[i] != bytes[i]) {
            Some(i) => Err(format!("byte {i} is {}, not {}", file.get()[i], bytes[i])),
            None => Ok(Ok(bytes.clone())),
        }
    };
    compare().map_err(|what: String| format!("write: {what}\noutput of {room} bytes\n{game:?}"))
}

/// The buffers that solver and update write.
struct Written {
    winners: Lent<u8>,
    moves: Lent<u16>,
    work: Lent<u16>,
}

impl Written {
    fn any(room: Room, rng: &mut Prng) -> Self {
        Written {
            winners: Lent::any(room.winners, rng),
            moves: Lent::any(room.moves, rng),
            work: Lent::any(room.work, rng),
        }
    }

    /// Untouched after a refusal, but for the work space after 11 to 14.
    fn as_due(&self, due: Option<Fault>) -> Result<(), String> {
        if due.is_some() {
            self.winners.unchanged("the new winners")?;
            self.moves.unchanged("the new moves")?;
        }
        self.winners.ends_unchanged("the new winners")?;
        self.moves.ends_unchanged("the new moves")?;
        work_as_due(&self.work, due)
    }

    fn right_answer(&self, game: &Tables) -> Result<Answer, String> {
        let answer =
            Answer { winners: self.winners.get().to_vec(), moves: self.moves.get().to_vec() };
        match judge::answer(game, &answer.winners, &answer.moves) {
            Some(fault) => Err(format!("the answer {answer:?} is wrong: {fault:?}")),
            None => Ok(answer),
        }
    }
}

fn work_as_due(work: &Lent<u16>, due: Option<Fault>) -> Result<(), String> {
    match due {
        Some(fault) if !(11..=14).contains(&fault.number) => work.unchanged("the work space"),
        _ => work.zeroed("the work space"),
    }
}

/// The refusal that is due, or success with this value.
fn expect(said: Said, due: Option<Fault>, value: u64) -> Result<(), String> {
    let right = match due {
        Some(fault) => Said { number: fault.number, value: fault.place },
        None => Said { number: 0, value },
    };
    if said == right {
        return Ok(());
    }
    if said == STRAY {
        return Err("the call changed memory beside a slice, or one lent to be read".to_string());
    }
    Err(format!(
        "said {} with {}, not {} with {}",
        said.number, said.value, right.number, right.value
    ))
}

/// What has no path to a differing vertex keeps its winner and its move.
fn kept_lines(old: &Answer, new: &Answer, reached: &[bool]) -> Result<(), String> {
    let lost = (0..reached.len())
        .find(|&v| !reached[v] && (old.winners[v], old.moves[v]) != (new.winners[v], new.moves[v]));
    lost.map_or(Ok(()), |v| {
        Err(format!("vertex {v} reaches no differing one and did not keep its line: {new:?}"))
    })
}

/// The used entries, then zeros.
fn filled<T: Element>(table: &Lent<T>, used: &[T], name: &str) -> Result<(), String> {
    table.ends_unchanged(name)?;
    let (begin, rest) = table.get().split_at(used.len());
    if begin == used && rest.iter().all(|&entry| entry == T::default()) {
        return Ok(());
    }
    Err(format!("{name} are not those of the file, or not zero past them"))
}
