//! The library's C interface where the archive, which is for x86-64, cannot be linked: far.c is
//! linked with it into a program of its own, and the calls go to and fro by pipes. The same
//! functions as in ffi.rs.

use crate::game::View;
use crate::said::{Said, STRAY, UNWRITTEN};
use std::io::{self, Read, Write};
use std::process::{Child, ChildStdin, ChildStdout, Command, Stdio};
use std::sync::{Mutex, OnceLock};

const CHECK: u64 = 0;
const SOLVE: u64 = 1;
const UPDATE: u64 = 2;
const READ: u64 = 3;
const WRITE: u64 = 4;

enum Slice<'a> {
    Bytes(&'a [u8]),
    Words(&'a [u16]),
    BytesOut(&'a mut [u8]),
    WordsOut(&'a mut [u16]),
}
use Slice::{Bytes, BytesOut, Words, WordsOut};

pub fn check(game: View, winners: &[u8], moves: &[u16], work: &mut [u16]) -> Said {
    let [owners, priorities, starts, targets] = slices(game);
    call(
        CHECK,
        vec![owners, priorities, starts, targets, Bytes(winners), Words(moves), WordsOut(work)],
    )
}

pub fn solve(game: View, winners: &mut [u8], moves: &mut [u16], work: &mut [u16]) -> Said {
    let [owners, priorities, starts, targets] = slices(game);
    call(
        SOLVE,
        vec![
            owners,
            priorities,
            starts,
            targets,
            BytesOut(winners),
            WordsOut(moves),
            WordsOut(work),
        ],
    )
}

pub fn update(
    first: View,
    second: View,
    old_winners: &[u8],
    old_moves: &[u16],
    winners: &mut [u8],
    moves: &mut [u16],
    work: &mut [u16],
) -> Said {
    let mut all: Vec<Slice> = slices(first).into_iter().chain(slices(second)).collect();
    all.extend([
        Bytes(old_winners),
        Words(old_moves),
        BytesOut(winners),
        WordsOut(moves),
        WordsOut(work),
    ]);
    call(UPDATE, all)
}

pub fn read(
    file: &[u8],
    owners: &mut [u8],
    priorities: &mut [u8],
    starts: &mut [u16],
    targets: &mut [u16],
) -> Said {
    call(
        READ,
        vec![
            Bytes(file),
            BytesOut(owners),
            BytesOut(priorities),
            WordsOut(starts),
            WordsOut(targets),
        ],
    )
}

pub fn write(game: View, file: &mut [u8]) -> Said {
    let [owners, priorities, starts, targets] = slices(game);
    call(WRITE, vec![owners, priorities, starts, targets, BytesOut(file)])
}

fn slices(game: View<'_>) -> [Slice<'_>; 4] {
    [Bytes(game.owners), Bytes(game.priorities), Words(game.starts), Words(game.targets)]
}

impl Slice<'_> {
    fn content(&self) -> Vec<u8> {
        match self {
            Bytes(bytes) => bytes.to_vec(),
            BytesOut(bytes) => bytes.to_vec(),
            Words(words) => words.iter().flat_map(|word| word.to_le_bytes()).collect(),
            WordsOut(words) => words.iter().flat_map(|word| word.to_le_bytes()).collect(),
        }
    }

    /// Takes over what the call left; false if that is not allowed.
    fn take(&mut self, left: &[u8]) -> bool {
        match self {
            Bytes(_) | Words(_) => return self.content() == left,
            BytesOut(bytes) => bytes.copy_from_slice(left),
            WordsOut(words) => {
                for (word, pair) in words.iter_mut().zip(left.chunks_exact(2)) {
                    *word = u16::from_le_bytes([pair[0], pair[1]]);
                }
            }
        }
        true
    }
}

struct Far {
    to: ChildStdin,
    from: ChildStdout,
    /// Kept so that the process is not left to itself.
    _process: Child,
}

/// The far side, started at the first call from the path that is the program's argument.
fn far() -> &'static Mutex<Far> {
    static FAR: OnceLock<Mutex<Far>> = OnceLock::new();
    FAR.get_or_init(|| match start() {
        Ok(far) => Mutex::new(far),
        Err(what) => panic!("the far side does not start: {what}"),
    })
}

fn start() -> io::Result<Far> {
    let path = std::env::args().nth(1).ok_or(io::ErrorKind::NotFound)?;
    let mut process = Command::new(path).stdin(Stdio::piped()).stdout(Stdio::piped()).spawn()?;
    let to = process.stdin.take().ok_or(io::ErrorKind::BrokenPipe)?;
    let from = process.stdout.take().ok_or(io::ErrorKind::BrokenPipe)?;
    Ok(Far { to, from, _process: process })
}

fn call(function: u64, mut slices: Vec<Slice>) -> Said {
    match far().lock().map(|mut far| far.exchange(function, &mut slices)) {
        Ok(Ok(said)) => said,
        _ => panic!("the far side broke off"),
    }
}

impl Far {
    fn exchange(&mut self, function: u64, slices: &mut [Slice]) -> io::Result<Said> {
        let contents: Vec<Vec<u8>> = slices.iter().map(Slice::content).collect();
        let mut message = Vec::new();
        for number in [function, UNWRITTEN, slices.len() as u64] {
            message.extend(number.to_le_bytes());
        }
        for content in &contents {
            message.extend((content.len() as u64).to_le_bytes());
        }
        message.extend(contents.concat());
        let mut sent = (message.len() as u64).to_le_bytes().to_vec();
        sent.extend(message);
        self.to.write_all(&sent)?;

        let [number, value, stray] = [self.number()?, self.number()?, self.number()?];
        let mut allowed = stray == 0;
        for (slice, content) in slices.iter_mut().zip(contents) {
            let mut left = content;
            self.from.read_exact(&mut left)?;
            allowed = slice.take(&left) && allowed;
        }
        Ok(if allowed { Said { number, value } } else { STRAY })
    }

    fn number(&mut self) -> io::Result<u64> {
        let mut bytes = [0; 8];
        self.from.read_exact(&mut bytes)?;
        Ok(u64::from_le_bytes(bytes))
    }
}
