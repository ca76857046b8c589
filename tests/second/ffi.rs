//! The library's C interface, linked: every slice as a pointer and a length, the value's pointer
//! last. Slices of any length are good arguments, so the wrappers are safe; an empty slice's
//! pointer is aligned and not null.

use crate::game::View;
use crate::said::{Said, UNWRITTEN};

#[rustfmt::skip]
extern "C" {
    fn zoetelkorf_check(
        owners: *const u8, owners_length: usize, priorities: *const u8, priorities_length: usize,
        starts: *const u16, starts_length: usize, targets: *const u16, targets_length: usize,
        winners: *const u8, winners_length: usize, moves: *const u16, moves_length: usize,
        work: *mut u16, work_length: usize, value: *mut u64,
    ) -> u64;
    fn zoetelkorf_solve(
        owners: *const u8, owners_length: usize, priorities: *const u8, priorities_length: usize,
        starts: *const u16, starts_length: usize, targets: *const u16, targets_length: usize,
        winners: *mut u8, winners_length: usize, moves: *mut u16, moves_length: usize,
        work: *mut u16, work_length: usize, value: *mut u64,
    ) -> u64;
    fn zoetelkorf_update(
        owners: *const u8, owners_length: usize, priorities: *const u8, priorities_length: usize,
        starts: *const u16, starts_length: usize, targets: *const u16, targets_length: usize,
        second_owners: *const u8, second_owners_length: usize,
        second_priorities: *const u8, second_priorities_length: usize,
        second_starts: *const u16, second_starts_length: usize,
        second_targets: *const u16, second_targets_length: usize,
        old_winners: *const u8, old_winners_length: usize,
        old_moves: *const u16, old_moves_length: usize,
        winners: *mut u8, winners_length: usize, moves: *mut u16, moves_length: usize,
        work: *mut u16, work_length: usize, value: *mut u64,
    ) -> u64;
    fn zoetelkorf_read(
        file: *const u8, file_length: usize,
        owners: *mut u8, owners_length: usize, priorities: *mut u8, priorities_length: usize,
        starts: *mut u16, starts_length: usize, targets: *mut u16, targets_length: usize,
        value: *mut u64,
    ) -> u64;
    fn zoetelkorf_write(
        owners: *const u8, owners_length: usize, priorities: *const u8, priorities_length: usize,
        starts: *const u16, starts_length: usize, targets: *const u16, targets_length: usize,
        file: *mut u8, file_length: usize, value: *mut u64,
    ) -> u64;
}

#[rustfmt::skip]
pub fn check(game: View, winners: &[u8], moves: &[u16], work: &mut [u16]) -> Said {
    let mut value = UNWRITTEN;
    // SAFETY: each pointer and length are a live slice's, and the written ones are borrowed alone.
    let number = unsafe {
        zoetelkorf_check(
            game.owners.as_ptr(), game.owners.len(),
            game.priorities.as_ptr(), game.priorities.len(),
            game.starts.as_ptr(), game.starts.len(),
            game.targets.as_ptr(), game.targets.len(),
            winners.as_ptr(), winners.len(), moves.as_ptr(), moves.len(),
            work.as_mut_ptr(), work.len(), &mut value,
        )
    };
    Said { number, value }
}

#[rustfmt::skip]
pub fn solve(game: View, winners: &mut [u8], moves: &mut [u16], work: &mut [u16]) -> Said {
    let mut value = UNWRITTEN;
    // SAFETY: as in `check`.
    let number = unsafe {
        zoetelkorf_solve(
            game.owners.as_ptr(), game.owners.len(),
            game.priorities.as_ptr(), game.priorities.len(),
            game.starts.as_ptr(), game.starts.len(),
            game.targets.as_ptr(), game.targets.len(),
            winners.as_mut_ptr(), winners.len(), moves.as_mut_ptr(), moves.len(),
            work.as_mut_ptr(), work.len(), &mut value,
        )
    };
    Said { number, value }
}

#[rustfmt::skip]
pub fn update(
    first: View, second: View, old_winners: &[u8], old_moves: &[u16],
    winners: &mut [u8], moves: &mut [u16], work: &mut [u16],
) -> Said {
    let mut value = UNWRITTEN;
    // SAFETY: as in `check`.
    let number = unsafe {
        zoetelkorf_update(
            first.owners.as_ptr(), first.owners.len(),
            first.priorities.as_ptr(), first.priorities.len(),
            first.starts.as_ptr(), first.starts.len(),
            first.targets.as_ptr(), first.targets.len(),
            second.owners.as_ptr(), second.owners.len(),
            second.priorities.as_ptr(), second.priorities.len(),
            second.starts.as_ptr(), second.starts.len(),
            second.targets.as_ptr(), second.targets.len(),
            old_winners.as_ptr(), old_winners.len(), old_moves.as_ptr(), old_moves.len(),
            winners.as_mut_ptr(), winners.len(), moves.as_mut_ptr(), moves.len(),
            work.as_mut_ptr(), work.len(), &mut value,
        )
    };
    Said { number, value }
}

#[rustfmt::skip]
pub fn read(
    file: &[u8], owners: &mut [u8], priorities: &mut [u8], starts: &mut [u16], targets: &mut [u16],
) -> Said {
    let mut value = UNWRITTEN;
    // SAFETY: as in `check`.
    let number = unsafe {
        zoetelkorf_read(
            file.as_ptr(), file.len(),
            owners.as_mut_ptr(), owners.len(), priorities.as_mut_ptr(), priorities.len(),
            starts.as_mut_ptr(), starts.len(), targets.as_mut_ptr(), targets.len(),
            &mut value,
        )
    };
    Said { number, value }
}

#[rustfmt::skip]
pub fn write(game: View, file: &mut [u8]) -> Said {
    let mut value = UNWRITTEN;
    // SAFETY: as in `check`.
    let number = unsafe {
        zoetelkorf_write(
            game.owners.as_ptr(), game.owners.len(),
            game.priorities.as_ptr(), game.priorities.len(),
            game.starts.as_ptr(), game.starts.len(),
            game.targets.as_ptr(), game.targets.len(),
            file.as_mut_ptr(), file.len(), &mut value,
        )
    };
    Said { number, value }
}
