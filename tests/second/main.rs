//! The second program: it shares nothing with the library, makes inputs from fixed seeds, calls the
//! library's C interface and compares what comes out with its own solver (Zielonka's method), its
//! own judge and its own reader and maker of house files.

mod amend;
mod compare;
mod damage;
mod definition;
mod families;
// Where the archive cannot be linked the calls go another way.
#[cfg(not(far))]
mod ffi;
#[cfg(far)]
#[path = "far.rs"]
mod ffi;
mod game;
mod group;
mod groups;
mod housefile;
mod judge;
mod lent;
mod prng;
mod said;
mod shapes;
mod spoil;
mod zielonka;

use group::Group;
use std::process::ExitCode;
use std::time::Instant;

/// The recursion is no deeper than the number of priorities; what the library takes from the stack
/// comes on top.
const STACK: usize = 256 << 20;

fn main() -> ExitCode {
    let worker = std::thread::Builder::new().stack_size(STACK).spawn(run_all);
    let failed = worker.map(|thread| thread.join());
    match failed {
        Ok(Ok(0)) => ExitCode::SUCCESS,
        Ok(Ok(_)) => ExitCode::FAILURE,
        _ => {
            println!("the second program itself failed");
            ExitCode::FAILURE
        }
    }
}

/// Runs every group, tells how it went, and gives how many failed.
fn run_all() -> usize {
    let (mut passed, mut failed) = (0, 0);
    for named in groups::all() {
        let begin = Instant::now();
        let mut group = Group::default();
        (named.run)(&mut group);
        let verdict = if group.passed() { "passed" } else { "failed" };
        println!(
            "{verdict}: {} ({}, {:.1} s)",
            named.name,
            group.summary(),
            begin.elapsed().as_secs_f64()
        );
        if group.passed() {
            passed += 1;
        } else {
            failed += 1;
        }
    }
    println!("{passed} passed, {failed} failed");
    failed
}
