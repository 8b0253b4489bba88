//! Times whole calls of the original and of this library. run.sh builds and runs it; each mode prints one line for each figure:
//! kind, code of both algorithms, call, octets, candidate, value, tab between them. Beside the times stands the ns of a processor's cycle.
//!   bench times ROUNDS     ns of a call at the lengths of the table
//!   bench lengths ROUNDS   ns of a call at lengths from 1 to 65,535
//!   bench count            for callgrind: a call of `mark` before and after each line's calls, the number of calls as the value
mod agree;
mod clock;
mod jobs;
mod original;
mod ours;

use jobs::{Call, Candidate, Job};

/// What is compared under these codes.
fn candidates(code: u8) -> Vec<Candidate> {
    Candidate::ALL.into_iter().filter(|c| c.has(code)).collect()
}

/// The lengths of the table. libipsec-mb takes at most 8,188 octets for ZUC, and a code is of one octet more than the message.
fn table(code: u8) -> [usize; 2] {
    if code == 3 { [64, 8184] } else { [64, 8192] }
}

fn table_jobs() -> Vec<Job> {
    let of = |code| table(code).into_iter().flat_map(move |n| Job::each_call(code, n));
    [2, 1, 3].into_iter().flat_map(of).collect()
}

/// Powers of two, and the longest message.
fn length_jobs() -> Vec<Job> {
    let lengths = (0..16).map(|i| 1 << i).chain([65535]);
    lengths.flat_map(|n| [Job::new(2, Call::Seal, n), Job::new(2, Call::Open, n)]).collect()
}

fn entrants(job: &Job) -> Vec<Candidate> {
    candidates(job.code).into_iter().filter(|c| c.takes(job)).collect()
}

/// Turns of a job in one round.
const TURNS: usize = 5;

/// Every candidate gets a batch in each turn, and its least of all counts. A job comes up once in each round, so that other work on the
/// computer, which comes and goes, does not meet all the batches of one job.
fn times(jobs: &[Job], rounds: usize) {
    let mut rows: Vec<Vec<_>> = jobs.iter().map(|job| entrants(job).into_iter().map(|c| (c, f64::MAX)).collect()).collect();
    let mut cycle = f64::MAX;
    for _ in 0..rounds {
        cycle = cycle.min(clock::cycle());
        for (job, row) in jobs.iter().zip(&mut rows) {
            (0..TURNS).for_each(|_| turn(job, row));
        }
    }
    println!("cycle\t-\t-\t-\t-\t{cycle:.4}");
    for (job, row) in jobs.iter().zip(rows) {
        for (candidate, least) in row {
            println!("time\t{job}\t{}\t{least:.2}", candidate.name());
        }
    }
}

fn turn(job: &Job, row: &mut [(Candidate, f64)]) {
    for (candidate, least) in row {
        *least = least.min(job.time(*candidate));
    }
}

/// callgrind writes what it counted each time this is called.
#[unsafe(no_mangle)]
#[inline(never)]
extern "C" fn mark() {
    core::hint::black_box(());
}

fn count() {
    for job in table_jobs() {
        for candidate in entrants(&job) {
            let mut batch = job.batch(candidate);
            mark();
            batch.run();
            mark();
            println!("count\t{job}\t{}\t{}", candidate.name(), job.calls());
        }
    }
}

fn main() {
    let arguments: Vec<_> = std::env::args().skip(1).collect();
    let rounds = arguments.get(1).map_or(10, |n| n.parse().expect("ROUNDS is a number"));
    agree::check();
    match arguments.first().map(String::as_str) {
        Some("times") => times(&table_jobs(), rounds),
        Some("lengths") => times(&length_jobs(), rounds),
        Some("count") => count(),
        _ => panic!("bench times ROUNDS | lengths ROUNDS | count"),
    }
}
