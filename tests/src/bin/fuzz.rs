//! `make fuzz`: lists of calls from new seeds through the engine and the second program, until the time
//! is up or it is interrupted. The first difference is printed as the shortest list found that still
//! shows it, and ends it with status 1.
//!
//! From the environment: MINUTES (none: until interrupted), SEED, the first seed (none: from the
//! clock), and WRONG, the name of a wrong turn of the second program to take the engine's place, to
//! see that a difference is found.

use std::env;
use std::process::exit;
use std::sync::Mutex;
use std::time::{Duration, Instant, SystemTime, UNIX_EPOCH};
use yordzepa_tests::compare::{Checks, Coverage};
use yordzepa_tests::desk::{under_test, Desk, SecondDesk};
use yordzepa_tests::driver::{first_difference, jobs, shortest, Job};
use yordzepa_tests::lists::Theme;
use yordzepa_tests::second::book::Turn;

/// Bytes and some reads after every call, as in the gate; every eighth seed has every read after every
/// call that changed the book.
fn checks(_: Theme, seed: u64) -> Checks {
    Checks { bytes: true, reads: 4, sweep: if seed % 8 == 0 { 1 } else { 200 } }
}

const BETWEEN_LINES: Duration = Duration::from_secs(10);

/// A number of the environment; none where it is not set or empty.
fn number<T: std::str::FromStr>(name: &str) -> Option<T> {
    let text = env::var(name).ok().filter(|text| !text.is_empty())?;
    let number = text.parse().ok();
    Some(number.unwrap_or_else(|| {
        eprintln!("fuzz: {name}={text} is no number");
        exit(2)
    }))
}

/// The program that is compared.
fn desk() -> impl Fn() -> Box<dyn Desk> + Sync {
    let wrong = env::var("WRONG").ok().filter(|name| !name.is_empty()).map(|name| {
        let mut turns = Turn::WRONG.iter().chain(Turn::UNREACHED);
        let turn = turns.find(|turn| format!("{turn:?}") == name);
        *turn.unwrap_or_else(|| {
            eprintln!("fuzz: no wrong turn is called {name}");
            exit(2)
        })
    });
    move || match wrong {
        None => under_test(),
        Some(turn) => Box::new(SecondDesk::wrong(turn)),
    }
}

fn line(job: &Job, coverage: &Coverage, start: Instant) {
    println!(
        "{} s: seed {}, {} calls and {} reads alike",
        start.elapsed().as_secs(),
        job.seed,
        coverage.calls,
        coverage.reads
    );
}

fn main() {
    let clock = || SystemTime::now().duration_since(UNIX_EPOCH).map_or(1, |time| time.as_secs());
    let first = number::<u64>("SEED").unwrap_or_else(clock).max(1);
    let end = number::<f64>("MINUTES").map(|minutes| Duration::from_secs_f64(60.0 * minutes));
    let make = desk();
    println!("fuzz: from seed {first} on (again with SEED={first})");
    let (start, printed) = (Instant::now(), Mutex::new(Instant::now()));
    let go_on = |job: &Job, coverage: &Coverage| {
        let mut printed = printed.lock().expect("no worker has failed");
        if printed.elapsed() >= BETWEEN_LINES {
            *printed = Instant::now();
            line(job, coverage, start);
        }
        end.map_or(true, |end| start.elapsed() < end)
    };
    let (coverage, found) = first_difference(jobs(first.., checks), &make, &go_on);
    println!("{}", coverage.text());
    if let Some(job) = found {
        println!("fuzz: a difference in theme {:?}, seed {}", job.theme, job.seed);
        println!("{}", shortest(&job, &make));
        exit(1);
    }
    println!("fuzz: no difference");
}
