//! Runs many lists on all processors, each against a new desk, up to the first difference.

use crate::compare::{run, shrink, text, Checks, Coverage};
use crate::desk::Desk;
use crate::lists::{list, List, Theme};
use std::sync::Mutex;

/// Calls in a list.
pub const LENGTH: usize = 500;

/// A list by its theme and seed, and how closely it is looked at.
#[derive(Clone, Copy, Debug)]
pub struct Job {
    pub theme: Theme,
    pub seed: u64,
    pub checks: Checks,
}

impl Job {
    pub fn list(&self) -> List {
        list(self.theme, self.seed, LENGTH)
    }
}

/// A list of every theme for each seed.
pub fn jobs(
    seeds: impl Iterator<Item = u64>,
    checks: impl Fn(Theme, u64) -> Checks,
) -> impl Iterator<Item = Job> {
    let themes = |seed| Theme::ALL.iter().map(move |&theme| (theme, seed));
    seeds.flat_map(themes).map(move |(theme, seed)| {
        let checks = checks(theme, seed);
        Job { theme, seed, checks }
    })
}

/// What the workers share.
struct Shared<I> {
    jobs: I,
    /// How many were given out.
    given: usize,
    coverage: Coverage,
    /// The earliest job that showed a difference.
    found: Option<(usize, Job)>,
}

/// Runs the jobs until one shows a difference or `go_on`, which is told what was reached so far,
/// says no. The first that shows a difference, in the order of the jobs.
pub fn first_difference(
    jobs: impl Iterator<Item = Job> + Send,
    make: &(dyn Fn() -> Box<dyn Desk> + Sync),
    go_on: &(dyn Fn(&Job, &Coverage) -> bool + Sync),
) -> (Coverage, Option<Job>) {
    let shared = Mutex::new(Shared { jobs, given: 0, coverage: Coverage::new(), found: None });
    let next = || {
        let mut shared = shared.lock().expect("no worker has failed");
        if shared.found.is_some() {
            return None;
        }
        let job = shared.jobs.next()?;
        shared.given += 1;
        match go_on(&job, &shared.coverage) {
            true => Some((shared.given, job)),
            false => None,
        }
    };
    let work = || {
        while let Some((place, job)) = next() {
            let mut coverage = Coverage::new();
            let difference = run(&job.list(), &mut *make(), job.checks, &mut coverage);
            let mut shared = shared.lock().expect("no worker has failed");
            shared.coverage.add(&coverage);
            let earlier = shared.found.map_or(true, |(found, _)| place < found);
            if difference.is_some() && earlier {
                shared.found = Some((place, job));
            }
        }
    };
    let workers = std::thread::available_parallelism().map_or(1, usize::from);
    std::thread::scope(|scope| {
        for _ in 0..workers {
            scope.spawn(work);
        }
    });
    let shared = shared.into_inner().expect("no worker has failed");
    (shared.coverage, shared.found.map(|(_, job)| job))
}

/// The shortest list found that still shows a job's difference, with both answers to each call.
pub fn shortest(job: &Job, make: &dyn Fn() -> Box<dyn Desk>) -> String {
    let short = shrink(&job.list(), job.checks, make);
    let difference = run(&short, &mut *make(), job.checks, &mut Coverage::new());
    let said = difference.map_or(String::new(), |difference| difference.text);
    format!("the shortest list found that still shows it: {}{said}", text(&short, make))
}
