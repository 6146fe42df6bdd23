//! Random cases through the programs under test, each held to the reference.
//!
//!     differential --host WORD.. [--seed N] [--cases N] [--only N]                  each case through all calls
//!     differential --desk WORD.. --host WORD.. [--seed N] [--cases N] [--only N]    each through the desk and the verdict
//!
//! --desk and --host take one word of the command each, and are given again for each further word. The host is run once for a batch, the
//! desk once for a case. --only N shows one case of a run.

mod batch;
mod calls;
mod chance;
mod cover;
mod cover_sheet;
mod cover_turns;
mod desk;
mod make;
mod make_calls;
mod make_nights;
mod make_rows;
mod options;
mod run;
mod totals;

use options::Options;
use reference::STACK;
use std::ops::Range;
use std::process::ExitCode;
use std::sync::atomic::{AtomicU64, Ordering};
use std::sync::Mutex;
use totals::Totals;

/// What a run is of: the calls, or the desk and the verdict.
struct Kind {
    says: &'static str,
    /// how many cases go into a batch
    batch: u64,
    /// a run of so many cases must meet every answer and edge
    covering: u64,
    one_batch: fn(&Options, Range<u64>, &Mutex<Totals>) -> Result<(), String>,
    show: fn(&Options, u64),
    expect: fn(&mut Totals),
}

const CALLS: Kind = Kind {
    says: "each through all calls",
    batch: 500,
    covering: 50_000,
    one_batch: calls::one_batch,
    show: calls::show,
    expect: cover::expect,
};
const DESK: Kind = Kind {
    says: "each through the desk and the verdict",
    batch: 50,
    covering: 500,
    one_batch: desk::one_batch,
    show: desk::show,
    expect: desk::expect,
};

/// Takes batch after batch until none is left. What is in a batch does not depend on who takes it.
fn work(kind: &Kind, options: &Options, next: &AtomicU64, totals: &Mutex<Totals>) -> Result<(), String> {
    loop {
        let from = next.fetch_add(kind.batch, Ordering::Relaxed);
        if from >= options.cases {
            return Ok(());
        }
        let to = (from + kind.batch).min(options.cases);
        (kind.one_batch)(options, from..to, totals).map_err(|why| format!("cases {from} to {}: {why}", to - 1))?;
    }
}

/// Does the same work in so many threads with large stacks; one that cannot go on makes the run fail.
fn by_workers(count: usize, work: impl Fn(&Mutex<Totals>) -> Result<(), String> + Sync) -> Result<Totals, String> {
    let totals = Mutex::new(Totals::default());
    std::thread::scope(|scope| {
        let start = |_| std::thread::Builder::new().stack_size(STACK).spawn_scoped(scope, || work(&totals)).expect("a thread with a large stack");
        let workers: Vec<_> = (0..count).map(start).collect();
        workers.into_iter().map(|worker| worker.join().unwrap_or(Err("a worker broke off".to_string()))).collect::<Result<(), String>>()
    })?;
    Ok(totals.into_inner().expect("the workers are well"))
}

fn all_cases(kind: &Kind, options: &Options) -> Result<Totals, String> {
    let next = AtomicU64::new(0);
    let workers = std::thread::available_parallelism().map_or(1, |count| count.get());
    let mut totals = by_workers(workers, |totals| work(kind, options, &next, totals))?;
    (kind.expect)(&mut totals);
    Ok(totals)
}

fn one_case(kind: &Kind, options: &Options, number: u64) -> Result<Totals, String> {
    by_workers(1, |totals| {
        (kind.show)(options, number);
        (kind.one_batch)(options, number..number + 1, totals)
    })
}

fn main() -> ExitCode {
    let options = match options::options() {
        Some(options) => options,
        None => {
            eprintln!("usage: differential [--desk WORD..] --host WORD.. [--seed N] [--cases N] [--only N]");
            return ExitCode::from(64);
        }
    };
    let kind = if options.desk.is_empty() { CALLS } else { DESK };
    println!("differential: seed {}, {} cases, {}", options.seed, options.cases, kind.says);
    let (run, cases) = match options.only {
        Some(number) => (one_case(&kind, &options, number), 1),
        None => (all_cases(&kind, &options), options.cases),
    };
    match run {
        Ok(mut totals) => {
            totals.report(cases, kind.covering);
            if totals.failed == 0 && totals.passed > 0 { ExitCode::SUCCESS } else { ExitCode::FAILURE }
        }
        Err(why) => {
            eprintln!("differential: {why}");
            ExitCode::FAILURE
        }
    }
}
