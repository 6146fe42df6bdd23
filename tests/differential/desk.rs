//! Cases through the desk and through the scheduler's call, each held to the reference, and the one to the other.

use crate::batch::{Asked, Call};
use crate::chance::Chance;
use crate::make::{self, Case, Shares};
use crate::options::Options;
use crate::run;
use crate::totals::Totals;
use reference::answers::{desk_answer, lines, parts_of_input, verdict, whole, Effort};
use reference::lent::Lent;
use reference::night::Night;
use std::ops::Range;
use std::sync::Mutex;

/// A case that asks the reference for more is held by the desk and the host to each other alone.
const EFFORT: Effort = Effort { steps: 3_000_000, tokens: 60_000 };

/// Many stand at a limit, since a run is short.
const SHARES: Shares = Shares { limits: 24, long: 10 };

/// What the reference says of a case, nothing where it would cost too much, and what the desk wrote.
struct Judged {
    number: u64,
    case: Case,
    desk_wanted: Option<String>,
    answer: Option<(u32, u32)>,
    every_tree_written: bool,
    verdict_wanted: Option<u32>,
    desk_wrote: Vec<u8>,
}

fn case_of(options: &Options, number: u64) -> Case {
    make::case(&mut Chance::of_case(options.seed, number), SHARES)
}

fn judged(options: &Options, number: u64) -> Result<Judged, String> {
    let case = case_of(options, number);
    let answer = desk_answer(&case.input, EFFORT).ok();
    Ok(Judged {
        number,
        desk_wanted: answer.as_ref().map(lines),
        answer: answer.as_ref().map(|answer| (answer.number, answer.flag)),
        every_tree_written: answer.map_or(false, |answer| answer.every_tree_written),
        verdict_wanted: whole(&case.pattern, &case.text, Effort { tokens: 0, ..EFFORT }).ok().map(|whole| verdict(&whole)),
        desk_wrote: run::output_of(&options.desk, &case.input)?,
        case,
    })
}

/// Number and flag in the desk's first line.
fn number_and_flag(wrote: &[u8]) -> Option<(u32, u32)> {
    let line = std::str::from_utf8(wrote).ok()?.lines().next()?;
    match line.split(' ').collect::<Vec<_>>()[..] {
        ["ANSWER", number, _, flag] => Some((number.parse().ok()?, flag.parse().ok()?)),
        _ => None,
    }
}

/// Whether the desk's line and the scheduler's number speak of one answer. With 9 the desk does not say whether there is another tree.
fn agree(wrote: &[u8], verdict: u32) -> bool {
    match number_and_flag(wrote) {
        Some((0, flag)) => verdict == if flag == 1 { 11 } else { 0 },
        Some((9, _)) => verdict == 0 || verdict == 11,
        Some((number, _)) => verdict == number,
        None => false,
    }
}

/// Notes one case: desk against reference, host against reference, and desk against host where both were given the same.
fn note(totals: &mut Totals, judged: &Judged, verdict: u32) {
    let Judged { number, case, desk_wrote, .. } = judged;
    let asked = || format!("case {number}: pattern \"{}\" text \"{}\"", case.pattern.escape_ascii(), case.text.escape_ascii());
    let wrote = desk_wrote.escape_ascii();
    if let Some(wanted) = &judged.desk_wanted {
        totals.hold(*number, desk_wrote == wanted.as_bytes(), || {
            let (input, wanted) = (case.input.escape_ascii(), wanted.escape_default());
            format!("case {number}: input \"{input}\"\n  the desk wrote  \"{wrote}\"\n  it should write \"{wanted}\"")
        });
    }
    if let Some(wanted) = judged.verdict_wanted {
        totals.hold(*number, verdict == wanted, || format!("{}\n  the verdict is {verdict}, it should be {wanted}", asked()));
    }
    if parts_of_input(&case.input) == (&case.pattern[..], &case.text[..]) {
        totals.hold(*number, agree(desk_wrote, verdict), || format!("{}\n  the desk wrote \"{wrote}\", the verdict is {verdict}", asked()));
    }
    totals.skipped += u64::from(judged.desk_wanted.is_none() || judged.verdict_wanted.is_none());
}

/// Notes what the reference has answered.
fn meet(totals: &mut Totals, judged: &Judged) {
    if let Some((number, flag)) = judged.answer {
        totals.meet(DESK, &format!("{number} flag {flag}"), 1);
    }
    if let Some(number) = judged.verdict_wanted {
        totals.meet(Call::Verdict.name(), &number.to_string(), 1);
    }
    totals.meet("the reference", "every tree written out", u64::from(judged.every_tree_written));
}

const DESK: &str = "desk";

/// Notes all answers of the desk, with the flag, as such that are to be met.
pub fn expect(totals: &mut Totals) {
    for (number, flag) in [(0, 0), (0, 1), (1, 0), (2, 0), (4, 0), (5, 0), (6, 0), (7, 0), (8, 0), (9, 0)] {
        totals.meet(DESK, &format!("{number} flag {flag}"), 0);
    }
}

fn asked<'a>(case: &'a Case, lent: &'a Lent) -> Asked<'a> {
    Asked { call: Call::Verdict, pattern: &case.pattern, text: &case.text, row: &[], mark: 0, night: Night::default(), lent }
}

/// Runs the cases of one batch and notes them.
pub fn one_batch(options: &Options, numbers: Range<u64>, totals: &Mutex<Totals>) -> Result<(), String> {
    let cases: Vec<Judged> = numbers.map(|number| judged(options, number)).collect::<Result<_, _>>()?;
    let nothing = Lent::default();
    let asked: Vec<Asked> = cases.iter().map(|judged| asked(&judged.case, &nothing)).collect();
    let came = run::host_on(&options.host, &asked)?;
    let mut noted = Totals::default();
    for (judged, came) in cases.iter().zip(&came) {
        note(&mut noted, judged, came.left.number);
        meet(&mut noted, judged);
    }
    totals.lock().expect("the other worker is well").add(noted);
    Ok(())
}

/// Prints one case of a run.
pub fn show(options: &Options, number: u64) {
    let case = case_of(options, number);
    println!("input \"{}\"\npattern \"{}\"\ntext \"{}\"", case.input.escape_ascii(), case.pattern.escape_ascii(), case.text.escape_ascii());
}
