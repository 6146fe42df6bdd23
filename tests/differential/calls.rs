//! Cases through the calls: of each call the number, all that is lent, the guards around it and what was only to be read, held to the
//! reference.

use crate::batch::{Asked, Call, Came, CALLS};
use crate::chance::Chance;
use crate::cover;
use crate::make_calls::{self, Case};
use crate::options::Options;
use crate::run;
use crate::totals::Totals;
use reference::lent::{first_tree_left, read_left, turns_left, verdict_left, Left, Lent};
use reference::night::{sheet_left, Night};
use std::ops::Range;
use std::sync::Mutex;

fn case_of(options: &Options, number: u64) -> Case {
    make_calls::case(&mut Chance::of_case(options.seed, number))
}

fn night_of(case: &Case) -> Night<'_> {
    case.night.as_ref().map_or(Night::default(), |made| made.night())
}

fn asked(case: &Case, call: Call) -> Asked<'_> {
    let lent = &case.lent[call as usize];
    Asked { call, pattern: &case.pattern, text: &case.text, row: &case.row, mark: case.mark, night: night_of(case), lent }
}

/// The calls that a case is put through.
fn calls_of(case: &Case) -> impl Iterator<Item = Call> + '_ {
    CALLS.into_iter().filter(|call| *call != Call::Sheet || case.night.is_some())
}

/// What should come of a call, or nothing where the reference would have to work too long.
fn wanted(case: &Case, call: Call) -> Option<Left> {
    let lent = &case.lent[call as usize];
    match call {
        Call::Verdict => case.whole.as_ref().map(verdict_left),
        Call::FirstTree => case.whole.as_ref().map(|whole| first_tree_left(whole, case.text.len(), lent)),
        Call::Read => Some(read_left(&case.pattern, lent)),
        Call::Turns => Some(turns_left(&case.row, case.mark, lent)),
        Call::Sheet => case.night.as_ref()?.wholes.as_ref().map(|wholes| sheet_left(&night_of(case), wholes, lent)),
    }
}

/// Where two rows of one length first differ, in words.
fn difference<T: PartialEq + std::fmt::Debug>(of_what: &str, got: &[T], wanted: &[T]) -> Option<String> {
    let at = (0..got.len()).find(|&at| got[at] != wanted[at])?;
    Some(format!("{of_what}: number {at} of {} is {:?} and should be {:?}", got.len(), got[at], wanted[at]))
}

/// What is wrong with what came, in words.
fn wrong(came: &Left, wanted: &Left) -> String {
    let all = [
        difference("answer", &[came.number], &[wanted.number]),
        difference("figures", &came.lent.out, &wanted.lent.out),
        difference("cells", &came.lent.cells, &wanted.lent.cells),
        difference("tree room", &came.lent.room, &wanted.lent.room),
        difference("table", &came.lent.table, &wanted.lent.table),
        difference("sheet", &came.lent.sheet, &wanted.lent.sheet),
    ];
    all.into_iter().flatten().collect::<Vec<_>>().join("; ")
}

/// What is asked of a call, in words.
fn in_words(case: &Case, call: Call) -> String {
    let pattern = format!("pattern \"{}\"", case.pattern.escape_ascii());
    let Lent { cells, room, table, sheet, out } = &case.lent[call as usize];
    match call {
        Call::Verdict => format!("{pattern} text \"{}\"", case.text.escape_ascii()),
        Call::FirstTree => {
            let text = case.text.escape_ascii();
            format!("{pattern} text \"{text}\" with {} cells, room {} and {} figures", cells.len(), room.len(), out.len())
        }
        Call::Read => format!("{pattern} with {} figures", out.len()),
        Call::Turns => {
            let row = &case.row;
            format!("mark {} in {} tokens, {:?}, with {} figures", case.mark, row.len(), &row[..row.len().min(60)], out.len())
        }
        Call::Sheet => {
            let (night, room, records) = (night_in_words(&night_of(case)), room.len(), table.len());
            format!("{night}, with {} cells, room {room}, {records} records, {} bytes and {} figures", cells.len(), sheet.len(), out.len())
        }
    }
}

/// A night, in words.
fn night_in_words(night: &Night) -> String {
    let (pattern, lengths) = (night.pattern.escape_ascii(), night.lengths);
    let reports = night.reports[..night.reports.len().min(200)].escape_ascii();
    let some = &lengths[..lengths.len().min(40)];
    format!("pattern \"{pattern}\" {} reports of lengths {some:?}, \"{reports}\", last night {:?}", lengths.len(), night.last)
}

/// Notes one call of a case.
fn note(totals: &mut Totals, number: u64, case: &Case, call: Call, came: &Came) {
    let asked = || format!("case {number}, {}: {}", call.name(), in_words(case, call));
    let (fell, left) = (came.fell, &came.left);
    totals.hold(number, fell == 0, || format!("{}\n  a guard fell, input changed or it came out otherwise again: {fell}", asked()));
    match wanted(case, call) {
        Some(wanted) => {
            totals.hold(number, *left == wanted, || format!("{}\n  {}", asked(), wrong(left, &wanted)));
            cover::meet(totals, case, call, &wanted);
        }
        None => totals.skipped += u64::from(matches!(call, Call::FirstTree | Call::Sheet)),
    }
}

/// Runs the cases of one batch and notes them.
pub fn one_batch(options: &Options, numbers: Range<u64>, totals: &Mutex<Totals>) -> Result<(), String> {
    let cases: Vec<(u64, Case)> = numbers.map(|number| (number, case_of(options, number))).collect();
    let calls: Vec<(u64, &Case, Call)> = cases.iter().flat_map(|(number, case)| calls_of(case).map(move |call| (*number, case, call))).collect();
    let asked: Vec<Asked> = calls.iter().map(|(_, case, call)| asked(case, *call)).collect();
    let came = run::host_on(&options.host, &asked)?;
    let mut noted = Totals::default();
    for ((number, case, call), came) in calls.iter().zip(&came) {
        note(&mut noted, *number, case, *call, came);
    }
    totals.lock().expect("the other worker is well").add(noted);
    Ok(())
}

/// Prints one case of a run, with all that is lent.
pub fn show(options: &Options, number: u64) {
    let case = case_of(options, number);
    for call in calls_of(&case) {
        println!("{}: {}\n  lent {:?}", call.name(), in_words(&case, call), case.lent[call as usize]);
    }
    println!("row {:?}", case.row);
}
