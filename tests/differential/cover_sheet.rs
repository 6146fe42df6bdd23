//! Which edges of the night sheet a case is at.

use crate::batch::Call;
use crate::cover::Edges;
use crate::make_calls::Case;
use crate::make_nights::Made;
use reference::answers::{Answer, MARK_LIMIT, TEXT_LIMIT};
use reference::lent::{turns, Left, Lent};
use reference::night::{bytes_of_turns, LAST_LIMIT, NIGHT_CELLS, REPORT_LIMIT, SHEET_BYTES};
use std::rc::Rc;

const NIGHTS: &str = "nights";
const REPORTS: &str = "reports of a night";
const RECORDS: &str = "records of a night";
const CHANGES: &str = "changes of a night";
const LENT: &str = "lent to the sheet";
const REFUSALS: &str = "refusals of the sheet";

/// A night, what was lent to it, and what the reference says of it.
struct Seen<'a> {
    made: &'a Made,
    lent: &'a Lent,
    left: &'a Left,
    /// the number of each report and its first tree; none where the sheet is refused
    reports: Vec<(u32, &'a Answer)>,
}

fn seen<'a>(made: &'a Made, wholes: &'a [Rc<Answer>], lent: &'a Lent, left: &'a Left) -> Seen<'a> {
    let is_sheet = left.number == 0;
    let numbers = if is_sheet { made.night().tonight(wholes, &lent.room).numbers } else { Vec::new() };
    let reports = numbers.into_iter().zip(wholes.iter().map(|whole| &**whole)).collect();
    Seen { made, lent, left, reports }
}

impl Seen<'_> {
    fn is_sheet(&self) -> bool {
        self.left.number == 0
    }

    /// Whether some report has this number and some later one the other.
    fn is_before(&self, one: u32, other: u32) -> bool {
        let first = self.reports.iter().position(|report| report.0 == one);
        first.map_or(false, |at| self.reports[at..].iter().any(|report| report.0 == other))
    }

    fn has(&self, number: u32) -> bool {
        self.reports.iter().any(|report| report.0 == number)
    }

    /// The rows that count.
    fn rows(&self) -> Vec<&[u16]> {
        self.reports.iter().filter(|report| report.0 == 0).map(|report| &report.1.row[..]).collect()
    }

    /// The sum of the lengths as 64 bits have it.
    fn wrapped_sum(&self) -> u64 {
        self.made.lengths.iter().fold(0, |sum, length| sum.wrapping_add(*length))
    }

    fn is_last_large(&self) -> bool {
        self.made.last.iter().any(|&last| last > LAST_LIMIT)
    }

    fn is_little_lent(&self) -> bool {
        self.lent.cells.len() < NIGHT_CELLS || self.lent.sheet.len() < SHEET_BYTES
    }
}

fn edges_of_nights(seen: &Seen) -> Edges {
    let (count, marks, is_sheet) = (seen.made.lengths.len(), seen.lent.table.len(), seen.is_sheet());
    vec![
        (NIGHTS, "no reports", is_sheet && count == 0),
        (NIGHTS, "no reports and no marks", is_sheet && count == 0 && marks == 0),
        (NIGHTS, "one report", is_sheet && count == 1),
        (NIGHTS, "several reports", is_sheet && count > 1),
        (NIGHTS, "1,000 reports", is_sheet && count == REPORT_LIMIT),
        (NIGHTS, "1,001 reports that add up", seen.left.number == 12 && count == REPORT_LIMIT + 1 && seen.made.night().adds_up()),
        (NIGHTS, "no marks", is_sheet && marks == 0),
        (NIGHTS, "64 marks", is_sheet && marks == MARK_LIMIT),
    ]
}

fn edges_of_reports(seen: &Seen) -> Edges {
    let of_length = |length: usize| seen.is_sheet() && seen.made.lengths.contains(&(length as u64));
    let rows = seen.rows();
    let longest = rows.iter().map(|row| row.len()).max().unwrap_or(0);
    let is_shorter_later = rows.windows(2).any(|two| two[1].len() < two[0].len() && !two[1].is_empty());
    let is_a_token_short = seen.reports.iter().any(|(number, whole)| *number == 9 && whole.row.len() == seen.lent.room.len() + 1);
    vec![
        (REPORTS, "0, 2, 8 and 9 in one night", [0, 2, 8, 9].iter().all(|&number| seen.has(number))),
        (REPORTS, "9, and 0 behind it", seen.is_before(9, 0)),
        (REPORTS, "0, and 9 behind it", seen.is_before(0, 9)),
        (REPORTS, "8, and 0 behind it", seen.is_before(8, 0)),
        (REPORTS, "2, and 0 behind it", seen.is_before(2, 0)),
        (REPORTS, "none counts", seen.is_sheet() && !seen.reports.is_empty() && !seen.has(0)),
        (REPORTS, "an empty one that fits", of_length(0) && seen.has(0)),
        (REPORTS, "one of 4,096 bytes", of_length(TEXT_LIMIT)),
        (REPORTS, "one of 4,097 bytes", of_length(TEXT_LIMIT + 1)),
        (REPORTS, "one with another tree", seen.reports.iter().any(|(number, whole)| *number == 0 && whole.flag == 1)),
        (REPORTS, "a tree, and a shorter one behind it", is_shorter_later),
        (REPORTS, "room just enough for the longest", longest > 0 && longest == seen.lent.room.len()),
        (REPORTS, "a token short", is_a_token_short),
        (REPORTS, "a token short, and 0 with the others", is_a_token_short && seen.has(0)),
    ]
}

/// Edges of what the rows that count say of each mark: how many bytes its turns in each row have read.
fn edges_of_records(seen: &Seen) -> Edges {
    let rows = seen.rows();
    let marks = if seen.is_sheet() { seen.lent.table.len() as u16 } else { 0 };
    let of_mark = |mark: u16| rows.iter().map(|row| bytes_of_turns(row, mark)).collect::<Vec<Vec<u64>>>();
    let all: Vec<Vec<Vec<u64>>> = (1..=marks).map(of_mark).collect();
    let is_opened = |mark: u16| rows.iter().any(|row| row.contains(&mark));
    let has_turns = |mark: u16| all[usize::from(mark) - 1].iter().any(|of_row| !of_row.is_empty());
    let has_empty = |mark: u16| rows.iter().any(|row| row.iter().filter(|&&token| token == mark).count() > turns(row, mark.into()).1);
    let longest = |turns: &[Vec<u64>]| turns.iter().flatten().copied().max().unwrap_or(0);
    let first_with = |turns: &[Vec<u64>]| {
        let most = longest(turns);
        turns.iter().position(|of_row| of_row.contains(&most)).unwrap_or(0)
    };
    let are_behind = |turns: &[Vec<u64>]| turns.iter().skip(first_with(turns) + 1).any(|of_row| !of_row.is_empty());
    let some = |is_at: &dyn Fn(&[Vec<u64>]) -> bool| all.iter().any(|turns| is_at(turns));
    vec![
        (RECORDS, "a mark that never opens", (1..=marks).any(|mark| !is_opened(mark))),
        (RECORDS, "a mark with empty turns alone", (1..=marks).any(|mark| is_opened(mark) && !has_turns(mark))),
        (RECORDS, "a mark with empty turns and others", (1..=marks).any(|mark| has_empty(mark) && has_turns(mark))),
        (RECORDS, "turns in several reports", some(&|turns| turns.iter().filter(|of_row| !of_row.is_empty()).count() > 1)),
        (RECORDS, "more than 255 turns", some(&|turns| turns.concat().len() > 255)),
        (RECORDS, "more than 65,535 bytes", some(&|turns| turns.concat().iter().sum::<u64>() > 65_535)),
        (RECORDS, "a longest turn of several bytes", some(&|turns| longest(turns) > 1)),
        (RECORDS, "the longest turn in a later report", some(&|turns| longest(turns) > 1 && first_with(turns) > 0)),
        (RECORDS, "the longest turn before others", some(&|turns| longest(turns) > 1 && are_behind(turns))),
        (RECORDS, "a longest turn of 4,096 bytes", some(&|turns| longest(turns) == TEXT_LIMIT as u64)),
        (RECORDS, "a table that held other figures", seen.is_sheet() && seen.lent.table != seen.left.lent.table),
    ]
}

fn edges_of_changes(seen: &Seen) -> Edges {
    let table = if seen.is_sheet() { &seen.left.lent.table[..] } else { &[] };
    let some = |is_at: &dyn Fn(u64, u64) -> bool| table.iter().zip(&seen.made.last).any(|(record, &last)| is_at(record.turns, last));
    vec![
        (CHANGES, "+1", some(&|tonight, last| tonight == last + 1)),
        (CHANGES, "-1", some(&|tonight, last| tonight + 1 == last)),
        (CHANGES, "+ with two digits", some(&|tonight, last| tonight > last + 9)),
        (CHANGES, "- with two digits", some(&|tonight, last| tonight + 9 < last)),
        (CHANGES, "0 of no turns", some(&|tonight, last| tonight == 0 && last == 0)),
        (CHANGES, "0 of several turns", some(&|tonight, last| tonight > 1 && tonight == last)),
        (CHANGES, "last night 4,096,000", some(&|_, last| last == LAST_LIMIT)),
        (CHANGES, "-4096000", some(&|tonight, last| tonight == 0 && last == LAST_LIMIT)),
    ]
}

fn edges_of_lent(seen: &Seen) -> Edges {
    let (number, marks) = (seen.left.number, seen.made.marks().unwrap_or(0));
    let (cells, sheet, table, last) = (seen.lent.cells.len(), seen.lent.sheet.len(), seen.lent.table.len(), seen.made.last.len());
    let is_by_last = number == 14 && seen.made.last.iter().filter(|&&last| last > LAST_LIMIT).count() == 1;
    vec![
        (LENT, "0 with 4,097 cells", number == 0 && cells == NIGHT_CELLS),
        (LENT, "0 with a cell more", number == 0 && cells == NIGHT_CELLS + 1),
        (LENT, "3 with 4,096 cells alone", number == 3 && cells + 1 == NIGHT_CELLS && sheet >= SHEET_BYTES),
        (LENT, "0 with 8,192 bytes", number == 0 && sheet == SHEET_BYTES),
        (LENT, "0 with a byte more", number == 0 && sheet == SHEET_BYTES + 1),
        (LENT, "3 with 8,191 bytes alone", number == 3 && sheet + 1 == SHEET_BYTES && cells >= NIGHT_CELLS),
        (LENT, "13 with a record short alone", number == 13 && table + 1 == marks && last == marks),
        (LENT, "13 with a record more alone", number == 13 && table == marks + 1 && last == marks),
        (LENT, "13 with a number short alone", number == 13 && last + 1 == marks && table == marks),
        (LENT, "13 with a number more alone", number == 13 && last == marks + 1 && table == marks),
        (LENT, "13 with as many records as numbers", number == 13 && last == table),
        (LENT, "14 with 4,096,001", is_by_last && seen.made.last.contains(&(LAST_LIMIT + 1))),
        (LENT, "14 in the first alone", is_by_last && last > 1 && seen.made.last[0] > LAST_LIMIT),
        (LENT, "14 in the last alone", is_by_last && last > 1 && seen.made.last[last - 1] > LAST_LIMIT),
    ]
}

fn edges_of_refusals(seen: &Seen) -> Edges {
    let (number, marks) = (seen.left.number, seen.made.marks());
    let is_sum_wrong = !seen.made.night().adds_up();
    let is_other_count = Some(seen.lent.table.len()) != marks || Some(seen.made.last.len()) != marks;
    let is_by_sum = number == 12 && is_sum_wrong && seen.made.lengths.len() <= REPORT_LIMIT;
    let sum = seen.wrapped_sum();
    let of_row = seen.made.reports.len() as u64;
    vec![
        (REFUSALS, "1 before 3", number == 1 && seen.is_little_lent()),
        (REFUSALS, "1 before 12", number == 1 && is_sum_wrong),
        (REFUSALS, "3 before 4 to 7", number == 3 && marks.is_none()),
        (REFUSALS, "3 before 12", number == 3 && is_sum_wrong),
        (REFUSALS, "4 to 7 before 12", (4..=7).contains(&number) && is_sum_wrong),
        (REFUSALS, "4 to 7 before 14", (4..=7).contains(&number) && seen.is_last_large()),
        (REFUSALS, "12 before 13", number == 12 && is_other_count),
        (REFUSALS, "12 before 14", number == 12 && !is_other_count && seen.is_last_large()),
        (REFUSALS, "13 before 14", number == 13 && seen.is_last_large()),
        (REFUSALS, "12 by a byte less", is_by_sum && sum == of_row + 1),
        (REFUSALS, "12 by a byte more", is_by_sum && sum + 1 == of_row),
        (REFUSALS, "12 by a sum that is right in 64 bits", is_by_sum && sum == of_row),
        (REFUSALS, "12 by a sum that is right in 32 bits", is_by_sum && sum != of_row && sum as u32 == of_row as u32),
        (REFUSALS, "12 by bytes without lengths", is_by_sum && seen.made.lengths.is_empty()),
    ]
}

/// The edges that the night of a case is at.
pub fn edges(case: &Case, left: &Left) -> Edges {
    let Some(made) = &case.night else { return Vec::new() };
    let Some(wholes) = &made.wholes else { return Vec::new() };
    let seen = seen(made, wholes, &case.lent[Call::Sheet as usize], left);
    let all = [edges_of_nights, edges_of_reports, edges_of_records, edges_of_changes, edges_of_lent, edges_of_refusals];
    all.iter().flat_map(|edges| edges(&seen)).collect()
}
