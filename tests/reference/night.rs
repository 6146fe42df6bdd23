//! The night sheet, from the words of its rule: the reports one after another by the call for the first tree, the figures of each mark over
//! all first trees, and the lines of the sheet.

use crate::answers::{self, with_lent, Answer, Effort};
use crate::lent::{figured, turns, written, Left, Lent};
use crate::stretches::TooMuch;
use std::collections::HashMap;
use std::rc::Rc;

pub const REPORT_LIMIT: usize = 1000;
pub const LAST_LIMIT: u64 = 4_096_000;
pub const NIGHT_CELLS: usize = 4097;
pub const SHEET_BYTES: usize = 8192;

/// What the table holds of one mark, as C has it.
#[repr(C)]
#[derive(Clone, Copy, Debug, Default, PartialEq, Eq)]
pub struct Record {
    pub turns: u64,
    pub bytes: u64,
    pub longest: u64,
}

/// What is handed in: the pattern, all reports in one row and their lengths, and last night's turns.
#[derive(Clone, Copy, Default)]
pub struct Night<'a> {
    pub pattern: &'a [u8],
    pub reports: &'a [u8],
    pub lengths: &'a [u64],
    pub last: &'a [u64],
}

/// What the reports of a night come to: the number of each, the table, and the tree room at the end.
pub struct Tonight {
    pub numbers: Vec<u32>,
    pub table: Vec<Record>,
    pub room: Vec<u16>,
}

impl<'a> Night<'a> {
    /// Whether the lengths add up to the row, without any limit of 64 bits.
    pub fn adds_up(&self) -> bool {
        self.lengths.iter().map(|&length| u128::from(length)).sum::<u128>() == self.reports.len() as u128
    }

    /// The reports; none where the lengths do not add up to the row.
    pub fn texts(&self) -> Vec<&'a [u8]> {
        if !self.adds_up() {
            return Vec::new();
        }
        let mut rest = self.reports;
        let cut = |&length: &u64| {
            let (text, behind) = rest.split_at(length as usize);
            rest = behind;
            text
        };
        self.lengths.iter().map(cut).collect()
    }

    /// The answer of the first tree of each report without want; none where the pattern is refused. One report is asked for once.
    pub fn wholes(&self, effort: Effort) -> Result<Vec<Rc<Answer>>, TooMuch> {
        if answers::read(self.pattern).0 != 0 {
            return Ok(Vec::new());
        }
        let mut known: HashMap<&[u8], Rc<Answer>> = HashMap::new();
        let mut wholes = Vec::new();
        for text in self.texts() {
            if !known.contains_key(text) {
                known.insert(text, Rc::new(answers::whole(self.pattern, text, effort)?));
            }
            wholes.push(known[text].clone());
        }
        Ok(wholes)
    }

    /// What the reports come to, one after another in one tree room, where these are their answers of the first tree without want.
    pub fn tonight(&self, wholes: &[Rc<Answer>], room: &[u16]) -> Tonight {
        let (mut room, mut numbers, mut rows) = (room.to_vec(), Vec::new(), Vec::new());
        for (text, whole) in self.texts().iter().zip(wholes) {
            let answer = with_lent(whole, text.len(), NIGHT_CELLS, room.len());
            room[..answer.row.len()].copy_from_slice(&answer.row);
            numbers.push(answer.number);
            rows.extend((answer.number == 0).then_some(&whole.row[..]));
        }
        let (_, [_, _, marks]) = answers::read(self.pattern);
        let table = (1..=marks).map(|mark| record(&rows, mark as u16)).collect();
        Tonight { numbers, table, room }
    }

    /// Number and value of what refuses the whole sheet, the first in order.
    fn refusal(&self, lent: &Lent) -> Option<(u32, usize)> {
        let (read, [place, _, marks]) = answers::read(self.pattern);
        if read == 1 {
            return Some((1, 0));
        }
        if lent.cells.len() < NIGHT_CELLS || lent.sheet.len() < SHEET_BYTES {
            return Some((3, 0));
        }
        if read != 0 {
            return Some((read, place));
        }
        if self.lengths.len() > REPORT_LIMIT || !self.adds_up() {
            return Some((12, 0));
        }
        if lent.table.len() != marks || self.last.len() != marks {
            return Some((13, 0));
        }
        let is_too_much = self.last.iter().any(|&turns| turns > LAST_LIMIT);
        is_too_much.then_some((14, 0))
    }
}

/// How many bytes each turn of the mark read that is counted: the byte tokens between an opening and the next closing, where there are any.
pub fn bytes_of_turns(row: &[u16], mark: u16) -> Vec<u64> {
    let bytes_behind = |opening: usize| {
        let behind = &row[opening + 1..];
        let closing = behind.iter().position(|&token| token == 128 + mark)?;
        Some(behind[..closing].iter().filter(|token| (256..=511).contains(*token)).count() as u64)
    };
    let openings = (0..row.len()).filter(|&at| row[at] == mark);
    openings.filter_map(bytes_behind).filter(|&bytes| bytes > 0).collect()
}

/// The record of a mark over the rows of a night.
fn record(rows: &[&[u16]], mark: u16) -> Record {
    let of_turns: Vec<u64> = rows.iter().flat_map(|row| bytes_of_turns(row, mark)).collect();
    let counted: usize = rows.iter().map(|row| turns(row, mark.into()).1).sum();
    assert!(of_turns.len() == counted, "the turns that have bytes are not as many as the turn count says");
    Record { turns: counted as u64, bytes: of_turns.iter().sum(), longest: of_turns.iter().copied().max().unwrap_or(0) }
}

/// Turns tonight less turns last night.
fn change(tonight: u64, last: u64) -> String {
    match tonight as i64 - last as i64 {
        0 => "0".to_string(),
        more_or_less => format!("{more_or_less:+}"),
    }
}

/// The three sections, each after its count.
fn sheet(numbers: &[u32], table: &[Record], last: &[u64]) -> String {
    let of_reports = numbers.iter().map(|number| number.to_string());
    let of_marks = table.iter().flat_map(|record| [record.turns, record.bytes, record.longest]).map(|figure| figure.to_string());
    let changes = table.iter().zip(last).map(|(record, &last)| change(record.turns, last));
    let section = |count: usize, lines: Vec<String>| [vec![count.to_string()], lines].concat();
    let sections = [
        section(numbers.len(), of_reports.collect()),
        section(table.len(), of_marks.collect()),
        section(table.len(), changes.collect()),
    ];
    sections.concat().iter().map(|line| format!("{line}\n")).collect()
}

/// The sheet of a night whose reports have these answers of the first tree without want.
pub fn sheet_left(night: &Night, wholes: &[Rc<Answer>], lent: &Lent) -> Left {
    if let Some((number, value)) = night.refusal(lent) {
        return Left { number, lent: Lent { out: figured(&[value], &lent.out), ..lent.clone() } };
    }
    let Tonight { numbers, table, room } = night.tonight(wholes, &lent.room);
    let lines = sheet(&numbers, &table, night.last);
    let cells = written(&[0; NIGHT_CELLS], &lent.cells);
    let out = figured(&[lines.len()], &lent.out);
    Left { number: 0, lent: Lent { cells, room, table, sheet: written(lines.as_bytes(), &lent.sheet), out } }
}
