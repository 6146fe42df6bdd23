//! Makes nights for the sheet: a pattern, reports that fit it or nearly do, their lengths, last night's turns, and what is lent.

use crate::batch::Call;
use crate::chance::Chance;
use crate::make::{self, any_text, letters, repeated, wrapped, Shares};
use crate::make_calls::{cells, empty_turns, out, room_count, several_refusals, tokens};
use reference::answers::{self, Answer, Effort};
use reference::lent::Lent;
use reference::night::{Night, Record, LAST_LIMIT, NIGHT_CELLS, SHEET_BYTES};
use std::rc::Rc;

/// A night with a report that asks the reference for more is skipped.
const EFFORT: Effort = Effort { steps: 3_000_000, tokens: 0 };
const SHARES: Shares = Shares { limits: 4, long: 0 };

/// How many of a hundred nights are refused for one ground in what is lent, in the lengths or in last night, how many for two, and how many may
/// be for more.
const ONE_GROUND: usize = 13;
const TWO_GROUNDS: usize = 11;
const MORE_GROUNDS: usize = 6;

pub struct Made {
    pub pattern: Vec<u8>,
    pub reports: Vec<u8>,
    pub lengths: Vec<u64>,
    pub last: Vec<u64>,
    /// the reference's answers of the first tree without want, if they are not too much work
    pub wholes: Option<Vec<Rc<Answer>>>,
}

impl Made {
    pub fn night(&self) -> Night<'_> {
        Night { pattern: &self.pattern, reports: &self.reports, lengths: &self.lengths, last: &self.last }
    }

    /// How many marks the pattern has, if it is not refused.
    pub fn marks(&self) -> Option<usize> {
        let (number, [_, _, marks]) = answers::read(&self.pattern);
        (number == 0).then_some(marks)
    }
}

/// One for a night that is refused on several grounds is often refused itself.
fn pattern(chance: &mut Chance, are_several: bool) -> Vec<u8> {
    if are_several && chance.percent(25) {
        return several_refusals(chance).0;
    }
    match chance.below(100) {
        0..=7 => several_refusals(chance).0,
        8 => repeated(b"a?", 64),
        9 | 10 => wrapped(63, b"(", b"a?", b")?"),
        11..=15 => chance.pick::<&[u8]>(&[b"ab", b"a.", b"()", b"[ab]b"]).to_vec(),
        16..=27 => empty_turns(chance).0,
        28..=35 => chance.pick::<&[u8]>(&[b"([a-z]+;)*", b"(a+b)*", b"(a|ab|b)*", b"(a*)*", b"a*|b+"]).to_vec(),
        _ => make::case(chance, SHARES).pattern,
    }
}

/// How many reports: few, most often.
fn report_count(chance: &mut Chance) -> usize {
    match chance.below(20) {
        0 => 0,
        1..=3 => 1,
        4..=18 => chance.between(2, 6),
        _ => chance.between(7, 30),
    }
}

/// Reports for a pattern, some of them the same.
fn few_reports(chance: &mut Chance, pattern: &[u8]) -> Vec<Vec<u8>> {
    let (letters, count) = (letters(chance), report_count(chance));
    let mut reports: Vec<Vec<u8>> = Vec::new();
    for _ in 0..count {
        let again = if reports.is_empty() || chance.percent(90) { None } else { Some(reports[chance.below(reports.len())].clone()) };
        reports.push(again.unwrap_or_else(|| any_text(chance, pattern, &letters)));
    }
    reports
}

/// About 1,000 reports, of a few kinds.
fn many_reports(chance: &mut Chance, pattern: &[u8]) -> Vec<Vec<u8>> {
    let count = chance.pick(&[999, 1000, 1000, 1000, 1000, 1001, 1001]);
    let kinds: Vec<Vec<u8>> = (0..5).map(|_| any_text(chance, pattern, b"ab")).collect();
    (0..count).map(|_| kinds[chance.below(kinds.len())].clone()).collect()
}

/// A report of about 4,096 bytes, or a short one.
fn long_report(chance: &mut Chance) -> Vec<u8> {
    match chance.below(5) {
        0 | 1 => repeated(b"a", chance.pick(&[4095, 4096, 4096, 4097])),
        2 => [repeated(b"a", chance.between(4094, 4097)), vec![chance.pick(b"ab\n")]].concat(),
        3 => repeated(b"b", chance.below(3)),
        _ => repeated(b"a", chance.below(40)),
    }
}

/// Some long reports, one report often enough for more than 65,535 bytes, or a report for each number: too long, one that does not fit, and
/// trees of two lengths.
fn long_reports(chance: &mut Chance) -> (Vec<u8>, Vec<Vec<u8>>) {
    let pattern = chance.pick::<&[u8]>(&[b"a*", b"(a*)?", b"(a*)?", b"([ab]+)?", b"([ab]+)?", b"(a|b)*", b"(aa)*a?", b"a*b?"]).to_vec();
    let (count, many) = (chance.between(1, 4), chance.between(16, 18));
    let reports = match chance.below(7) {
        0..=2 => {
            let lengths = [chance.between(4097, 4099), chance.between(10, 20), chance.between(1, 8)];
            let turned = chance.below(4);
            let mut reports = [lengths.map(|length| repeated(b"a", length)).to_vec(), vec![b"\n".to_vec()]].concat();
            reports.rotate_left(turned);
            reports
        }
        3 => vec![repeated(b"a", chance.pick(&[4000, 4095, 4096])); many],
        _ => (0..count).map(|_| long_report(chance)).collect(),
    };
    (pattern, reports)
}

fn pattern_and_reports(chance: &mut Chance, are_several: bool) -> (Vec<u8>, Vec<Vec<u8>>) {
    let kind = chance.below(100);
    if kind < 5 {
        return long_reports(chance);
    }
    let pattern = pattern(chance, are_several);
    let reports = if kind < 8 { many_reports(chance, &pattern) } else { few_reports(chance, &pattern) };
    (pattern, reports)
}

/// Moves the border of two reports.
fn move_border(chance: &mut Chance, lengths: &mut [u64]) {
    if lengths.len() < 2 {
        return;
    }
    let at = chance.below(lengths.len() - 1);
    let both = lengths[at] + lengths[at + 1];
    lengths[at] = chance.below(both as usize + 1) as u64;
    lengths[at + 1] = both - lengths[at];
}

/// Makes the lengths and the row not fit, but for a chance; some add up to the row in 64 bits.
fn spoil_lengths(chance: &mut Chance, reports: &mut Vec<u8>, lengths: &mut Vec<u64>) {
    let at = chance.below(lengths.len().max(1));
    let large = chance.pick(&[1 << 63, (1 << 63) + 1, u64::MAX, u64::MAX - 1, 1 << 32]);
    match (chance.below(7), lengths.get_mut(at)) {
        (0, Some(length)) => *length += 1,
        (1, Some(length)) => *length = length.saturating_sub(1),
        (2, Some(length)) => *length += 1 << chance.pick(&[8, 16, 31, 32, 48, 63]),
        (3, Some(_)) => lengths.truncate(at),
        (4, _) => reports.push(b'a'),
        (5, _) => reports.truncate(reports.len().saturating_sub(1)),
        (_, Some(length)) => {
            *length = length.wrapping_add(large);
            lengths.push(large.wrapping_neg());
        }
        _ => lengths.extend([large, large.wrapping_neg()]),
    }
}

/// Around the limit from which on a sheet is made.
fn count_of_lent(chance: &mut Chance, limit: usize, is_short: bool) -> usize {
    match (is_short, chance.below(10)) {
        (true, 0..=5) => limit - 1,
        (true, 6) => 0,
        (true, _) => chance.below(limit),
        (false, 0..=5) => limit,
        (false, 6 | 7) => limit + 1,
        (false, _) => limit + chance.between(2, 60),
    }
}

/// As many as there are marks, or more or fewer.
fn count_of_marks(chance: &mut Chance, marks: usize, is_wrong: bool) -> usize {
    match (is_wrong, chance.below(4)) {
        (false, _) => marks,
        (_, 0) => marks + 1,
        (_, 1) => marks.saturating_sub(1),
        (_, 2) => chance.below(70),
        _ => 0,
    }
}

/// Last night's turns of a mark, about tonight's.
fn last_of(chance: &mut Chance, tonight: u64) -> u64 {
    match chance.below(8) {
        0..=2 => tonight,
        3 => tonight + 1,
        4 => tonight.saturating_sub(1),
        5 => chance.below(60) as u64,
        6 => chance.pick(&[0, LAST_LIMIT, LAST_LIMIT - 1]),
        _ => chance.below(LAST_LIMIT as usize + 1) as u64,
    }
}

fn last(chance: &mut Chance, count: usize, table: &[Record], is_too_large: bool) -> Vec<u64> {
    let mut last: Vec<u64> = (0..count).map(|at| last_of(chance, table.get(at).map_or(0, |record| record.turns))).collect();
    if is_too_large && count > 0 {
        let at = chance.below(count);
        last[at] = chance.pick(&[LAST_LIMIT + 1, LAST_LIMIT + 1, u64::MAX, 1 << 32, (1 << 32) + LAST_LIMIT, 1 << 63]);
    }
    last
}

/// How much room: about the first tree of one of the reports.
fn room(chance: &mut Chance, wholes: &[Rc<Answer>]) -> usize {
    let longest = wholes.iter().map(|whole| whole.row.len()).max().unwrap_or(0);
    let length = if wholes.is_empty() || chance.percent(50) { longest } else { wholes[chance.below(wholes.len())].row.len() };
    room_count(chance, length, longest)
}

fn records(chance: &mut Chance, count: usize) -> Vec<Record> {
    let words = cells(chance, 3 * count);
    words.chunks_exact(3).map(|three| Record { turns: three[0], bytes: three[1], longest: three[2] }).collect()
}

/// Which grounds to refuse the sheet there are.
fn grounds(chance: &mut Chance) -> [bool; 6] {
    let (kind, one, other) = (chance.below(100), chance.below(6), chance.below(6));
    std::array::from_fn(|ground| match kind {
        _ if kind < ONE_GROUND => ground == one,
        _ if kind < ONE_GROUND + TWO_GROUNDS => ground == one || ground == other,
        _ if kind < ONE_GROUND + TWO_GROUNDS + MORE_GROUNDS => chance.percent(50),
        _ => false,
    })
}

/// A pattern, reports and lengths; last night is still to come.
fn handed_in(chance: &mut Chance, are_several: bool, are_lengths_wrong: bool) -> Made {
    let (pattern, texts) = pattern_and_reports(chance, are_several);
    let (mut reports, mut lengths) = (texts.concat(), texts.iter().map(|text| text.len() as u64).collect::<Vec<_>>());
    if chance.percent(8) {
        move_border(chance, &mut lengths);
    }
    if are_lengths_wrong {
        spoil_lengths(chance, &mut reports, &mut lengths);
    }
    let mut made = Made { pattern, reports, lengths, last: Vec::new(), wholes: None };
    made.wholes = made.night().wholes(EFFORT).ok();
    made
}

/// One night, and what is lent to it.
pub fn night(chance: &mut Chance) -> (Made, Lent) {
    let grounds = grounds(chance);
    let [few_cells, few_bytes, wrong_lengths, wrong_table, wrong_last, large_last] = grounds;
    let are_several = grounds.iter().filter(|is_one| **is_one).count() > 1;
    let mut made = handed_in(chance, are_several, wrong_lengths);
    let wholes = made.wholes.clone().unwrap_or_default();
    let room_count = room(chance, &wholes);
    let room = tokens(chance, room_count);
    let tonight = made.night().tonight(&wholes, &room);
    let marks = made.marks().unwrap_or_else(|| chance.below(5));
    let record_count = count_of_marks(chance, marks, wrong_table);
    let last_count = if wrong_table && chance.percent(30) { record_count } else { count_of_marks(chance, marks, wrong_last) };
    made.last = last(chance, last_count, &tonight.table, large_last);
    let (cell_count, sheet_count) = (count_of_lent(chance, NIGHT_CELLS, few_cells), count_of_lent(chance, SHEET_BYTES, few_bytes));
    let (cells, table) = (cells(chance, cell_count), records(chance, record_count));
    let sheet = (0..sheet_count).map(|_| chance.byte()).collect();
    (made, Lent { cells, room, table, sheet, out: out(chance, Call::Sheet) })
}
