//! The numbers answered, in their order: of the first tree, of the reading of a pattern, of the verdict; and what the desk prints.

use crate::keepers::{Every, FirstTwo, Row};
use crate::pattern;
use crate::stretches::{Stretches, TooMuch};
use crate::trees::Trees;

pub const PATTERN_LIMIT: usize = 512;
pub const TEXT_LIMIT: usize = 4096;
pub const NESTING_LIMIT: usize = 64;
pub const POSITION_LIMIT: usize = 64;
pub const MARK_LIMIT: usize = 64;
pub const DESK_INPUT: usize = 8192;
pub const DESK_CELLS: usize = 4097;
pub const DESK_ROOM: usize = 8192;

/// Not an answer: what a stand-in says where the reference would have to work too long.
pub const TOO_MUCH: u32 = 99;

/// How much work a case may cost: words of ends and steps of the two first rows; tokens of all rows.
#[derive(Clone, Copy)]
pub struct Effort {
    pub steps: usize,
    pub tokens: usize,
}

/// Number, value and flag, the row for 0, and whether every tree was written out to find them.
#[derive(Clone, Debug, PartialEq, Eq)]
pub struct Answer {
    pub number: u32,
    pub value: usize,
    pub flag: u32,
    pub row: Vec<u16>,
    pub every_tree_written: bool,
}

fn refused(number: u32, value: usize) -> Answer {
    Answer { number, value, flag: 0, row: Vec::new(), every_tree_written: false }
}

/// The trees of a text: none, with the place; or the first, and whether there is another.
enum Judged {
    None { place: usize },
    Some { first: Vec<u16>, other: bool, every_tree_written: bool },
}

/// The answers 4 to 7, or the expression.
fn accepted(pattern: &[u8]) -> Result<pattern::Expression, Answer> {
    let expression = match pattern::read(pattern) {
        Some(expression) => expression,
        None => return Err(refused(4, pattern::place(pattern))),
    };
    if expression.nesting > NESTING_LIMIT {
        return Err(refused(5, 0));
    }
    if expression.positions > POSITION_LIMIT {
        return Err(refused(6, 0));
    }
    if expression.marks > MARK_LIMIT {
        return Err(refused(7, 0));
    }
    Ok(expression)
}

/// Finds the two first rows; where there are few enough, writes out every row as well and holds the one to the other.
fn judged(expression: &pattern::Expression, text: &[u8], effort: Effort) -> Result<Judged, TooMuch> {
    let mut stretches = Stretches::new(expression, text, effort.steps);
    let mut trees = Trees::new(&mut stretches, FirstTwo::new(effort.steps));
    let (first, second) = trees.whole()?;
    let first = first.map(|row| trees.keeper.written(row));
    let every = every_row(&mut stretches, effort.tokens);
    if let Some(rows) = &every {
        assert!(rows.first().map(|row| &row.0) == first.as_ref(), "the first row is not the first of all rows");
        assert!((rows.len() > 1) == second.is_some(), "the two first rows miss or invent another tree");
    }
    match first {
        Some(first) => Ok(Judged::Some { first, other: second.is_some(), every_tree_written: every.is_some() }),
        None => Ok(Judged::None { place: stretches.reach(expression.root, 0)? }),
    }
}

/// Every row of the whole text in order, if they can be written in so many tokens.
pub fn every_row(stretches: &mut Stretches, tokens: usize) -> Option<Vec<Row>> {
    let rows = Trees::new(stretches, Every { left: tokens }).whole().ok()?;
    Some(rows.iter().cloned().collect())
}

/// The answer of the first tree where as much is lent as can be asked for.
pub fn whole(pattern: &[u8], text: &[u8], effort: Effort) -> Result<Answer, TooMuch> {
    if pattern.len() > PATTERN_LIMIT {
        return Ok(refused(1, 0));
    }
    if text.len() > TEXT_LIMIT {
        return Ok(refused(2, 0));
    }
    let expression = match accepted(pattern) {
        Ok(expression) => expression,
        Err(refusal) => return Ok(refusal),
    };
    Ok(match judged(&expression, text, effort)? {
        Judged::None { place } => refused(8, place),
        Judged::Some { first, other, every_tree_written } => {
            Answer { number: 0, value: first.len(), flag: u32::from(other), row: first, every_tree_written }
        }
    })
}

/// The answer of the first tree with so many cells and so much room lent for a text of `length` bytes, where `whole` is that without want:
/// 3 comes before all that is said of the pattern, 9 in place of a tree.
pub fn with_lent(whole: &Answer, length: usize, cells: usize, room: usize) -> Answer {
    match whole.number {
        1 | 2 => whole.clone(),
        _ if cells < length + 1 => refused(3, 0),
        0 if whole.row.len() > room => refused(9, whole.row.len()),
        _ => whole.clone(),
    }
}

/// The answer of the first tree with so many cells and so much room lent.
pub fn answer(pattern: &[u8], text: &[u8], cells: usize, room: usize, effort: Effort) -> Result<Answer, TooMuch> {
    Ok(with_lent(&whole(pattern, text, effort)?, text.len(), cells, room))
}

/// The verdict, where `whole` is the answer of the first tree without want: the flag is 11.
pub fn verdict(whole: &Answer) -> u32 {
    if whole.flag == 1 { 11 } else { whole.number }
}

/// Number and value of the reading of a pattern, and how many positions and marks it has.
pub fn read(pattern: &[u8]) -> (u32, [usize; 3]) {
    if pattern.len() > PATTERN_LIMIT {
        return (1, [0; 3]);
    }
    match accepted(pattern) {
        Ok(expression) => (0, [0, expression.positions, expression.marks]),
        Err(refusal) => (refusal.number, [refusal.value, 0, 0]),
    }
}

/// The pattern and the text in what the desk takes of its input.
pub fn parts_of_input(input: &[u8]) -> (&[u8], &[u8]) {
    let taken = &input[..input.len().min(DESK_INPUT)];
    match taken.iter().position(|&byte| byte == 10) {
        Some(at) => (&taken[..at], &taken[at + 1..]),
        None => (taken, &[]),
    }
}

/// What the desk answers for an input.
pub fn desk_answer(input: &[u8], effort: Effort) -> Result<Answer, TooMuch> {
    let (pattern, text) = parts_of_input(input);
    answer(pattern, text, DESK_CELLS, DESK_ROOM, effort)
}

fn token_word(token: u16) -> String {
    match token {
        0..=127 => format!(" o{token}"),
        128..=255 => format!(" c{}", token - 128),
        _ => format!(" b{}", token - 256),
    }
}

/// The lines that the desk prints for an answer.
pub fn lines(answer: &Answer) -> String {
    let mut lines = format!("ANSWER {} {} {}\n", answer.number, answer.value, answer.flag);
    if answer.number == 0 {
        lines.push_str("TREE");
        lines.extend(answer.row.iter().map(|&token| token_word(token)));
        lines.push('\n');
    }
    lines
}
