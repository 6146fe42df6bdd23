//! Makes cases for the calls: a pattern and a text, a row and a mark, for some a night; what is lent to each call and what that holds before.

use crate::batch::{Call, CALLS};
use crate::chance::Chance;
use crate::make::{self, repeated, wrapped, Shares};
use crate::make_nights::{self, Made};
use crate::make_rows;
use reference::answers::{whole, Answer, Effort, MARK_LIMIT, TEXT_LIMIT};
use reference::lent::Lent;
use reference::pattern::{self, Expression};

/// Of a case that asks the reference for more, the verdict and the first tree are skipped.
const EFFORT: Effort = Effort { steps: 3_000_000, tokens: 5_000 };

/// How many of a hundred cases are refused on several grounds; how many of the others have trees with empty turns; and the shares among
/// the rest.
const SEVERAL_REFUSALS: usize = 8;
const EMPTY_TURNS: usize = 2;
/// One case of so many has a night as well: much is lent to it.
const NIGHT_ONE_IN: usize = 8;
const SHARES: Shares = Shares { limits: 10, long: 1 };

pub struct Case {
    pub pattern: Vec<u8>,
    pub text: Vec<u8>,
    /// what the pattern says, if it is one
    pub expression: Option<Expression>,
    /// the reference's answer of the first tree without want, if it is not too much work
    pub whole: Option<Answer>,
    pub row: Vec<u16>,
    pub mark: u64,
    /// some cases have one
    pub night: Option<Made>,
    /// by call
    pub lent: [Lent; CALLS.len()],
}

impl Case {
    /// The most tokens that a tree can have.
    pub fn longest_tree(&self) -> usize {
        let marks = self.expression.as_ref().map_or(MARK_LIMIT, |expression| expression.marks.min(MARK_LIMIT));
        let length = self.text.len().min(TEXT_LIMIT);
        length + 2 * marks * length.max(1)
    }

    /// The first tree, or an empty row where there is none.
    pub fn first_row(&self) -> &[u16] {
        self.whole.as_ref().map_or(&[], |whole| &whole.row)
    }
}

/// How many cells to lend for so many bytes of text: most often enough, and near the limit.
fn cell_count(chance: &mut Chance, length: usize) -> usize {
    match chance.below(20) {
        0 | 1 => length,
        2 => 0,
        3 => chance.below(length + 1),
        4..=11 => length + 1,
        12..=14 => length + 2,
        15..=17 => length + chance.between(3, 40),
        _ => length + chance.between(100, 5000),
    }
}

/// How many tokens to lend for a first tree of `length` tokens, where `longest` is the most that any tree of the case can have.
pub fn room_count(chance: &mut Chance, length: usize, longest: usize) -> usize {
    match chance.below(20) {
        0..=4 => length,
        5..=8 => length.saturating_sub(1),
        9 => 0,
        10 => chance.below(length + 1),
        11..=13 => length + 1,
        14 | 15 => length + chance.between(2, 40),
        16 | 17 => length + chance.between(1000, 9000),
        18 => longest,
        _ => longest + chance.between(1, 3),
    }
}

pub fn cells(chance: &mut Chance, count: usize) -> Vec<u64> {
    match chance.below(10) {
        0 => vec![u64::MAX; count],
        1 => vec![0; count],
        2 | 3 => (0..count).map(|_| chance.pick(&[0, 1, 1 << 63, u64::MAX])).collect(),
        _ => (0..count).map(|_| chance.word()).collect(),
    }
}

/// Any numbers, or such as stand in trees.
pub fn tokens(chance: &mut Chance, count: usize) -> Vec<u16> {
    match chance.below(10) {
        0 => vec![u16::MAX; count],
        1 => vec![0; count],
        2..=4 => (0..count).map(|_| chance.below(512) as u16).collect(),
        _ => (0..count).map(|_| chance.word() as u16).collect(),
    }
}

/// A pattern and a text that are each refused, or not, for a ground of their own.
pub fn several_refusals(chance: &mut Chance) -> (Vec<u8>, Vec<u8>) {
    let pattern = match chance.below(8) {
        0 => repeated(b"a", 513),
        1 => repeated(b"(", 600),
        2 => b"a**".to_vec(),
        3 => repeated(b"(", 66),
        4 => wrapped(65, b"(", &repeated(b"a", 65), b")"),
        5 => repeated(b"a?", 65),
        6 => repeated(b"()+", 65),
        _ => b"a+".to_vec(),
    };
    let text = match chance.below(5) {
        0 | 1 => repeated(b"a", 4097),
        2 => repeated(b"b", chance.between(4097, 6000)),
        3 => repeated(b"ab", chance.below(8)),
        _ => repeated(b"b", chance.below(8)),
    };
    (pattern, text)
}

/// `out` of any length up to three more than the figures, with any contents.
pub fn out(chance: &mut Chance, call: Call) -> Vec<u64> {
    let count = chance.below(call.figures() + 4);
    cells(chance, count)
}

/// What is lent to the first tree.
fn lent_to_tree(chance: &mut Chance, case: &Case, is_short_of_cells: bool) -> Lent {
    let length = case.text.len();
    let cell_count = if is_short_of_cells { chance.below(length + 1) } else { cell_count(chance, length) };
    let room_count = room_count(chance, case.first_row().len(), case.longest_tree());
    let (cells, room) = (cells(chance, cell_count), tokens(chance, room_count));
    Lent { cells, room, out: out(chance, Call::FirstTree), ..Lent::default() }
}

/// A mark of the tree, where the token that is looked at is one of a mark.
fn mark_of(chance: &mut Chance, tree: &[u16]) -> Option<u64> {
    let token = if tree.is_empty() { None } else { Some(chance.pick(tree)) };
    token.filter(|token| *token < 256).map(|token| u64::from(token % 128))
}

/// A mark, most often one of 1 to 64, and often one of the first tree.
fn mark(chance: &mut Chance, tree: &[u16]) -> u64 {
    let inside = chance.between(1, 64) as u64;
    match chance.below(20) {
        0 => 0,
        1 => 65,
        2 => chance.pick(&[127, 128, 129, 192, 193, 255, 256, 257, 320, 512, 65535, 65536]),
        3 => inside + chance.pick(&[64, 128, 256, 1 << 16, 1 << 31, 1 << 32, 1 << 48, 1 << 63]),
        4 => chance.pick(&[u64::MAX, u64::MAX - 63, 1 << 63, u64::from(u32::MAX)]),
        5 => chance.word(),
        6 => 1,
        7 => 64,
        8..=10 => chance.between(1, 4) as u64,
        11..=16 => mark_of(chance, tree).unwrap_or(inside),
        _ => inside,
    }
}

/// A pattern and a text that fits it, often with turns or choices of one mark over nothing and over some bytes.
pub fn empty_turns(chance: &mut Chance) -> (Vec<u8>, Vec<u8>) {
    let pattern = chance.pick::<&[u8]>(&[b"((a*)+b)*", b"((a*|c)b)*", b"((a|())+b)+", b"((a?|b)+b?)*"]);
    let pieces = chance.between(1, 6);
    let text: Vec<&[u8]> = (0..pieces).map(|_| chance.pick::<&[u8]>(&[b"b", b"ab", b"aab"])).collect();
    (pattern.to_vec(), text.concat())
}

fn pattern_and_text(chance: &mut Chance) -> (Vec<u8>, Vec<u8>) {
    if chance.percent(EMPTY_TURNS) {
        return empty_turns(chance);
    }
    let case = make::case(chance, SHARES);
    (case.pattern, case.text)
}

/// One case of all calls.
pub fn case(chance: &mut Chance) -> Case {
    let are_several = chance.percent(SEVERAL_REFUSALS);
    let (pattern, text) = if are_several { several_refusals(chance) } else { pattern_and_text(chance) };
    let (expression, whole) = (pattern::read(&pattern), whole(&pattern, &text, EFFORT).ok());
    let mut case = Case { pattern, text, expression, whole, row: Vec::new(), mark: 0, night: None, lent: Default::default() };
    let is_short_of_cells = are_several && chance.percent(50);
    case.lent[Call::FirstTree as usize] = lent_to_tree(chance, &case, is_short_of_cells);
    case.mark = mark(chance, case.first_row());
    case.row = make_rows::row(chance, case.first_row(), case.mark);
    for call in [Call::Read, Call::Turns] {
        case.lent[call as usize].out = out(chance, call);
    }
    if chance.below(NIGHT_ONE_IN) == 0 {
        let (night, lent) = make_nights::night(chance);
        case.night = Some(night);
        case.lent[Call::Sheet as usize] = lent;
    }
    case
}
