//! What the calls answer and leave: the cells, the tree room and `out`, as the table of answers has them. The night sheet has a file of its
//! own.

use crate::answers::{read, verdict, with_lent, Answer, MARK_LIMIT};
use crate::night::Record;

/// What is lent to a call, before it or after it. What the call does not take is empty.
#[derive(Clone, Debug, Default, PartialEq, Eq)]
pub struct Lent {
    pub cells: Vec<u64>,
    pub room: Vec<u16>,
    pub table: Vec<Record>,
    pub sheet: Vec<u8>,
    pub out: Vec<u64>,
}

/// The number of a call, and what is lent as it is left.
#[derive(Clone, Debug, PartialEq, Eq)]
pub struct Left {
    pub number: u32,
    pub lent: Lent,
}

/// `front`, and the rest of `before` unchanged.
pub fn written<T: Clone>(front: &[T], before: &[T]) -> Vec<T> {
    [front, &before[front.len()..]].concat()
}

/// The figures at the front of `out`, as many as it is long.
pub fn figured(figures: &[usize], out: &[u64]) -> Vec<u64> {
    let fitting: Vec<u64> = figures.iter().take(out.len()).map(|&figure| figure as u64).collect();
    written(&fitting, out)
}

/// The verdict takes nothing that is lent. `whole` is the answer of the first tree without want.
pub fn verdict_left(whole: &Answer) -> Left {
    Left { number: verdict(whole), lent: Lent::default() }
}

/// The first tree of a text of `length` bytes. 8, 9 and 0 leave the cells that were asked for zero; 0 leaves the row at the front of
/// the room.
pub fn first_tree_left(whole: &Answer, length: usize, lent: &Lent) -> Left {
    let answer = with_lent(whole, length, lent.cells.len(), lent.room.len());
    let asked_for = if matches!(answer.number, 0 | 8 | 9) { length + 1 } else { 0 };
    let cells = written(&vec![0; asked_for], &lent.cells);
    let room = written(&answer.row, &lent.room);
    let out = figured(&[answer.value, answer.flag as usize], &lent.out);
    Left { number: answer.number, lent: Lent { cells, room, out, ..Lent::default() } }
}

/// The reading of a pattern.
pub fn read_left(pattern: &[u8], lent: &Lent) -> Left {
    let (number, figures) = read(pattern);
    Left { number, lent: Lent { out: figured(&figures, &lent.out), ..Lent::default() } }
}

/// How many openings of the mark have a byte token between them and the next closing of the mark. Each closing ends a stretch of the row, and
/// behind the last of them nothing is closed; an opening is counted exactly if it stands before the last byte token of its stretch.
fn openings_with_text(row: &[u16], mark: u16) -> usize {
    let stretches: Vec<&[u16]> = row.split(|&token| token == 128 + mark).collect();
    let (_never_closed, closed) = stretches.split_last().expect("a row has at least one stretch");
    let counted = |stretch: &&[u16]| {
        let last_byte = stretch.iter().rposition(|token| (256..=511).contains(token)).unwrap_or(0);
        stretch[..last_byte].iter().filter(|&&token| token == mark).count()
    };
    closed.iter().map(counted).sum()
}

/// Number and count of the turn count.
pub fn turns(row: &[u16], mark: u64) -> (u32, usize) {
    if mark < 1 || mark > MARK_LIMIT as u64 {
        return (10, 0);
    }
    (0, openings_with_text(row, mark as u16))
}

/// The turn count.
pub fn turns_left(row: &[u16], mark: u64, lent: &Lent) -> Left {
    let (number, count) = turns(row, mark);
    Left { number, lent: Lent { out: figured(&[count], &lent.out), ..Lent::default() } }
}
