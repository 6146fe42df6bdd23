//! Which edges of the turn count a case is at.

use crate::cover::Edges;
use crate::make_calls::Case;
use reference::lent::{turns, Left};
use reference::pattern::Part;

const COUNTS: &str = "turns";
const OPENINGS: &str = "openings";
const TREES: &str = "turns of trees";

/// An opening of the mark: its place, and where behind it the next closing of the mark and the next byte token stand.
struct Opening {
    at: usize,
    closing: Option<usize>,
    byte: Option<usize>,
}

impl Opening {
    fn is_counted(&self) -> bool {
        matches!((self.byte, self.closing), (Some(byte), Some(closing)) if byte < closing)
    }

    fn is_empty_turn(&self) -> bool {
        self.closing.is_some() && !self.is_counted()
    }

    /// The tokens between it and its closing, or none.
    fn between<'a>(&self, row: &'a [u16]) -> &'a [u16] {
        self.closing.map_or(&[], |closing| &row[self.at + 1..closing])
    }
}

fn is_byte(token: u16) -> bool {
    (256..=511).contains(&token)
}

/// The openings of a row from the last to the first.
fn openings(row: &[u16], open: u16) -> Vec<Opening> {
    let (mut closing, mut byte) = (None, None);
    let mut found = Vec::new();
    for (at, &token) in row.iter().enumerate().rev() {
        if token == open {
            found.push(Opening { at, closing, byte });
        }
        if token == open.wrapping_add(128) {
            closing = Some(at);
        }
        if is_byte(token) {
            byte = Some(at);
        }
    }
    found
}

fn edges_of_counts(case: &Case, left: &Left, openings: &[Opening]) -> Edges {
    let (is_mark, count) = (left.number == 0, openings.iter().filter(|opening| opening.is_counted()).count());
    assert!(!is_mark || (0, count) == turns(&case.row, case.mark), "the openings that are counted are not as many as the reference says");
    let is_token = case.mark <= u64::from(u16::MAX);
    vec![
        (COUNTS, "none", is_mark && count == 0),
        (COUNTS, "none of several openings", is_mark && count == 0 && openings.len() > 1),
        (COUNTS, "some, and not all openings", is_mark && count > 0 && count < openings.len()),
        (COUNTS, "all of several openings", is_mark && count > 1 && count == openings.len()),
        (COUNTS, "more than 65,535", is_mark && count > 65_535),
        (COUNTS, "none of more than 65,535", is_mark && count == 0 && openings.len() > 65_535),
        (COUNTS, "no mark, but tokens like it", !is_mark && is_token && !openings.is_empty()),
        (COUNTS, "no mark, but a turn of tokens like it", !is_mark && is_token && count > 0),
        (COUNTS, "no mark, but its low bits are in the row", !is_mark && !is_token && !openings.is_empty()),
        (COUNTS, "no mark, but a turn of its low bits", !is_mark && !is_token && count > 0),
    ]
}

/// A turn of another mark over nothing.
fn is_empty_turn_of_other(tokens: &[u16]) -> bool {
    matches!(tokens, [open, close] if (1..=64).contains(open) && *close == open + 128)
}

/// Edges of single openings, and of two that follow each other.
fn edges_of_openings(row: &[u16], openings: &[Opening]) -> Edges {
    let some = |is_at: &dyn Fn(&Opening) -> bool| openings.iter().any(is_at);
    let alone = |token: u16| some(&|opening| opening.between(row) == [token]);
    let two_of_one_closing = |later: bool, earlier: bool| {
        let are = |two: &[Opening]| two[0].closing == two[1].closing && two[0].is_counted() == later && two[1].is_counted() == earlier;
        openings.windows(2).any(|two| two[0].closing.is_some() && are(two))
    };
    let first_byte = row.iter().position(|&token| is_byte(token));
    vec![
        (OPENINGS, "never closed, a byte behind", some(&|opening| opening.closing.is_none() && opening.byte.is_some())),
        (OPENINGS, "never closed, no byte behind", some(&|opening| opening.closing.is_none() && opening.byte.is_none())),
        (OPENINGS, "closed at once", some(&|opening| opening.closing == Some(opening.at + 1))),
        (OPENINGS, "a byte behind the closing alone", some(&|opening| opening.is_empty_turn() && opening.byte.is_some())),
        (OPENINGS, "a byte before it alone", some(&|opening| opening.is_empty_turn() && opening.byte.is_none() && first_byte.is_some())),
        (OPENINGS, "two counted by one closing", two_of_one_closing(true, true)),
        (OPENINGS, "the first of two counted by one closing", two_of_one_closing(false, true)),
        (OPENINGS, "two empty turns by one closing", two_of_one_closing(false, false)),
        (OPENINGS, "255 alone between", alone(255)),
        (OPENINGS, "256 alone between", alone(256)),
        (OPENINGS, "511 alone between", alone(511)),
        (OPENINGS, "512 alone between", alone(512)),
        (OPENINGS, "an empty turn of another mark between", some(&|opening| is_empty_turn_of_other(opening.between(row)))),
    ]
}

/// Whether the mark is that of a part with this sign.
fn is_mark_of(case: &Case, sign: u8) -> bool {
    let is_it = |part: &Part| matches!(part, Part::Repeat(of, mark, _) if *of == sign && u64::from(*mark) == case.mark);
    case.expression.as_ref().map_or(false, |expression| expression.parts.iter().any(is_it))
}

/// Whether the mark is that of a branch.
fn is_mark_of_branch(case: &Case) -> bool {
    let is_it = |part: &Part| matches!(part, Part::Choice(branches) if branches.iter().any(|(mark, _)| u64::from(*mark) == case.mark));
    case.expression.as_ref().map_or(false, |expression| expression.parts.iter().any(is_it))
}

/// Edges of rows that are the first tree of the case, or differ from it by one token or by their length.
fn edges_of_trees(case: &Case, openings: &[Opening]) -> Edges {
    let (row, tree) = (&case.row, case.first_row());
    let is_tree = row == tree;
    let is_cut = row.len() < tree.len() && tree.starts_with(row);
    let is_one_changed = row.len() == tree.len() && row.iter().zip(tree).filter(|(one, other)| one != other).count() == 1;
    let has_turn = openings.iter().any(Opening::is_counted);
    let has_empty_turn = openings.iter().any(Opening::is_empty_turn);
    let is_counted_otherwise = turns(row, case.mark) != turns(tree, case.mark);
    vec![
        (TREES, "some", is_tree && has_turn),
        (TREES, "an empty turn of +", is_tree && has_empty_turn && is_mark_of(case, b'+')),
        (TREES, "an empty choice of a branch", is_tree && has_empty_turn && is_mark_of_branch(case)),
        (TREES, "one mark over nothing and over text", is_tree && has_empty_turn && has_turn),
        (TREES, "cut off in a turn with text", is_cut && openings.iter().any(|opening| opening.closing.is_none() && opening.byte.is_some())),
        (TREES, "one token changed, and the count", is_one_changed && is_counted_otherwise),
    ]
}

/// The edges that the turn count of a case is at.
pub fn edges(case: &Case, left: &Left) -> Edges {
    let openings = openings(&case.row, case.mark as u16);
    let of_counts = edges_of_counts(case, left, &openings);
    // what is no mark has no openings
    let openings = if left.number == 0 { openings } else { Vec::new() };
    [of_counts, edges_of_openings(&case.row, &openings), edges_of_trees(case, &openings)].concat()
}
