//! Which answers and edges the cases of the calls have met, and which a long run has to meet.

use crate::batch::{Call, CALLS};
use crate::cover_sheet;
use crate::cover_turns;
use crate::make_calls::Case;
use crate::totals::Totals;
use reference::answers::{MARK_LIMIT, NESTING_LIMIT, PATTERN_LIMIT, POSITION_LIMIT, TEXT_LIMIT};
use reference::lent::Left;

/// The answers of a call: its numbers, of the first tree with the flag.
fn answers_of(call: Call) -> &'static [&'static str] {
    match call {
        Call::Verdict => &["0", "1", "2", "4", "5", "6", "7", "8", "11"],
        Call::FirstTree => &["0 flag 0", "0 flag 1", "1", "2", "3", "4", "5", "6", "7", "8", "9"],
        Call::Read => &["0", "1", "4", "5", "6", "7"],
        Call::Turns => &["0", "10"],
        Call::Sheet => &["0", "1", "3", "4", "5", "6", "7", "12", "13", "14"],
    }
}

fn answer_name(case: &Case, call: Call, left: &Left) -> String {
    match (call, left.number) {
        (Call::FirstTree, 0) => format!("0 flag {}", case.whole.as_ref().map_or(0, |whole| whole.flag)),
        (_, number) => number.to_string(),
    }
}

/// A call with `out` of so many figures: each length up to all of them, and longer ones together.
fn call_with_out(call: Call, length: usize) -> String {
    match (call, length > call.figures()) {
        (Call::Verdict, _) => call.name().to_string(),
        (_, true) => format!("{}, longer out", call.name()),
        _ => format!("{}, out of {length}", call.name()),
    }
}

const LENT: &str = "lent to the first tree";
const REFUSALS: &str = "several refusals";
const LIMITS: &str = "at a limit";
const WORK: &str = "the reference";

/// The group of an edge, what it is, and whether a case is at it.
pub type Edges = Vec<(&'static str, &'static str, bool)>;

/// Edges of the cells and the room.
fn edges_of_lent(case: &Case, left: &Left) -> Edges {
    let lent = &case.lent[Call::FirstTree as usize];
    let (cells, room, needed) = (lent.cells.len(), lent.room.len(), case.text.len() + 1);
    let length = case.whole.as_ref().map_or(0, |whole| whole.row.len());
    vec![
        (LENT, "0 with room just enough", left.number == 0 && room == length),
        (LENT, "0 with a token more", left.number == 0 && room == length + 1),
        (LENT, "0 with the largest room", left.number == 0 && room == case.longest_tree()),
        (LENT, "9 with a token short", left.number == 9 && room + 1 == length),
        (LENT, "9 with no room", left.number == 9 && room == 0),
        (LENT, "3 with a cell short", left.number == 3 && cells + 1 == needed),
        (LENT, "3 with no cells", left.number == 3 && cells == 0),
        (LENT, "0 with cells just enough", left.number == 0 && cells == needed),
        (LENT, "8 with cells just enough", left.number == 8 && cells == needed),
        (LENT, "9 with cells just enough", left.number == 9 && cells == needed),
        (LENT, "0 with a cell more", left.number == 0 && cells == needed + 1),
        (WORK, "every tree written out", case.whole.as_ref().map_or(false, |whole| whole.every_tree_written)),
    ]
}

/// Of several refusals the first in order is given.
fn edges_of_refusals(case: &Case, left: &Left) -> Edges {
    let lent = &case.lent[Call::FirstTree as usize];
    let is_short_of_cells = lent.cells.len() <= case.text.len();
    let is_long = case.text.len() > TEXT_LIMIT;
    let is_no_pattern = case.expression.is_none();
    let (positions, marks) = case.expression.as_ref().map_or((0, 0), |expression| (expression.positions, expression.marks));
    vec![
        (REFUSALS, "1 before 2, 3 and 4", left.number == 1 && is_long && is_short_of_cells && is_no_pattern),
        (REFUSALS, "2 before 3 and 4", left.number == 2 && is_short_of_cells && is_no_pattern),
        (REFUSALS, "3 before 4", left.number == 3 && is_no_pattern),
        (REFUSALS, "3 before 6", left.number == 3 && positions > POSITION_LIMIT),
        (REFUSALS, "4 with open groups too deep", left.number == 4 && case.pattern.starts_with(&[b'('; NESTING_LIMIT + 1])),
        (REFUSALS, "5 before 6", left.number == 5 && positions > POSITION_LIMIT),
        (REFUSALS, "5 before 7", left.number == 5 && marks > MARK_LIMIT),
        (REFUSALS, "6 before 7", left.number == 6 && marks > MARK_LIMIT),
        (REFUSALS, "8 before 9", left.number == 8 && lent.room.is_empty()),
    ]
}

/// Both sides of each limit, by the reading of the pattern; of the text by the verdict.
fn edges_of_limits(case: &Case, call: Call, left: &Left) -> Edges {
    let (nesting, positions, marks) =
        case.expression.as_ref().map_or((0, 0, 0), |expression| (expression.nesting, expression.positions, expression.marks));
    let (is_read, is_verdict) = (call == Call::Read, call == Call::Verdict);
    vec![
        (LIMITS, "pattern of 512 bytes", is_read && left.number == 0 && case.pattern.len() == PATTERN_LIMIT),
        (LIMITS, "of 513", is_read && left.number == 1 && case.pattern.len() == PATTERN_LIMIT + 1),
        (LIMITS, "text of 4,096 bytes", is_verdict && matches!(left.number, 0 | 11) && case.text.len() == TEXT_LIMIT),
        (LIMITS, "of 4,097", is_verdict && left.number == 2 && case.text.len() == TEXT_LIMIT + 1),
        (LIMITS, "64 groups deep", is_read && left.number == 0 && nesting == NESTING_LIMIT),
        (LIMITS, "65 groups deep", is_read && left.number == 5 && nesting == NESTING_LIMIT + 1),
        (LIMITS, "64 positions", is_read && left.number == 0 && positions == POSITION_LIMIT),
        (LIMITS, "65 positions", is_read && left.number == 6 && positions == POSITION_LIMIT + 1),
        (LIMITS, "64 marks", is_read && left.number == 0 && marks == MARK_LIMIT),
        (LIMITS, "65 marks", is_read && left.number == 7 && marks == MARK_LIMIT + 1),
    ]
}

/// The edges that a call of a case can be at.
fn edges(case: &Case, call: Call, left: &Left) -> Edges {
    match call {
        Call::FirstTree => [edges_of_lent(case, left), edges_of_refusals(case, left)].concat(),
        Call::Turns => cover_turns::edges(case, left),
        Call::Sheet => cover_sheet::edges(case, left),
        Call::Verdict | Call::Read => edges_of_limits(case, call, left),
    }
}

/// Notes what a call of a case has met.
pub fn meet(totals: &mut Totals, case: &Case, call: Call, left: &Left) {
    totals.meet(&call_with_out(call, case.lent[call as usize].out.len()), &answer_name(case, call, left), 1);
    for (group, edge, is_met) in edges(case, call, left) {
        totals.meet(group, edge, u64::from(is_met));
    }
}

/// Notes all answers of all calls, with `out` of each length, as such that are to be met. Edges are noted with the first case.
pub fn expect(totals: &mut Totals) {
    for call in CALLS {
        for length in 0..=call.figures() + 1 {
            answers_of(call).iter().for_each(|answer| totals.meet(&call_with_out(call, length), answer, 0));
        }
    }
}
