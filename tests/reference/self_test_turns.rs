//! The turn count held to rows worked out by hand, to the words of its rule on all short rows, and to the turns of trees.

use crate::answers::every_row;
use crate::lent::turns;
use crate::pattern;
use crate::self_test::{rows_over, Checks, EFFORT};
use crate::stretches::Stretches;

/// A row, a mark, and how many of its turns are counted.
const BY_HAND: [(&[u16], u64, usize); 26] = [
    (&[1, 353, 129, 1, 353, 129], 1, 2),
    (&[1, 353, 129, 1, 353, 129], 2, 0),
    (&[1, 353, 129, 1, 353, 129], 64, 0),
    (&[], 1, 0),
    // the trees of `((row)*)+` on the empty text and on rowrow
    (&[1, 129], 1, 0),
    (&[1, 2, 370, 367, 375, 130, 2, 370, 367, 375, 130, 129], 1, 1),
    (&[1, 2, 370, 367, 375, 130, 2, 370, 367, 375, 130, 129], 2, 2),
    // never closed, closed before, a byte on the wrong side
    (&[1, 353], 1, 0),
    (&[129, 1, 353], 1, 0),
    (&[1, 129, 353, 129], 1, 0),
    (&[353, 1, 129], 1, 0),
    (&[1, 353, 129, 129], 1, 1),
    // an opening before a counted one, behind its byte, behind its closing
    (&[1, 1, 353, 129, 1, 353], 1, 2),
    (&[1, 353, 1, 129], 1, 1),
    (&[1, 353, 129, 1, 129], 1, 1),
    // what is a byte token, and what is none
    (&[1, 255, 129], 1, 0),
    (&[1, 256, 129], 1, 1),
    (&[1, 511, 129], 1, 1),
    (&[1, 512, 129], 1, 0),
    (&[1, 65535, 129], 1, 0),
    (&[1, 0, 129], 1, 0),
    // another mark between, and turns of two marks that cross
    (&[1, 2, 130, 129], 1, 0),
    (&[1, 2, 129, 353, 130], 1, 0),
    (&[1, 2, 129, 353, 130], 2, 1),
    (&[64, 0, 320, 65535, 192, 64, 192], 64, 1),
    (&[64, 0, 192, 320, 65535, 64], 64, 0),
];

fn by_hand(checks: &mut Checks) {
    for (row, mark, count) in BY_HAND {
        checks.same(&format!("turns of mark {mark} in {row:?}"), turns(row, mark), (0, count));
    }
    for mark in [0, 65, 129, 353, 65537, u64::MAX] {
        checks.same(&format!("turns of mark {mark}"), turns(&[1, 353, 129, 0, 353, 128, 65, 353, 193], mark), (10, 0));
    }
}

/// The words of the rule, opening by opening: its next closing, and whether a byte token stands between.
fn by_words(row: &[u16], mark: u16) -> usize {
    let is_counted = |opening: usize| {
        let behind = &row[opening + 1..];
        let next_closing = behind.iter().position(|&token| token == 128 + mark);
        next_closing.map_or(false, |closing| behind[..closing].iter().any(|&token| token >= 256 && token <= 511))
    };
    (0..row.len()).filter(|&at| row[at] == mark && is_counted(at)).count()
}

/// All rows of up to six tokens over the mark's own, another mark's and the edges of the byte tokens; longer ones over fewer tokens.
fn all_short_rows(checks: &mut Checks) {
    for (mark, other) in [(1, 2), (64, 1)] {
        let (close, other_close) = (128 + mark, 128 + other);
        let many = rows_over(&[mark, close, 353, 255, 256, 511, 512, other, other_close], 6);
        let long = rows_over(&[mark, close, 353, other], 9);
        let differing = [many, long].concat().into_iter().find(|row| turns(row, mark.into()) != (0, by_words(row, mark)));
        checks.same(&format!("the first short row whose turns of mark {mark} are not those of the words"), differing, None);
    }
}

/// How many turns of a mark read text in a tree: each closing belongs to the opening that is still open.
fn turns_with_text(tree: &[u16], mark: u16) -> usize {
    let mut open = Vec::new();
    let mut with_text = 0;
    for (at, &token) in tree.iter().enumerate() {
        match token {
            0..=127 => open.push(at),
            128..=255 => {
                let opening = open.pop().expect("a tree closes what it has opened");
                assert!(tree[opening] + 128 == token, "a tree closes the last mark that is open");
                let has_text = tree[opening..at].iter().any(|&token| token > 255);
                with_text += usize::from(token == 128 + mark && has_text);
            }
            _ => {}
        }
    }
    with_text
}

/// All trees of a text, as rows.
fn trees(pattern: &str, text: &[u8]) -> Vec<Vec<u16>> {
    let expression = pattern::read(pattern.as_bytes()).expect("an example is a pattern");
    let rows = every_row(&mut Stretches::new(&expression, text, EFFORT.steps), EFFORT.tokens);
    rows.expect("an example costs little").into_iter().map(|row| row.0).collect()
}

fn is_counted_right(tree: &[u16]) -> bool {
    (1..=6).all(|mark| turns(tree, mark.into()) == (0, turns_with_text(tree, mark)))
}

/// In every tree of every short text the turn count of each mark is the number of its turns that read text.
fn all_short_trees(checks: &mut Checks) {
    let repeated = ["()+", "a+", "(a*)*", "(a*)+", "((ab)*)+", "(a?b?)+", "(()+)+", "((a|())+b?)*", "(a|b|ab)*", "((a*)+|b)+"];
    let branches = ["a|a", "(a|())+", "(()|())", "(()|a?)+", "(a|ab)(b|ba)?", "((a)*|(b)+)*", "a*|b", "b(()+|a)b?"];
    let mut are_some_empty = false;
    for pattern in repeated.iter().chain(&branches) {
        let all: Vec<Vec<u16>> = rows_over(b"ab", 5).iter().flat_map(|text| trees(pattern, text)).collect();
        checks.same(&format!("whether {pattern} has trees"), all.is_empty(), false);
        are_some_empty |= all.iter().any(|tree| tree.contains(&1) && turns_with_text(tree, 1) == 0);
        let differing = all.into_iter().find(|tree| !is_counted_right(tree));
        checks.same(&format!("the first tree of {pattern} with a mark whose turns are counted wrong"), differing, None);
    }
    checks.same("whether some of these trees have an empty turn alone", are_some_empty, true);
}

pub fn run(checks: &mut Checks) {
    by_hand(checks);
    all_short_rows(checks);
    all_short_trees(checks);
}
