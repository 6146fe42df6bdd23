//! Makes rows to count turns in.

use crate::chance::Chance;
use crate::make_calls::tokens;

/// The tokens that open and close a mark. One that is no mark has such as its low bits say.
fn turn_of(mark: u64) -> (u16, u16) {
    let open = mark as u16;
    (open, open.wrapping_add(128))
}

/// A byte token, often one at an edge.
fn byte(chance: &mut Chance) -> u16 {
    match chance.below(4) {
        0 => 256,
        1 => 511,
        _ => 256 + u16::from(chance.byte()),
    }
}

/// Neither a byte token nor, but by chance, one of the mark: next to the byte tokens, of another mark, or any.
fn other(chance: &mut Chance) -> u16 {
    let mark = chance.between(1, 64) as u16;
    match chance.below(6) {
        0 => 255,
        1 => 512,
        2 => mark,
        3 => 128 + mark,
        4 => chance.pick(&[0, 128, 513, 1 << 15, u16::MAX]),
        _ => 512 + chance.below(65_536 - 512) as u16,
    }
}

/// Openings and closings of the mark, byte tokens and others in any order, each with a share of its own.
fn turns_in_any_order(chance: &mut Chance, mark: u64, count: usize) -> Vec<u16> {
    let (open, close) = turn_of(mark);
    let shares = [0; 4].map(|_| chance.pick(&[0, 1, 1, 2, 4, 10]));
    let all: usize = 1 + shares.iter().sum::<usize>();
    let token = |chance: &mut Chance| match chance.below(all) {
        at if at < shares[0] => open,
        at if at < shares[0] + shares[1] => close,
        at if at < shares[0] + shares[1] + shares[2] => byte(chance),
        _ => other(chance),
    };
    (0..count).map(|_| token(chance)).collect()
}

/// Tokens that are the mark, or look like it or its closing in their low or high bits.
fn near_the_mark(chance: &mut Chance, mark: u64, count: usize) -> Vec<u16> {
    let (open, close) = turn_of(mark);
    let beside = [1, 64, 128, 256, 512, 1 << 15].map(|bit| (open ^ bit, close ^ bit));
    let token = |chance: &mut Chance| match (chance.below(8), chance.pick(&beside)) {
        (0 | 1, _) => open,
        (2, _) => close,
        (3, _) => chance.pick(&[open << 8, close << 8, open.wrapping_add(1), 0]),
        (4 | 5, (near, _)) => near,
        (_, (_, near)) => near,
    };
    (0..count).map(|_| token(chance)).collect()
}

/// Openings alone; most often with an end behind them that closes them all, or does not.
fn many_openings(chance: &mut Chance, mark: u64, count: usize) -> Vec<u16> {
    let (open, close) = turn_of(mark);
    let (byte, other) = (byte(chance), other(chance));
    let end = match chance.below(8) {
        0 => vec![],
        1 => vec![byte],
        2 => vec![close, byte],
        3 => vec![other, close],
        4 => vec![byte, close, open, byte],
        _ => vec![byte, close],
    };
    [vec![open; count], end].concat()
}

/// A row with a token of it left out, exchanged for another or put in, or all behind some place cut off.
fn damaged(chance: &mut Chance, row: &[u16], mark: u64) -> Vec<u16> {
    let (open, close) = turn_of(mark);
    let at = chance.below(row.len() + 1);
    let token = match chance.below(4) {
        0 => open,
        1 => close,
        2 => byte(chance),
        _ => other(chance),
    };
    let (before, behind) = row.split_at(at);
    let one_less = behind.get(1..).unwrap_or(&[]);
    match chance.below(4) {
        0 => before.to_vec(),
        1 => [before, one_less].concat(),
        2 => [before, &[token], one_less].concat(),
        _ => [before, &[token], behind].concat(),
    }
}

/// A row for a mark: a tree, whole or damaged; turns in any order; such as look like the mark; any tokens. One of 400 has more openings than
/// 16 bits count.
pub fn row(chance: &mut Chance, tree: &[u16], mark: u64) -> Vec<u16> {
    let count = match chance.below(10) {
        0 => chance.below(4),
        1 => chance.between(500, 5000),
        _ => chance.between(3, 60),
    };
    if chance.below(400) == 0 {
        let many = chance.between(65_530, 70_000);
        return many_openings(chance, mark, many);
    }
    match chance.below(20) {
        0..=4 => tree.to_vec(),
        5..=7 => damaged(chance, tree, mark),
        8 | 9 => tokens(chance, count),
        10 => many_openings(chance, mark, count),
        11 | 12 => near_the_mark(chance, mark, count),
        13 => {
            let row = near_the_mark(chance, mark, count);
            damaged(chance, &row, mark)
        }
        _ => turns_in_any_order(chance, mark, count),
    }
}
