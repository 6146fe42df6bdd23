//! Trees of a text, straight from the rules of marks and turns: for each part of the expression and each stretch of the text, the rows of
//! the trees that read just that stretch.

use crate::keepers::Keeper;
use crate::pattern::Part;
use crate::stretches::{Stretches, TooMuch};
use std::collections::HashMap;

/// The rows of the parts of one expression over the stretches of one text. The rules stand here once, for either keeper.
pub struct Trees<'s, 'a, K: Keeper> {
    stretches: &'s mut Stretches<'a>,
    pub keeper: K,
    parts: HashMap<(usize, usize, usize), K::Rows>,
    turns: HashMap<(usize, usize, usize), K::Rows>,
}

impl<'s, 'a, K: Keeper> Trees<'s, 'a, K> {
    pub fn new(stretches: &'s mut Stretches<'a>, keeper: K) -> Trees<'s, 'a, K> {
        Trees { stretches, keeper, parts: HashMap::new(), turns: HashMap::new() }
    }

    /// The rows of the trees of the whole text.
    pub fn whole(&mut self) -> Result<K::Rows, TooMuch> {
        let (root, length) = (self.stretches.expression.root, self.stretches.text.len());
        self.rows(root, 0, length)
    }

    /// The rows of the trees of `part` that read the text from `start` to before `end`.
    fn rows(&mut self, part: usize, start: usize, end: usize) -> Result<K::Rows, TooMuch> {
        if !self.stretches.ends(part, start)?.has(end) {
            return Ok(self.keeper.no_row());
        }
        if let Some(known) = self.parts.get(&(part, start, end)) {
            return Ok(known.clone());
        }
        let expression = self.stretches.expression;
        let rows = match &expression.parts[part] {
            Part::Nothing => self.keeper.empty_row(),
            Part::OneOf(_) => self.keeper.token(256 + u16::from(self.stretches.text[start])),
            Part::Then(first, rest) => self.rows_of_items(*first, *rest, start, end)?,
            Part::Choice(branches) => {
                let mut rows = self.keeper.no_row();
                for (mark, branch) in branches {
                    let chosen = self.enclosed(*mark, *branch, start, end)?;
                    rows = self.keeper.united(rows, chosen)?;
                }
                rows
            }
            // a turn of `?` reads at least one byte, so over nothing there is none
            Part::Repeat(b'?', _, _) if start == end => self.keeper.empty_row(),
            Part::Repeat(b'?', mark, atom) => self.enclosed(*mark, *atom, start, end)?,
            // the turn of `+` that reads nothing is the only one
            Part::Repeat(b'+', mark, atom) if start == end => self.enclosed(*mark, *atom, start, end)?,
            Part::Repeat(_, mark, atom) => self.rows_of_turns(part, *mark, *atom, start, end)?,
        };
        self.parts.insert((part, start, end), rows.clone());
        Ok(rows)
    }

    /// The rows of an item and of those after it, one after another, wherever the item may end.
    fn rows_of_items(&mut self, first: usize, rest: usize, start: usize, end: usize) -> Result<K::Rows, TooMuch> {
        let mut rows = self.keeper.no_row();
        for middle in self.stretches.ends(first, start)?.each().filter(|&middle| middle <= end) {
            self.stretches.spend(1)?;
            if !self.stretches.ends(rest, middle)?.has(end) {
                continue;
            }
            let front = self.rows(first, start, middle)?;
            let back = self.rows(rest, middle, end)?;
            let joined = self.keeper.joined(&front, &back)?;
            rows = self.keeper.united(rows, joined)?;
        }
        Ok(rows)
    }

    /// The rows of turns, none or more, that each read at least one byte and together read the stretch.
    fn rows_of_turns(&mut self, part: usize, mark: u16, atom: usize, start: usize, end: usize) -> Result<K::Rows, TooMuch> {
        if start == end {
            return Ok(self.keeper.empty_row());
        }
        if let Some(known) = self.turns.get(&(part, start, end)) {
            return Ok(known.clone());
        }
        let mut rows = self.keeper.no_row();
        for middle in self.stretches.ends(atom, start)?.each().filter(|&middle| middle > start && middle <= end) {
            self.stretches.spend(1)?;
            if !self.stretches.turns_end(part, middle)?.has(end) {
                continue;
            }
            let turn = self.enclosed(mark, atom, start, middle)?;
            let later = self.rows_of_turns(part, mark, atom, middle, end)?;
            let joined = self.keeper.joined(&turn, &later)?;
            rows = self.keeper.united(rows, joined)?;
        }
        self.turns.insert((part, start, end), rows.clone());
        Ok(rows)
    }

    /// Open, the rows of `part`, close.
    fn enclosed(&mut self, mark: u16, part: usize, start: usize, end: usize) -> Result<K::Rows, TooMuch> {
        let inner = self.rows(part, start, end)?;
        let (open, close) = (self.keeper.token(mark), self.keeper.token(128 + mark));
        let opened = self.keeper.joined(&open, &inner)?;
        self.keeper.joined(&opened, &close)
    }
}
