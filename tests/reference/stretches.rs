//! Which stretches of a text the parts of an expression can read, straight from the rules of turns. Nothing is known here of positions, sets
//! of them, or what may follow what.

use crate::pattern::{Expression, Part};
use std::collections::HashMap;
use std::rc::Rc;

/// A case asks for more work than a reference should spend on it.
#[derive(Debug)]
pub struct TooMuch;

/// The ends of stretches, as bits from word `from` on.
#[derive(Clone)]
pub struct Ends {
    from: usize,
    words: Rc<[u64]>,
}

impl Ends {
    pub fn has(&self, end: usize) -> bool {
        let word = end / 64;
        word >= self.from && word - self.from < self.words.len() && (self.words[word - self.from] >> (end % 64)) & 1 == 1
    }

    pub fn each(&self) -> impl Iterator<Item = usize> + '_ {
        let from = self.from;
        let bits = |word: u64| (0..64).filter(move |bit| (word >> bit) & 1 == 1);
        self.words.iter().enumerate().flat_map(move |(index, &word)| bits(word).map(move |bit| (from + index) * 64 + bit))
    }
}

/// Ends that are being gathered.
struct Gathered(Vec<u64>);

impl Gathered {
    fn none(length: usize) -> Gathered {
        Gathered(vec![0; length / 64 + 1])
    }

    fn one(length: usize, end: usize) -> Gathered {
        let mut gathered = Gathered::none(length);
        gathered.add(end);
        gathered
    }

    fn add(&mut self, end: usize) {
        self.0[end / 64] |= 1 << (end % 64);
    }

    fn add_all(&mut self, ends: &Ends) {
        for (index, word) in ends.words.iter().enumerate() {
            self.0[ends.from + index] |= word;
        }
    }

    fn done(self) -> Ends {
        let from = self.0.iter().position(|&word| word != 0).unwrap_or(0);
        let to = self.0.iter().rposition(|&word| word != 0).map_or(from, |last| last + 1);
        Ends { from, words: self.0[from..to].into() }
    }
}

/// Which stretches of one text the parts of one expression can read.
pub struct Stretches<'a> {
    pub expression: &'a Expression,
    pub text: &'a [u8],
    ends: HashMap<(usize, usize), Ends>,
    turns: HashMap<(usize, usize), Ends>,
    reached: HashMap<(usize, usize), usize>,
    left: usize,
}

impl<'a> Stretches<'a> {
    /// `work` bounds how many words of ends are handled.
    pub fn new(expression: &'a Expression, text: &'a [u8], work: usize) -> Stretches<'a> {
        Stretches { expression, text, ends: HashMap::new(), turns: HashMap::new(), reached: HashMap::new(), left: work }
    }

    pub fn spend(&mut self, work: usize) -> Result<(), TooMuch> {
        self.left = self.left.checked_sub(work).ok_or(TooMuch)?;
        Ok(())
    }

    fn reads(&self, bytes: &[bool; 256], start: usize) -> bool {
        self.text.get(start).map_or(false, |&byte| bytes[byte as usize])
    }

    /// Where a tree of `part` that starts at `start` may end.
    pub fn ends(&mut self, part: usize, start: usize) -> Result<Ends, TooMuch> {
        if let Some(known) = self.ends.get(&(part, start)) {
            return Ok(known.clone());
        }
        let gathered = self.gather(part, start)?;
        self.spend(gathered.0.len())?;
        let ends = gathered.done();
        self.ends.insert((part, start), ends.clone());
        Ok(ends)
    }

    fn gather(&mut self, part: usize, start: usize) -> Result<Gathered, TooMuch> {
        let length = self.text.len();
        let expression = self.expression;
        let mut gathered = Gathered::none(length);
        match &expression.parts[part] {
            Part::Nothing => gathered.add(start),
            Part::OneOf(bytes) => {
                if self.reads(bytes, start) {
                    gathered.add(start + 1);
                }
            }
            Part::Then(first, rest) => {
                for middle in self.ends(*first, start)?.each() {
                    let ends = self.ends(*rest, middle)?;
                    self.spend(ends.words.len() + 1)?;
                    gathered.add_all(&ends);
                }
            }
            Part::Choice(branches) => {
                for (_, branch) in branches {
                    gathered.add_all(&self.ends(*branch, start)?);
                }
            }
            Part::Repeat(b'?', _, atom) => {
                gathered.add_all(&self.ends(*atom, start)?);
                gathered.add(start);
            }
            Part::Repeat(b'*', _, _) => gathered.add_all(&self.turns_end(part, start)?),
            Part::Repeat(_, _, atom) => {
                for middle in self.ends(*atom, start)?.each() {
                    gathered.add(middle);
                    if middle > start {
                        gathered.add_all(&self.turns_end(part, middle)?);
                    }
                }
            }
        }
        Ok(gathered)
    }

    /// Where a row of turns of the repeated item `part`, none or more, that each read at least one byte, may end.
    pub fn turns_end(&mut self, part: usize, start: usize) -> Result<Ends, TooMuch> {
        if let Some(known) = self.turns.get(&(part, start)) {
            return Ok(known.clone());
        }
        let atom = match self.expression.parts[part] {
            Part::Repeat(_, _, atom) => atom,
            _ => unreachable!("only a repeated item has turns"),
        };
        let mut gathered = Gathered::one(self.text.len(), start);
        for middle in self.ends(atom, start)?.each().filter(|&middle| middle > start) {
            let ends = self.turns_end(part, middle)?;
            self.spend(ends.words.len() + 1)?;
            gathered.add_all(&ends);
        }
        self.spend(gathered.0.len())?;
        let ends = gathered.done();
        self.turns.insert((part, start), ends.clone());
        Ok(ends)
    }

    /// The farthest place up to which the text from `start` begins some text of `part`. No class is empty, so whatever is begun can be
    /// completed, and nothing read at all begins every text.
    pub fn reach(&mut self, part: usize, start: usize) -> Result<usize, TooMuch> {
        if let Some(&known) = self.reached.get(&(part, start)) {
            return Ok(known);
        }
        self.spend(1)?;
        let expression = self.expression;
        let farthest = match &expression.parts[part] {
            Part::Nothing => start,
            Part::OneOf(bytes) => start + usize::from(self.reads(bytes, start)),
            Part::Then(first, rest) => {
                let mut farthest = self.reach(*first, start)?;
                for middle in self.ends(*first, start)?.each() {
                    farthest = farthest.max(self.reach(*rest, middle)?);
                }
                farthest
            }
            Part::Choice(branches) => {
                let mut farthest = start;
                for (_, branch) in branches {
                    farthest = farthest.max(self.reach(*branch, start)?);
                }
                farthest
            }
            Part::Repeat(sign, _, atom) => {
                let mut farthest = self.reach(*atom, start)?;
                if *sign != b'?' {
                    for middle in self.ends(*atom, start)?.each().filter(|&middle| middle > start) {
                        farthest = farthest.max(self.reach(part, middle)?);
                    }
                }
                farthest
            }
        };
        self.reached.insert((part, start), farthest);
        Ok(farthest)
    }
}
