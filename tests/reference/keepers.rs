//! Rows of tokens in the order of trees, and what is kept of many of them: all, or the first two.

use crate::stretches::TooMuch;
use std::cmp::Ordering;
use std::collections::{BTreeSet, HashMap};
use std::rc::Rc;

/// A row of tokens, in the order of trees: the smaller token where they first differ; if one has ended there, the longer.
#[derive(Clone, PartialEq, Eq)]
pub struct Row(pub Vec<u16>);

impl Ord for Row {
    fn cmp(&self, other: &Row) -> Ordering {
        for (mine, theirs) in self.0.iter().zip(&other.0) {
            if mine != theirs {
                return mine.cmp(theirs);
            }
        }
        other.0.len().cmp(&self.0.len())
    }
}

impl PartialOrd for Row {
    fn partial_cmp(&self, other: &Row) -> Option<Ordering> {
        Some(self.cmp(other))
    }
}

/// What is kept of the rows of one part over one stretch.
pub trait Keeper {
    type Rows: Clone;
    fn no_row(&mut self) -> Self::Rows;
    fn empty_row(&mut self) -> Self::Rows;
    fn token(&mut self, token: u16) -> Self::Rows;
    /// each row of the one followed by each row of the other
    fn joined(&mut self, one: &Self::Rows, other: &Self::Rows) -> Result<Self::Rows, TooMuch>;
    fn united(&mut self, one: Self::Rows, other: Self::Rows) -> Result<Self::Rows, TooMuch>;
}

/// Keeps every row.
pub struct Every {
    /// how many tokens may still be written
    pub left: usize,
}

impl Keeper for Every {
    type Rows = Rc<BTreeSet<Row>>;

    fn no_row(&mut self) -> Self::Rows {
        Rc::new(BTreeSet::new())
    }

    fn empty_row(&mut self) -> Self::Rows {
        Rc::new(BTreeSet::from([Row(Vec::new())]))
    }

    fn token(&mut self, token: u16) -> Self::Rows {
        Rc::new(BTreeSet::from([Row(vec![token])]))
    }

    fn joined(&mut self, one: &Self::Rows, other: &Self::Rows) -> Result<Self::Rows, TooMuch> {
        let mut rows = BTreeSet::new();
        for front in one.iter() {
            for back in other.iter() {
                self.left = self.left.checked_sub(front.0.len() + back.0.len() + 1).ok_or(TooMuch)?;
                rows.insert(Row([&front.0[..], &back.0[..]].concat()));
            }
        }
        Ok(Rc::new(rows))
    }

    fn united(&mut self, one: Self::Rows, other: Self::Rows) -> Result<Self::Rows, TooMuch> {
        if one.is_empty() {
            return Ok(other);
        }
        let mut rows = Rc::try_unwrap(one).unwrap_or_else(|shared| (*shared).clone());
        for row in other.iter() {
            self.left = self.left.checked_sub(row.0.len() + 1).ok_or(TooMuch)?;
            rows.insert(row.clone());
        }
        Ok(Rc::new(rows))
    }
}

/// The number of a row that `FirstTwo` has: 0 is the empty row, 1 + t the token t alone, larger ones are two rows joined.
type Name = u32;
const EMPTY: Name = 0;
const JOINED: Name = 1 + 512;

/// Keeps the first two different rows. Of two rows of one part over one stretch neither begins the other (`order` stops if one ever does),
/// so the first difference of two rows decides, whatever is written behind them: the first two of all joined rows come of the first two of
/// each side.
pub struct FirstTwo {
    pairs: Vec<(Name, Name)>,
    lengths: Vec<usize>,
    names: HashMap<(Name, Name), Name>,
    /// how many steps may still be made
    left: usize,
}

impl FirstTwo {
    pub fn new(work: usize) -> FirstTwo {
        FirstTwo { pairs: Vec::new(), lengths: Vec::new(), names: HashMap::new(), left: work }
    }

    fn spend(&mut self, work: usize) -> Result<(), TooMuch> {
        self.left = self.left.checked_sub(work).ok_or(TooMuch)?;
        Ok(())
    }

    pub fn length(&self, row: Name) -> usize {
        match row {
            EMPTY => 0,
            _ if row < JOINED => 1,
            _ => self.lengths[(row - JOINED) as usize],
        }
    }

    fn join(&mut self, front: Name, back: Name) -> Name {
        if front == EMPTY {
            return back;
        }
        if back == EMPTY {
            return front;
        }
        if let Some(&known) = self.names.get(&(front, back)) {
            return known;
        }
        let name = JOINED + self.pairs.len() as Name;
        self.pairs.push((front, back));
        self.lengths.push(self.length(front) + self.length(back));
        self.names.insert((front, back), name);
        name
    }

    /// The order of two rows of one part over one stretch.
    fn order(&mut self, one: Name, other: Name) -> Result<Ordering, TooMuch> {
        let (mut mine, mut theirs) = (vec![one], vec![other]);
        loop {
            self.spend(1)?;
            match (mine.pop(), theirs.pop()) {
                (None, None) => return Ok(Ordering::Equal),
                (Some(a), Some(b)) if a == b => {}
                (Some(a), Some(b)) if a != EMPTY && b != EMPTY && a < JOINED && b < JOINED => return Ok(a.cmp(&b)),
                (Some(a), Some(b)) if a != EMPTY && b != EMPTY => self.split_longer((a, &mut mine), (b, &mut theirs)),
                _ => panic!("of two rows of one part over one stretch, one begins the other"),
            }
        }
    }

    /// Puts both back, the longer one as its two parts.
    fn split_longer(&self, mine: (Name, &mut Vec<Name>), theirs: (Name, &mut Vec<Name>)) {
        let (longer, shorter) = if self.length(mine.0) >= self.length(theirs.0) { (mine, theirs) } else { (theirs, mine) };
        let (front, back) = self.pairs[(longer.0 - JOINED) as usize];
        longer.1.push(back);
        longer.1.push(front);
        shorter.1.push(shorter.0);
    }

    /// The first two of the rows kept and one more.
    fn with_row(&mut self, kept: <FirstTwo as Keeper>::Rows, row: Name) -> Result<<FirstTwo as Keeper>::Rows, TooMuch> {
        let (first, second) = match kept {
            (Some(first), second) => (first, second),
            _ => return Ok((Some(row), None)),
        };
        match self.order(row, first)? {
            Ordering::Equal => Ok(kept),
            Ordering::Less => Ok((Some(row), Some(first))),
            Ordering::Greater => match second {
                Some(second) if self.order(row, second)? != Ordering::Less => Ok(kept),
                _ => Ok((Some(first), Some(row))),
            },
        }
    }

    /// The tokens of a row.
    pub fn written(&self, row: Name) -> Vec<u16> {
        let mut tokens = Vec::with_capacity(self.length(row));
        let mut open = vec![row];
        while let Some(name) = open.pop() {
            if name >= JOINED {
                let (front, back) = self.pairs[(name - JOINED) as usize];
                open.push(back);
                open.push(front);
            } else if name != EMPTY {
                tokens.push((name - 1) as u16);
            }
        }
        tokens
    }
}

impl Keeper for FirstTwo {
    /// in order
    type Rows = (Option<Name>, Option<Name>);

    fn no_row(&mut self) -> Self::Rows {
        (None, None)
    }

    fn empty_row(&mut self) -> Self::Rows {
        (Some(EMPTY), None)
    }

    fn token(&mut self, token: u16) -> Self::Rows {
        (Some(1 + Name::from(token)), None)
    }

    fn joined(&mut self, one: &Self::Rows, other: &Self::Rows) -> Result<Self::Rows, TooMuch> {
        self.spend(1)?;
        let (front, back) = match (one.0, other.0) {
            (Some(front), Some(back)) => (front, back),
            _ => return Ok((None, None)),
        };
        let first = self.join(front, back);
        let second = match (other.1, one.1) {
            (Some(later), _) => Some(self.join(front, later)),
            (None, Some(later)) => Some(self.join(later, back)),
            (None, None) => None,
        };
        Ok((Some(first), second))
    }

    fn united(&mut self, one: Self::Rows, other: Self::Rows) -> Result<Self::Rows, TooMuch> {
        if one.0.is_none() {
            return Ok(other);
        }
        let mut kept = one;
        for row in [other.0, other.1].into_iter().flatten() {
            kept = self.with_row(kept, row)?;
        }
        Ok(kept)
    }
}
