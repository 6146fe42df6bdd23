//! Patterns, read by splitting: bytes into signs, signs at their bars, branches into items. The product reads a pattern from left to right
//! with functions that call each other; nothing of that is used here.

/// Which of the 256 byte values an atom reads.
pub type Bytes = [bool; 256];

/// A part of an expression. Parts name each other by their index in `Expression::parts`.
pub enum Part {
    Nothing,
    OneOf(Box<Bytes>),
    /// the first item of a branch, and the items after it
    Then(usize, usize),
    /// the branches of a list, each with its mark
    Choice(Vec<(u16, usize)>),
    /// `*`, `+` or `?`, the mark, and the atom
    Repeat(u8, u16, usize),
}

pub struct Expression {
    pub parts: Vec<Part>,
    pub root: usize,
    /// how deep groups nest, `()` included
    pub nesting: usize,
    pub positions: usize,
    pub marks: usize,
}

/// One sign of a pattern: an atom that reads a byte, or a byte with a meaning of its own.
enum Sign {
    Reads(Box<Bytes>),
    Open,
    Close,
    Bar,
    Repeat(u8),
}

/// A sign and the byte where it starts.
struct Placed {
    start: usize,
    sign: Sign,
}

fn only(byte: u8) -> Box<Bytes> {
    let mut bytes = Box::new([false; 256]);
    bytes[byte as usize] = true;
    bytes
}

/// The signs of a pattern, or nothing if some byte cannot be part of one.
fn signs(pattern: &[u8]) -> Option<Vec<Placed>> {
    let mut found = Vec::new();
    let mut at = 0;
    while at < pattern.len() {
        let (sign, length) = sign_at(&pattern[at..])?;
        found.push(Placed { start: at, sign });
        at += length;
    }
    Some(found)
}

/// The sign that `rest` starts with and how many bytes it takes. `rest` is not empty.
fn sign_at(rest: &[u8]) -> Option<(Sign, usize)> {
    match rest[0] {
        b'(' => Some((Sign::Open, 1)),
        b')' => Some((Sign::Close, 1)),
        b'|' => Some((Sign::Bar, 1)),
        b'*' | b'+' | b'?' => Some((Sign::Repeat(rest[0]), 1)),
        b'.' => Some((Sign::Reads(Box::new([true; 256])), 1)),
        b'\\' => rest.get(1).map(|&byte| (Sign::Reads(only(byte)), 2)),
        b'[' => class(rest),
        b']' => None,
        byte => Some((Sign::Reads(only(byte)), 1)),
    }
}

/// The class that `rest` starts with: first its bytes up to the bare `]`, each with whether it was escaped, then the items among them.
fn class(rest: &[u8]) -> Option<(Sign, usize)> {
    let mut inside: Vec<(u8, bool)> = Vec::new();
    let mut at = 1;
    loop {
        match *rest.get(at)? {
            b']' => break,
            b'[' => return None,
            b'\\' => {
                inside.push((*rest.get(at + 1)?, true));
                at += 2;
            }
            byte => {
                inside.push((byte, false));
                at += 1;
            }
        }
    }
    Some((Sign::Reads(class_bytes(&inside)?), at + 1))
}

/// The bytes that one or more items c and c-d name.
fn class_bytes(inside: &[(u8, bool)]) -> Option<Box<Bytes>> {
    const DASH: (u8, bool) = (b'-', false);
    let mut bytes = Box::new([false; 256]);
    let mut left = inside;
    if left.is_empty() {
        return None;
    }
    while let Some(&from) = left.first() {
        let is_range = left.get(1) == Some(&DASH);
        let to = if is_range { *left.get(2)? } else { from };
        if from == DASH || to == DASH || to.0 < from.0 {
            return None;
        }
        for byte in from.0..=to.0 {
            bytes[byte as usize] = true;
        }
        left = &left[if is_range { 3 } else { 1 }..];
    }
    Some(bytes)
}

/// Whether each group that opens closes, and how deep they nest.
fn nesting(signs: &[Placed]) -> Option<usize> {
    let (mut level, mut deepest) = (0usize, 0);
    for placed in signs {
        match placed.sign {
            Sign::Open => level += 1,
            Sign::Close => level = level.checked_sub(1)?,
            _ => {}
        }
        deepest = deepest.max(level);
    }
    if level == 0 { Some(deepest) } else { None }
}

/// What is to get a mark: a part, or one branch of a part that is a choice.
struct Unmarked {
    /// the byte where it starts
    start: usize,
    /// how many parts it lies inside of: of two with one start, the outer lies inside of fewer
    inside: usize,
    part: usize,
    branch: usize,
}

struct Builder<'a> {
    signs: &'a [Placed],
    parts: Vec<Part>,
    unmarked: Vec<Unmarked>,
}

impl Builder<'_> {
    fn add(&mut self, part: Part) -> usize {
        self.parts.push(part);
        self.parts.len() - 1
    }

    /// The places after `from` and up to `to` where the group level is that of `from` and `wanted` holds.
    fn at_this_level(&self, from: usize, to: usize, wanted: fn(&Sign) -> bool) -> Vec<usize> {
        let mut level = 0;
        let mut places = Vec::new();
        for at in from..to {
            match self.signs[at].sign {
                Sign::Open => level += 1,
                Sign::Close => level -= 1,
                _ => {}
            }
            if level == 0 && wanted(&self.signs[at].sign) {
                places.push(at);
            }
        }
        places
    }

    /// The branch list that the signs from `from` to before `to` are.
    fn list(&mut self, from: usize, to: usize, inside: usize) -> Option<usize> {
        let bars = self.at_this_level(from, to, |sign| matches!(sign, Sign::Bar));
        if bars.is_empty() {
            return self.branch(from, to, inside);
        }
        let starts: Vec<usize> = std::iter::once(from).chain(bars.iter().map(|bar| bar + 1)).collect();
        let ends = bars.iter().copied().chain(std::iter::once(to));
        let mut branches = Vec::new();
        for (&start, end) in starts.iter().zip(ends) {
            branches.push((0, self.branch(start, end, inside + 2)?));
        }
        let part = self.add(Part::Choice(branches));
        for (branch, &start) in starts.iter().enumerate() {
            self.unmarked.push(Unmarked { start: self.signs[start].start, inside: inside + 1, part, branch });
        }
        Some(part)
    }

    /// The branch that the signs are: one or more items.
    fn branch(&mut self, from: usize, to: usize, inside: usize) -> Option<usize> {
        let mut items = Vec::new();
        let mut at = from;
        while at < to {
            let (item, next) = self.item(at, to, inside)?;
            items.push(item);
            at = next;
        }
        let mut rest = items.pop()?;
        while let Some(item) = items.pop() {
            rest = self.add(Part::Then(item, rest));
        }
        Some(rest)
    }

    /// The item that starts at `from`, and where the next one starts.
    fn item(&mut self, from: usize, to: usize, inside: usize) -> Option<(usize, usize)> {
        let end = self.atom_end(from, to)?;
        let repeat = match self.signs.get(end) {
            Some(Placed { sign: Sign::Repeat(sign), .. }) if end < to => *sign,
            _ => return Some((self.atom(from, end, inside)?, end)),
        };
        let atom = self.atom(from, end, inside + 1)?;
        let part = self.add(Part::Repeat(repeat, 0, atom));
        self.unmarked.push(Unmarked { start: self.signs[from].start, inside, part, branch: 0 });
        Some((part, end + 1))
    }

    fn atom_end(&self, from: usize, to: usize) -> Option<usize> {
        match self.signs[from].sign {
            Sign::Reads(_) => Some(from + 1),
            Sign::Open => self.at_this_level(from, to, |sign| matches!(sign, Sign::Close)).first().map(|close| close + 1),
            _ => None,
        }
    }

    fn atom(&mut self, from: usize, end: usize, inside: usize) -> Option<usize> {
        if let Sign::Reads(bytes) = &self.signs[from].sign {
            let bytes = bytes.clone();
            return Some(self.add(Part::OneOf(bytes)));
        }
        if end - from == 2 {
            return Some(self.add(Part::Nothing));
        }
        self.list(from + 1, end - 1, inside)
    }

    /// Numbers the marks from 1 by where their parts start, the outer first at the same start.
    fn number(&mut self) {
        self.unmarked.sort_by_key(|unmarked| (unmarked.start, unmarked.inside));
        for (index, unmarked) in self.unmarked.iter().enumerate() {
            let number = index as u16 + 1;
            match &mut self.parts[unmarked.part] {
                Part::Repeat(_, mark, _) => *mark = number,
                Part::Choice(branches) => branches[unmarked.branch].0 = number,
                _ => unreachable!("only repeated items and branches have marks"),
            }
        }
    }
}

/// What a pattern says, limits set aside; nothing if the bytes are not a pattern.
pub fn read(pattern: &[u8]) -> Option<Expression> {
    let signs = signs(pattern)?;
    let nesting = nesting(&signs)?;
    let mut builder = Builder { signs: &signs, parts: Vec::new(), unmarked: Vec::new() };
    let root = builder.list(0, signs.len(), 0)?;
    builder.number();
    let positions = builder.parts.iter().filter(|part| matches!(part, Part::OneOf(_))).count();
    Some(Expression { root, nesting, positions, marks: builder.unmarked.len(), parts: builder.parts })
}

/// Whether some pattern begins with these bytes. If one does, one of the rows tried here completes them. Outside a class either an atom has
/// just ended or an item could end here, and nothing is missing; or an atom or the byte after a `\` is missing, and 255 serves for both.
/// Inside a class either an item has just ended, and `]` is missing; or a first or second end or the byte after a `\` is missing: 255 serves
/// as each, since no end is above it. After that only the groups still open are missing their `)`, no more than there are `(`.
pub fn begins_a_pattern(beginning: &[u8]) -> bool {
    let opened = beginning.iter().filter(|&&byte| byte == b'(').count();
    let tails: [&[u8]; 4] = [b"", b"\xff", b"]", b"\xff]"];
    tails.iter().any(|tail| {
        let mut whole = [beginning, tail].concat();
        (0..=opened).any(|_| {
            let is_pattern = read(&whole).is_some();
            whole.push(b')');
            is_pattern
        })
    })
}

/// The length of the longest beginning that also begins some pattern. What begins a pattern has only such beginnings itself, so a search by
/// halves finds the longest.
pub fn place(pattern: &[u8]) -> usize {
    let lengths: Vec<usize> = (1..=pattern.len()).collect();
    lengths.partition_point(|&length| begins_a_pattern(&pattern[..length]))
}
