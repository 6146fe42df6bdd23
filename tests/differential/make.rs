//! Makes cases for the desk: a pattern, a text, and what the desk is given.

use crate::chance::Chance;
use reference::answers::parts_of_input;
use reference::pattern::{self, Expression, Part};

pub struct Case {
    pub pattern: Vec<u8>,
    pub text: Vec<u8>,
    pub input: Vec<u8>,
}

const SIGNS: &[u8] = b"()|*+?.[]\\";
const CLASS_SIGNS: &[u8] = b"[]-\\";
/// Repetitions whose turns could read nothing, and texts that are read in several ways.
const LOOPS: [&str; 20] = [
    "(a*)*", "(a*)+", "(a*)?", "()+", "()*", "()?", "(a|())+", "(()|a)*", "(a?)+", "((a*)+)*", "(a+)+", "(()+)+", "(a|b|ab)*", "(a*b*)*", "(a|ab)(b|ba)?",
    "((a|())+b?)*", "(a?b?)+", "(()|())", "((a)*|(b)+)*", "((a?)*)?",
];

/// The letters that one case is made of.
pub fn letters(chance: &mut Chance) -> Vec<u8> {
    match chance.below(10) {
        0..=4 => b"ab".to_vec(),
        5 => b"a".to_vec(),
        6 | 7 => b"abc".to_vec(),
        8 => vec![b'a', 0, 10, 255, b'^', b'-'],
        _ => (0..3).map(|_| chance.byte()).collect(),
    }
}

/// A pattern in the making: its bytes, the letters it is made of, and how many atoms it may still have.
struct Maker<'a> {
    chance: &'a mut Chance,
    letters: Vec<u8>,
    atoms: usize,
    made: Vec<u8>,
}

impl Maker<'_> {
    fn list(&mut self, depth: usize) {
        self.branch(depth);
        while self.atoms > 0 && self.chance.percent(35) {
            self.made.push(b'|');
            self.branch(depth);
        }
    }

    fn branch(&mut self, depth: usize) {
        self.item(depth);
        while self.atoms > 0 && self.chance.percent(50) {
            self.item(depth);
        }
    }

    fn item(&mut self, depth: usize) {
        self.atoms = self.atoms.saturating_sub(1);
        if self.chance.percent(8) {
            self.made.extend(self.chance.pick(&LOOPS).as_bytes());
            return;
        }
        self.atom(depth);
        if self.chance.percent(45) {
            let sign = self.chance.pick(b"*+?");
            self.made.push(sign);
        }
    }

    fn atom(&mut self, depth: usize) {
        match self.chance.below(100) {
            0..=34 if depth > 0 => {
                self.made.push(b'(');
                self.list(depth - 1);
                self.made.push(b')');
            }
            35..=41 => self.made.extend(b"()"),
            42..=46 => self.made.push(b'.'),
            47..=56 => self.class(),
            57..=61 => {
                let byte = if self.chance.percent(50) { self.chance.pick(SIGNS) } else { self.letter() };
                self.made.extend([b'\\', byte]);
            }
            _ => {
                let letter = self.letter();
                self.put(letter, SIGNS);
            }
        }
    }

    fn letter(&mut self) -> u8 {
        self.chance.pick(&self.letters)
    }

    /// A byte that stands for itself, escaped if it is one of `signs`, and sometimes if not.
    fn put(&mut self, byte: u8, signs: &[u8]) {
        if signs.contains(&byte) || self.chance.percent(4) {
            self.made.push(b'\\');
        }
        self.made.push(byte);
    }

    fn class(&mut self) {
        self.made.push(b'[');
        if self.chance.percent(15) {
            self.made.push(b'^');
        }
        for _ in 0..self.chance.between(1, 3) {
            let one = if self.chance.percent(70) { self.letter() } else { self.chance.byte() };
            let other = if self.chance.percent(70) { self.letter() } else { self.chance.byte() };
            self.put(one.min(other), CLASS_SIGNS);
            if self.chance.percent(40) {
                self.made.push(b'-');
                self.put(one.max(other), CLASS_SIGNS);
            }
        }
        self.made.push(b']');
    }
}

fn any_pattern(chance: &mut Chance, letters: &[u8]) -> Vec<u8> {
    let atoms = if chance.percent(10) { chance.between(10, 40) } else { chance.between(1, 9) };
    let mut maker = Maker { chance, letters: letters.to_vec(), atoms, made: Vec::new() };
    maker.list(4);
    maker.made
}

/// Bytes with some of them deleted, doubled, put in or exchanged, or all after some place cut off.
fn damaged(chance: &mut Chance, bytes: &[u8], letters: &[u8]) -> Vec<u8> {
    let mut made = bytes.to_vec();
    for _ in 0..chance.between(1, 3) {
        let new = if chance.percent(60) { chance.pick(b"()|*+?.[]\\-") } else { chance.pick(letters) };
        let at = chance.below(made.len() + 1);
        match chance.below(5) {
            0 if at < made.len() => drop(made.remove(at)),
            1 if at < made.len() => made.insert(at, made[at]),
            2 if at < made.len() => made[at] = new,
            3 if chance.percent(30) => made.truncate(at),
            _ => made.insert(at, new),
        }
    }
    made
}

/// A text that one part reads, `turns` of a repeated item at most.
fn fitting(chance: &mut Chance, expression: &Expression, part: usize, turns: usize, text: &mut Vec<u8>) {
    match &expression.parts[part] {
        Part::Nothing => {}
        Part::OneOf(bytes) => {
            let named: Vec<u8> = (0..=255).filter(|&byte| bytes[byte as usize]).collect();
            let few: Vec<u8> = named.iter().copied().filter(|byte| b"ab\n".contains(byte)).collect();
            let from = if few.is_empty() || chance.percent(15) { &named } else { &few };
            text.push(chance.pick(from));
        }
        Part::Then(first, rest) => {
            fitting(chance, expression, *first, turns, text);
            fitting(chance, expression, *rest, turns, text);
        }
        Part::Choice(branches) => {
            let (_, branch) = chance.pick(branches);
            fitting(chance, expression, branch, turns, text);
        }
        Part::Repeat(sign, _, atom) => {
            let least = usize::from(*sign == b'+');
            let most = if *sign == b'?' { 1 } else { turns };
            for _ in 0..chance.between(least, most.max(least)) {
                fitting(chance, expression, *atom, turns.saturating_sub(1), text);
            }
        }
    }
}

/// A text for a pattern: one that fits, one that nearly does, or any.
pub fn any_text(chance: &mut Chance, pattern: &[u8], letters: &[u8]) -> Vec<u8> {
    let kind = chance.below(10);
    if let (0..=7, Some(expression)) = (kind, pattern::read(pattern)) {
        let mut text = Vec::new();
        let turns = chance.between(1, 4);
        fitting(chance, &expression, expression.root, turns, &mut text);
        text.truncate(60);
        return if kind < 6 { text } else { damaged(chance, &text, letters) };
    }
    (0..chance.below(10)).map(|_| if chance.percent(90) { chance.pick(letters) } else { chance.byte() }).collect()
}

pub fn repeated(piece: &[u8], times: usize) -> Vec<u8> {
    piece.repeat(times)
}

pub fn wrapped(times: usize, before: &[u8], inner: &[u8], after: &[u8]) -> Vec<u8> {
    [before.repeat(times), inner.to_vec(), after.repeat(times)].concat()
}

fn short_text(chance: &mut Chance) -> Vec<u8> {
    let times = chance.below(5);
    repeated(chance.pick::<&[u8]>(&[b"a", b"ab", b"b"]), times)
}

/// Patterns about 512 bytes long.
fn long_pattern(chance: &mut Chance) -> (Vec<u8>, Vec<u8>) {
    let mut pattern = match chance.below(4) {
        0 => repeated(b"()", 255),
        1 => wrapped(1, b"[", &repeated(b"a", 504), b"]*"),
        2 => wrapped(1, b"(a|[", &repeated(b"\\-", 250), b"])+"),
        _ => wrapped(1, b"a[", &repeated(b"a-c", 168), b"]+"),
    };
    let length = chance.between(509, 515);
    let fill = length.saturating_sub(pattern.len());
    match chance.below(3) {
        0 => pattern.extend(repeated(b"a", fill)),
        1 => pattern.extend(repeated(b"()", fill / 2)),
        _ => pattern.extend(repeated(b"(", fill)),
    }
    (pattern, short_text(chance))
}

/// About 64 positions.
fn many_positions(chance: &mut Chance) -> (Vec<u8>, Vec<u8>) {
    let count = chance.between(62, 67);
    let atom = chance.pick::<&[u8]>(&[b"a", b"[ab]", b".", b"\\a", b"(a)"]);
    let (pattern, text) = match chance.below(3) {
        0 => (repeated(atom, count), repeated(b"a", count)),
        1 => (wrapped(1, b"(", &repeated(atom, count), b")*"), repeated(b"a", count * chance.below(4))),
        _ => (wrapped(1, &repeated(atom, count - 10), b"|", &repeated(atom, 10)), repeated(b"a", 10)),
    };
    let cut = if chance.percent(30) { chance.below(text.len() + 1) } else { text.len() };
    (pattern, text[..cut].to_vec())
}

/// About 64 marks.
fn many_marks(chance: &mut Chance) -> (Vec<u8>, Vec<u8>) {
    let count = chance.between(62, 67);
    let pattern = match chance.below(6) {
        0 => repeated(b"a?", count.min(66)),
        1 => repeated(b"()*", count),
        2 => wrapped(1, b"", &repeated(b"()|", count - 1), b"a"),
        3 => wrapped(count - 1, b"(", b"a?", b")?"),
        4 => wrapped((count - 1).min(63), b"(", b"a*", b")+"),
        _ => wrapped(1, b"(a|b)?", &repeated(b"()+", count - 3), b"[ab]"),
    };
    let times = if chance.percent(80) { chance.below(3) } else { chance.below(12) };
    (pattern, repeated(b"a", times))
}

/// Groups about 64 deep or much deeper, some with something beside each, with too many positions or marks, or with mistakes.
fn deep_groups(chance: &mut Chance) -> (Vec<u8>, Vec<u8>) {
    let depth = if chance.percent(80) { chance.between(62, 67) } else { chance.between(68, 240) };
    let inner = match chance.below(6) {
        0 => b"a".to_vec(),
        1 => b"a|b*".to_vec(),
        2 => repeated(b"a", 65),
        3 => repeated(b"()+", 65),
        4 => any_pattern(chance, b"ab"),
        _ => b"()".to_vec(),
    };
    let (before, after): (&[u8], &[u8]) = match chance.below(8) {
        0 => (b"(()", b")"),
        1 => (b"(", b")?"),
        2 => (b"(a|", b")"),
        3 => (b"(", b"|b)"),
        _ => (b"(", b")"),
    };
    let pattern = wrapped(depth, before, &inner, after);
    let cut = if chance.percent(20) { chance.below(pattern.len() + 1) } else { pattern.len() };
    let cut = pattern[..cut].to_vec();
    let made = if chance.percent(30) { damaged(chance, &cut, b"ab") } else { cut };
    (made, short_text(chance))
}

/// Texts of about 4,096 bytes.
fn long_text(chance: &mut Chance) -> (Vec<u8>, Vec<u8>) {
    let pattern = chance.pick::<&[u8]>(&[b"a*", b".*", b"[ab]+", b"a*b?", b"(a|b)*", b"(aa)*", b"(aa|aab?)*", b"a**", b"b*", b"(a|a)*"]);
    let length = if chance.percent(70) { chance.between(4094, 4098) } else { chance.between(500, 7600) };
    let mut text = repeated(b"a", length);
    if chance.percent(30) {
        let at = chance.below(length);
        text[at] = chance.pick(b"ab\n");
    }
    (pattern.to_vec(), text)
}

/// First trees of about 8,192 tokens: so many tokens of each letter a, and some letters behind.
fn long_row(chance: &mut Chance) -> (Vec<u8>, Vec<u8>) {
    let (turn, tokens): (&[u8], usize) = chance.pick(&[(b"a*" as &[u8], 3), (b"(a|b)*", 5), (b"((a)?)+", 5), (b"(ab|a)+", 5)]);
    let length = chance.between(8186, 8198);
    let behind = length % tokens;
    let pattern = [turn, &repeated(b"b", behind)].concat();
    (pattern, [repeated(b"a", length / tokens), repeated(b"b", behind)].concat())
}

/// Patterns at a limit, some with a text that is beyond its own.
fn at_a_limit(chance: &mut Chance) -> (Vec<u8>, Vec<u8>) {
    let (pattern, text) = match chance.below(9) {
        0 | 1 => long_pattern(chance),
        2 | 3 => many_positions(chance),
        4..=6 => many_marks(chance),
        _ => deep_groups(chance),
    };
    if chance.percent(5) {
        return (pattern, repeated(b"a", 4097));
    }
    (pattern, text)
}

/// What is not written as a pattern and a text: signs in any order, any bytes, with one byte 10, several or none, or too many bytes.
fn raw_input(chance: &mut Chance) -> Vec<u8> {
    match chance.below(4) {
        0 => (0..chance.below(12)).map(|_| chance.pick(b"ab()|*+?.[]\\-\n")).collect(),
        1 => (0..chance.below(40)).map(|_| chance.byte()).collect(),
        2 => {
            let letters = letters(chance);
            any_pattern(chance, &letters)
        }
        _ => {
            let before = chance.between(1, 20);
            let times = chance.between(8150, 8300);
            let parting = if chance.percent(80) { b'\n' } else { b'a' };
            [repeated(b".", before), vec![parting], repeated(b"a", times)].concat()
        }
    }
}

/// Neither of the pattern nor of the text much is asked.
fn ordinary(chance: &mut Chance) -> (Vec<u8>, Vec<u8>) {
    let letters = letters(chance);
    let whole = any_pattern(chance, &letters);
    let pattern = if chance.percent(17) { damaged(chance, &whole, &letters) } else { whole };
    let text = any_text(chance, &pattern, &letters);
    (pattern, text)
}

/// How many of a hundred cases have a pattern at a limit, and how many a long text, which costs the reference most.
pub struct Shares {
    pub limits: usize,
    pub long: usize,
}

/// One case. Where the pattern holds byte 10 the desk sees another pattern than the calls do: both count.
pub fn case(chance: &mut Chance, shares: Shares) -> Case {
    let kind = chance.below(100);
    let (pattern, text) = match kind {
        _ if kind < shares.limits => at_a_limit(chance),
        _ if kind < shares.limits + shares.long && chance.percent(50) => long_text(chance),
        _ if kind < shares.limits + shares.long => long_row(chance),
        96.. => {
            let input = raw_input(chance);
            let (pattern, text) = parts_of_input(&input);
            return Case { pattern: pattern.to_vec(), text: text.to_vec(), input };
        }
        _ => ordinary(chance),
    };
    let input = [&pattern[..], b"\n", &text].concat();
    Case { pattern, text, input }
}
