//! The reference held to the rules' own examples, and its two shortcuts (completions of a beginning, how far a text gets) to plain search.

use crate::answers::{answer, desk_answer, lines, read, verdict, whole, Effort};
use crate::lent::{first_tree_left, read_left, turns_left, verdict_left, Left, Lent};
use crate::pattern;
use crate::self_test_sheet;
use crate::self_test_turns;

pub const EFFORT: Effort = Effort { steps: 50_000_000, tokens: 2_000_000 };

/// Counts what held and tells of what did not.
pub struct Checks {
    passed: usize,
    failed: usize,
}

impl Checks {
    pub fn same<T: PartialEq + std::fmt::Debug>(&mut self, what: &str, got: T, wanted: T) {
        if got == wanted {
            self.passed += 1;
        } else {
            self.failed += 1;
            println!("reference: {what}: got {got:?}, wanted {wanted:?}");
        }
    }
}

/// Number, value and flag with as much room as the tree wants.
fn numbers(pattern: &[u8], text: &[u8]) -> (u32, usize, u32) {
    let answer = answer(pattern, text, usize::MAX, usize::MAX, EFFORT).expect("an example costs little");
    (answer.number, answer.value, answer.flag)
}

/// A row as the rules write it: oH, cH, and letters.
fn row_in_words(row: &[u16]) -> String {
    let words: Vec<String> = row
        .iter()
        .map(|&token| match token {
            0..=127 => format!("o{token}"),
            128..=255 => format!("c{}", token - 128),
            _ => char::from((token - 256) as u8).to_string(),
        })
        .collect();
    words.join(" ")
}

fn readings(checks: &mut Checks) {
    let table: [(&str, &str, &str, u32); 19] = [
        ("()", "", "", 0),
        ("a*", "", "", 0),
        ("()+", "", "o1 c1", 0),
        ("a+", "aa", "o1 a c1 o1 a c1", 0),
        ("(a*)*", "a", "o1 o2 a c2 c1", 0),
        ("(a*)*", "aa", "o1 o2 a c2 o2 a c2 c1", 1),
        ("(a*)+", "", "o1 c1", 0),
        ("(a*)?", "", "", 0),
        ("a|a", "a", "o1 a c1", 1),
        ("(a|())+", "a", "o1 o2 a c2 c1", 0),
        // worked out by hand: where marks share a start, where a later item or an earlier one has the other tree, ends of ranges
        ("a*|b", "a", "o1 o2 a c2 c1", 0),
        ("a*|b", "b", "o3 b c3", 0),
        ("(a|b)*", "ba", "o1 o3 b c3 c1 o1 o2 a c2 c1", 0),
        ("((a|b)*c)?", "bc", "o1 o2 o4 b c4 c2 c c1", 0),
        ("(a|a)b", "ab", "o1 a c1 b", 1),
        ("b(a|a)", "ba", "b o1 a c1", 1),
        ("[a-c]+", "ac", "o1 a c1 o1 c c1", 0),
        ("[b-b^\\-]+", "b^-", "o1 b c1 o1 ^ c1 o1 - c1", 0),
        ("(()|a?)+", "", "o1 o2 c2 c1", 1),
    ];
    for (pattern, text, row, flag) in table {
        let got = answer(pattern.as_bytes(), text.as_bytes(), usize::MAX, usize::MAX, EFFORT).expect("an example costs little");
        checks.same(pattern, (got.number, row_in_words(&got.row), got.flag, got.every_tree_written), (0, row.to_string(), flag, true));
        let wanted = if flag == 1 { 11 } else { 0 };
        checks.same(pattern, verdict(&got), wanted);
    }
}

fn places(checks: &mut Checks) {
    let not_patterns: [(&str, usize); 8] = [("", 0), ("a**", 2), ("(a", 2), (")", 0), ("[]", 1), ("[z-a]", 3), ("[a-]", 3), ("a\\", 2)];
    for (pattern, place) in not_patterns {
        checks.same(pattern, numbers(pattern.as_bytes(), b"x"), (4, place, 0));
    }
    // worked out by hand
    for (pattern, place) in [("a]", 1), ("(|a)", 1), ("a|*", 2), ("[b-\\a]", 4), ("[a-b-c]", 4), ("[^", 2), ("[a[", 2), ("()()?+", 5)] {
        checks.same(pattern, numbers(pattern.as_bytes(), b""), (4, place, 0));
    }
    checks.same("a) after 100 letters", numbers(&["a".repeat(100).as_bytes(), b")"].concat(), b""), (4, 100, 0));
    for (text, place) in [("axd", 2), ("ax", 2), ("axcc", 3)] {
        checks.same(text, numbers(b"a.c", text.as_bytes()), (8, place, 0));
    }
    checks.same("a.c", numbers(b"a.c", b"axc"), (0, 3, 0));
    checks.same("a.c over byte 10", numbers(b"a.c", b"a\nc"), (0, 3, 0));
}

/// `inner` between `times` of `before` and `after`.
pub fn wrapped(times: usize, before: &str, inner: &str, after: &str) -> Vec<u8> {
    (before.repeat(times) + inner + &after.repeat(times)).into_bytes()
}

fn limits(checks: &mut Checks) {
    let letters = |count: usize| "a".repeat(count).into_bytes();
    checks.same("() 256 times", numbers("()".repeat(256).as_bytes(), b""), (0, 0, 0));
    checks.same("() 257 times", numbers("()".repeat(257).as_bytes(), b""), (1, 0, 0));
    checks.same("4,096 letters", numbers(b"a*", &letters(4096)), (0, 3 * 4096, 0));
    checks.same("4,097 letters", numbers(b"a*", &letters(4097)), (2, 0, 0));
    checks.same("64 positions", numbers(&letters(64), &letters(64)), (0, 64, 0));
    checks.same("65 positions", numbers(&letters(65), b""), (6, 0, 0));
    checks.same("64 groups", numbers(&wrapped(64, "(", "a", ")"), b"a"), (0, 1, 0));
    checks.same("65 groups", numbers(&wrapped(65, "(", "a", ")"), b"a"), (5, 0, 0));
    checks.same("65 groups and positions", numbers(&wrapped(65, "(", &"a".repeat(65), ")"), b"a"), (5, 0, 0));
    checks.same("64 marks", numbers(&wrapped(63, "(", "a?", ")?"), b"a"), (0, 129, 0));
    checks.same("65 groups and marks: nesting first", numbers(&wrapped(65, "(", "a?", ")?"), b"a"), (5, 0, 0));
    checks.same("65 marks", numbers(&wrapped(64, "(", "a?", ")?"), b"a"), (7, 0, 0));
    let lent = |cells: usize, room: usize| answer(b"a+", b"aa", cells, room, EFFORT).map(|got| (got.number, got.value)).ok();
    checks.same("room 5", lent(3, 5), Some((9, 6)));
    checks.same("room 6", lent(3, 6), Some((0, 6)));
    checks.same("two cells", lent(2, 6), Some((3, 0)));
    checks.same("three cells", lent(3, 6), Some((0, 6)));
}

fn desk(checks: &mut Checks) {
    let prints = |input: &[u8]| desk_answer(input, EFFORT).map(|answer| lines(&answer)).ok();
    checks.same("the desk's example", prints(b"(a|ab)b?\nab"), Some("ANSWER 0 6 1\nTREE o1 b97 c1 o3 b98 c3\n".to_string()));
    checks.same("an empty row", prints(b"a*\n"), Some("ANSWER 0 0 0\nTREE\n".to_string()));
    checks.same("no byte 10", prints(b"a*"), Some("ANSWER 0 0 0\nTREE\n".to_string()));
    checks.same("no input", prints(b""), Some("ANSWER 4 0 0\n".to_string()));
    checks.same("a text with byte 10", prints(b"..\n\n\xff"), Some("ANSWER 0 2 0\nTREE b10 b255\n".to_string()));
    let filled = |behind: &str| {
        let input = format!("a*{behind}\n{}{behind}", "a".repeat(2730));
        desk_answer(input.as_bytes(), EFFORT).map(|got| (got.number, got.value)).ok()
    };
    checks.same("8,192 tokens", filled("bb"), Some((0, 8192)));
    checks.same("8,193 tokens", filled("bbb"), Some((9, 8193)));
    let cut = [b"a\n".to_vec(), vec![b'a'; 9000]].concat();
    checks.same("only 8,192 bytes are taken", desk_answer(&cut, EFFORT).ok().map(|got| got.number), Some(2));
}

/// What is left of five cells that hold 7, eight tokens that hold 9 and three figures that hold 5, by each line of the table of answers.
fn lent(checks: &mut Checks) {
    let left = |pattern: &[u8], text: &[u8], cells: usize, room: usize| {
        let lent = Lent { cells: vec![7; cells], room: vec![9; room], out: vec![5; 3], ..Lent::default() };
        whole(pattern, text, EFFORT).ok().map(|whole| first_tree_left(&whole, text.len(), &lent))
    };
    let wanted = |number, value, flag, cells: &[u64], room: &[u16]| {
        Some(Left { number, lent: Lent { cells: cells.to_vec(), room: room.to_vec(), out: vec![value, flag, 5], ..Lent::default() } })
    };
    let row = [1, 353, 129, 1, 353, 129];
    let (cells, room) = (&[7; 5][..], &[9; 8][..]);
    checks.same("lent: a long pattern", left(&[b'a'; 513], b"aa", 5, 8), wanted(1, 0, 0, cells, room));
    checks.same("lent: a long text", left(b"a+", &[b'a'; 4097], 5, 8), wanted(2, 0, 0, cells, room));
    checks.same("lent: two cells", left(b"a+", b"aa", 2, 8), wanted(3, 0, 0, &[7, 7], room));
    checks.same("lent: two cells, and not a pattern", left(b"a**", b"aa", 2, 8), wanted(3, 0, 0, &[7, 7], room));
    checks.same("lent: not a pattern", left(b"a**", b"aa", 3, 8), wanted(4, 2, 0, &[7, 7, 7], room));
    checks.same("lent: 65 groups", left(&wrapped(65, "(", "a", ")"), b"aa", 5, 8), wanted(5, 0, 0, cells, room));
    checks.same("lent: 65 positions", left(&[b'a'; 65], b"aa", 5, 8), wanted(6, 0, 0, cells, room));
    checks.same("lent: 65 marks", left("()+".repeat(65).as_bytes(), b"aa", 5, 8), wanted(7, 0, 0, cells, room));
    checks.same("lent: no tree", left(b"a.c", b"ax", 5, 8), wanted(8, 2, 0, &[0, 0, 0, 7, 7], room));
    checks.same("lent: no tree, and no room", left(b"a.c", b"ax", 3, 0), wanted(8, 2, 0, &[0; 3], &[]));
    checks.same("lent: room 5", left(b"a+", b"aa", 5, 5), wanted(9, 6, 0, &[0, 0, 0, 7, 7], &[9; 5]));
    checks.same("lent: room 6", left(b"a+", b"aa", 3, 6), wanted(0, 6, 0, &[0, 0, 0], &row));
    checks.same("lent: room 8", left(b"a+", b"aa", 4, 8), wanted(0, 6, 0, &[0, 0, 0, 7], &[&row[..], &[9, 9]].concat()));
    checks.same("lent: another tree", left(b"a|a", b"a", 2, 3), wanted(0, 3, 1, &[0, 0], &[1, 353, 129]));
}

/// As many figures are written as `out` is long, and the rest of it is unchanged.
fn figures(checks: &mut Checks) {
    let lent = |length: usize| Lent { cells: vec![7; 2], room: vec![9; 3], out: vec![5; length], ..Lent::default() };
    let two_trees = whole(b"a|a", b"a", EFFORT).expect("an example costs little");
    for (length, wanted) in [(0, vec![]), (1, vec![3]), (2, vec![3, 1]), (3, vec![3, 1, 5]), (5, vec![3, 1, 5, 5, 5])] {
        checks.same("figures of the first tree", first_tree_left(&two_trees, 1, &lent(length)).lent.out, wanted);
    }
    for (length, wanted) in [(0, vec![]), (1, vec![0]), (2, vec![0, 4]), (3, vec![0, 4, 3]), (5, vec![0, 4, 3, 5, 5])] {
        let left = read_left(b"(a|ab)b?", &lent(length));
        checks.same("figures of a pattern", left, Left { number: 0, lent: Lent { out: wanted, ..Lent::default() } });
    }
    for (length, wanted) in [(0, vec![]), (1, vec![2]), (3, vec![2, 5, 5])] {
        let left = turns_left(&[1, 353, 129, 1, 353, 129], 1, &lent(length));
        checks.same("figures of the turn count", left, Left { number: 0, lent: Lent { out: wanted, ..Lent::default() } });
    }
    checks.same("a verdict has no figures", verdict_left(&two_trees), Left { number: 11, lent: Lent::default() });
}

/// Positions and marks of patterns, and what is said of those that are refused.
fn patterns(checks: &mut Checks) {
    let few = [("()", 0, 0), ("a*", 1, 1), ("(a*)*", 1, 2), ("a|a", 2, 2), ("(a|())+", 1, 3), ("(a|ab)b?", 4, 3), ("a.[b-d]\\*", 4, 0)];
    for (pattern, positions, marks) in few {
        checks.same(pattern, read(pattern.as_bytes()), (0, [0, positions, marks]));
    }
    for (pattern, place) in [("", 0), ("a**", 2), ("(a", 2), ("[z-a]", 3)] {
        checks.same(pattern, read(pattern.as_bytes()), (4, [place, 0, 0]));
    }
    checks.same("a pattern of 513 bytes, which is none", read("(".repeat(513).as_bytes()), (1, [0; 3]));
    checks.same("65 open groups", read("(".repeat(65).as_bytes()), (4, [65, 0, 0]));
    checks.same("65 groups with positions and marks", read(&wrapped(65, "(a*", "a", ")")), (5, [0; 3]));
    checks.same("65 positions and marks", read("a*".repeat(65).as_bytes()), (6, [0; 3]));
    checks.same("65 marks in a pattern", read("()*".repeat(65).as_bytes()), (7, [0; 3]));
    checks.same("64 positions and marks", read("a*".repeat(64).as_bytes()), (0, [0, 64, 64]));
}

/// All rows of up to `longest` letters.
pub fn rows_over<T: Copy>(letters: &[T], longest: usize) -> Vec<Vec<T>> {
    let mut rows = vec![Vec::new()];
    let mut from = 0;
    for _ in 0..longest {
        let to = rows.len();
        for index in from..to {
            for &letter in letters {
                let longer = [&rows[index][..], &[letter]].concat();
                rows.push(longer);
            }
        }
        from = to;
    }
    rows
}

/// The few completions that are tried find as much as all short ones do.
fn completions(checks: &mut Checks) {
    let ends = rows_over(b"a\xff()]", 4);
    for beginning in rows_over(b"ab()|*[]-\\", 3) {
        let by_search = ends.iter().any(|end| pattern::read(&[&beginning[..], end].concat()).is_some());
        checks.same(&format!("whether {beginning:?} begins a pattern"), pattern::begins_a_pattern(&beginning), by_search);
    }
}

/// The place of 8 is what a search through all short texts finds. Each pattern here completes any beginning within four bytes.
fn reaches(checks: &mut Checks) {
    let texts = rows_over(b"ab", 4);
    for pattern in ["ab", "a*b", "(a|bb)*a", "(ab)+", "(a|())+b", "((a*)b)*a?b", "a?b?a?", "(ab|ba)?aa", "(a|ab)(b|ba)", "((a|b)a)+"] {
        for text in &texts {
            let (number, place, _) = numbers(pattern.as_bytes(), text);
            if number != 8 {
                continue;
            }
            let is_begun = |length: usize| texts.iter().any(|end| numbers(pattern.as_bytes(), &[&text[..length], end].concat()).0 == 0);
            let longest = (0..=text.len()).rev().find(|&length| is_begun(length));
            checks.same(&format!("the place of 8 for {pattern} and {text:?}"), Some(place), longest);
        }
    }
}

/// Whether all of it held; prints the count.
pub fn run() -> bool {
    let mut checks = Checks { passed: 0, failed: 0 };
    readings(&mut checks);
    places(&mut checks);
    limits(&mut checks);
    desk(&mut checks);
    lent(&mut checks);
    figures(&mut checks);
    patterns(&mut checks);
    self_test_turns::run(&mut checks);
    self_test_sheet::run(&mut checks);
    completions(&mut checks);
    reaches(&mut checks);
    println!("reference: {} passed, {} failed", checks.passed, checks.failed);
    checks.failed == 0
}
