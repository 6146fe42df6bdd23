//! The night sheet held to nights worked out by hand, to each refusal and their order, and to the turns of trees.

use crate::answers::{self, Answer};
use crate::lent::{Left, Lent};
use crate::night::{sheet_left, Night, Record, LAST_LIMIT, NIGHT_CELLS, SHEET_BYTES};
use crate::self_test::{rows_over, wrapped, Checks, EFFORT};
use std::rc::Rc;

const GARBAGE: Record = Record { turns: u64::MAX, bytes: 7, longest: 9 };

/// A night that can be changed before it is asked for.
struct Asked {
    pattern: Vec<u8>,
    reports: Vec<u8>,
    lengths: Vec<u64>,
    last: Vec<u64>,
    lent: Lent,
}

/// What is lent: two cells, two sheet bytes and two figures more than are asked for, all of it full.
fn lent(room: usize, marks: usize) -> Lent {
    Lent {
        cells: vec![7; NIGHT_CELLS + 2],
        room: vec![9; room],
        table: vec![GARBAGE; marks],
        sheet: vec![b'#'; SHEET_BYTES + 2],
        out: vec![5; 3],
    }
}

fn asked(pattern: &str, reports: &[&[u8]], last: &[u64], room: usize) -> Asked {
    Asked {
        pattern: pattern.as_bytes().to_vec(),
        reports: reports.concat(),
        lengths: reports.iter().map(|report| report.len() as u64).collect(),
        last: last.to_vec(),
        lent: lent(room, last.len()),
    }
}

/// The night of the worked example.
fn example() -> Asked {
    asked("(a|b)*", &[b"ab", b"", b"x"], &[5, 1, 0], 12)
}

fn changed(change: impl FnOnce(&mut Asked)) -> Asked {
    let mut asked = example();
    change(&mut asked);
    asked
}

fn left(asked: &Asked) -> Left {
    let Asked { pattern, reports, lengths, last, lent } = asked;
    let night = Night { pattern, reports, lengths, last };
    let wholes: Vec<Rc<Answer>> = night.wholes(EFFORT).expect("an example costs little");
    sheet_left(&night, &wholes, lent)
}

/// The sheet in words, the room and the table of a night that is not refused; and that the rest is as it should be.
fn sheet(checks: &mut Checks, what: &str, asked: &Asked) -> (String, Vec<u16>, Vec<Record>) {
    let Left { number, lent } = left(asked);
    let value = lent.out[0] as usize;
    let cells = [vec![0; NIGHT_CELLS], vec![7; 2]].concat();
    checks.same(&format!("{what}: number, cells and out"), (number, &lent.cells, &lent.out[1..]), (0, &cells, &[5, 5][..]));
    checks.same(&format!("{what}: the sheet behind its end"), lent.sheet[value..].iter().all(|&byte| byte == b'#'), true);
    checks.same(&format!("{what}: the sheet's last byte"), lent.sheet[value - 1], 10);
    let lines = String::from_utf8_lossy(&lent.sheet[..value]).trim_end_matches('\n').replace('\n', " ");
    (lines, lent.room, lent.table)
}

fn records(figures: &[[u64; 3]]) -> Vec<Record> {
    figures.iter().map(|&[turns, bytes, longest]| Record { turns, bytes, longest }).collect()
}

fn by_hand(checks: &mut Checks) {
    let row = [1, 2, 353, 130, 129, 1, 3, 354, 131, 129, 9, 9];
    let wanted = ("3 0 0 8 3 2 2 1 1 1 1 1 1 1 3 -3 0 +1".to_string(), row.to_vec(), records(&[[2, 2, 1], [1, 1, 1], [1, 1, 1]]));
    let got = sheet(checks, "the worked example", &example());
    checks.same("the worked example", got, wanted);
    let none = sheet(checks, "no reports", &asked("(a|b)*", &[], &[5, 1, 0], 2));
    checks.same("no reports", none, ("0 3 0 0 0 0 0 0 0 0 0 3 -5 -1 0".to_string(), vec![9; 2], records(&[[0; 3]; 3])));
    let unmarked = sheet(checks, "no marks", &asked("ab", &[b"ab", b"a", b"ab"], &[], 3));
    checks.same("no marks", unmarked, ("3 0 8 0 0 0".to_string(), vec![353, 354, 9], vec![]));
    let nothing = sheet(checks, "no reports and no marks", &asked("()", &[], &[], 0));
    checks.same("no reports and no marks", nothing, ("0 0 0".to_string(), vec![], vec![]));
    // the second report's tree is too long for the room, the third has more than 4,096 bytes
    let long = [b'a'; 4097];
    let four = sheet(checks, "each number", &asked("a*", &[b"aa", b"aaa", &long, b"a", b"b"], &[0], 7));
    checks.same("each number", four, ("5 0 9 2 0 8 1 3 3 1 1 +3".to_string(), vec![1, 353, 129, 1, 353, 129, 9], records(&[[3, 3, 1]])));
    // `((row)*)+`: the sole turn over nothing is none, and a longer turn in one report is the longest of the night
    let rows = sheet(checks, "empty turns", &asked("((row)*)+", &[b"", b"rowrow", b"row"], &[2, 1], 40));
    checks.same("empty turns", (rows.0, rows.2), ("3 0 0 0 2 2 9 6 3 9 3 2 0 +2".to_string(), records(&[[2, 9, 6], [3, 9, 3]])));
}

/// Each refusal, with its value alone changed.
fn refusals(checks: &mut Checks) {
    let deep = wrapped(65, "(", "a", ")");
    let few_cells = |asked: &mut Asked| asked.lent.cells.truncate(NIGHT_CELLS - 1);
    let few_bytes = |asked: &mut Asked| asked.lent.sheet.truncate(SHEET_BYTES - 1);
    let refused: [(&str, Asked, u32, u64); 19] = [
        ("a long pattern", changed(|asked| asked.pattern = vec![b'a'; 513]), 1, 0),
        ("few cells", changed(few_cells), 3, 0),
        ("few bytes", changed(few_bytes), 3, 0),
        ("not a pattern", changed(|asked| asked.pattern = b"a**".to_vec()), 4, 2),
        ("65 groups", changed(|asked| asked.pattern = deep), 5, 0),
        ("65 positions", changed(|asked| asked.pattern = vec![b'a'; 65]), 6, 0),
        ("65 marks", changed(|asked| asked.pattern = b"()+".repeat(65)), 7, 0),
        ("1,001 reports", changed(|asked| asked.lengths = [vec![0; 1000], vec![3]].concat()), 12, 0),
        ("a length short", changed(|asked| asked.lengths[1] = 1), 12, 0),
        ("a byte short", changed(|asked| asked.reports.truncate(2)), 12, 0),
        ("no lengths", changed(|asked| asked.lengths.clear()), 12, 0),
        ("a sum beyond 64 bits", changed(|asked| asked.lengths = vec![u64::MAX, 4]), 12, 0),
        ("a record short", changed(|asked| asked.lent.table.truncate(2)), 13, 0),
        ("a record more", changed(|asked| asked.lent.table.push(GARBAGE)), 13, 0),
        ("a number of last night short", changed(|asked| asked.last.truncate(2)), 13, 0),
        ("a number of last night more", changed(|asked| asked.last.push(u64::MAX)), 13, 0),
        ("table and last night exchanged", changed(|asked| (asked.last, asked.lent.table) = (vec![0; 4], vec![GARBAGE; 2])), 13, 0),
        ("a large number of last night", changed(|asked| asked.last[2] = LAST_LIMIT + 1), 14, 0),
        ("the largest number of last night", changed(|asked| asked.last[0] = u64::MAX), 14, 0),
    ];
    for (what, asked, number, value) in refused {
        checks.same(what, left(&asked), Left { number, lent: Lent { out: vec![value, 5, 5], ..asked.lent } });
    }
}

/// With all grounds at once the first in order is given, and with each of them taken away the next.
fn order(checks: &mut Checks) {
    let mut asked = asked("(", &[b"a"], &[u64::MAX], 0);
    asked.lengths = vec![0; 1001];
    asked.lent.cells.clear();
    asked.lent.table.clear();
    asked.pattern = vec![b'('; 513];
    let mut given = vec![left(&asked).number];
    let steps: [fn(&mut Asked); 9] = [
        |asked| asked.pattern.truncate(512),
        |asked| asked.lent.cells = vec![7; NIGHT_CELLS],
        |asked| asked.pattern = wrapped(65, "(a*", "", ")"),
        |asked| asked.pattern = b"a*".repeat(65),
        |asked| asked.pattern = b"()*".repeat(65),
        |asked| asked.pattern = b"a*".to_vec(),
        |asked| asked.lengths = vec![1],
        |asked| asked.lent.table = vec![GARBAGE],
        |asked| asked.last = vec![LAST_LIMIT],
    ];
    for step in steps {
        step(&mut asked);
        given.push(left(&asked).number);
    }
    checks.same("the order of the refusals of a sheet", given, vec![1, 3, 4, 5, 6, 7, 12, 13, 14, 0]);
}

/// What a tree says of its marks, each closing taken with the opening that is still open.
fn count_tree(tree: &[u16], records: &mut [Record]) {
    let mut open = Vec::new();
    for (at, &token) in tree.iter().enumerate() {
        match token {
            0..=127 => open.push(at),
            128..=255 => {
                let opening = open.pop().expect("a tree closes what it has opened");
                let bytes = tree[opening..at].iter().filter(|&&token| token > 255).count() as u64;
                let record = &mut records[usize::from(token) - 129];
                record.turns += u64::from(bytes > 0);
                record.bytes += bytes;
                record.longest = record.longest.max(bytes);
            }
            _ => {}
        }
    }
}

/// The table of a night of all short texts is what their first trees say.
fn all_short_texts(checks: &mut Checks) {
    let texts = rows_over(b"ab", 5);
    let reports: Vec<&[u8]> = texts.iter().map(|text| &text[..]).collect();
    for pattern in ["()+", "a+b?", "(a*)*", "((ab)*)+", "(a?b?)+", "((a|())+b?)*", "(a|b|ab)*", "((a*)+|b)+", "a|ab", "(a|ab)(b|ba)?", "ab"] {
        let (_, [_, _, marks]) = answers::read(pattern.as_bytes());
        let mut table = vec![Record::default(); marks];
        for text in &texts {
            count_tree(&answers::whole(pattern.as_bytes(), text, EFFORT).expect("an example costs little").row, &mut table);
        }
        let got = sheet(checks, pattern, &asked(pattern, &reports, &vec![0; marks], 500)).2;
        checks.same(&format!("the table of all short texts of {pattern}"), got, table);
    }
}

pub fn run(checks: &mut Checks) {
    by_hand(checks);
    refusals(checks);
    order(checks);
    all_short_texts(checks);
}
