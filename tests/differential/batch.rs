//! Batches of cases for the C host, and what it writes of them: see tests/host/host.c.

use reference::lent::{Left, Lent};
use reference::night::{Night, Record};

#[derive(Clone, Copy, PartialEq, Eq)]
pub enum Call {
    Verdict,
    FirstTree,
    Read,
    Turns,
    Sheet,
}

pub const CALLS: [Call; 5] = [Call::Verdict, Call::FirstTree, Call::Read, Call::Turns, Call::Sheet];

impl Call {
    pub fn name(self) -> &'static str {
        ["verdict", "first tree", "read", "turn count", "night sheet"][self as usize]
    }

    /// How many figures it has.
    pub fn figures(self) -> usize {
        [0, 2, 3, 1, 1][self as usize]
    }
}

/// What is asked of the host. Of the fields it is given those that the call takes.
pub struct Asked<'a> {
    pub call: Call,
    pub pattern: &'a [u8],
    pub text: &'a [u8],
    pub row: &'a [u16],
    pub mark: u64,
    pub night: Night<'a>,
    pub lent: &'a Lent,
}

/// What came out of a call: what should have stayed and did not, as tests/host/calls.h numbers it, and the rest.
pub struct Came {
    pub fell: u8,
    pub left: Left,
}

fn put_length(batch: &mut Vec<u8>, length: usize) {
    batch.extend((length as u32).to_le_bytes());
}

fn put_bytes(batch: &mut Vec<u8>, bytes: &[u8]) {
    put_length(batch, bytes.len());
    batch.extend(bytes);
}

fn put_tokens(batch: &mut Vec<u8>, tokens: &[u16]) {
    put_length(batch, tokens.len());
    batch.extend(tokens.iter().flat_map(|token| token.to_le_bytes()));
}

fn put_words(batch: &mut Vec<u8>, words: &[u64]) {
    put_length(batch, words.len());
    batch.extend(words.iter().flat_map(|word| word.to_le_bytes()));
}

fn put_records(batch: &mut Vec<u8>, records: &[Record]) {
    put_length(batch, records.len());
    batch.extend(records.iter().flat_map(|record| [record.turns, record.bytes, record.longest]).flat_map(|word| word.to_le_bytes()));
}

fn put_night(batch: &mut Vec<u8>, night: &Night, lent: &Lent) {
    put_bytes(batch, night.pattern);
    put_bytes(batch, night.reports);
    put_words(batch, night.lengths);
    put_words(batch, night.last);
    put_words(batch, &lent.cells);
    put_tokens(batch, &lent.room);
    put_records(batch, &lent.table);
    put_bytes(batch, &lent.sheet);
    put_words(batch, &lent.out);
}

/// Adds a case.
pub fn put(batch: &mut Vec<u8>, asked: &Asked) {
    batch.push(asked.call as u8 + 1);
    match asked.call {
        Call::Verdict => {
            put_bytes(batch, asked.pattern);
            put_bytes(batch, asked.text);
        }
        Call::FirstTree => {
            put_bytes(batch, asked.pattern);
            put_bytes(batch, asked.text);
            put_words(batch, &asked.lent.cells);
            put_tokens(batch, &asked.lent.room);
            put_words(batch, &asked.lent.out);
        }
        Call::Read => {
            put_bytes(batch, asked.pattern);
            put_words(batch, &asked.lent.out);
        }
        Call::Turns => {
            put_tokens(batch, asked.row);
            batch.extend(asked.mark.to_le_bytes());
            put_words(batch, &asked.lent.out);
        }
        Call::Sheet => put_night(batch, &asked.night, asked.lent),
    }
}

fn take_bytes<'a>(output: &mut &'a [u8], count: usize) -> Option<&'a [u8]> {
    let taken = output.get(..count)?;
    *output = &output[count..];
    Some(taken)
}

fn take_words(output: &mut &[u8], count: usize) -> Option<Vec<u64>> {
    let bytes = take_bytes(output, 8 * count)?;
    Some(bytes.chunks_exact(8).map(|word| u64::from_le_bytes(word.try_into().expect("a chunk has eight bytes"))).collect())
}

fn take_tokens(output: &mut &[u8], count: usize) -> Option<Vec<u16>> {
    let bytes = take_bytes(output, 2 * count)?;
    Some(bytes.chunks_exact(2).map(|token| u16::from_le_bytes([token[0], token[1]])).collect())
}

fn take_records(output: &mut &[u8], count: usize) -> Option<Vec<Record>> {
    let words = take_words(output, 3 * count)?;
    Some(words.chunks_exact(3).map(|three| Record { turns: three[0], bytes: three[1], longest: three[2] }).collect())
}

/// What came out of the next case, to which so much was lent; nothing if the output breaks off.
pub fn take(output: &mut &[u8], lent: &Lent) -> Option<Came> {
    let number = u32::from_le_bytes(take_bytes(output, 4)?.try_into().ok()?);
    let fell = take_bytes(output, 1)?[0];
    let cells = take_words(output, lent.cells.len())?;
    let room = take_tokens(output, lent.room.len())?;
    let table = take_records(output, lent.table.len())?;
    let sheet = take_bytes(output, lent.sheet.len())?.to_vec();
    let out = take_words(output, lent.out.len())?;
    Some(Came { fell, left: Left { number, lent: Lent { cells, room, table, sheet, out } } })
}
