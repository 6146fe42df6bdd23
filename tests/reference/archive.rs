//! The reference behind the calls of include/dimmhalt.h, so that the C host can be tried without the product.

use reference::answers::{self, Answer};
use reference::lent::{first_tree_left, read_left, turns_left, verdict_left, Left, Lent};
use reference::night::{sheet_left, Night, Record};
use std::slice::{from_raw_parts, from_raw_parts_mut};

const EFFORT: answers::Effort = answers::Effort { steps: 20_000_000, tokens: 0 };

/// Stack for each byte of pattern and text. A memory checker is slow where a stack is large.
const STACK_FOR_BYTE: usize = 1 << 14;

/// What a thread answers whose stack is large enough for so many bytes of pattern and text.
fn on_large_stack<T: Send>(bytes: usize, work: impl FnOnce() -> T + Send) -> T {
    let stack = STACK_FOR_BYTE * bytes.clamp(64, answers::PATTERN_LIMIT + answers::TEXT_LIMIT);
    std::thread::scope(|scope| {
        let worker = std::thread::Builder::new().stack_size(stack).spawn_scoped(scope, work);
        worker.expect("a thread with a large stack").join().expect("the reference ends")
    })
}

/// The answer of the first tree without want, or nothing where it would be too much work.
fn whole(pattern: &[u8], text: &[u8]) -> Option<Answer> {
    on_large_stack(pattern.len() + text.len(), || answers::whole(pattern, text, EFFORT).ok())
}

/// # Safety
/// As `from_raw_parts_mut`.
unsafe fn figures<'a>(out: *mut u64, out_length: usize) -> (&'a mut [u64], Lent) {
    let out = from_raw_parts_mut(out, out_length);
    let before = Lent { out: out.to_vec(), ..Lent::default() };
    (out, before)
}

/// Writes the figures and answers the number.
fn told(left: &Left, out: &mut [u64]) -> u32 {
    out.copy_from_slice(&left.lent.out);
    left.number
}

/// # Safety
/// The pointers are not null and valid for their lengths.
#[no_mangle]
pub unsafe extern "C" fn dimmhalt_verdict(pattern: *const u8, pattern_length: usize, text: *const u8, text_length: usize) -> u32 {
    let (pattern, text) = (from_raw_parts(pattern, pattern_length), from_raw_parts(text, text_length));
    whole(pattern, text).map_or(answers::TOO_MUCH, |whole| verdict_left(&whole).number)
}

/// # Safety
/// The pointers are not null, aligned and valid for their lengths, and nothing else reads or writes what is lent.
#[no_mangle]
pub unsafe extern "C" fn dimmhalt_first_tree(
    pattern: *const u8,
    pattern_length: usize,
    text: *const u8,
    text_length: usize,
    cells: *mut u64,
    cells_length: usize,
    tree: *mut u16,
    tree_length: usize,
    out: *mut u64,
    out_length: usize,
) -> u32 {
    let (pattern, text) = (from_raw_parts(pattern, pattern_length), from_raw_parts(text, text_length));
    let (cells, tree) = (from_raw_parts_mut(cells, cells_length), from_raw_parts_mut(tree, tree_length));
    let (out, before) = figures(out, out_length);
    let Some(whole) = whole(pattern, text) else { return answers::TOO_MUCH };
    let left = first_tree_left(&whole, text_length, &Lent { cells: cells.to_vec(), room: tree.to_vec(), ..before });
    cells.copy_from_slice(&left.lent.cells);
    tree.copy_from_slice(&left.lent.room);
    told(&left, out)
}

/// # Safety
/// As for the first tree.
#[no_mangle]
pub unsafe extern "C" fn dimmhalt_read(pattern: *const u8, pattern_length: usize, out: *mut u64, out_length: usize) -> u32 {
    let pattern = from_raw_parts(pattern, pattern_length);
    let (out, before) = figures(out, out_length);
    told(&on_large_stack(pattern_length.min(answers::PATTERN_LIMIT), || read_left(pattern, &before)), out)
}

/// # Safety
/// As for the first tree.
#[no_mangle]
pub unsafe extern "C" fn dimmhalt_turns(row: *const u16, row_length: usize, mark: u64, out: *mut u64, out_length: usize) -> u32 {
    let (out, before) = figures(out, out_length);
    told(&turns_left(from_raw_parts(row, row_length), mark, &before), out)
}

/// # Safety
/// As for the first tree.
#[no_mangle]
pub unsafe extern "C" fn dimmhalt_sheet(
    pattern: *const u8,
    pattern_length: usize,
    reports: *const u8,
    reports_length: usize,
    lengths: *const u64,
    lengths_length: usize,
    last: *const u64,
    last_length: usize,
    cells: *mut u64,
    cells_length: usize,
    tree: *mut u16,
    tree_length: usize,
    table: *mut Record,
    table_length: usize,
    sheet: *mut u8,
    sheet_length: usize,
    out: *mut u64,
    out_length: usize,
) -> u32 {
    let (pattern, reports) = (from_raw_parts(pattern, pattern_length), from_raw_parts(reports, reports_length));
    let night = Night { pattern, reports, lengths: from_raw_parts(lengths, lengths_length), last: from_raw_parts(last, last_length) };
    let (cells, tree) = (from_raw_parts_mut(cells, cells_length), from_raw_parts_mut(tree, tree_length));
    let (table, sheet) = (from_raw_parts_mut(table, table_length), from_raw_parts_mut(sheet, sheet_length));
    let (out, before) = figures(out, out_length);
    let before = Lent { cells: cells.to_vec(), room: tree.to_vec(), table: table.to_vec(), sheet: sheet.to_vec(), ..before };
    let left = on_large_stack(pattern_length + reports_length, || {
        night.wholes(EFFORT).ok().map(|wholes| sheet_left(&night, &wholes, &before))
    });
    let Some(left) = left else { return answers::TOO_MUCH };
    cells.copy_from_slice(&left.lent.cells);
    tree.copy_from_slice(&left.lent.room);
    table.copy_from_slice(&left.lent.table);
    sheet.copy_from_slice(&left.lent.sheet);
    told(&left, out)
}
