//! Bracketed operands outside mload and mstore, document 02's Point 6: "the Rust comparison is over sources without such rows". Of a source with one the Rust
//! is asked with `psp` in place of each such operand, and the refusal that is due follows from its answer; the label table and the figures stay those of the
//! source as it stands. How such a source is respelt, how many there were, how such operands are drawn, and the cases of them.
use crate::generate::bracket;
use crate::named::{listed, metered, refused, row, source, words, Named};
use crate::paper;
use crate::random::Random;
use oracle::Answer;

/// A source with `psp` in place of each bracketed operand in a readable row of another operation than mload and mstore, the index in sorted order of the first
/// instruction with one, where every row is readable, and whether all of them stood in dst.
pub struct Outside {
    text: String,
    first: u64,
    in_dst: bool,
}

/// How many sources with such an operand got each refusal, and how many of those with 25 have all of them in dst.
#[derive(Clone, Copy, Default)]
pub struct Brackets {
    pub refusals: [u64; 26],
    pub in_dst: u64,
}

impl Brackets {
    pub fn tally(&mut self, outside: &Outside, number: u64) {
        self.refusals[number as usize] += 1;
        self.in_dst += u64::from(number == 25 && outside.in_dst);
    }
}

/// A source respelt at the same length, where it has such an operand. None is shorter than `psp`.
pub fn outside(source: &str) -> Option<Outside> {
    let rows: Vec<Vec<&str>> = paper::instructions(source).into_iter().map(bracketed).collect();
    let first = rows.iter().position(|pieces| !pieces.is_empty())? as u64;
    let (mut text, mut in_dst) = (source.as_bytes().to_vec(), true);
    for pieces in &rows {
        for (n, operand) in pieces.iter().enumerate().filter(|(n, piece)| *n > 0 && piece.starts_with('[')) {
            let start = paper::place(source, operand);
            text[start..start + operand.len()].fill(b' ');
            text[start..start + 3].copy_from_slice(b"psp");
            in_dst &= n == 1 && paper::dst_first(pieces);
        }
    }
    Some(Outside { text: String::from_utf8(text).unwrap(), first, in_dst })
}

/// The pieces of an instruction row with such an operand, none of any other row. Whether the row is readable is asked of the Rust.
fn bracketed(row: &str) -> Vec<&str> {
    let pieces: Vec<&str> = row.split_whitespace().collect();
    let readable = || !matches!(oracle::assemble(&format!("main:\n{row}"), &[]), Answer::Refused(3, _) | Answer::Panicked);
    let has = !paper::memory(pieces[0]) && pieces[1..].iter().any(|piece| piece.starts_with('[')) && readable();
    if has {
        pieces
    } else {
        vec![]
    }
}

impl Outside {
    /// The refusal of a source that refusals 1 to 8 let pass: "25, with the instruction's index, ... in the walk of 10 and 11, before either at the same
    /// instruction". 12 comes after that walk.
    pub fn refusal(&self, names: &[&str]) -> Result<(u64, u64), String> {
        match oracle::assemble(&self.text, names) {
            Answer::Refused(9, prophet) => Ok((9, prophet)),
            Answer::Refused(number @ 10..=11, index) if index < self.first => Ok((number, index)),
            Answer::Refused(10..=12, _) | Answer::Accepted(_) => Ok((25, self.first)),
            Answer::Refused(number, detail) => Err(format!("with psp in place of brackets the Rust refuses with {number}/{detail}")),
            Answer::Panicked => Err("with psp in place of brackets the Rust panics".to_string()),
        }
    }
}

/// Brackets in place of an operand or two of other operations than mload and mstore, where rows have any.
pub fn put(r: &mut Random, rows: &mut [Vec<String>], odd: bool) {
    let others: Vec<usize> = (0..rows.len()).filter(|n| rows[*n].len() > 1 && !paper::memory(&rows[*n][0])).collect();
    if others.is_empty() {
        return;
    }
    for _ in 0..1 + r.below(2) {
        let row = &mut rows[others[r.below(others.len())]];
        let place = 1 + r.below(row.len() - 1);
        row[place] = bracket(r, odd);
    }
}

// ---- cases

const ROW: &str = "mov r1 [r2]";

pub fn rows() -> Vec<Named> {
    let with = |name: &'static str, list: &str, number: u64| listed(name, &format!("main:\n{ROW}"), list, refused(number, 0));
    let hosted = "main:\n.PROPHET0_0:\nmov r1 [r2]";
    vec![
        row("Point 6, 01's case", "mov r1 [r2]\n.LBL1_1:\njmp .LBL1_1", refused(25, 0)),
        row("Point 6, dst", "mov [r1] r2", refused(25, 0)),
        row("Point 6, op0", "add r1 [r2,r3] r4", refused(25, 0)),
        row("Point 6, an operation without dst", "jmp [r2,5]", refused(25, 0)),
        row("Point 6, a factor", "log r1 [r2,r3,-5]", refused(25, 0)),
        row("Point 6, 25 before 10 at one instruction", "add r1 g [r2]", refused(25, 0)),
        row("Point 6, 10 at an earlier one", "jmp g\nmov r1 [r2]", refused(10, 0)),
        row("Point 6, 10 at a later one", "mov r1 [r2]\njmp g", refused(25, 0)),
        row("Point 6, 11 at an earlier one", "mload r1 r2\nmov r1 [r2]", refused(11, 0)),
        row("Point 6, 11 at a later one", "mov r1 [r2]\nmload r1 r2", refused(25, 0)),
        row("Point 6, mstore", "mstore [r1] [r2]", refused(11, 0)),
        row("Point 6, mload", "mload [r1] [r2]", refused(11, 0)),
        row("Point 6, 12 at an earlier one", "mov 5 r1\nmov r1 [r2]", refused(25, 1)),
        row("Point 6, 25 before 12 at one instruction", "add [r1] 5 6", refused(25, 0)),
        source("Point 6, the index in sorted order", "f:\nmov r1 [r2]\nmain:\nend", refused(25, 1)),
        source("Point 6, the first in sorted order", "f:\nmov r1 [r2]\nmain:\nend\njmp [r1]\nret", refused(25, 1)),
        source("Point 6, rows before the first label", "mov r1 [r2]\nmain:\nret\n.LBL0_0:", refused(25, 1)),
        row("Point 6, no word entry", ROW, metered(7, &[([1, 0, 0], 25, 7), ([1, 2, 0], 25, 7)])),
        row("Point 6, no table entry", ROW, metered(7, &[([0, 2, 0], 7, 7)])),
        with("Point 6, a list of another form", "x", 8),
        with("Point 6, an unknown prophet", "label\n.PROPHET0_0", 9),
        listed("Point 6, no host entry", hosted, "label\n.PROPHET0_0", metered(7, &[([2, 2, 0], 25, 7), ([2, 2, 1], 25, 7)])),
        row("Point 6, half a bracket", "mov r1 [r2", refused(3, 1)),
        row("Point 6, beside an unreadable row", "mov r1 [r2]\nx", refused(3, 2)),
        source("Point 6, no main", "f:\nmov r1 [r2]", refused(5, 0)),
        row("Point 6, two mains", "mov r1 [r2]\nmain:", refused(6, 0)),
        row("Point 6, beside Point 4", "jmp [r2,0x5]", refused(25, 0)),
        row("Point 6, beside Point 4, no digit", "jmp [r2,0x]", refused(3, 1)),
        row("Point 6, beside Point 4, p", "jmp [r2,0xffffffff00000001]", refused(3, 1)),
        row("Point 6, beside Point 2", "call xLBL1_2\nmov r1 [r2]\nxLBL1_2:\nret", refused(25, 1)),
        row("Point 6, beside Point 2, 10", "call xLBL1_2\nmov r1 [r2]", refused(10, 0)),
        row("Point 6, beside Point 2, unreadable", "mov r1 [r2]\njmp 5LBL1_2", refused(3, 2)),
        row("Point 6, -2^127", "mov r1 [r2]\njmp [r2,-170141183460469231731687303715884105728]", refused(3, 2)),
        row("Point 6, a comment", "mov r1 r2 ;[r2]", words(&[0x0000100208000000])),
        position("Point 6, a position after mload", "mload r1 [r2]", &[0x4040000200400000, 0]),
        position("Point 6, a position after psp", "mov r1 psp", &[0x0000000208000000]),
    ]
}

/// "Every accepted name is thereby the position of its instruction": that of a jump to itself after a row of these words.
fn position(name: &'static str, text: &str, before: &[u64]) -> Named {
    let jump = [0x4000000004000000, before.len() as u64];
    row(name, &format!("{text}\n.LBL1_1:\njmp .LBL1_1"), words(&[before, &jump].concat()))
}
