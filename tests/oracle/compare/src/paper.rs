//! What documents 01 and 02 say and the Rust does not tell: the label table and the figures of a source whose rows are all readable, the form of a prophet
//! list, the limits, how words are printed, and how a source is spelt for the Rust where an operand looks like a label and has no dot.
use crate::port::{Figures, Label};
use std::collections::HashSet;

pub const SOURCE_LIMIT: usize = 65_536;
pub const LIST_LIMIT: usize = 16_384;
pub const BYTECODE_LIMIT: usize = 524_288;
pub const ORDER: u64 = 0xFFFF_FFFF_0000_0001;

/// The names of a list of document 01's form: "empty, or a line `label` and then one label a line, ... the final line feed optional".
pub fn listed(prophets: &[u8]) -> Option<Vec<&[u8]>> {
    if prophets.len() > LIST_LIMIT {
        return None;
    }
    if prophets.is_empty() {
        return Some(vec![]);
    }
    let lines = prophets.strip_suffix(b"\n").unwrap_or(prophets);
    let mut lines = lines.split(|b| *b == b'\n');
    if lines.next() != Some(b"label") {
        return None;
    }
    Some(lines.collect())
}

/// Where a part of a source stands in it.
pub fn place(source: &str, part: &str) -> usize {
    part.as_ptr() as usize - source.as_ptr() as usize
}

/// The rows of a source, each with its place: the line without its comment and outer whitespace, where that is not empty.
fn rows(source: &str) -> Vec<(usize, &str)> {
    source.split('\n').map(|line| line.split(';').next().unwrap().trim()).filter(|row| !row.is_empty()).map(|row| (place(source, row), row)).collect()
}

/// The pieces of the rows of a source, but for the first piece of each.
pub fn operands(source: &str) -> Vec<&str> {
    rows(source).into_iter().flat_map(|(_, row)| row.split_whitespace().skip(1)).collect()
}

/// A source as the Rust is asked about it but for hexadecimal numbers, how many of its operands are respelt names, and how many were made unreadable.
pub struct Respelt {
    pub text: String,
    pub names: usize,
    pub unreadable: usize,
}

/// A source of the same length with no operand that looks like a label and has no dot, where the source has one. "A letter or underscore before LBL is a
/// name": it gets other letters there, in its call rows too, so that the Rust takes it for a name. "Any other character than a dot makes the row unreadable":
/// so does `$`. Listed prophets are looked for among prophet rows alone, which stay as they are, so a prophet list needs no respelling.
pub fn respelt(source: &str) -> Option<Respelt> {
    let operands = operands(source).into_iter().filter(|piece| looks_like_a_label(piece));
    let (names, unreadable): (Vec<&str>, Vec<&str>) = operands.partition(|piece| piece.starts_with(|c: char| c == '_' || c.is_ascii_alphabetic()));
    if names.is_empty() && unreadable.is_empty() {
        return None;
    }
    let spellings: HashSet<&str> = names.iter().copied().collect();
    let called = rows(source).into_iter().filter_map(|(_, row)| row.strip_suffix(':')).filter(|name| spellings.contains(name));
    let letters = unused_letters(source);
    let mut text = source.as_bytes().to_vec();
    for name in names.iter().copied().chain(called) {
        let start = place(source, name) + 1;
        text[start..start + 3].copy_from_slice(&letters);
    }
    for operand in &unreadable {
        let start = place(source, operand);
        text[start..start + operand.len()].fill(b'$');
    }
    Some(Respelt { text: String::from_utf8(text).unwrap(), names: names.len(), unreadable: unreadable.len() })
}

/// Whether a piece is one character that is no dot, then `LBL`, digits, `_` and digits.
fn looks_like_a_label(piece: &str) -> bool {
    let digits = |part: &str| !part.is_empty() && part.bytes().all(|byte| byte.is_ascii_digit());
    let pair = piece.get(1..).and_then(|rest| rest.strip_prefix("LBL")).and_then(|rest| rest.split_once('_'));
    !piece.starts_with('.') && pair.is_some_and(|(one, two)| digits(one) && digits(two))
}

/// Three letters that stand nowhere in a source, comments included, so that no name with them is in it. Of the 52 letters there are 140,608 such threes, more
/// than a source within the limit has places.
fn unused_letters(source: &str) -> [u8; 3] {
    let used: HashSet<&[u8]> = source.as_bytes().windows(3).collect();
    let letters: Vec<u8> = (b'a'..=b'z').chain(b'A'..=b'Z').collect();
    let three = |n: usize| [letters[n / 2704], letters[n / 52 % 52], letters[n % 52]];
    (0..52 * 52 * 52).map(three).find(|three| !used.contains(&three[..])).unwrap()
}

/// The instruction rows in sorted order, where every row is readable.
pub fn instructions(source: &str) -> Vec<&str> {
    sorted(source).0.into_iter().map(|(_, row)| row).filter(|row| kind(row).is_none()).collect()
}

/// The rows in sorted order, and how many main scopes there are.
fn sorted(source: &str) -> (Vec<(usize, &str)>, usize) {
    let mut scopes: Vec<Vec<(usize, &str)>> = vec![vec![]];
    for row in rows(source) {
        if kind(row.1) == Some(0) {
            scopes.push(vec![]);
        }
        scopes.last_mut().unwrap().push(row);
    }
    let (mains, others): (Vec<_>, Vec<_>) = scopes.into_iter().partition(|scope| scope.first().is_some_and(|row| row.1 == "main:"));
    let count = mains.len();
    (mains.into_iter().chain(others).flatten().collect(), count)
}

/// The kind of a label row; of readable rows just these end in a colon.
fn kind(row: &str) -> Option<u8> {
    if !row.ends_with(':') {
        return None;
    }
    Some(if row.starts_with(".LBL") {
        1
    } else if row.starts_with(".PROPHET") {
        2
    } else {
        0
    })
}

/// Whether an operand is a register.
pub fn register(operand: &str) -> bool {
    operand.len() == 2 && operand.starts_with('r') && operand.as_bytes()[1].is_ascii_digit()
}

/// Whether an operand is a register, pc or psp; whatever is none of these is a number, name, label or bracketed.
fn plain(operand: &str) -> bool {
    operand == "pc" || operand == "psp" || register(operand)
}

/// Whether an operation is one of those whose rows have a memory operand.
pub fn memory(mnemonic: &str) -> bool {
    ["mload", "mstore"].contains(&mnemonic)
}

/// Whether the first operand of a row, which has these pieces, is dst.
pub fn dst_first(pieces: &[&str]) -> bool {
    pieces.len() == 4 || ["mov", "not", "mload", "sigcheck"].contains(&pieces[0])
}

/// "Counted length: 1, plus 1 for op0 and 1 for op1 where it is a number, name, label or bracketed".
fn counted_length(row: &str) -> u64 {
    let pieces: Vec<&str> = row.split_whitespace().collect();
    1 + pieces.iter().skip(if dst_first(&pieces) { 2 } else { 1 }).filter(|piece| !plain(piece)).count() as u64
}

/// "The words: one for an instruction, one more for mload, mstore or an op1 that is a number, name or label". The last operand of a row is op1.
fn word_count(row: &str) -> u64 {
    let pieces: Vec<&str> = row.split_whitespace().collect();
    let op1 = pieces[1..].last();
    1 + u64::from(memory(pieces[0]) || op1.is_some_and(|op1| !plain(op1) && !op1.starts_with('[')))
}

/// "The label rows, the instructions, the counted length and the words" of a source, where every row is readable.
pub fn figures(source: &str) -> Figures {
    let (labels, instructions): (Vec<&str>, Vec<&str>) = rows(source).into_iter().map(|(_, row)| row).partition(|row| kind(row).is_some());
    Figures {
        labels: labels.len() as u64,
        instructions: instructions.len() as u64,
        counted: instructions.iter().map(|row| counted_length(row)).sum(),
        words: instructions.iter().map(|row| word_count(row)).sum(),
        ..Figures::default()
    }
}

/// How many main scopes a source has, and its label table, where every row is readable.
pub fn table(source: &str) -> (usize, Vec<Label>) {
    let (rows, mains) = sorted(source);
    let last = rows.iter().rposition(|row| kind(row.1).is_none());
    let mut entries = vec![];
    let (mut address, mut host) = (0, 0);
    for (n, (start, row)) in rows.iter().enumerate() {
        match kind(row) {
            None => {
                host = address;
                address += counted_length(row);
            }
            Some(kind) => {
                let mapped = last.is_some_and(|last| n < last);
                let marked = if kind == 2 { host } else { address };
                entries.push(Label { kind, mapped, start: *start, length: row.len() - 1, address: if mapped { marked } else { 0 } });
            }
        }
    }
    (mains, entries)
}

/// Whether the word after a first word is a number: its bit 62, 22 or 21.
pub fn two_lines(word: u64) -> bool {
    word & (1 << 62 | 1 << 22 | 1 << 21) != 0
}

/// The bytecode of words.
pub fn bytecode(words: &[u64]) -> String {
    let mut lines = vec![];
    let mut number = false;
    for word in words {
        lines.push(if number { format!("{word:#x}") } else { format!("0x{word:016x}") });
        number = !number && two_lines(*word);
    }
    lines.join("\n")
}
