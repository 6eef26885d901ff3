//! Sources written of bytecodes, document 02's Point 7. The Rust has no such writer: of every bytecode that it reads, the text that is due or 26 is made here of
//! its instructions, by a reading of 02. The Rust bears that reading out: it lists the same places, and of the text that it assembles it reads the same
//! instructions back, or, where 26 is due, another one first at that index. How many there were, how such bytecodes are drawn, and the cases of them.
use crate::check::{agreed, line_starts, words_of, Case, Expected, Outcome};
use crate::lists::MNEMONICS;
use crate::named::{bytecode, refused, row, source, words, Named, PRINTING};
use crate::paper::{self, ORDER, SOURCE_LIMIT};
use crate::port;
use crate::random::Random;
use crate::writing::{writes, writes_into};
use oracle::{Answer, Instruction, Place};

/// Of how many bytecodes a source is written, how many of these were assembled from a source, how many of the texts assemble back and how many are too long for
/// that; how many are refused with 26 and how many of these not at their first instruction; how many as opening refuses them; and of each operation how many
/// rows were written and how many refusals with 26 it was the cause of.
#[derive(Clone, Copy, Default)]
pub struct Sources {
    pub written: u64,
    pub of_sources: u64,
    pub assembled: u64,
    pub long: u64,
    pub off_row: u64,
    pub later: u64,
    pub unopened: u64,
    pub rows: [u64; 27],
    pub causes: [u64; 27],
}

/// What is due of a bytecode: the text or the refusal, and the words that the Rust gives for the text, where it is no longer than a source may be.
pub struct Due {
    pub text: Result<String, (u64, u64)>,
    pub words: Option<Vec<u64>>,
}

// ---- a reading of 02

/// "Places and spaces as listed", and "memory operands as `[r2,5]` or `[r2,r3,5]`".
fn places(mnemonic: &str) -> &'static str {
    match mnemonic {
        "add" | "mul" | "and" | "or" | "xor" | "eq" | "neq" | "gte" | "tload" | "poseidon" => " dst op0 op1",
        "mov" | "not" | "sigcheck" => " dst op1",
        "mload" => " dst [op0,op1]",
        "mstore" => " [op0,op1] dst",
        "cjmp" | "sccall" | "sload" | "sstore" | "tstore" | "log" => " op0 op1",
        "jmp" | "call" | "range" | "assert" => " op1",
        _ => "",
    }
}

fn mnemonic(instruction: &Instruction) -> &'static str {
    MNEMONICS[instruction.opcode as usize]
}

fn contents(instruction: &Instruction) -> [(&'static str, Place); 3] {
    [("op0", instruction.op0), ("op1", instruction.op1), ("dst", instruction.dst)]
}

/// "Numbers in decimal, ... psp for an empty place that the row needs".
fn spelt(place: Place) -> String {
    match place {
        Place::Empty => "psp".to_string(),
        Place::Number(number) => number.to_string(),
        Place::Register(register) => format!("r{register}"),
        Place::Offset(register, number) | Place::Factor(register, number) => format!("r{register},{number}"),
        Place::Special(special) => ["pc", "psp"][special as usize].to_string(),
    }
}

/// A row, whatever stands in places that it does not have.
fn written_row(instruction: &Instruction) -> String {
    let row = format!("{}{}", mnemonic(instruction), places(mnemonic(instruction)));
    contents(instruction).into_iter().fold(row, |row, (name, place)| row.replace(name, &spelt(place)))
}

/// Whether it "has contents in a place that its operation's row does not have".
fn off_row(instruction: &Instruction) -> bool {
    contents(instruction).into_iter().any(|(name, place)| place != Place::Empty && !places(mnemonic(instruction)).contains(name))
}

// ---- the Rust beside it

/// A row as the Rust lists it with psp in empty places, then its numbers in decimal and its memory operand as a source has it.
fn listed_row(instruction: &Instruction) -> Result<String, String> {
    let full = |place: Place| if place == Place::Empty { Place::Special(1) } else { place };
    let given = Instruction { opcode: instruction.opcode, op0: full(instruction.op0), op1: full(instruction.op1), dst: full(instruction.dst) };
    let Answer::Accepted(row) = oracle::row(&given) else { return Err(format!("the Rust does not list {given:?}")) };
    let number = |piece: &str| piece.strip_prefix("0x").map_or(piece.to_string(), |digits| u64::from_str_radix(digits, 16).unwrap().to_string());
    let value = |piece: &str| match piece.split_once('*') {
        Some((factor, register)) => format!("{register},{}", number(factor)),
        None => number(piece),
    };
    let operand = |piece: &str| match piece.strip_prefix('[').and_then(|inside| inside.strip_suffix(']')?.split_once('+')) {
        Some((anchor, offset)) => format!("[{anchor},{}]", value(offset)),
        None => value(piece),
    };
    Ok(row.split(' ').map(operand).collect::<Vec<_>>().join(" "))
}

/// The words that the Rust gives for a text, and the first instruction that it does not read back in them.
fn back(text: &str, list: &[Instruction]) -> Result<(Vec<u64>, Option<usize>), String> {
    let Answer::Accepted(assembled) = oracle::assemble(text, &[]) else {
        return Err(format!("the Rust does not assemble \"{}\"", text.escape_default()));
    };
    let Answer::Accepted(read) = oracle::decode(&assembled.bytecode) else { return Err("the Rust does not read what it assembled".to_string()) };
    let count = read.len().max(list.len());
    Ok((words_of(&assembled.bytecode), (0..count).find(|n| read.get(*n) != list.get(*n))))
}

impl Sources {
    /// What is due of a bytecode in which the Rust reads this; `of` are the words of the source that it was assembled from.
    pub fn due(&mut self, read: &Answer<Vec<Instruction>>, of: Option<&[u64]>, expected: &Expected) -> Result<Due, String> {
        let due = match read {
            Answer::Accepted(list) => self.read(list, of)?,
            Answer::Refused(number, detail) => {
                self.unopened += 1;
                Due { text: Err((*number, *detail)), words: None }
            }
            Answer::Panicked => return Err("the Rust panics".to_string()),
        };
        match expected {
            Expected::Text(text) => agreed("source written", &Ok(text.clone()), &due.text)?,
            Expected::Refused(number, detail) => agreed("refusal of a source", &Err((*number, *detail)), &due.text)?,
            _ => {}
        }
        Ok(due)
    }

    fn read(&mut self, list: &[Instruction], of: Option<&[u64]>) -> Result<Due, String> {
        let mut text = "main:".to_string();
        for instruction in list {
            let row = written_row(instruction);
            agreed("row of a source", &row, &listed_row(instruction)?)?;
            text = text + "\n" + &row;
        }
        let off = list.iter().position(off_row);
        let mut words = None;
        if text.len() <= SOURCE_LIMIT {
            let (given, other) = back(&text, list)?;
            agreed("first instruction that no row gives", &off, &other)?;
            words = Some(given);
        }
        if let Some(n) = off {
            agreed("whether a source has an instruction off its row", &false, &of.is_some())?;
            self.off_row += 1;
            self.later += u64::from(n > 0);
            self.causes[list[n].opcode as usize] += 1;
            return Ok(Due { text: Err((26, n as u64)), words: None });
        }
        if let (Some(of), Some(words)) = (of, &words) {
            agreed("words of a source and of the one written", &of, &&words[..])?;
        }
        self.written += 1;
        self.of_sources += u64::from(of.is_some());
        self.assembled += u64::from(words.is_some());
        self.long += u64::from(words.is_none());
        list.iter().for_each(|instruction| self.rows[instruction.opcode as usize] += 1);
        Ok(Due { text: Ok(text), words })
    }

    /// Whether there was something of each sort: a row of each operation, and a 26 for each one whose row lacks a place. Of what is drawn often there must
    /// be more than when the drawing began.
    pub fn complete(&self, before: &Sources) -> bool {
        let lacking = |n: usize| ["op0", "op1", "dst"].iter().any(|name| !places(MNEMONICS[n]).contains(name));
        let often = |of: &Sources| [of.written, of.of_sources, of.assembled, of.off_row, of.later, of.unopened];
        let drawn = often(self).iter().zip(often(before)).all(|(now, then)| *now > then);
        drawn && self.long > 0 && (0..27).all(|n| self.rows[n] > 0 && (self.causes[n] > 0) == lacking(n))
    }
}

/// What the port writes of a bytecode: in the rooms of any text, and in "5 + 21 bytes of text for each line", which are enough.
pub fn port_writes(bytecode: &[u8], due: &Due) -> Outcome {
    let text = due.text.as_ref().map(|text| text.as_bytes()).map_err(|refused| *refused);
    let write = |room: usize, lent: &mut [u8]| port::write_source(bytecode, room, lent);
    writes("write_source", text, &write)?;
    let lines = line_starts(bytecode).len() - 1;
    writes_into("write_source", 5 + 21 * lines, text, &write)
}

// ---- bytecodes drawn

/// One in so many has some thousand instructions.
const LARGE_EVERY: usize = 400;

/// A bytecode whose instructions have nothing off their rows. One in four then gets a number or a register in any place of one instruction.
pub fn rows_alone(r: &mut Random) -> Case {
    let count = if r.below(LARGE_EVERY) == 0 { 2_000 + r.below(3_000) } else { r.below(9) };
    let mut words: Vec<u64> = (0..count).map(|_| word_on_row(r)).collect();
    if count > 0 && r.percent(25) {
        words[r.below(count)] |= 1 << (32 + r.below(31));
    }
    let mut lines = vec![];
    for word in words {
        lines.push(if r.percent(80) { format!("0x{word:016x}") } else { format!("{word:x}") });
        if paper::two_lines(word) {
            lines.push(second_line(r));
        }
    }
    let ending = if r.percent(20) { "\n" } else { "" };
    Case::Bytecode((lines.join(if r.percent(10) { "\r\n" } else { "\n" }) + ending).into_bytes())
}

/// A first word of any operation, with registers and the mark of a number in places of its row.
fn word_on_row(r: &mut Random) -> u64 {
    let operation = r.below(27);
    let row = places(MNEMONICS[operation]);
    let number = row.contains("op1") && r.percent(40);
    let mut word = 1 << (31 - operation);
    for (name, start) in [("op0", 52), ("op1", 42), ("dst", 32)] {
        let there = row.contains(name) && if name == "op1" && number { r.percent(10) } else { row.contains('[') || r.percent(85) };
        for _ in 0..if there { 1 + r.below(20) / 19 } else { 0 } {
            word |= 1 << (start + r.below(10));
        }
    }
    if r.percent(3) {
        word |= 1 << [0, 4, 63][r.below(3)];
    }
    word | u64::from(number) << 62
}

/// A second line that is a number.
fn second_line(r: &mut Random) -> String {
    let number = match r.below(4) {
        0 | 1 => r.below(300) as u64,
        2 => r.next() % ORDER,
        _ => [0, 1, 9, 10, 1 << 32, 1 << 63, ORDER - 1][r.below(7)],
    };
    match r.below(4) {
        0 => format!("{}{number}", r.one(&["-", "+", "00"])),
        1 => format!("{number:#x}"),
        _ => number.to_string(),
    }
}

// ---- cases

/// A bytecode, and the source that is written of it.
fn written(name: &'static str, code: &str, text: &str) -> Named {
    bytecode(name, code, Expected::Text(text.to_string()))
}

/// So many lines of one first word, then so many of another, their rows, and how many bytes the source has.
fn repeated(name: &'static str, lines: [(usize, &str, &str); 2], bytes: usize) -> Named {
    let code: Vec<&str> = lines.iter().flat_map(|(count, line, _)| vec![*line; *count]).collect();
    let text: String = lines.iter().map(|(count, _, row)| format!("\n{row}").repeat(*count)).collect();
    assert_eq!(text.len() + 5, bytes, "{name}");
    written(name, &code.join("\n"), &format!("main:{text}"))
}

/// A first word of each operation with r2 in op0, r3 in op1 and r1 in dst, as far as its row has them, a second line where it is due, and the row.
const EACH: [(&str, &str); 27] = [
    ("0x0040200280000000", "add r1 r2 r3"),
    ("0x0040200240000000", "mul r1 r2 r3"),
    ("0x0040200220000000", "eq r1 r2 r3"),
    ("0x0000200010000000", "assert r3"),
    ("0x0000200208000000", "mov r1 r3"),
    ("0x0000200004000000", "jmp r3"),
    ("0x0040200002000000", "cjmp r2 r3"),
    ("0x0000200001000000", "call r3"),
    ("0x0000000000800000", "ret"),
    ("0x0040200200400000\n5", "mload r1 [r2,r3,5]"),
    ("0x0040200200200000\n0x1F", "mstore [r2,r3,31] r1"),
    ("0x0000000000100000", "end"),
    ("0x0000200000080000", "range r3"),
    ("0x0040200200040000", "and r1 r2 r3"),
    ("0x0040200200020000", "or r1 r2 r3"),
    ("0x0040200200010000", "xor r1 r2 r3"),
    ("0x0000200200008000", "not r1 r3"),
    ("0x0040200200004000", "neq r1 r2 r3"),
    ("0x0040200200002000", "gte r1 r2 r3"),
    ("0x0040200200001000", "poseidon r1 r2 r3"),
    ("0x0040200000000800", "sload r2 r3"),
    ("0x0040200000000400", "sstore r2 r3"),
    ("0x0040200200000200", "tload r1 r2 r3"),
    ("0x0040200000000100", "tstore r2 r3"),
    ("0x0040200000000080", "sccall r2 r3"),
    ("0x0000200200000040", "sigcheck r1 r3"),
    ("0x0040200000000020", "log r2 r3"),
];

/// Instructions that are off their rows, of each operation that can be, with each of the places that its row lacks.
const OFF: [&str; 25] = [
    "0x0040200208000000",
    "0x0040200200008000",
    "0x0040200200000040",
    "0x0040200202000000",
    "0x0040200200000080",
    "0x0040200200000800",
    "0x0040200200000400",
    "0x0040200200000100",
    "0x0040200200000020",
    "0x0040200004000000",
    "0x0000200204000000",
    "0x0040200001000000",
    "0x0000200201000000",
    "0x0040200000080000",
    "0x0000200200080000",
    "0x0040200010000000",
    "0x0000200210000000",
    "0x0040000000800000",
    "0x0000200000800000",
    "0x0000000200800000",
    "0x4000000000800000\n0",
    "0x0040000000100000",
    "0x0000200000100000",
    "0x0000000200100000",
    "0x4000000000100000\n0",
];

pub fn cases() -> Vec<Named> {
    let off = OFF.iter().map(|code| bytecode("Point 7, off its row", code, refused(26, 0)));
    traps().into_iter().chain(off).collect()
}

fn traps() -> Vec<Named> {
    let each = |of: fn(&(&str, &str)) -> String| EACH.iter().map(of).collect::<Vec<_>>().join("\n");
    let checks = |count: usize| format!("main:{}", "\nsigcheck psp psp".repeat(count));
    vec![
        written("Point 7, the empty text", "", "main:"),
        written("Point 7, a last word alone", "0x4000000001000000", "main:"),
        bytecode("Point 7, ret with dst", "0x0000000600800000", refused(26, 0)),
        bytecode("Point 7, ret with a number", "0x4000000000800000\n5", refused(26, 0)),
        bytecode("Point 7, 15 before 26", "0x4000000204000000\n1\nzz", refused(15, 2)),
        written("Point 7, empty places of mov", "0x0000000008000000", "main:\nmov psp psp"),
        written("Point 7, -1", "0x4000000004000000\n-1", "main:\njmp 18446744069414584320"),
        written("Point 7, offset 0", "0x4040000200400000\n0x0", "main:\nmload r1 [r2,0]"),
        written("Point 7, factor 1", "0x0040200200400000\n1", "main:\nmload r1 [r2,r3,1]"),
        written("Point 7, the number counts", "0x4040200200400000\n7", "main:\nmload r1 [r2,7]"),
        row("Point 7, the program comes back, not the words", "mload r1 [r2,7]", words(&[0x4040000200400000, 7])),
        repeated("Point 7, 65,523 bytes", [(3_854, "40", "sigcheck psp psp"), (0, "", "")], 65_523),
        repeated("Point 7, 65,540 bytes", [(3_855, "40", "sigcheck psp psp"), (0, "", "")], 65_540),
        source("Point 7, 65,523 bytes assemble", &checks(3_854), words(&[0x40; 3_854])),
        source("Point 7, 65,540 bytes do not", &checks(3_855), refused(1, 0)),
        repeated("Point 7, 65,536 bytes", [(3_851, "40", "sigcheck psp psp"), (16, "100000", "end")], 65_536),
        repeated("Point 7, 65,537 bytes", [(3_852, "40", "sigcheck psp psp"), (12, "100000", "end")], 65_537),
        repeated("Point 7, the longest text", [(174_763, "40", "sigcheck psp psp"), (0, "", "")], 2_970_976),
        bytecode("Point 7, a byte more than the longest bytecode", &"40\n".repeat(174_763), refused(14, 0)),
        bytecode("Point 7, mov with op0", "0x0010000008000000", refused(26, 0)),
        bytecode("Point 7, the second instruction", "800000\n0x0000000600800000", refused(26, 1)),
        source("Point 7, 01's printing source", PRINTING, Expected::Text("main:\nmov r1 18446744069414584320\ncall 5\nend\nret".to_string())),
        written("Point 7, each operation", &each(|(code, _)| code.to_string()), &format!("main:\n{}", each(|(_, row)| row.to_string()))),
        written("Point 7, 26 bytes of one line", "1000", "main:\nposeidon psp psp psp"),
        written("Point 7, an empty dst", "0x0040200080000000", "main:\nadd psp r2 r3"),
        written("Point 7, an empty op0", "0x4000000280000000\n10", "main:\nadd r1 psp 10"),
        written("Point 7, empty places of cjmp", "2000000", "main:\ncjmp psp psp"),
        written("Point 7, an empty place of range", "80000", "main:\nrange psp"),
        written("Point 7, hexadecimal digits in decimal", "0x4000000208000000\n0xfF", "main:\nmov r1 255"),
        written("Point 7, an offset in mstore", "0x4040000200200000\n5", "main:\nmstore [r2,5] r1"),
        written("Point 7, the lowest registers", "0x00c0600680000000", "main:\nadd r1 r2 r3"),
        written("Point 7, bits that are ignored", "0x800000000080001f", "main:\nret"),
        written("Point 7, a last word off its row that is dropped", "800000\n0x4000000204000000", "main:\nret"),
        bytecode("Point 7, the first of two", "800000\n0x4000000001000000\n5\n0x0000000600800000\n800000\n0x0000000600800000", refused(26, 2)),
        bytecode("Point 7, 16 before 26", "0x0000000600800000\n0x0", refused(16, 1)),
        bytecode("Point 7, 17 before 26", "0x0000000600800000\n0x80400000\n5", refused(17, 1)),
        bytecode("Point 7, 18 before 26", "0x0000000600800000\n0x4000000001000000\nff", refused(18, 1)),
        bytecode("Point 7, 19 before 26", "0x0000000600800000\n0x400000\n5", refused(19, 1)),
    ]
}
