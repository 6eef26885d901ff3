//! Lists of cases that are whole: every case has a number, so that a small run takes every so-many-th.
use crate::check::Case;
use crate::paper::ORDER;
use crate::port::{NumberedInstruction, NumberedPlace};
use oracle::{Instruction, Place};

pub struct List {
    pub name: &'static str,
    pub len: usize,
    pub at: fn(usize) -> Case,
}

pub const LISTS: [List; 11] = [
    List { name: "every operation, every shape in every place", len: 27 * OPERANDS, at: operation },
    List { name: "every byte before LBL1_2", len: 128 * PLACES.len() * 4, at: before_label },
    List { name: "every short operand", len: strings(OPERAND_BYTES.len(), 4), at: short_operand },
    List { name: "every short row", len: strings(ROW_BYTES.len(), 4), at: short_row },
    List { name: "every byte edit of a source", len: edits(&SOURCES), at: source_edit },
    List { name: "every byte edit of a prophet list", len: edits(&PROPHETS), at: prophets_edit },
    List { name: "every short bytecode", len: strings(FIRST_BYTES.len(), 5), at: short_bytecode },
    List { name: "every short second line", len: strings(SECOND_BYTES.len(), 4), at: short_second },
    List { name: "every byte edit of a bytecode", len: edits(&BYTECODES), at: bytecode_edit },
    List { name: "every two bits of a first word", len: 64 * 64 * TAILS.len(), at: two_bits },
    List { name: "every operation, every content in every place", len: 27 * 13 * 13 * 13 + 700, at: instruction },
];

pub const MNEMONICS: [&str; 27] = [
    "add", "mul", "eq", "assert", "mov", "jmp", "cjmp", "call", "ret", "mload", "mstore", "end", "range", "and", "or", "xor", "not", "neq", "gte",
    "poseidon", "sload", "sstore", "tload", "tstore", "sccall", "sigcheck", "log",
];

// ---- operations and shapes

const SHAPES: [&str; 17] = [
    "r1", "r9", "5", "-1", "0x1F", "[r2]", "[r3,4]", "[r5,r6]", "[r7,r8,9]", "pc", "psp", "main", "g", ".LBL1_1", ".LBL2_2", "xLBL3_3", "5LBL3_3",
];
const S: usize = SHAPES.len();
/// None, one, two, three operands, and four alike.
const OPERANDS: usize = 1 + S + S * S + S * S * S + S;

fn operation(n: usize) -> Case {
    let (operation, mut n) = (n / OPERANDS, n % OPERANDS);
    let mut row = MNEMONICS[operation].to_string();
    let mut count = 0;
    while count < 4 && n >= S.pow(count) {
        n -= S.pow(count);
        count += 1;
    }
    for place in 0..count {
        let shape = if count == 4 { n } else { n / S.pow(place) % S };
        row = format!("{row} {}", SHAPES[shape]);
    }
    source(format!("main:\nret\n.LBL1_1:\n{row}\nxLBL3_3:\nend").into_bytes())
}

fn source(source: Vec<u8>) -> Case {
    Case::Source { source, prophets: vec![] }
}

// ---- first characters

/// What stands before an operand and after it.
const PLACES: [(&str, &str); 8] = [
    ("jmp ", ""),
    ("call ", ""),
    ("mov r1 ", ""),
    ("mov ", " r1"),
    ("cjmp ", " r1"),
    ("mload r1 ", ""),
    ("mload ", " [r2]"),
    ("mstore ", " r1"),
];

/// Every byte before `LBL1_2` as an operand, with and without a call row of that spelling ahead, with and without a `.LBL1_2:` row.
fn before_label(n: usize) -> Case {
    let (byte, place, rows) = ((n % 128) as u8, n / 128 % PLACES.len(), n / 128 / PLACES.len());
    let spelt = format!("{}LBL1_2", byte as char);
    let (before, after) = PLACES[place];
    let call = if rows % 2 == 1 { format!("{spelt}:\n") } else { String::new() };
    let label = if rows / 2 == 1 { ".LBL1_2:\n" } else { "" };
    source(format!("main:\n{call}{label}{before}{spelt}{after}\nend").into_bytes())
}

// ---- short texts

const OPERAND_BYTES: &[u8] = b"r1[],+-_.L;p0cxC";
const ROW_BYTES: &[u8] = b"a1_.:; \tr";
const FIRST_BYTES: &[u8] = b"0x+18f\n\r-";
const SECOND_BYTES: &[u8] = b"0x+-18f\n\r_";

/// How many strings over so many bytes have at most so many of them.
const fn strings(bytes: usize, most: u32) -> usize {
    let (mut sum, mut n) = (0, 0);
    while n <= most {
        sum += bytes.pow(n);
        n += 1;
    }
    sum
}

fn string(bytes: &[u8], mut n: usize) -> Vec<u8> {
    let mut length = 0;
    while n >= bytes.len().pow(length) {
        n -= bytes.len().pow(length);
        length += 1;
    }
    (0..length).map(|place| bytes[n / bytes.len().pow(place) % bytes.len()]).collect()
}

fn short_operand(n: usize) -> Case {
    source([b"main:\nmov r1 ", &string(OPERAND_BYTES, n)[..], b"\n"].concat())
}

fn short_row(n: usize) -> Case {
    source([b"main:\nret\n", &string(ROW_BYTES, n)[..], b"\nend"].concat())
}

fn short_bytecode(n: usize) -> Case {
    Case::Bytecode(string(FIRST_BYTES, n))
}

fn short_second(n: usize) -> Case {
    Case::Bytecode([b"0x4000000001000000\n", &string(SECOND_BYTES, n)[..]].concat())
}

// ---- edits

const SOURCES: [&str; 8] = [
    "f:\nret\nmain:\nmov r1 -1\ncall f\n.PROPHET0_0:\nend",
    "main:\n.LBL0_1: ; here\n  mload r1 [r2,3]\n\tmstore [r4,r5,6] r7\r\ncjmp r0 .LBL0_1\n",
    "add r1 r2 18446744069414584320\n_g:\nmul r3 r4 _g\nmain:\njmp _g",
    "main:\nnot r1 [r2]\nf.1:\nsstore r1 psp\n.LBL12_34:\njmp .LBL12_34",
    "main:\nnot r1 -170141183460469231731687303715884105728\nmov r1 18446744069414584320",
    "main:\nmload r1 [r2]\nmload r1 [r2,r3]\nsigcheck r1 pc\n",
    "main:\ncall xLBL1_2\nxLBL1_2:\n_LBL3_4:\njmp _LBL3_4",
    "main:\nmov r1 0x1F\nmload r2 [r3,0xa]\n0x5:\nmstore [r4,r5,0xB] r6",
];
const PROPHETS: [&str; 1] = ["label\n.PROPHET0_0\n.PROPHET0_0\n.PROPHET1_0"];
const LISTED: &str = "main:\nret\n.PROPHET0_0:\njmp 1\n.PROPHET1_0:\nend\n.PROPHET2_0:";
const BYTECODES: [&str; 4] = [
    "0x0000000208000000\n0x4000000001000000\n10\n800000",
    "0x4040000200400000\r\n0x3\r\n0x0100800800200000\n6\n",
    "0x4000000208000000\n-18446744069414584320\n0x0000000000100000",
    "400\n+20000020\n0x0x80",
];

/// Each byte of each text replaced by each of 128, each of 128 put before it and at the end, and each left out.
const fn edits(texts: &[&str]) -> usize {
    let (mut sum, mut n) = (0, 0);
    while n < texts.len() {
        sum += edits_of(texts[n]);
        n += 1;
    }
    sum
}

const fn edits_of(text: &str) -> usize {
    text.len() * 257 + 128
}

fn edit(texts: &[&str], mut n: usize) -> Vec<u8> {
    let mut which = 0;
    while n >= edits_of(texts[which]) {
        n -= edits_of(texts[which]);
        which += 1;
    }
    let mut text = texts[which].as_bytes().to_vec();
    let (place, what) = (n / 257, n % 257);
    match what {
        0..=127 => text.insert(place, what as u8),
        128 => drop(text.remove(place)),
        _ => text[place] = (what - 129) as u8,
    }
    text
}

fn source_edit(n: usize) -> Case {
    source(edit(&SOURCES, n))
}

fn prophets_edit(n: usize) -> Case {
    Case::Source { source: LISTED.as_bytes().to_vec(), prophets: edit(&PROPHETS, n) }
}

fn bytecode_edit(n: usize) -> Case {
    Case::Bytecode(edit(&BYTECODES, n))
}

// ---- bits

const TAILS: [&str; 4] = ["", "\n5", "\n0x5\n0x800000", "\n0xffffffff00000001"];

fn two_bits(n: usize) -> Case {
    let (bits, tail) = (n / TAILS.len(), n % TAILS.len());
    let word: u64 = 1 << (bits / 64) | 1 << (bits % 64);
    Case::Bytecode(format!("0x{word:016x}{}", TAILS[tail]).into_bytes())
}

// ---- instructions

const CONTENTS: [Place; 13] = [
    Place::Empty,
    Place::Number(0),
    Place::Number(ORDER - 1),
    Place::Number(ORDER),
    Place::Register(0),
    Place::Register(9),
    Place::Offset(1, 2),
    Place::Offset(8, u64::MAX),
    Place::Factor(2, 3),
    Place::Factor(7, ORDER),
    Place::Factor(0, ORDER - 1),
    Place::Special(0),
    Place::Special(1),
];

/// Every content in every place, and then numbers that name no instruction.
fn instruction(n: usize) -> Case {
    let c = CONTENTS.len();
    if n < 27 * c * c * c {
        let place = |at: usize| CONTENTS[n / c.pow(at as u32) % c];
        return Case::Instruction(Instruction { opcode: (n / (c * c * c)) as u8, op0: place(0), op1: place(1), dst: place(2) });
    }
    let n = n - 27 * c * c * c;
    let mut made = NumberedInstruction::default();
    made.op1 = NumberedPlace { content: 2, reg: 3, number: 4 };
    let wrong = match n / 100 {
        0 | 1 => {
            made.opcode = 27 + n as u8;
            return Case::Numbered(made);
        }
        2 | 3 => NumberedPlace { content: 6 + (n - 200) as u8, reg: 1, number: 1 },
        4 => NumberedPlace { content: 2 + (n % 3) as u8, reg: 10 + (n - 400) as u8, number: 1 },
        5 => NumberedPlace { content: 5, reg: 2 + (n - 500) as u8, number: 1 },
        _ => NumberedPlace { content: [2, 3, 4, 5][n % 4], reg: 255 - (n - 600) as u8, number: u64::MAX },
    };
    match n % 3 {
        0 => made.op0 = wrong,
        1 => made.op1 = wrong,
        _ => made.dst = wrong,
    }
    Case::Numbered(made)
}
