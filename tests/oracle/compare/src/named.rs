//! The cases of document 01, of document 02's Points 1 to 4, 6 and 7 and of the readings of them, with what the papers say of them.
use crate::brackets;
use crate::check::{Case, Expected};
use crate::hexadecimal;
use crate::limits::limits;
use crate::meter::{Build, STOP};
use crate::paper::ORDER;
use crate::port::{Figures, Room};
use crate::source;
use oracle::{Instruction, Place};

pub struct Named {
    pub name: &'static str,
    pub case: Case,
    pub expected: Expected,
}

pub fn source(name: &'static str, source: &str, expected: Expected) -> Named {
    listed(name, source, "", expected)
}

pub fn listed(name: &'static str, source: &str, prophets: &str, expected: Expected) -> Named {
    Named { name, case: Case::Source { source: source.into(), prophets: prophets.into() }, expected }
}

pub fn bytecode(name: &'static str, text: &str, expected: Expected) -> Named {
    Named { name, case: Case::Bytecode(text.into()), expected }
}

fn instruction(name: &'static str, opcode: u8, op0: Place, op1: Place, dst: Place, expected: Expected) -> Named {
    Named { name, case: Case::Instruction(Instruction { opcode, op0, op1, dst }), expected }
}

pub fn words(list: &[u64]) -> Expected {
    Expected::Words(list.to_vec())
}

pub fn rows(list: &[&str]) -> Expected {
    Expected::Rows(list.iter().map(|row| row.to_string()).collect())
}

pub fn hosts(list: &[u64]) -> Expected {
    Expected::Hosts(list.to_vec())
}

pub fn refused(number: u64, detail: u64) -> Expected {
    Expected::Refused(number, detail)
}

pub fn room(labels: u64, instructions: u64, counted: u64, words: u64) -> Expected {
    Expected::Room(Figures { refusal: 0, detail: 0, labels, instructions, counted, words })
}

pub fn no_room(refusal: u64, detail: u64) -> Expected {
    Expected::Room(Figures { refusal, detail, labels: 0, instructions: 0, counted: 0, words: 0 })
}

/// Builds one after another on a meter that begins at a total: of each the table entries, words and hosts lent, the refusal, and the total after it.
pub fn metered(from: u64, builds: &[([usize; 3], u64, u64)]) -> Expected {
    let room = |[entries, words, hosts]: [usize; 3]| Room { columns: [entries; 5], words, hosts };
    Expected::Builds(from, builds.iter().map(|(lent, refusal, total)| Build { room: room(*lent), refusal: *refusal, total: *total }).collect())
}

pub fn all() -> Vec<Named> {
    [
        scope_sources(),
        scope_bytecodes(),
        refusals(),
        rooms(),
        names_like_labels(),
        builds(),
        hexadecimal::numbers(),
        brackets::rows(),
        source::cases(),
        reading_sources(),
        reading_lists(),
        reading_bytecodes(),
        reading_instructions(),
        limits(),
    ]
    .into_iter()
    .flatten()
    .collect()
}

/// A row of main, its words.
pub fn row(name: &'static str, text: &str, expected: Expected) -> Named {
    source(name, &format!("main:\n{text}"), expected)
}

// ---- document 01

pub const PRINTING: &str = "f:\nret\nmain:\nmov r1 -1\ncall f\n.PROPHET0_0:\nend";

fn scope_sources() -> Vec<Named> {
    vec![
        source(
            "01, printing",
            PRINTING,
            words(&[0x4000000208000000, 0xffffffff00000000, 0x4000000001000000, 5, 0x0000000000100000, 0x0000000000800000]),
        ),
        listed("01, printing, host", PRINTING, "label\n.PROPHET0_0", hosts(&[2])),
        row("01, pc", "mov r1 pc", words(&[0x0000000208000000])),
        row("01, psp", "mov r1 psp", words(&[0x0000000208000000])),
        row("01, offset 0", "mload r1 [r2]", words(&[0x4040000200400000, 0])),
        row("01, factor 1", "mload r1 [r2,r3]", words(&[0x0040200200400000, 1])),
        source("01, main alone", "main:", words(&[])),
        source("01, empty source", "", refused(4, 0)),
        row("01, 10 before 12", "add r1 5 r2\ncall g", refused(10, 1)),
        source("01, blank lines do not count in 3", "\n\nmain:\n\n ; nothing\n\nx", refused(3, 1)),
        row("01, p - 1", "mov r1 18446744069414584320", words(&[0x4000000208000000, ORDER - 1])),
        row("01, p", "mov r1 18446744069414584321", refused(3, 1)),
        row("01, 1 - p", "mov r1 -18446744069414584320", words(&[0x4000000208000000, 1])),
        row("01, -p", "mov r1 -18446744069414584321", refused(3, 1)),
        row("01, -0", "mov r1 -0", words(&[0x4000000208000000, 0])),
        row("01, -2^127", "mov r1 -170141183460469231731687303715884105728", refused(3, 1)),
        row("01, a label row that no operand can name", "call f.1\nf.1:\nret", refused(3, 1)),
        source("01, a name across scopes", "main:\nend\nf:\ng:\nret\nh:", room(4, 2, 2, 2)),
        source(
            "01, of equal names the last mapped",
            "main:\ncall f\nf:\nret\nf:\nend\nf:",
            words(&[0x4000000001000000, 3, 0x0000000000800000, 0x0000000000100000]),
        ),
        row("01, none inside brackets", "mload r1 [r2, 3]", refused(3, 1)),
        row("01, mstore", "mstore [r1,r2,3] r4", words(&[0x0020100000200000 | 1 << 36, 3])),
    ]
}

fn scope_bytecodes() -> Vec<Named> {
    vec![
        bytecode("01, a decimal second line", "0x4000000001000000\n10", rows(&["call 0xa"])),
        bytecode("01, alone", "0x4000000001000000", rows(&[])),
        bytecode("01, the lowest register", "0x0000000600800000", rows(&["ret"])),
        bytecode("01, the lowest register, listed", "0x0000000608000000", rows(&["mov r1 psp"])),
        bytecode("01, the highest operation", "0x00000000000fffff", rows(&["24"])),
        bytecode("01, bits that are ignored", "0x800000000080001f", rows(&["ret"])),
        bytecode("01, no operation", "0x0000000600000000", refused(16, 0)),
        bytecode("01, no dst", "0x4040000000400000\n0", refused(19, 0)),
    ]
}

fn refusals() -> Vec<Named> {
    vec![
        listed("2", "main:\nend ; \u{e4}", "", refused(2, 12)),
        source("5", "f:\nret", refused(5, 0)),
        source("5, rows before the first label", "ret", refused(5, 0)),
        source("6", "main:\nmain:", refused(6, 0)),
        source("6, three", "main:\nend\nf:\nmain:\nret\nmain:", refused(6, 0)),
        source("3 before 6", "main:\nx\nmain:", refused(3, 1)),
        listed("8", "main:", "x", refused(8, 0)),
        listed("6 before 8", "main:\nmain:", "x", refused(6, 0)),
        listed("8 before 10", "main:\ncall g", "x", refused(8, 0)),
        listed("9", "main:\nend", "label\n.PROPHET0_0", refused(9, 0)),
        listed("9, the second", "main:\n.PROPHET0_0:\nend", "label\n.PROPHET0_0\n.PROPHET0_1", refused(9, 1)),
        listed("9 before 10", "main:\ncall g", "label\nx", refused(9, 0)),
        row("10, a label", "jmp .LBL1_1", refused(10, 0)),
        row("10, names do not find labels", ".LBL1_1:\njmp LBL1_1", refused(10, 0)),
        row("10, a prophet is no label", ".PROPHET1_1:\njmp .LBL1_1", refused(10, 0)),
        row("11", "mload r1 r2", refused(11, 0)),
        row("11, mstore", "end\nmstore r1 [r2]", refused(11, 1)),
        row("12", "mov 5 r1", refused(12, 0)),
        row("12, the first", "end\nadd r1 5 r2\nmov 5 r1", refused(12, 1)),
        row("12 after 11", "mov 5 r1\nmload r1 r2", refused(11, 1)),
    ]
}

// ---- document 02, Point 1

fn rooms() -> Vec<Named> {
    vec![
        row("room, words above the counted length", "mload r1 r2", room(1, 1, 1, 2)),
        row("room, one word more in all", "mstore [r1] 5", room(1, 1, 3, 2)),
        row("room, brackets outside mload and mstore", "mov r1 [r2]", room(1, 1, 2, 1)),
        row("room, a number in dst", "mov 5 r1", room(1, 1, 1, 1)),
        row("room, nothing looked up", "jmp nowhere", room(1, 1, 2, 2)),
        source("room, main alone", "main:", room(1, 0, 0, 0)),
        source("room, empty source", "", no_room(4, 0)),
        source("room, no main", "f:\nret", no_room(5, 0)),
        source("room, two mains", "main:\nmain:", no_room(6, 0)),
        source("room, printing", PRINTING, room(3, 4, 6, 6)),
        listed("room, whatever the list", PRINTING, "label\nx", room(3, 4, 6, 6)),
        listed("room, a list of another form", "main:\nend", "x", room(1, 1, 1, 1)),
        row("room, mload", "mload r1 [r2]", room(1, 1, 2, 2)),
        row("room, mstore", "mstore [r1,r2,3] r4", room(1, 1, 2, 2)),
        row("room, mload of psp", "mload r1 psp", room(1, 1, 1, 2)),
        row("room, mstore of numbers alone", "mstore 5 6", room(1, 1, 3, 2)),
        row("room, mload of a number", "mload r1 5", room(1, 1, 2, 2)),
        row("room, a number in mload's dst", "mload 5 [r2]", room(1, 1, 2, 2)),
        row("room, a number in op0", "add r1 5 r2", room(1, 1, 2, 1)),
        row("room, a number in op1", "add r1 r2 5", room(1, 1, 2, 2)),
        row("room, numbers in both", "add r1 5 6", room(1, 1, 3, 2)),
        row("room, numbers everywhere", "add 4 5 6", room(1, 1, 3, 2)),
        row("room, brackets in both", "eq r1 [r2] [r3,4]", room(1, 1, 3, 1)),
        row("room, brackets in op1 alone", "jmp [r1,r2]", room(1, 1, 2, 1)),
        row("room, pc", "cjmp r1 pc", room(1, 1, 1, 1)),
        row("room, a label", "cjmp r1 .LBL1_1", room(1, 1, 2, 2)),
        row("room, a name that begins as a register does", "call r10", room(1, 1, 2, 2)),
        row("room, label rows of each kind", ".LBL1_1:\n.PROPHET1_1:\nf.1:\nend\n.PROPHET1_1:", room(5, 1, 1, 1)),
        source("room, a byte above 127", "main:\nend\u{e4}", no_room(2, 9)),
        row("room, an unreadable row", "ret\n\nret 5\nx", no_room(3, 2)),
    ]
}

// ---- document 02, Point 2

pub const CALL: u64 = 0x4000000001000000;

fn names_like_labels() -> Vec<Named> {
    let called = |name: &'static str, spelt: &str| row(name, &format!("call {spelt}\n{spelt}:\nret"), words(&[CALL, 2, 0x800000]));
    let three = ".LBL1_2:\ncall xLBL1_2\ncall _LBL1_2\njmp .LBL1_2\n_LBL1_2:\nret\nxLBL1_2:\nend";
    vec![
        called("Point 2, a letter", "xLBL1_2"),
        called("Point 2, an underscore", "_LBL1_2"),
        called("Point 2, a register's letter", "rLBL1_2"),
        row("Point 2, a name does not find a .LBL row", ".LBL1_2:\njmp xLBL1_2", refused(10, 0)),
        row("Point 2, a name in dst", "mov xLBL1_2 r1\nxLBL1_2:\nret", refused(12, 0)),
        row("Point 2, one name resolves and the next does not", "call xLBL1_2\njmp g\nxLBL1_2:\nret", refused(10, 1)),
        row("Point 2, a name in mload", "mload r1 xLBL1_2", refused(11, 0)),
        row("Point 2, a digit in mload", "mload r1 5LBL1_2", refused(3, 1)),
        row("Point 2, a digit", "call 5LBL1_2\n5LBL1_2:\nret", refused(3, 1)),
        row("Point 2, a digit in a call row alone", "5LBL1_2:\nret", words(&[0x800000])),
        row("Point 2, byte 1", "jmp \u{1}LBL1_2", refused(3, 1)),
        source("Point 2, 3 in place of 5", "f:\njmp 5LBL1_2", refused(3, 1)),
        row("Point 2, 3 in place of 6", "main:\njmp 5LBL1_2", refused(3, 2)),
        row("Point 2, 3 in place of a later 3", "jmp 5LBL1_2\nbad", refused(3, 1)),
        row("Point 2, room, a digit", "call 5LBL1_2", no_room(3, 1)),
        row("Point 2, room, a letter", "call xLBL1_2", room(1, 1, 2, 2)),
        row("Point 2, room, a bracket", "jmp [LBL1_1", no_room(3, 1)),
        called("Point 2, no character", "LBL1_2"),
        called("Point 2, no digits at the end", "xLBL1_"),
        called("Point 2, more after the digits", "xLBL1_2_3"),
        row("Point 2, two dots", "jmp ..LBL1_2", refused(3, 1)),
        row("Point 2, two names and a label", three, words(&[CALL, 7, CALL, 6, 0x4000000004000000, 0, 0x800000, 0x100000])),
        row("Point 2, another name's row", "call xLBL1_2\nxaaa1_2:\nret", refused(10, 0)),
    ]
}

// ---- document 02, Point 3

fn builds() -> Vec<Named> {
    let twice = |name: &'static str, expected: Expected| listed(name, "main:\n.PROPHET0_0:\nret", "label\n.PROPHET0_0\n.PROPHET0_0", expected);
    let full = [1, 2, 0];
    vec![
        source("meter, main alone", "main:", metered(0, &[([1, 0, 0], 0, 0)])),
        row("meter, two words", "jmp 5", metered(0, &[(full, 0, 2)])),
        row("meter, which two", "jmp 5", words(&[0x4000000004000000, 5])),
        row("meter, one word entry", "jmp 5", metered(0, &[([1, 1, 0], 13, 0)])),
        row("meter, no table entry", "jmp 5", metered(0, &[([0, 2, 0], 7, 0)])),
        twice("meter, hosts do not count", metered(0, &[([2, 1, 2], 0, 1)])),
        twice("meter, one host entry", metered(0, &[([2, 1, 1], 13, 0)])),
        row("meter, stopped, and again", "jmp 5", metered(STOP - 1, &[(full, 0, STOP), (full, 0, STOP)])),
        row("meter, 2^64 - 1 exactly, and again", "jmp 5", metered(STOP - 2, &[(full, 0, STOP), (full, 0, STOP)])),
        source("meter, no word at the stop", "main:", metered(STOP, &[([1, 0, 0], 0, STOP)])),
        row("meter, refused near the stop", "jmp 5", metered(STOP - 1, &[([1, 1, 0], 13, STOP - 1), ([0, 2, 0], 7, STOP - 1)])),
        row("meter, one after another", "jmp 5", metered(0, &[(full, 0, 2), ([1, 1, 0], 13, 2), ([0, 0, 0], 7, 2), ([9, 9, 9], 0, 4)])),
        row("meter, an unreadable row", "x", metered(7, &[(full, 3, 7)])),
        row("meter, an unknown name", "call g", metered(7, &[(full, 10, 7)])),
    ]
}

// ---- readings: sources

fn reading_sources() -> Vec<Named> {
    vec![
        row("reading 1, plus", "mov r1 +5", words(&[0x4000000208000000, 5])),
        row("reading 1, +0", "mov r1 +0", words(&[0x4000000208000000, 0])),
        row(
            "reading 1, zeros",
            "mov r1 -000000000000000000000000000000000000000000000000000000000000000000005",
            words(&[0x4000000208000000, ORDER - 5]),
        ),
        row("reading 2, out of range in brackets", "mov r1 [r1,18446744069414584321]", refused(3, 1)),
        row("reading 2, -2^127 in brackets", "mload r1 [r1,r2,-170141183460469231731687303715884105728]", refused(3, 1)),
        row("reading 2, zeros before it", "mov r1 -00170141183460469231731687303715884105728", refused(3, 1)),
        row("reading 3, two names", ".LBL01_2:\njmp .LBL1_2", refused(10, 0)),
        source("reading 4, another name", "main.1:\nret", refused(5, 0)),
        source("reading 4, beside main", "main.1:\nret\nmain:\nend", words(&[0x0000000000100000, 0x0000000000800000])),
        source("reading 5, label rows that no operand reaches", "main:\nr1:\n12:\npc:\n5LBL1_1:\nf.1:\n_1:\nend", words(&[0x0000000000100000])),
        row("reading 5, a register first", "r1:\nmov r2 r1", words(&[0x0000080408000000])),
        row("reading 5, a number first", "12:\nmov r2 12", words(&[0x4000000408000000, 12])),
        row("reading 5, unreadable", "call f.1", refused(3, 1)),
        row("reading 5, unreadable digits", "call _1", refused(3, 1)),
        row("reading 9, unknown", "mov g r1", refused(10, 0)),
        row("reading 9, known", "mov main r1", refused(12, 0)),
        row("reading 10, nothing looked up", "mload f [r2]", refused(11, 0)),
        row("reading 10, first 11", "mload 5 [r2]\ncall g", refused(11, 0)),
        row("reading 10, first 10", "call g\nmload 5 [r2]", refused(10, 0)),
        source("reading 11, one row", "main:\rend", refused(3, 0)),
        row("reading 11, byte 28", "mov\u{1c}r1 5", refused(3, 1)),
        row("reading 11, a carriage return parts pieces", "mov\rr1\r5", words(&[0x4000000208000000, 5])),
        row("reading 11, counted where 11 follows", "mstore 5 6\n.LBL0_0:\njmp .LBL0_0", refused(11, 0)),
        row("reading 12, pc", "mov r1 pc", rows(&["mov r1 psp"])),
        row("reading 12, psp", "mov r1 psp", rows(&["mov r1 psp"])),
    ]
}

fn reading_lists() -> Vec<Named> {
    let host = "main:\n.PROPHET0_0:\nend";
    let two = "main:\nend\n.PROPHET0_0:\n.PROPHET0_1:\nret\n.PROPHET1_0:\nret";
    vec![
        listed("reading 6, unmapped", "main:\nend\n.PROPHET0_0:", "label\n.PROPHET0_0", refused(9, 0)),
        listed("reading 6, across scopes", "f:\n.PROPHET0_0:\nret\nmain:\njmp 1\nend", "label\n.PROPHET0_0", hosts(&[2])),
        listed("reading 7, a carriage return", host, "label\r\n", refused(8, 0)),
        listed("reading 7, a line feed alone", host, "\n", refused(8, 0)),
        listed("reading 7, an empty name", host, "label\n\n", refused(9, 0)),
        listed("reading 7, none", host, "label", hosts(&[])),
        listed("reading 7, none, with a line feed", host, "label\n", hosts(&[])),
        listed("reading 7, a byte above 127", host, "label\n\u{e4}", refused(9, 0)),
        listed("reading 7, untrimmed", host, "label\n.PROPHET0_0 ", refused(9, 0)),
        listed("reading 7, its dot", host, "label\nPROPHET0_0", refused(9, 0)),
        listed("reading 7, its colon", host, "label\n.PROPHET0_0:", refused(9, 0)),
        listed("reading 8, repeats", host, "label\n.PROPHET0_0\n.PROPHET0_0", hosts(&[0, 0])),
        listed("reading 8, two on one host", two, "label\n.PROPHET1_0\n.PROPHET0_1\n.PROPHET0_0\n.PROPHET1_0", hosts(&[1, 0, 0, 1])),
    ]
}

// ---- readings: bytecode

fn reading_bytecodes() -> Vec<Named> {
    vec![
        bytecode("reading 13, no line", "", rows(&[])),
        bytecode("reading 13, one empty line", "\n", refused(15, 0)),
        bytecode("reading 13, two endings", "0x800000\n0x800000\r\n", rows(&["ret", "ret"])),
        bytecode("reading 13, two line feeds", "0x800000\n\n", refused(15, 1)),
        bytecode("reading 13, a bare carriage return", "0x800000\r", refused(15, 0)),
        bytecode("reading 13, in a second line", "0x4000000001000000\n5\r", refused(18, 0)),
        bytecode("reading 13, two carriage returns", "0x800000\r\r\n", refused(15, 0)),
        bytecode("reading 13, nothing trimmed", " 0x800000", refused(15, 0)),
        bytecode("reading 14, plus after 0x", "0x+800000", rows(&["ret"])),
        bytecode("reading 14, plus", "+800000", rows(&["ret"])),
        bytecode("reading 14, 0x twice", "0x0x800000", rows(&["ret"])),
        bytecode("reading 14, either case", "0xfFfFfFfF00800000\n0\n", rows(&["ret"])),
        bytecode("reading 14, zeros", "00000000000000000000000800000", rows(&["ret"])),
        bytecode("reading 14, minus", "-0", refused(15, 0)),
        bytecode("reading 14, plus before 0x", "+0x800000", refused(15, 0)),
        bytecode("reading 14, 0X", "0X800000", refused(15, 0)),
        bytecode("reading 14, no digit", "0x", refused(15, 0)),
        bytecode("reading 14, an underscore", "0x_1", refused(15, 0)),
        bytecode("reading 14, a space", "0x80 0000", refused(15, 0)),
        bytecode("reading 14, 2^64", "0x10000000000000000", refused(15, 0)),
        bytecode("reading 15, hexadecimal", "0x4000000001000000\n0x0x+0a", rows(&["call 0xa"])),
        bytecode("reading 15, p", "0x4000000001000000\n0xffffffff00000001", refused(18, 0)),
        bytecode("reading 15, p - 1", "0x4000000001000000\n0xFFFFFFFF00000000", rows(&["call 0xffffffff00000000"])),
        bytecode("reading 15, minus after 0x", "0x4000000001000000\n0x-5", refused(18, 0)),
        bytecode("reading 15, minus", "0x4000000001000000\n-5", rows(&["call 0xfffffffefffffffc"])),
        bytecode("reading 15, -0", "0x4000000001000000\n-0", rows(&["call 0x0"])),
        bytecode("reading 15, no decimal", "0x4000000001000000\nff", refused(18, 0)),
        bytecode("reading 15, empty", "0x4000000001000000\n\n", refused(18, 0)),
        bytecode("reading 2, -2^127", "0x4000000001000000\n-170141183460469231731687303715884105728", refused(18, 0)),
        bytecode("reading 2, -2^127 before 15", "0x4000000001000000\n-170141183460469231731687303715884105728\nx\n800000", refused(15, 2)),
        bytecode("reading 16, add with bit 22", "0x80400000\n5", refused(17, 0)),
        bytecode("reading 16, and a line of anything", "0x80400000\nx", refused(17, 0)),
        bytecode("reading 16, alone", "0x80400000", rows(&[])),
        bytecode("reading 17, only 15 is asked", "0x4000000000000000", rows(&[])),
        bytecode("reading 18, 15 before 16", "0x0\nx", refused(15, 1)),
        bytecode("reading 18, 16 before 18", "0x4000000000000000\nx", refused(16, 0)),
        bytecode("reading 18, 18 before 19", "0x400000\nx", refused(18, 0)),
        bytecode("reading 18, the second instruction", "0x800000\n0x400000\n5\n0x0", refused(19, 1)),
        bytecode("reading 19, the number counts", "0x40000c0008000000\n5", rows(&["24"])),
        bytecode("reading 19, in mload", "0x4010040100400000\n5", rows(&["mload r0 [r0+0x5]"])),
        bytecode("reading 20", "0x4000000000800000\n5\n0x4000000000100000\n5", rows(&["ret", "end"])),
        bytecode("reading 21, mov", "0x0000000208000000", rows(&["mov r1 psp"])),
        bytecode("reading 21, any other", "0x0000000200008000", rows(&["24"])),
        Named { name: "reading 25, the third word", case: Case::Words(vec![1 << 62, 1 << 62, 1 << 23]), expected: Expected::Nothing },
        Named { name: "no words", case: Case::Words(vec![]), expected: Expected::Nothing },
        Named { name: "bits 22 and 21", case: Case::Words(vec![1 << 22, 0, 1 << 21, u64::MAX, 1 << 23, 1 << 62]), expected: Expected::Nothing },
    ]
}

// ---- readings: instructions

fn reading_instructions() -> Vec<Named> {
    use Place::{Empty, Factor, Number, Offset, Register, Special};
    vec![
        instruction("reading 23, an unlisted place", 8, Empty, Number(ORDER), Empty, refused(21, 0)),
        instruction("reading 23, before 22", 4, Number(1), Empty, Factor(1, ORDER), refused(21, 0)),
        instruction("reading 24, an offset alone", 0, Register(1), Offset(2, 5), Register(3), words(&[0x0020100880000000, 5])),
        instruction("reading 24, a factor outside memory", 0, Register(1), Factor(2, 5), Register(3), words(&[0x0020100880000000, 5])),
        instruction("reading 24, an mload with no number", 9, Register(1), Register(2), Register(3), words(&[0x0020100800400000])),
        instruction("01, the last number", 0, Offset(1, 1), Offset(2, 2), Offset(3, 3), words(&[0x0020100880000000, 3])),
        instruction("22, op0 first", 0, Number(1), Special(0), Number(1), refused(22, 0)),
        instruction("22, op1", 0, Empty, Special(0), Number(1), refused(24, 0)),
        instruction("22, dst", 8, Empty, Empty, Special(1), refused(22, 2)),
        instruction("24", 0, Register(1), Register(2), Empty, refused(24, 0)),
        instruction("01, an offset listed", 5, Empty, Offset(1, 2), Empty, Expected::Text("jmp r1+0x2".to_string())),
        instruction("01, a factor listed", 5, Empty, Factor(1, 2), Empty, Expected::Text("jmp 0x2*r1".to_string())),
        instruction("01, pc listed", 4, Empty, Special(0), Register(9), Expected::Text("mov r9 pc".to_string())),
        instruction("01, mstore listed", 10, Register(1), Factor(2, 3), Register(4), Expected::Text("mstore [r1+0x3*r2] r4".to_string())),
        instruction("01, range listed", 12, Empty, Register(0), Empty, Expected::Text("range r0".to_string())),
        instruction("01, log listed", 26, Register(0), Number(0), Empty, Expected::Text("log r0 0x0".to_string())),
    ]
}
