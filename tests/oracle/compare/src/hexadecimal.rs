//! Hexadecimal numbers in sources, document 02's Point 4. The Rust reads numbers in decimal alone, and such a source is "compared with the Rust run on the same
//! source in decimal": how it is respelt, how many such sources there were, and the cases of it.
use crate::check::Expected;
use crate::named::{bytecode, hosts, listed, no_room, refused, room, row, rows, source, words, Named, CALL};
use crate::paper::{self, ORDER};

/// A source in decimal, and whether one of its numbers that were hexadecimal stands in brackets, and one is p or more.
pub struct Decimal {
    pub text: String,
    pub bracketed: bool,
    pub large: bool,
}

/// How many sources had a hexadecimal number; how many of these were accepted, and how many with such a number in brackets; how many had an unreadable row,
/// and how many with such a number of p or more.
#[derive(Clone, Copy, Default)]
pub struct Hexadecimals {
    pub sources: u64,
    pub accepted: u64,
    pub bracketed: u64,
    pub unreadable: u64,
    pub large: u64,
}

impl Hexadecimals {
    pub fn tally(&mut self, decimal: &Decimal, number: u64) {
        self.sources += 1;
        self.accepted += u64::from(number == 0);
        self.bracketed += u64::from(number == 0 && decimal.bracketed);
        self.unreadable += u64::from(number == 3);
        self.large += u64::from(number == 3 && decimal.large);
    }
}

/// A source with each hexadecimal number of an operand in decimal, where it has one. One of p or more is respelt too: it is unreadable either way. All else
/// stays, call rows that look like such a number among it; the places after a number are others.
pub fn in_decimal(source: &str) -> Option<Decimal> {
    let mut decimal = Decimal { text: String::new(), bracketed: false, large: false };
    let mut done = 0;
    for (operand, number) in paper::operands(source).into_iter().filter_map(|operand| Some((operand, hexadecimal(operand)?))) {
        let start = paper::place(source, number);
        let value = u64::from_str_radix(&number[2..], 16).unwrap();
        decimal.text.push_str(&source[done..start]);
        decimal.text.push_str(&value.to_string());
        decimal.bracketed |= operand != number;
        decimal.large |= value >= ORDER;
        done = start + number.len();
    }
    if done == 0 {
        return None;
    }
    decimal.text.push_str(&source[done..]);
    Some(decimal)
}

/// The hexadecimal number of an operand, which is the whole of it or the n of `[rA,n]` or `[rA,rB,n]`: "`0x` and one to sixteen hexadecimal digits of either
/// case, without sign".
fn hexadecimal(operand: &str) -> Option<&str> {
    let number = match operand.strip_prefix('[') {
        None => operand,
        Some(inside) => {
            let (registers, number) = inside.strip_suffix(']')?.rsplit_once(',')?;
            let registers: Vec<&str> = registers.split(',').collect();
            if registers.len() > 2 || !registers.into_iter().all(paper::register) {
                return None;
            }
            number
        }
    };
    let digits = number.strip_prefix("0x")?;
    let read = (1..=16).contains(&digits.len()) && digits.bytes().all(|byte| byte.is_ascii_hexdigit());
    read.then_some(number)
}

// ---- cases

const MOV: u64 = 0x4000000208000000;

pub fn numbers() -> Vec<Named> {
    let unreadable = |name: &'static str, spelt: &str| row(name, &format!("mov r1 {spelt}"), refused(3, 1));
    vec![
        row("Point 4, either case", "mov r1 0xaBcD", words(&[MOV, 0xabcd])),
        row("Point 4, sixteen digits", "mov r1 0x0000000000000005", words(&[MOV, 5])),
        unreadable("Point 4, seventeen digits", "0x00000000000000005"),
        row("Point 4, p - 1", "mov r1 0xffffffff00000000", words(&[MOV, ORDER - 1])),
        unreadable("Point 4, p", "0xffffffff00000001"),
        unreadable("Point 4, 2^64 - 1", "0xFFFFFFFFFFFFFFFF"),
        row("Point 4, p in brackets", "mload r1 [r2,0xffffffff00000001]", refused(3, 1)),
        row("Point 4, p in a factor", "mstore [r1,r2,0xFFFFFFFF00000001] r3", refused(3, 1)),
        row("Point 4, seventeen digits in brackets", "mload r1 [r2,0x00000000000000005]", refused(3, 1)),
        unreadable("Point 4, no digit", "0x"),
        unreadable("Point 4, 0X", "0X5"),
        unreadable("Point 4, minus", "-0x5"),
        unreadable("Point 4, plus", "+0x5"),
        unreadable("Point 4, plus after 0x", "0x+5"),
        unreadable("Point 4, 0x twice", "0x0x5"),
        unreadable("Point 4, no such digit", "0xg"),
        unreadable("Point 4, a zero before 0x", "00x5"),
        unreadable("Point 4, an underscore", "0x5_"),
        row("Point 4, minus in brackets", "mload r1 [r2,-0xA]", refused(3, 1)),
        row("Point 4, an offset", "mload r1 [r2,0xA]", words(&[0x4040000200400000, 0xa])),
        row("Point 4, a factor", "mstore [r1,r2,0xa] r3", words(&[0x0020100800200000, 0xa])),
        row("Point 4, a call row that no operand can name", "call 0x5\n0x5:\nret", words(&[CALL, 5, 0x800000])),
        row("Point 4, 12 in dst", "mov 0x5 r1", refused(12, 0)),
        row("Point 4, 12 in op0", "add r1 0x5 r2", refused(12, 0)),
        row("Point 4, a name", "mov r0x1 5", refused(10, 0)),
        row("Point 4, room", "mload r1 [r2,0xA]", room(1, 1, 2, 2)),
        row("Point 4, room, p", "mload r1 [r2,0xffffffff00000001]", no_room(3, 1)),
        second("Point 4, bytecode, seventeen digits", "0x00000000000000005", rows(&["call 0x5"])),
        second("Point 4, bytecode, 0x twice", "0x0x5", rows(&["call 0x5"])),
        second("Point 4, bytecode, plus after 0x", "0x+5", rows(&["call 0x5"])),
        second("Point 4, bytecode, minus", "-0x5", refused(18, 0)),
        second("Point 4, bytecode, decimal", "16", rows(&["call 0x10"])),
        row("Point 4, a first piece", "0x5 r1", refused(3, 1)),
        row("Point 4, after a bracket", "mload r1 [r2,0x5]6", refused(3, 1)),
        row("Point 4, three registers", "mload r1 [r2,r3,r4,0x5]", refused(3, 1)),
        row("Point 4, in place of a register", "mload r1 [0x5,r2]", refused(3, 1)),
        row("Point 4, comments", "mov r1 0xA;0xB\n;mov r1 0x5 0x\nmov\tr1\r0x0b ; 0X5", words(&[MOV, 10, MOV, 11])),
        row("Point 4, beside Point 2", "call xLBL1_2\nmov r1 0x00F\nxLBL1_2:\nret", words(&[CALL, 4, MOV, 15, 0x800000])),
        row("Point 4, beside Point 2, unreadable", "ret\nmov r1 0x5\njmp 5LBL1_2", refused(3, 3)),
        row("Point 4, a later row", "mov r1 0x000A\n\nmov r1 0X5", refused(3, 2)),
        source("Point 4, the offset of a byte above 127", "main:\nmov r1 0x00A ;\u{e4}", refused(2, 20)),
        listed("Point 4, a host", "main:\nret\nmov r1 0x5\n.PROPHET0_0:\nret", "label\n.PROPHET0_0", hosts(&[1])),
        listed("Point 4, no name of a list", "main:\nmov r1 0x5\n5:\n0x5:\nret", "label\n0x5", refused(9, 0)),
    ]
}

/// A call's second line in bytecode.
fn second(name: &'static str, line: &str, expected: Expected) -> Named {
    bytecode(name, &format!("{CALL:#018x}\n{line}"), expected)
}
