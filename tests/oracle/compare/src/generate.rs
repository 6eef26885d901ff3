//! Cases drawn at random. A program is rows of pieces; how they are spelt is drawn apart.
use crate::brackets;
use crate::check::Case;
use crate::lists::MNEMONICS;
use crate::numbers::{decimal, number};
use crate::paper::ORDER;
use crate::random::Random;
use crate::source::rows_alone;
use oracle::{Instruction, Place};

pub struct Generator {
    pub name: &'static str,
    /// How many of a hundred cases.
    pub share: usize,
    pub draw: fn(&mut Random) -> Case,
}

pub const GENERATORS: [Generator; 14] = [
    Generator { name: "scopes, labels and prophets", share: 20, draw: scopes },
    Generator { name: "many names", share: 3, draw: many_names },
    Generator { name: "whitespace, line endings, comments, numbers", share: 15, draw: spelling },
    Generator { name: "any operand in any place", share: 4, draw: any_places },
    Generator { name: "damaged sources", share: 15, draw: damaged_source },
    Generator { name: "soup of bytes and pieces", share: 7, draw: soup },
    Generator { name: "two mains, bytes above 127, lists of another form", share: 3, draw: departures },
    Generator { name: "bytecode of written instructions", share: 6, draw: written_bytecode },
    Generator { name: "bytecode of rows, some with contents off them", share: 6, draw: rows_alone },
    Generator { name: "bytecode of random bits", share: 6, draw: random_bits },
    Generator { name: "damaged bytecode", share: 6, draw: damaged_bytecode },
    Generator { name: "soup of bytecode characters", share: 4, draw: bytecode_soup },
    Generator { name: "instructions", share: 4, draw: instruction },
    Generator { name: "words alone", share: 1, draw: words },
];

/// One in so many of the random cases is a large source.
pub const LARGE_EVERY: usize = 6_000;

// ---- programs

type Row = Vec<String>;

/// How a program is drawn: with numbers near the bounds and odd spellings of them, with rows that are refused, and with brackets outside mload and mstore.
#[derive(Clone, Copy)]
struct Manner {
    odd: bool,
    mistakes: bool,
    brackets: bool,
}

const PLAIN: Manner = Manner { odd: false, mistakes: true, brackets: true };
const ODD: Manner = Manner { odd: true, mistakes: true, brackets: true };
const CLEAN: Manner = Manner { odd: false, mistakes: false, brackets: false };

impl Manner {
    /// Of twenty programs that may have mistakes ten do, so that enough are accepted, and one of these has brackets outside mload and mstore.
    fn drawn(self, r: &mut Random) -> Manner {
        let n = r.below(20);
        Manner { odd: self.odd, mistakes: self.mistakes && n < 10, brackets: self.brackets && n == 0 }
    }
}

/// Names of call rows. Some no operand can name, as `0x5`, which is a number there.
const CALLS: [&str; 15] = ["f", "g", "f", "h_2", "_x", "F", "__a1", "r1", "r10", "pc", "12", "0x5", "f.1", "main.1", "5LBL1_1"];
const LABELS: [&str; 6] = [".LBL0_0", ".LBL0_1", ".LBL1_0", ".LBL01_0", ".LBL12_345", ".LBL0_00"];
const PROPHETS: [&str; 4] = [".PROPHET0_0", ".PROPHET0_1", ".PROPHET1_0", ".PROPHET00_0"];
/// Names that look like labels, and such that nearly do.
const LIKE_LABELS: [&str; 12] = [
    "xLBL1_1", "rLBL1_1", "LLBL1_1", "_LBL1_1", "xLBL1_2", "xLBL01_1", "xLBL0_0", "LBL1_1", "xLBL1_", "xLBL1_1_3", "xxLBL1_1", "xLBL_1",
];
/// Operands that are unreadable: what looks like a label with another first character, and two that nearly do. With a colon some of them are call rows.
const UNREADABLE: [&str; 13] = [
    "5LBL1_1", "0LBL0_0", "+LBL1_1", "-LBL1_1", "[LBL1_1", ":LBL1_1", "\x01LBL1_1", "\x7fLBL1_1", "$LBL1_1", ",LBL1_1", "]LBL1_1", "..LBL1_1",
    ".LBL1_",
];

fn register(r: &mut Random) -> String {
    format!("r{}", r.below(10))
}

pub fn bracket(r: &mut Random, odd: bool) -> String {
    match r.below(4) {
        0 => format!("[{}]", register(r)),
        1 => format!("[{},{}]", register(r), register(r)),
        2 => format!("[{},{}]", register(r), number(r, odd)),
        _ => format!("[{},{},{}]", register(r), register(r), number(r, odd)),
    }
}

/// An operand of a place that takes numbers and names.
fn value(r: &mut Random, calls: &[String], labels: &[String], manner: Manner) -> String {
    match r.below(20) {
        0..=6 => register(r),
        7..=11 => number(r, manner.odd),
        12..=14 if !labels.is_empty() => labels[r.below(labels.len())].clone(),
        15..=17 if !calls.is_empty() => calls[r.below(calls.len())].clone(),
        18 if manner.mistakes && r.percent(4) => r.one(&LIKE_LABELS).to_string(),
        18 if manner.mistakes && r.percent(6) => r.one(&UNREADABLE).to_string(),
        19 if r.percent(50) => r.one(&["pc", "psp"]).to_string(),
        19 if manner.mistakes && r.percent(10) => r.one(&["nowhere", ".LBL9_9", "Pc", "_", "$", "_9", "r11"]).to_string(),
        _ => register(r),
    }
}

/// A row of an operation: mostly one that assembles.
fn operation(r: &mut Random, calls: &[String], labels: &[String], manner: Manner) -> Row {
    let mnemonic = r.one(&MNEMONICS);
    let mut row = vec![mnemonic.to_string()];
    let any = |r: &mut Random| value(r, calls, labels, manner);
    let plain = |r: &mut Random| if manner.mistakes && r.percent(3) { any(r) } else { register(r) };
    let memory = |r: &mut Random| if manner.mistakes && r.percent(2) { any(r) } else { bracket(r, manner.odd) };
    match mnemonic {
        "ret" | "end" => {}
        "mload" => row.extend([plain(r), memory(r)]),
        "mstore" => row.extend([memory(r), plain(r)]),
        "jmp" | "call" | "range" | "assert" => row.push(any(r)),
        "mov" | "not" | "sigcheck" | "cjmp" | "sccall" | "sload" | "sstore" | "tstore" | "log" => row.extend([plain(r), any(r)]),
        _ => row.extend([plain(r), plain(r), any(r)]),
    }
    if manner.mistakes && r.below(300) == 0 {
        row.push(register(r));
    }
    if manner.mistakes && r.below(300) == 0 {
        row.pop();
    }
    row
}

/// Scopes in random order, each with label rows; names of rows that are there, and some that are not.
fn program(r: &mut Random, most_scopes: usize, most_rows: usize, manner: Manner) -> (Vec<Row>, Vec<String>) {
    let manner = manner.drawn(r);
    let mut scopes: Vec<Vec<Row>> = vec![];
    let (mut calls, mut labels, mut prophets) = (vec!["main".to_string()], vec![], vec![]);
    let others = r.below(most_scopes);
    for n in 0..others + 2 {
        let mut scope = vec![];
        // The last is main, the one before it has no label of its own and goes first.
        let left_out = if n == others + 1 { manner.mistakes && r.percent(3) } else { n == others && r.percent(80) };
        if left_out {
            continue;
        }
        if n == others + 1 {
            scope.push(vec!["main:".to_string()]);
        } else if n < others {
            let name = match r.below(10) {
                0..=5 => r.one(&CALLS[..7]),
                6 | 7 => r.one(&LIKE_LABELS),
                8 if manner.mistakes && r.percent(5) => r.one(&UNREADABLE),
                _ => r.one(&CALLS),
            };
            calls.push(name.to_string());
            scope.push(vec![format!("{name}:")]);
        }
        for _ in 0..r.below(most_rows) {
            match r.below(10) {
                0 | 1 => {
                    let name = r.one(&LABELS).to_string();
                    scope.push(vec![format!("{name}:")]);
                    labels.push(name);
                }
                2 => {
                    let name = r.one(&PROPHETS).to_string();
                    scope.push(vec![format!("{name}:")]);
                    prophets.push(name);
                }
                _ => scope.push(vec![]),
            }
        }
        scopes.push(scope);
    }
    let first = if scopes.len() > others + 1 { Some(scopes.remove(others)) } else { None };
    r.shuffle(&mut scopes);
    let named = |name: &String| !["r1", "pc", "12", "f.1", "main.1"].contains(&&**name) && !UNREADABLE.contains(&&**name);
    let calls: Vec<String> = calls.into_iter().filter(|name| named(name) || manner.mistakes && r.percent(2)).collect();
    let mut rows: Vec<Row> = first.into_iter().chain(scopes).flatten().collect();
    if !manner.mistakes || r.percent(70) {
        rows.push(vec![]);
    }
    for row in &mut rows {
        if row.is_empty() {
            *row = operation(r, &calls, &labels, manner);
        }
    }
    if manner.brackets {
        brackets::put(r, &mut rows, manner.odd);
    }
    (rows, prophets)
}

fn list(r: &mut Random, prophets: &[String]) -> Vec<u8> {
    if r.percent(35) {
        return vec![];
    }
    let mut list = "label".to_string();
    for name in prophets {
        for _ in 0..[0, 1, 1, 1, 2][r.below(5)] {
            list = format!("{list}\n{name}");
        }
    }
    if r.percent(4) {
        list = format!("{list}\n{}", r.one(&[".PROPHET7_7", "", "main", ".LBL0_0", ".PROPHET0_0:", " .PROPHET0_0", ".PROPHET0_0\r"]));
    }
    if r.percent(40) {
        list.push('\n');
    }
    list.into_bytes()
}

fn spelt(rows: &[Row], mut parted: impl FnMut() -> String, mut ended: impl FnMut() -> String) -> Vec<u8> {
    let mut text = String::new();
    for row in rows {
        for (n, piece) in row.iter().enumerate() {
            if n > 0 {
                text.push_str(&parted());
            }
            text.push_str(piece);
        }
        text.push_str(&ended());
    }
    text.into_bytes()
}

fn plainly(rows: &[Row]) -> Vec<u8> {
    spelt(rows, || " ".to_string(), || "\n".to_string())
}

fn scopes(r: &mut Random) -> Case {
    let (rows, prophets) = program(r, 4, 8, PLAIN);
    Case::Source { source: plainly(&rows), prophets: list(r, &prophets) }
}

/// A source of many names, so that some of them fall into one bucket of the port's chains. One in four looks like a label.
fn many_names(r: &mut Random) -> Case {
    let letter = |r: &mut Random| (b'a' + r.below(26) as u8) as char;
    let name = |r: &mut Random| match r.below(4) {
        0 => format!("{}LBL{}_{}", r.one(&["x", "r", "L", "_"]), r.below(10), r.below(10)),
        _ => format!("{}{}", letter(r), letter(r)),
    };
    let calls: Vec<String> = (0..1 + r.below(60)).map(|_| name(r)).collect();
    let labels: Vec<String> = (0..1 + r.below(60)).map(|_| format!(".LBL{}_{}", r.below(100), r.below(100))).collect();
    let prophets: Vec<String> = (0..r.below(8)).map(|_| format!(".PROPHET{}_{}", r.below(100), r.below(100))).collect();
    let mut rows: Vec<Row> = calls.iter().chain(&labels).chain(&prophets).map(|name| vec![format!("{name}:")]).collect();
    for _ in 0..rows.len() {
        rows.push(operation(r, &calls, &labels, CLEAN));
    }
    r.shuffle(&mut rows);
    rows.insert(r.below(rows.len() + 1), vec!["main:".to_string()]);
    rows.push(operation(r, &calls, &labels, CLEAN));
    Case::Source { source: plainly(&rows), prophets: list(r, &prophets) }
}

/// A source of some thousand rows.
pub fn large(r: &mut Random) -> Case {
    let (scopes, rows) = (2 + r.below(200), 2 + r.below(40));
    let manner = if r.percent(80) { CLEAN } else { Manner { brackets: false, ..PLAIN } };
    let (rows, prophets) = program(r, scopes, rows, manner);
    let mut source = plainly(&rows);
    source.truncate(crate::paper::SOURCE_LIMIT + 1);
    let mut prophets = list(r, &prophets);
    prophets.truncate(crate::paper::LIST_LIMIT + 1);
    Case::Source { source, prophets }
}

fn spelling(r: &mut Random) -> Case {
    let (rows, prophets) = program(r, 2, 6, ODD);
    let mut other = Random::new(r.next());
    let parted = || match r.below(40) {
        0..=19 => " ".to_string(),
        39 if r.percent(20) => r.one(&["\x1c", "\x1f", "\0", ",", "\x08", "\x0e", ""]).to_string(),
        _ => (0..1 + r.below(3)).map(|_| r.one(&[" ", "\t", "\x0b", "\x0c", "\r", "  "])).collect(),
    };
    let ended = || {
        let comment = if other.percent(25) { other.one(&[";", " ; text", ";;", "; main:", "\t;\r", ";\x1c"]) } else { "" };
        let ending = match other.below(20) {
            0..=9 => "\n",
            10..=13 => "\r\n",
            19 if other.percent(10) => other.one(&["\r", "\x0b", "\x0c", " "]),
            _ => other.one(&["\n\n", " \n", "\r\r\n", "\n\t", "\n \x0b", "\r\n\r\n", "\n;\n", "\n\x0c"]),
        };
        format!("{comment}{ending}")
    };
    let source = spelt(&rows, parted, ended);
    Case::Source { source, prophets: list(r, &prophets) }
}

/// Rows with as many operands as their operation takes, of any shape in any place, one in three of mload or mstore.
fn any_places(r: &mut Random) -> Case {
    let operand = |r: &mut Random| match r.below(8) {
        0 | 1 => register(r),
        2 | 3 => number(r, false),
        4 => bracket(r, false),
        5 => r.one(&["pc", "psp"]).to_string(),
        6 => r.one(&["main", "f", "nowhere", "r10", "xLBL0_0", "_LBL0_0"]).to_string(),
        _ if r.percent(20) => r.one(&UNREADABLE).to_string(),
        _ => r.one(&[".LBL0_0", ".LBL9_9"]).to_string(),
    };
    let mut rows: Vec<Row> = ["main:", ".LBL0_0:", "f:", "xLBL0_0:"].map(|label| vec![label.to_string()]).to_vec();
    for _ in 0..1 + r.below(3) {
        let mnemonic = if r.below(3) == 0 { r.one(&["mload", "mstore"]) } else { r.one(&MNEMONICS) };
        let count = match mnemonic {
            "ret" | "end" => 0,
            "jmp" | "call" | "range" | "assert" => 1,
            "mload" | "mstore" | "mov" | "not" | "sigcheck" | "cjmp" | "sccall" | "sload" | "sstore" | "tstore" | "log" => 2,
            _ => 3,
        };
        let mut row = vec![mnemonic.to_string()];
        row.extend((0..count).map(|_| operand(r)));
        rows.insert(r.below(rows.len() + 1), row);
    }
    Case::Source { source: plainly(&rows), prophets: vec![] }
}

// ---- damage

const MEANT: &[u8] = b"\n\n\n;: \t\r[],+-_.0159xrLBPROHETmainfg\x1c\x0b\x00\x7f";

fn byte(r: &mut Random, meant: &[u8]) -> u8 {
    if r.percent(70) {
        meant[r.below(meant.len())]
    } else {
        r.below(128) as u8
    }
}

fn damage(r: &mut Random, text: &mut Vec<u8>, meant: &[u8]) {
    if text.is_empty() {
        text.push(byte(r, meant));
        return;
    }
    let at = r.below(text.len());
    match r.below(9) {
        0 | 1 => text[at] = byte(r, meant),
        2 => drop(text.remove(at)),
        3 => text.insert(at, text[at]),
        4 => text.insert(at, byte(r, meant)),
        5 => text.truncate(at),
        6 => text.swap(at, at / 2),
        _ => lines_damaged(r, text),
    }
}

/// Two lines swapped, one left out or one doubled.
fn lines_damaged(r: &mut Random, text: &mut Vec<u8>) {
    let mut lines: Vec<Vec<u8>> = text.split(|byte| *byte == b'\n').map(|line| line.to_vec()).collect();
    let (one, two) = (r.below(lines.len()), r.below(lines.len()));
    match r.below(3) {
        0 => lines.swap(one, two),
        1 => drop(lines.remove(one)),
        _ => lines.insert(two, lines[one].clone()),
    }
    *text = lines.join(&b'\n');
}

fn damaged_source(r: &mut Random) -> Case {
    let manner = if r.percent(20) { ODD } else { PLAIN };
    let (rows, prophets) = program(r, 3, 6, manner);
    let mut source = plainly(&rows);
    let mut prophets = list(r, &prophets);
    for _ in 0..[1, 1, 1, 2, 3][r.below(5)] {
        damage(r, &mut source, MEANT);
    }
    if r.percent(10) && !prophets.is_empty() {
        damage(r, &mut prophets, MEANT);
    }
    Case::Source { source, prophets }
}

fn soup(r: &mut Random) -> Case {
    let mut source = if r.percent(80) { b"main:\n".to_vec() } else { vec![] };
    let pieces = [
        "main:", "\n", "\n", "\n", " ", " ", "mov", "r1", "r2", ".LBL", "LBL", "0", "1_2", "_", ":", ";", "[", ",", "]", "+", "-", "ret", "end",
        "pc", "psp", "f", ".PROPHET", "\t", "\r", "jmp", "mload", ".", "r", "add", "call xLBL1_2", "xLBL1_2:", "jmp 5LBL1_2",
        "mov r1 0x", "0x5:", "mload r1 [r2,0xA]",
    ];
    for _ in 0..r.below(14) {
        match r.below(3) {
            0 => source.push(r.below(128) as u8),
            1 => source.push(byte(r, MEANT)),
            _ => source.extend(r.one(&pieces).bytes()),
        }
    }
    Case::Source { source, prophets: vec![] }
}

fn departures(r: &mut Random) -> Case {
    let (mut rows, prophets) = program(r, 3, 4, PLAIN);
    let mut prophets = list(r, &prophets);
    match r.below(3) {
        0 => {
            for _ in 0..1 + r.below(2) {
                rows.insert(r.below(rows.len() + 1), vec!["main:".to_string()]);
            }
        }
        1 => {
            let mut source = plainly(&rows);
            for _ in 0..1 + r.below(2) {
                source.insert(r.below(source.len() + 1), 128 + r.below(128) as u8);
            }
            return Case::Source { source, prophets };
        }
        _ => {
            let other = ["x", "label ", "Label", "label\r", "\n", " label", "labels", "\u{e4}", "lab"];
            prophets = format!("{}{}", r.one(&other), r.one(&["", "\n", "\n.PROPHET0_0", "\nlabel\n.PROPHET0_0"])).into_bytes();
        }
    }
    Case::Source { source: plainly(&rows), prophets }
}

// ---- bytecode

/// A first word of an operation with registers and the mark of a number.
fn first_word(r: &mut Random) -> u64 {
    let mut word = 1u64 << (5 + r.below(27));
    if r.percent(20) {
        word = 1 << (21 + r.below(2));
    }
    for start in [32, 42, 52] {
        if r.percent(85) {
            word |= 1 << (start + r.below(10));
        }
        if r.percent(5) {
            word |= 1 << (start + r.below(10));
        }
    }
    if r.percent(40) {
        word |= 1 << 62;
    }
    if r.percent(3) {
        word |= 1 << r.below(64);
    }
    word
}

fn spelt_word(r: &mut Random, word: u64) -> String {
    match r.below(14) {
        0 => format!("{word:x}"),
        1 => format!("0x{word:X}"),
        2 => format!("0x0x{word:x}"),
        3 => format!("+{word:x}"),
        4 => format!("0x+{word:016x}"),
        5 => format!("{}{word:x}", "0".repeat(r.below(40))),
        6 if r.percent(10) => format!("{}{word:x}", r.one(&["-", "0X", "+0x", " ", "0x ", "0x-", "1", "x"])),
        _ => format!("0x{word:016x}"),
    }
}

fn second_line(r: &mut Random) -> String {
    match r.below(8) {
        0..=2 => decimal(r, true),
        3 => format!("{:#x}", r.next() % ORDER),
        4 => format!("{}0x{:x}", "0x".repeat(r.below(3)), r.next() >> r.below(64)),
        5 => format!("0x{:X}", ORDER.wrapping_add(r.below(3) as u64).wrapping_sub(1)),
        6 if r.percent(15) => r.one(&["", "ff", "0x", "0x-5", "+-5", "5 ", "0X5", "--5", "5_0", "+", "-", "0x+ff", "+0x5"]).to_string(),
        _ => r.below(40).to_string(),
    }
}

fn written_lines(r: &mut Random, most: usize) -> Vec<u8> {
    let mut lines = vec![];
    for _ in 0..r.below(most) {
        let word = first_word(r);
        lines.push(spelt_word(r, word));
        if crate::paper::two_lines(word) != r.percent(1) {
            lines.push(second_line(r));
        }
    }
    let mut text = String::new();
    for (n, line) in lines.iter().enumerate() {
        text.push_str(line);
        if n + 1 < lines.len() || r.percent(40) {
            text.push_str(if r.percent(15) { "\r\n" } else { "\n" });
        }
    }
    if r.below(60) == 0 {
        text.push_str(r.one(&["\r", "\n", "\n\n", "\r\r\n", " "]));
    }
    text.into_bytes()
}

fn written_bytecode(r: &mut Random) -> Case {
    Case::Bytecode(written_lines(r, 9))
}

fn random_bits(r: &mut Random) -> Case {
    let mut lines = vec![];
    for _ in 0..r.below(5) {
        let word = match r.below(4) {
            0 => r.next(),
            1 => r.next() & r.next(),
            2 => r.next() & r.next() & r.next(),
            _ => 1 << r.below(64) | 1 << r.below(64) | 1 << r.below(64),
        };
        lines.push(format!("0x{word:016x}"));
        if crate::paper::two_lines(word) && r.percent(97) {
            lines.push(r.below(100).to_string());
        }
    }
    Case::Bytecode(lines.join("\n").into_bytes())
}

fn damaged_bytecode(r: &mut Random) -> Case {
    let mut text = written_lines(r, 6);
    for _ in 0..1 + r.below(3) {
        damage(r, &mut text, b"0123456789abcdefABCDEFx+-\n\r\n\r \x00_");
    }
    if r.percent(3) && !text.is_empty() {
        let at = r.below(text.len());
        text[at] = 128 + r.below(128) as u8;
    }
    Case::Bytecode(text)
}

fn bytecode_soup(r: &mut Random) -> Case {
    let characters = b"0000000011248cfxx+-\n\n\rE";
    let mut text = vec![];
    for _ in 0..r.below(30) {
        match r.below(12) {
            0 => text.push(r.below(128) as u8),
            1 => text.extend(b"0x"),
            2 => text.push(b'\n'),
            _ => text.push(characters[r.below(characters.len())]),
        }
    }
    Case::Bytecode(text)
}

// ---- instructions and words

fn place(r: &mut Random) -> Place {
    let number = |r: &mut Random| match r.below(30) {
        0..=9 => r.below(20) as u64,
        10..=19 => r.next() % ORDER,
        20..=28 => r.next() >> r.below(64),
        _ => ORDER - 1 + r.below(3) as u64,
    };
    match r.below(10) {
        0 => Place::Empty,
        1 | 2 => Place::Number(number(r)),
        3..=5 => Place::Register(r.below(10) as u8),
        6 => Place::Offset(r.below(10) as u8, number(r)),
        7 | 8 => Place::Factor(r.below(10) as u8, number(r)),
        _ => Place::Special(r.below(2) as u8),
    }
}

fn instruction(r: &mut Random) -> Case {
    Case::Instruction(Instruction { opcode: r.below(27) as u8, op0: place(r), op1: place(r), dst: place(r) })
}

fn words(r: &mut Random) -> Case {
    let word = |r: &mut Random| match r.below(4) {
        0 => r.next(),
        1 => r.next() >> r.below(64),
        2 => first_word(r),
        _ => r.below(20) as u64,
    };
    Case::Words((0..r.below(12)).map(|_| word(r)).collect())
}
