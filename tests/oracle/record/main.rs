//! Records a sample of the Rust's answers for crates/replay: makes cases from a seed, asks the nine files, and writes one case a line.
//!   record SEED FOLDER
//! It writes FOLDER/sources, FOLDER/bytecodes and FOLDER/instructions, and prints how many cases and how many of each refusal each has.
//!
//! A line has fields parted by tabs: the function, what it is given, then `refused`, number and detail, or `accepted` and the results.
//! In a field of text \n, \r, \t, \\ and \xNN stand for bytes. An instruction is ten numbers: its operation, then for each of op0, op1 and
//! dst a content (0 empty, 1 number, 2 register, 3 register with offset, 4 register with factor, 5 special), a register and a number.
use oracle::{Answer, Assembled, Instruction, Place};
use std::collections::{BTreeMap, BTreeSet, HashSet};
use std::fmt::Write;

const ORDER: u64 = 0xFFFF_FFFF_0000_0001;
const COMMIT: &str = "Sin7Y/olavm, commit 74fb50ee61";

// ---- chance

/// splitmix64.
struct Chance(u64);

impl Chance {
    fn next(&mut self) -> u64 {
        self.0 = self.0.wrapping_add(0x9E37_79B9_7F4A_7C15);
        let mut z = self.0;
        z = (z ^ (z >> 30)).wrapping_mul(0xBF58_476D_1CE4_E5B9);
        z = (z ^ (z >> 27)).wrapping_mul(0x94D0_49BB_1331_11EB);
        z ^ (z >> 31)
    }

    fn below(&mut self, n: usize) -> usize {
        (self.next() % n as u64) as usize
    }

    /// True so many times of a hundred.
    fn percent(&mut self, n: usize) -> bool {
        self.below(100) < n
    }

    fn pick<'a>(&mut self, list: &[&'a str]) -> &'a str {
        list[self.below(list.len())]
    }

    fn one_of(&mut self, list: &[String]) -> String {
        list[self.below(list.len())].clone()
    }
}

// ---- sources

/// How a source is made: how often a row has a fault of its own, whether numbers stand around the bounds, whether whitespace is odd.
#[derive(Clone, Copy)]
struct Manner {
    fault: usize,
    bounds: bool,
    spaces: bool,
}

/// The names that a source's label rows hold.
struct Names {
    calls: Vec<String>,
    labels: Vec<String>,
    prophets: Vec<String>,
}

const THREE: [&str; 10] = ["add", "mul", "and", "or", "xor", "eq", "neq", "gte", "tload", "poseidon"];
const TARGET: [&str; 3] = ["mov", "not", "sigcheck"];
const TWO: [&str; 6] = ["cjmp", "tstore", "sccall", "sload", "sstore", "log"];
const ONE: [&str; 4] = ["jmp", "call", "range", "assert"];
const CALLS: [&str; 14] = ["f", "g", "h", "f", "g", "_k", "f_1", "G2", "f.1", "main.1", "r1", "12", "pc", "xLBL1_1"];
const LABELS: [&str; 6] = [".LBL0_0", ".LBL0_1", ".LBL1_0", ".LBL1_2", ".LBL01_2", ".LBL12_345"];
const PROPHETS: [&str; 4] = [".PROPHET0_0", ".PROPHET0_1", ".PROPHET1_0", ".PROPHET00_1"];

fn register(c: &mut Chance) -> String {
    format!("r{}", c.below(10))
}

fn number(c: &mut Chance, m: Manner) -> String {
    let sign = c.pick(&["", "", "", "-", "+"]);
    let zeros = c.pick(&["", "", "", "0", "000"]);
    if m.bounds && c.percent(70) {
        let middle: u128 = match c.below(8) {
            0 | 1 | 2 | 3 => ORDER as u128,
            4 => 1 << 63,
            5 => 1 << 64,
            6 => 1 << 127,
            _ => 0x1_0000_0000,
        };
        return format!("{sign}{zeros}{}", middle + c.below(4) as u128 - if c.percent(70) { 2 } else { 0 });
    }
    if c.percent(15) {
        return format!("{sign}{}", c.next() % ORDER);
    }
    format!("{sign}{zeros}{}", c.below(300))
}

fn bracketed(c: &mut Chance, m: Manner) -> String {
    let (a, b) = (register(c), register(c));
    match c.below(4) {
        0 => format!("[{a}]"),
        1 => format!("[{a},{b}]"),
        2 => format!("[{a},{}]", number(c, m)),
        _ => format!("[{a},{b},{}]", number(c, m)),
    }
}

/// A call name: mostly one that a row has and an operand can name, of the port and of the Rust.
fn name(c: &mut Chance, m: Manner, names: &Names) -> String {
    let sayable: Vec<String> =
        names.calls.iter().filter(|n| !n.contains('.') && !["r1", "12", "pc", "xLBL1_1"].contains(&n.as_str())).cloned().collect();
    if sayable.is_empty() || c.percent(m.fault) {
        return c.pick(&["f", "g", "h", "nowhere", "f.1", "__"]).to_string();
    }
    c.one_of(&sayable)
}

/// A label: mostly one that a row has. Now and then none has it, or it is a name.
fn label(c: &mut Chance, m: Manner, names: &Names) -> String {
    if names.labels.is_empty() || c.percent(m.fault) {
        return c.pick(&[".LBL0_0", ".LBL1_2", ".LBL9_9", ".LBL1_1", "xLBL10_"]).to_string();
    }
    c.one_of(&names.labels)
}

/// What stands in op1.
fn value(c: &mut Chance, m: Manner, names: &Names) -> String {
    match c.below(12) {
        0..=4 => register(c),
        5..=7 => number(c, m),
        8 => {
            if names.calls.is_empty() {
                register(c)
            } else {
                name(c, m, names)
            }
        }
        9 => {
            if names.labels.is_empty() {
                number(c, m)
            } else {
                label(c, m, names)
            }
        }
        10 => c.pick(&["pc", "psp"]).to_string(),
        _ => bracketed(c, m),
    }
}

/// What stands in op0 and dst: a register, now and then another content.
fn plain(c: &mut Chance, m: Manner, names: &Names) -> String {
    if c.percent(m.fault) {
        return value(c, m, names);
    }
    if c.percent(4) {
        return c.pick(&["pc", "psp", "[r3]", "[r4,7]", "[r5,r6]"]).to_string();
    }
    register(c)
}

fn row(c: &mut Chance, m: Manner, names: &Names) -> String {
    match c.below(14) {
        0..=2 => format!("{} {} {} {}", c.pick(&THREE), plain(c, m, names), plain(c, m, names), value(c, m, names)),
        3..=5 => format!("{} {} {}", c.pick(&TARGET), plain(c, m, names), value(c, m, names)),
        6 | 7 => format!("{} {} {}", c.pick(&TWO), plain(c, m, names), value(c, m, names)),
        8 => {
            let target = if names.labels.is_empty() { number(c, m) } else { label(c, m, names) };
            format!("{} {target}", c.pick(&["jmp", "jmp", "cjmp r1"]))
        }
        9 => format!("{} {}", c.pick(&ONE), value(c, m, names)),
        10 => format!("call {}", name(c, m, names)),
        11 => {
            let memory = if c.percent(m.fault) { value(c, m, names) } else { bracketed(c, m) };
            format!("mload {} {memory}", if c.percent(m.fault) { value(c, m, names) } else { register(c) })
        }
        12 => {
            let memory = if c.percent(m.fault) { value(c, m, names) } else { bracketed(c, m) };
            format!("mstore {memory} {}", if c.percent(m.fault) { value(c, m, names) } else { register(c) })
        }
        _ => c.pick(&["ret", "end"]).to_string(),
    }
}

/// The rows of a source: label rows as they are, an empty row for each instruction that is still to be written.
fn frame(c: &mut Chance) -> (Vec<String>, Names) {
    let mut rows = vec![];
    let mut names = Names { calls: vec![], labels: vec![], prophets: vec![] };
    let count = 1 + c.below(4);
    let main = c.below(count);
    if c.percent(15) {
        rows.push(String::new());
    }
    for i in 0..count {
        let call = if i == main { "main" } else { c.pick(&CALLS) };
        rows.push(format!("{call}:"));
        names.calls.push(call.to_string());
        for _ in 0..c.below(5) {
            match c.below(10) {
                0 | 1 => {
                    let l = c.pick(&LABELS);
                    rows.push(format!("{l}:"));
                    names.labels.push(l.to_string());
                }
                2 | 3 => {
                    let p = c.pick(&PROPHETS);
                    rows.push(format!("{p}:"));
                    names.prophets.push(p.to_string());
                }
                _ => rows.push(String::new()),
            }
        }
    }
    (rows, names)
}

/// Rows joined to a text, with comments and odd whitespace where these are asked for.
fn joined(c: &mut Chance, m: Manner, rows: &[String]) -> String {
    let mut text = String::new();
    for (i, row) in rows.iter().enumerate() {
        let mut row = row.clone();
        if m.spaces {
            row = row.replace(' ', c.pick(&[" ", "  ", "\t", " \u{b}", "\u{c}", "\r", " \t "]));
            row = format!("{}{row}{}", c.pick(&["", "", " ", "\t", "  "]), c.pick(&["", "", " ", "\t", "; a row", " ;", ";;x"]));
            if c.percent(15) {
                text.push_str(c.pick(&["\n", "  \n", "; nothing\n", "\t;\n", "\r\n"]));
            }
        }
        text.push_str(&row);
        if i + 1 < rows.len() || c.percent(50) {
            text.push_str(if m.spaces { c.pick(&["\n", "\n", "\r\n"]) } else { "\n" });
        }
    }
    text
}

/// A few bytes of a text left out, put in or changed.
fn damaged(c: &mut Chance, text: &str, edits: usize) -> String {
    let telling = ["", ":", ";", " ", ",", "[", "]", "_", ".", "r", "0", "9", "-", "+", "x", "\n", "\r", "\t", "\u{1c}", "\u{1}", "L", "a", "0x", "A", "\u{7f}", "main:\n"];
    let mut bytes = text.as_bytes().to_vec();
    for _ in 0..edits {
        let at = c.below(bytes.len() + 1);
        let end = (at + c.below(3)).min(bytes.len());
        let put = c.pick(&telling);
        bytes.splice(at..end, put.bytes());
    }
    String::from_utf8(bytes).unwrap()
}

fn source(c: &mut Chance) -> (String, Vec<String>) {
    let manner = Manner { fault: if c.percent(40) { 25 } else { 0 }, bounds: c.percent(20), spaces: c.percent(25) };
    let (mut rows, names) = frame(c);
    for r in rows.iter_mut() {
        if r.is_empty() {
            *r = row(c, manner, &names);
        }
    }
    let mut text = joined(c, manner, &rows);
    if c.percent(25) {
        let edits = 1 + c.below(3);
        text = damaged(c, &text, edits);
    }
    if c.percent(3) {
        text = text.replace("main:", "mine:");
    }
    if c.percent(2) {
        text = c.pick(&["", "\n", ";", "  \n\t\n", "; main:\n", "\r\n", " ", ";;\n\n"]).to_string();
    }
    let mut list = vec![];
    if !names.prophets.is_empty() && c.percent(75) {
        for _ in 0..1 + c.below(3) {
            list.push(c.one_of(&names.prophets));
        }
    }
    if c.percent(6) {
        list.push(c.pick(&[".PROPHET7_7", "", "PROPHET0_0", ".PROPHET0_0 ", ".PROPHET0_0:", "main"]).to_string());
    }
    (text, list)
}

/// A prophet list as document 01 has it.
fn list_text(c: &mut Chance, list: &[String]) -> String {
    if list.is_empty() {
        return c.pick(&["", "", "label", "label\n"]).to_string();
    }
    let mut text = String::from("label");
    for name in list {
        text.push('\n');
        text.push_str(name);
    }
    if list.last().unwrap().is_empty() || c.percent(60) {
        text.push('\n');
    }
    text
}

/// How many rows are the label `main`: of two the Rust's sort has no fixed answer.
fn mains(source: &str) -> usize {
    source.lines().filter(|line| line.split(';').next().unwrap().trim() == "main:").count()
}

/// Whether an operand is one character that is no dot, then `LBL`, digits, `_` and digits: document 02's Point 2 departs from the Rust there.
fn like_label(source: &str) -> bool {
    let digits = |part: &str| !part.is_empty() && part.bytes().all(|b| b.is_ascii_digit());
    let pair = |piece: &str| piece.get(1..)?.strip_prefix("LBL")?.split_once('_').map(|(a, b)| digits(a) && digits(b));
    let like = |piece: &str| !piece.starts_with('.') && pair(piece) == Some(true);
    source.lines().any(|line| line.split(';').next().unwrap().split_whitespace().skip(1).any(like))
}

/// A source with `psp` in place of each bracketed operand in a readable row of another operation than mload and mstore: by document 02's Point 6 the comparison
/// with the Rust is over sources without such rows. Whether a row is readable is asked of the Rust.
fn without_brackets(source: &str) -> String {
    let readable = |row: &str| !matches!(oracle::assemble(&format!("main:\n{row}"), &[]), Answer::Refused(3, _) | Answer::Panicked);
    let other = |row: &str| row.split_whitespace().next().is_some_and(|first| !["mload", "mstore"].contains(&first));
    let mut text = source.to_string();
    // From the end on, so that the places ahead stay.
    for row in source.lines().rev().map(|line| line.split(';').next().unwrap()).filter(|row| other(row) && readable(row)) {
        for operand in row.split_whitespace().rev().filter(|piece| piece.starts_with('[')) {
            let start = operand.as_ptr() as usize - source.as_ptr() as usize;
            text.replace_range(start..start + operand.len(), "psp");
        }
    }
    text
}

/// Whether an operand has a hexadecimal number, which the Rust does not read: document 02's Point 4 departs from it there.
fn hexadecimal(source: &str) -> bool {
    let digits = |text: &str| (1..=16).contains(&text.len()) && text.bytes().all(|b| b.is_ascii_hexdigit());
    let number = |part: &str| part.strip_prefix("0x").is_some_and(digits);
    let has = |piece: &str| piece.split(['[', ',', ']']).any(number);
    source.lines().any(|line| line.split(';').next().unwrap().split_whitespace().skip(1).any(has))
}

// ---- bytecodes

fn first_word(c: &mut Chance) -> u64 {
    let mut word = 0;
    for _ in 0..1 + c.below(10) / 9 {
        word |= 1 << (5 + c.below(27));
    }
    if c.percent(25) {
        word |= if c.percent(50) { 1 << 22 } else { 1 << 21 };
    }
    if c.percent(5) {
        word = 0;
    }
    for place in [52, 42, 32] {
        for _ in 0..c.below(8).min(2) {
            word |= 1 << (place + c.below(10));
        }
    }
    if c.percent(40) {
        word |= 1 << 62;
    }
    if c.percent(10) {
        word |= 1 << 63;
    }
    if c.percent(10) {
        word |= c.next() % 32;
    }
    word
}

fn first_line(c: &mut Chance, word: u64) -> String {
    match c.below(30) {
        0 => format!("{word:x}"),
        1 => format!("0x0x{word:x}"),
        2 => format!("0x{word:X}"),
        3 => format!("+{word:x}"),
        4 => format!("0x+{word:x}"),
        5 => format!("0x000{word:016x}"),
        6 => format!("0x{word:x}"),
        _ => format!("0x{word:016x}"),
    }
}

fn odd_line(c: &mut Chance) -> String {
    let odd = [
        "", "0x", "0X800000", "+0x800000", "-0", "0x_1", " 0x800000", "0x800000 ", "0x10000000000000000", "ffffffffffffffff", "0xFFFFFFFFFFFFFFFF", "g",
        "0x8000 00", "\r", "0x0000000000800000\r", "+", "0x+", "00000000000000000000800000", "0x-1",
    ];
    c.pick(&odd).to_string()
}

fn second_line(c: &mut Chance) -> String {
    let near = ORDER.wrapping_add(c.below(5) as u64).wrapping_sub(2);
    match c.below(16) {
        0 => format!("{}", c.below(300)),
        1 => format!("-{}", c.below(300)),
        2 => format!("+{}", c.below(300)),
        3 => format!("{near}"),
        4 => format!("-{near}"),
        5 => format!("{near:#x}"),
        6 => format!("0x0x{:x}", c.below(300)),
        7 => format!("0x+{:X}", c.below(300)),
        8 => c.pick(&["", "ff", "0x", "0x-5", "-0", "+", "-", "0x10000000000000000", "18446744073709551616", "170141183460469231731687303715884105727", "1e3", " 5", "5 ", "00010", "0X5", "1_0"]).to_string(),
        9 => format!("{}", c.next()),
        10 => format!("{:#x}", c.next()),
        _ => format!("{:#x}", c.below(0x1_0000)),
    }
}

/// Lines of an assembled source, or lines made here.
fn bytecode(c: &mut Chance, assembled: &[String]) -> String {
    let mut lines: Vec<String> = vec![];
    if c.percent(25) {
        let text = assembled[c.below(assembled.len())].clone();
        if c.percent(30) {
            return text;
        }
        lines = text.lines().map(str::to_string).collect();
    } else {
        for _ in 0..1 + c.below(4) {
            let word = first_word(c);
            lines.push(first_line(c, word));
            if (word >> 62 | word >> 22 | word >> 21) % 2 == 1 {
                lines.push(second_line(c));
            }
        }
    }
    if c.percent(12) {
        let at = c.below(lines.len() + 1);
        let line = odd_line(c);
        lines.insert(at, line);
    }
    if c.percent(8) && !lines.is_empty() {
        lines.remove(c.below(lines.len()));
    }
    let mut text = lines.join(c.pick(&["\n", "\n", "\n", "\r\n"]));
    if c.percent(30) {
        text.push_str(c.pick(&["\n", "\r\n", "\r", "\n\n"]));
    }
    if c.percent(8) {
        text = damaged(c, &text, 1);
    }
    text
}

// ---- instructions

fn field_number(c: &mut Chance) -> u64 {
    match c.below(4) {
        0 => ORDER - 1 - c.below(3) as u64,
        1 => c.next() % ORDER,
        _ => c.below(300) as u64,
    }
}

fn any_place(c: &mut Chance) -> Place {
    let register = c.below(10) as u8;
    match c.below(6) {
        0 => Place::Empty,
        1 => Place::Number(field_number(c)),
        2 => Place::Register(register),
        3 => Place::Offset(register, field_number(c)),
        4 => Place::Factor(register, field_number(c)),
        _ => Place::Special(c.below(2) as u8),
    }
}

fn register_place(c: &mut Chance) -> Place {
    if c.percent(10) {
        return any_place(c);
    }
    Place::Register(c.below(10) as u8)
}

fn instruction(c: &mut Chance) -> Instruction {
    let opcode = c.below(27) as u8;
    let op1 = if c.percent(60) { any_place(c) } else { register_place(c) };
    let op0 = if c.percent(15) { Place::Empty } else { register_place(c) };
    let dst = if c.percent(15) { Place::Empty } else { register_place(c) };
    Instruction { opcode, op0, op1, dst }
}

// ---- the record

fn escaped(text: &str) -> String {
    let mut out = String::new();
    for b in text.bytes() {
        match b {
            b'\n' => out.push_str("\\n"),
            b'\r' => out.push_str("\\r"),
            b'\t' => out.push_str("\\t"),
            b'\\' => out.push_str("\\\\"),
            0x20..=0x7e => out.push(b as char),
            _ => write!(out, "\\x{b:02x}").unwrap(),
        }
    }
    out
}

fn place_numbers(place: Place) -> String {
    let (content, register, number) = match place {
        Place::Empty => (0, 0, 0),
        Place::Number(n) => (1, 0, n),
        Place::Register(r) => (2, r, 0),
        Place::Offset(r, n) => (3, r, n),
        Place::Factor(r, n) => (4, r, n),
        Place::Special(s) => (5, s, 0),
    };
    format!("{content} {register} {number}")
}

fn numbers(i: &Instruction) -> String {
    format!("{} {} {} {}", i.opcode, place_numbers(i.op0), place_numbers(i.op1), place_numbers(i.dst))
}

/// One file: its lines, and how many cases of each function and of each refusal it has.
struct Record {
    lines: Vec<String>,
    seen: HashSet<String>,
    functions: BTreeMap<String, usize>,
    refusals: BTreeMap<u64, usize>,
    left_out: usize,
}

impl Record {
    fn new() -> Self {
        Record { lines: vec![], seen: HashSet::new(), functions: BTreeMap::new(), refusals: BTreeMap::new(), left_out: 0 }
    }

    /// Adds a case that is not there yet and whose refusal, if it is one, there are not too many of.
    fn add(&mut self, function: &str, given: &str, answer: Answer<String>, most: usize) {
        let line = match answer {
            Answer::Panicked => {
                self.left_out += 1;
                return;
            }
            Answer::Refused(number, _) if self.refusals.get(&number).copied().unwrap_or(0) >= most => return,
            Answer::Refused(number, detail) => format!("{function}\t{given}\trefused\t{number}\t{detail}"),
            Answer::Accepted(ref results) => format!("{function}\t{given}\taccepted\t{results}"),
        };
        if !self.seen.insert(format!("{function}\t{given}")) {
            return;
        }
        if let Answer::Refused(number, _) = answer {
            *self.refusals.entry(number).or_insert(0) += 1;
        }
        *self.functions.entry(function.to_string()).or_insert(0) += 1;
        self.lines.push(line);
    }

    fn count(&self, function: &str) -> usize {
        self.functions.get(function).copied().unwrap_or(0)
    }

    fn write(&self, folder: &str, file: &str, seed: u64) {
        let mut text = format!("# Recorded by `tests/oracle/record/run {seed}`, seed {seed}, from the Rust files of {COMMIT}.\n");
        text.push_str("# Fields are parted by tabs; tests/oracle/record/main.rs says at its top what they are.\n");
        for line in &self.lines {
            text.push_str(line);
            text.push('\n');
        }
        std::fs::write(format!("{folder}/{file}"), text).unwrap();
        println!("{file}\n{} cases", self.lines.len());
        for (function, n) in &self.functions {
            println!("{function}: {n}");
        }
        println!("left out, since the Rust panics: {}", self.left_out);
        println!("accepted: {}", self.lines.len() - self.refusals.values().sum::<usize>());
        for (number, n) in &self.refusals {
            println!("refusal {number}: {n}");
        }
    }

    fn asks(&self, numbers: &[u64]) {
        for number in numbers {
            assert!(self.refusals.get(number).copied().unwrap_or(0) >= 10, "refusal {number} is rare");
        }
    }
}

fn pairs<V: std::fmt::Display>(map: &BTreeMap<String, V>) -> String {
    map.iter().map(|(k, v)| format!("{k}={v}")).collect::<Vec<_>>().join(" ")
}

/// The bytecode; each prophet's host in list order, each from a run with that prophet alone; host and place of the prophets kept; the calls' and
/// the labels' addresses.
fn assembled_results(source: &str, list: &[&str], found: &Assembled) -> String {
    let hosts: Vec<String> = list
        .iter()
        .map(|prophet| match oracle::assemble(source, &[prophet]) {
            Answer::Accepted(alone) => alone.kept.keys().next().unwrap().to_string(),
            other => panic!("{other:?}"),
        })
        .collect();
    let kept: BTreeMap<u64, usize> = found.kept.iter().map(|(k, v)| (*k, *v)).collect();
    let kept: Vec<String> = kept.iter().map(|(k, v)| format!("{k}={v}")).collect();
    let calls: BTreeMap<String, u64> = found.calls.clone().into_iter().collect();
    let labels: BTreeMap<String, u64> = found.labels.clone().into_iter().collect();
    format!("{}\t{}\t{}\t{}\t{}", escaped(&found.bytecode), hosts.join(" "), kept.join(" "), pairs(&calls), pairs(&labels))
}

fn mapped<T>(answer: Answer<T>, f: impl FnOnce(T) -> String) -> Answer<String> {
    match answer {
        Answer::Accepted(t) => Answer::Accepted(f(t)),
        Answer::Refused(n, d) => Answer::Refused(n, d),
        Answer::Panicked => Answer::Panicked,
    }
}

/// The room lent: 300 entries for label rows, which is always enough; as many words and hosts as an accepted source needs, and none for another.
fn record_sources(c: &mut Chance, cases: usize, bytecodes: &mut Vec<String>) -> Record {
    let mut record = Record::new();
    let mut operations = BTreeSet::new();
    while record.lines.len() < cases {
        let (text, names) = source(c);
        let list: Vec<&str> = names.iter().map(String::as_str).collect();
        let lent = list_text(c, &names);
        if text.len() > 300 || mains(&text) > 1 || like_label(&text) || hexadecimal(&text) {
            continue;
        }
        // What is read as bytecode comes from the sources as they are drawn.
        if let Answer::Accepted(found) = oracle::assemble(&text, &list) {
            bytecodes.push(found.bytecode);
        }
        let text = without_brackets(&text);
        let answer = oracle::assemble(&text, &list);
        let (words, hosts) = match &answer {
            Answer::Accepted(found) => (found.bytecode.lines().count(), list.len()),
            _ => (0, 0),
        };
        if let Answer::Accepted(_) = &answer {
            text.lines().for_each(|line| operations.extend(line.split_whitespace().next().map(str::to_string)));
        }
        let given = format!("{}\t{}\t300\t{words}\t{hosts}", escaped(&text), escaped(&lent));
        record.add("assemble", &given, mapped(answer, |found| assembled_results(&text, &list, &found)), 90);
    }
    for operation in THREE.iter().chain(&TARGET).chain(&TWO).chain(&ONE).chain(&["mload", "mstore", "ret", "end"]) {
        assert!(operations.contains(*operation), "no {operation}");
    }
    record.asks(&[3, 4, 5, 9, 10, 11, 12]);
    record
}

fn record_bytecodes(c: &mut Chance, opened: usize, nexts: usize, assembled: &[String]) -> Record {
    let mut record = Record::new();
    while record.count("open") < opened {
        let text = bytecode(c, assembled);
        let results = |list: Vec<Instruction>| {
            let fields: Vec<String> = list.iter().map(|i| format!("\t{}", numbers(i))).collect();
            format!("{}{}", list.len(), fields.concat())
        };
        record.add("open", &escaped(&text), mapped(oracle::decode(&text), results), 40);
    }
    record.asks(&[15, 16, 17, 18, 19]);
    while record.count("next") < nexts {
        let text = bytecode(c, assembled);
        let line = c.below(text.lines().count() + 2);
        let results = |(i, lines): (Instruction, usize)| format!("{lines}\t{}", numbers(&i));
        record.add("next", &format!("{}\t{line}", escaped(&text)), mapped(oracle::next(&text, line), results), 60);
    }
    record.asks(&[15, 16, 17, 18, 19, 20]);
    record
}

/// The room lent for a row is just enough for it, and 64 bytes for one that is refused.
fn record_instructions(c: &mut Chance, encoded: usize, listed: usize) -> Record {
    let mut record = Record::new();
    while record.count("encode") < encoded {
        let i = instruction(c);
        record.add("encode", &numbers(&i), mapped(oracle::encode(&i), |lines| lines.join("\t")), 80);
    }
    while record.count("row") < listed {
        let i = instruction(c);
        let answer = match oracle::row(&i) {
            Answer::Panicked => Answer::Refused(24, 0),
            other => other,
        };
        let room = match &answer {
            Answer::Accepted(text) => text.len(),
            _ => 64,
        };
        record.add("row", &format!("{}\t{room}", numbers(&i)), mapped(answer, |text| escaped(&text)), 60);
    }
    record.asks(&[22, 24]);
    record
}

fn main() {
    let args: Vec<String> = std::env::args().collect();
    let seed: u64 = args[1].parse().unwrap();
    let folder = &args[2];
    oracle::silence();
    let mut c = Chance(seed);
    let mut bytecodes = vec![];
    record_sources(&mut c, 900, &mut bytecodes).write(folder, "sources", seed);
    record_bytecodes(&mut c, 450, 150, &bytecodes).write(folder, "bytecodes", seed);
    record_instructions(&mut c, 250, 250).write(folder, "instructions", seed);
}
