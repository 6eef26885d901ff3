//! A source of mixed rows: operations, registers and operands in no regular order, so that a processor does not foresee what comes next.
use crate::random::Random;

const SEED: u64 = 20_261_118;
const ORDER: u64 = 0xFFFF_FFFF_0000_0001;

/// Every operation with its operands: `r` a register, `v` any value, `l` a label, `n` a name, `m` a memory operand.
const OPERATIONS: [(&str, &str); 27] = [
    ("add", "rrv"),
    ("mul", "rrv"),
    ("eq", "rrv"),
    ("assert", "v"),
    ("mov", "rv"),
    ("jmp", "l"),
    ("cjmp", "rl"),
    ("call", "n"),
    ("ret", ""),
    ("mload", "rm"),
    ("mstore", "mr"),
    ("end", ""),
    ("range", "v"),
    ("and", "rrv"),
    ("or", "rrv"),
    ("xor", "rrv"),
    ("not", "rv"),
    ("neq", "rrv"),
    ("gte", "rrv"),
    ("poseidon", "rrv"),
    ("sload", "rv"),
    ("sstore", "rv"),
    ("tload", "rrv"),
    ("tstore", "rv"),
    ("sccall", "rv"),
    ("sigcheck", "rv"),
    ("log", "rv"),
];

/// A scope has about so many bytes, and so many labels.
const SCOPE: usize = 400;
const LABELS: usize = 4;
/// More than a scope can have past its bytes: a row, its labels, and the source's last row.
const PAST: usize = 160;

/// Up to so many lower-case letters, one at least.
fn letters(r: &mut Random, most: usize) -> String {
    (0..1 + r.below(most)).map(|_| (b'a' + r.below(26) as u8) as char).collect()
}

fn register(r: &mut Random) -> String {
    format!("r{}", r.below(10))
}

/// One in four has any size below p, the others are below 1,000; one in four is negative.
fn number(r: &mut Random) -> String {
    let size = if r.below(4) == 0 { (r.next() >> r.below(64)) % ORDER } else { r.below(1_000) as u64 };
    let sign = if r.below(4) == 0 { "-" } else { "" };
    format!("{sign}{size}")
}

fn label(r: &mut Random, names: &[String]) -> String {
    format!(".LBL{}_{}", r.below(names.len()), r.below(LABELS))
}

fn name(r: &mut Random, names: &[String]) -> String {
    names[r.below(names.len())].clone()
}

fn memory(r: &mut Random) -> String {
    match r.below(4) {
        0 => format!("[{}]", register(r)),
        1 => format!("[{},{}]", register(r), register(r)),
        2 => format!("[{},{}]", register(r), number(r)),
        _ => format!("[{},{},{}]", register(r), register(r), number(r)),
    }
}

fn value(r: &mut Random, names: &[String]) -> String {
    match r.below(16) {
        0..=6 => register(r),
        7..=11 => number(r),
        12 | 13 => label(r, names),
        14 => name(r, names),
        _ => "psp".to_string(),
    }
}

fn operation(r: &mut Random, names: &[String]) -> String {
    let (mnemonic, operands) = OPERATIONS[r.below(OPERATIONS.len())];
    let mut row = mnemonic.to_string();
    for operand in operands.chars() {
        let piece = match operand {
            'r' => register(r),
            'v' => value(r, names),
            'l' => label(r, names),
            'n' => name(r, names),
            _ => memory(r),
        };
        row = format!("{row} {piece}");
    }
    row
}

/// A line: one in sixteen is blank and one in sixteen a comment, and one in eight of the others has a comment behind its row.
fn line(r: &mut Random, names: &[String]) -> String {
    match r.below(16) {
        0 => "\n".to_string(),
        1 => format!("; {} {}\n", letters(r, 12), letters(r, 12)),
        _ if r.below(8) == 0 => format!("{} ; {}\n", operation(r, names), letters(r, 12)),
        _ => format!("{}\n", operation(r, names)),
    }
}

/// A source of at most so many bytes: scopes with labels, main in their middle. Operands name scopes and labels of the whole source.
pub fn mixed(size: usize) -> String {
    let r = &mut Random::new(SEED);
    let scopes = size / SCOPE;
    let names: Vec<String> = (0..scopes).map(|n| if n == scopes / 2 { "main".to_string() } else { format!("{}_{n}", letters(r, 10)) }).collect();
    let mut text = String::new();
    for (n, name) in names.iter().enumerate() {
        let end = (size - PAST) * (n + 1) / scopes;
        text.push_str(&format!("{name}:\n"));
        let mut labels = 0;
        while labels < LABELS || text.len() < end {
            if labels < LABELS && (text.len() >= end || r.below(8) == 0) {
                text.push_str(&format!(".LBL{n}_{labels}:\n"));
                labels += 1;
            } else {
                text.push_str(&line(r, &names));
            }
        }
    }
    text.push_str("end\n");
    assert!(text.len() <= size && OPERATIONS.iter().all(|(mnemonic, _)| text.lines().any(|line| line.split(' ').next() == Some(mnemonic))));
    text
}
