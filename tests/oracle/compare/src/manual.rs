//! The examples of docs/MANUAL.md, as `tests/manual/check --cases` prints them: a line each, of what kind it is, what is given, the prophet list, and what the
//! manual says of it where that is the Rust's to tell.
use crate::check::{Case, Expected};
use crate::port::{Figures, NumberedInstruction, NumberedPlace};
use oracle::{Instruction, Place};

pub struct Example {
    pub case: Case,
    pub expected: Expected,
}

pub fn all(path: &str) -> Vec<Example> {
    let text = std::fs::read_to_string(path).expect("the manual's cases");
    text.lines().map(|line| example(&line.split(' ').collect::<Vec<_>>())).collect()
}

fn example(fields: &[&str]) -> Example {
    let [kind, given, prophets, said] = fields else { panic!("a case of the manual has four fields") };
    let case = match *kind {
        "source" => Case::Source { source: bytes(given), prophets: bytes(prophets) },
        "bytecode" => Case::Bytecode(bytes(given)),
        "words" => Case::Words(numbers(given)),
        _ => instruction(&numbers(given)),
    };
    Example { case, expected: expected(said) }
}

fn expected(said: &str) -> Expected {
    let Some((what, rest)) = said.split_once(':') else { return Expected::Nothing };
    match what {
        "refused" => Expected::Refused(numbers(rest)[0], numbers(rest)[1]),
        "words" => Expected::Words(numbers(rest)),
        "room" => room(&numbers(rest)),
        "rows" => Expected::Rows(rest.split(',').filter(|row| !row.is_empty()).map(text).collect()),
        _ => Expected::Text(text(rest)),
    }
}

/// The label rows, instructions, counted length and words that the manual tells of a source.
fn room(n: &[u64]) -> Expected {
    let [labels, instructions, counted, words] = *n else { panic!("a room of the manual has four figures") };
    Expected::Room(Figures { labels, instructions, counted, words, ..Figures::default() })
}

fn bytes(hexadecimal: &str) -> Vec<u8> {
    if hexadecimal == "-" {
        return vec![];
    }
    (0..hexadecimal.len() / 2).map(|n| u8::from_str_radix(&hexadecimal[2 * n..2 * n + 2], 16).unwrap()).collect()
}

fn text(hexadecimal: &str) -> String {
    String::from_utf8(bytes(hexadecimal)).unwrap()
}

fn numbers(list: &str) -> Vec<u64> {
    list.split(',').filter(|number| !number.is_empty() && *number != "-").map(|number| number.parse().unwrap()).collect()
}

/// An instruction in the numbers of the C interface; where they name none, as those numbers.
fn instruction(n: &[u64]) -> Case {
    match (n[0] < 27, place(&n[1..4]), place(&n[4..7]), place(&n[7..10])) {
        (true, Some(op0), Some(op1), Some(dst)) => Case::Instruction(Instruction { opcode: n[0] as u8, op0, op1, dst }),
        _ => {
            let numbered = |n: &[u64]| NumberedPlace { content: n[0] as u8, reg: n[1] as u8, number: n[2] };
            Case::Numbered(NumberedInstruction { opcode: n[0] as u8, op0: numbered(&n[1..4]), op1: numbered(&n[4..7]), dst: numbered(&n[7..10]) })
        }
    }
}

fn place(n: &[u64]) -> Option<Place> {
    let register = n[1] as u8;
    match (n[0], n[1]) {
        (0, _) => Some(Place::Empty),
        (1, _) => Some(Place::Number(n[2])),
        (2, 0..=9) => Some(Place::Register(register)),
        (3, 0..=9) => Some(Place::Offset(register, n[2])),
        (4, 0..=9) => Some(Place::Factor(register, n[2])),
        (5, 0..=1) => Some(Place::Special(register)),
        _ => None,
    }
}
