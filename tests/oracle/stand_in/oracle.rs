//! The nine Rust files behind plain functions: what they accept, and with which results; what they refuse, as document 01's number and detail;
//! where they panic. This file is the root of the crate `assembler`, since what it calls is visible in that crate alone.
//!
//! The Rust's refusals are texts. Their kind is read off the text; the index of an instruction or a line is found by running the same function on the
//! beginnings of the input.
#![allow(dead_code)]
mod asm;
mod encoder;
mod operands;
mod relocate;

use ::core::program::binary_program::{BinaryInstruction, BinaryProgram};
use ::core::program::decoder::decode_binary_program_to_instructions;
use ::core::vm::hardware::{OlaRegister, OlaSpecialRegister};
use ::core::vm::opcodes::OlaOpcode;
use ::core::vm::operands::{ImmediateValue, OlaOperand};
use std::collections::HashMap;
use std::panic::{catch_unwind, AssertUnwindSafe};

/// An answer, document 01's refusal, or a panic.
#[derive(Debug, Clone, PartialEq, Eq)]
pub enum Answer<T> {
    Accepted(T),
    Refused(u64, u64),
    Panicked,
}

/// The contents of a place, registers and special registers by their index.
#[derive(Debug, Clone, Copy, PartialEq, Eq)]
pub enum Place {
    Empty,
    Number(u64),
    Register(u8),
    Offset(u8, u64),
    Factor(u8, u64),
    Special(u8),
}

#[derive(Debug, Clone, Copy, PartialEq, Eq)]
pub struct Instruction {
    pub opcode: u8,
    pub op0: Place,
    pub op1: Place,
    pub dst: Place,
}

/// What assembling gives: the bytecode, how many instructions there are, the address of each call name and each label, and for each host the place in the
/// list of the prophet kept.
#[derive(Debug, Clone, PartialEq, Eq)]
pub struct Assembled {
    pub bytecode: String,
    pub instructions: u64,
    pub calls: HashMap<String, u64>,
    pub labels: HashMap<String, u64>,
    pub kept: HashMap<u64, usize>,
}

/// Panics are answers here, so nothing is printed for them.
pub fn silence() {
    std::panic::set_hook(Box::new(|_| {}));
}

fn guarded<T>(run: impl FnOnce() -> Answer<T>) -> Answer<T> {
    catch_unwind(AssertUnwindSafe(run)).unwrap_or(Answer::Panicked)
}

fn bundle(source: &str, prophets: &[&str]) -> relocate::AsmBundle {
    let list: Vec<serde_json::Value> = prophets
        .iter()
        .enumerate()
        .map(|(i, label)| serde_json::json!({"label": label, "code": i.to_string(), "inputs": [], "outputs": []}))
        .collect();
    serde_json::from_value(serde_json::json!({"program": source, "prophets": list})).unwrap()
}

/// Refusals 3, 4, 5 and 9 from the text of `asm_relocate`.
fn relocate_refusal(text: &str, prophets: &[&str]) -> (u64, u64) {
    if let Some(label) = text.strip_prefix("relocate error, prophet cannot find host: ") {
        let index = prophets.iter().position(|p| *p == label).unwrap();
        return (9, index as u64);
    }
    let inner = text.strip_prefix("asm relocate err ==> ").unwrap();
    if inner == "generate scopes error, no scope found" {
        return (4, 0);
    }
    if inner == "generate scopes error, no main scope found" {
        return (5, 0);
    }
    let count = inner.strip_prefix("line ").unwrap();
    let end = count.find(':').unwrap();
    (3, count[..end].parse().unwrap())
}

/// 10, 11 and 12 of the first n instructions, as the kind alone.
fn encode_kind(relocated: &relocate::RelocatedAsmBundle, n: usize) -> Answer<BinaryProgram> {
    let mut front = relocated.clone();
    front.instructions.truncate(n);
    match catch_unwind(AssertUnwindSafe(|| encoder::encode_to_binary(front))) {
        Err(_) => Answer::Refused(11, 0),
        Ok(Ok(program)) => Answer::Accepted(program),
        Ok(Err(text)) => {
            if text.contains("invalid label") || text.contains("invalid identifier") {
                Answer::Refused(10, 0)
            } else {
                assert!(text.contains("encode err"), "{text}");
                Answer::Refused(12, 0)
            }
        }
    }
}

/// The instruction at which the beginnings of the program first give this refusal.
fn encode_index(relocated: &relocate::RelocatedAsmBundle, kind: u64) -> u64 {
    let mut low = 0;
    let mut high = relocated.instructions.len();
    while low + 1 < high {
        let middle = (low + high) / 2;
        let found = matches!(encode_kind(relocated, middle), Answer::Refused(k, _) if k == kind || (kind == 12 && k != 12));
        if found {
            high = middle;
        } else {
            low = middle;
        }
    }
    (high - 1) as u64
}

/// `asm_relocate` and `encode_to_binary`.
pub fn assemble(source: &str, prophets: &[&str]) -> Answer<Assembled> {
    guarded(|| {
        let relocated = match relocate::asm_relocate(bundle(source, prophets)) {
            Err(text) => {
                let (number, detail) = relocate_refusal(&text, prophets);
                return Answer::Refused(number, detail);
            }
            Ok(relocated) => relocated,
        };
        match encode_kind(&relocated, relocated.instructions.len()) {
            Answer::Accepted(program) => Answer::Accepted(Assembled {
                bytecode: program.bytecode,
                instructions: relocated.instructions.len() as u64,
                calls: relocated.mapper_label_call.iter().map(|(k, v)| (k.clone(), *v as u64)).collect(),
                labels: relocated.mapper_label_jmp.iter().map(|(k, v)| (k.clone(), *v as u64)).collect(),
                kept: relocated.prophets.iter().map(|(k, v)| (*k as u64, v.code.parse().unwrap())).collect(),
            }),
            Answer::Refused(kind, _) => Answer::Refused(kind, encode_index(&relocated, kind)),
            Answer::Panicked => Answer::Panicked,
        }
    })
}

// ---- instructions

const OPCODES: [OlaOpcode; 27] = [
    OlaOpcode::ADD,
    OlaOpcode::MUL,
    OlaOpcode::EQ,
    OlaOpcode::ASSERT,
    OlaOpcode::MOV,
    OlaOpcode::JMP,
    OlaOpcode::CJMP,
    OlaOpcode::CALL,
    OlaOpcode::RET,
    OlaOpcode::MLOAD,
    OlaOpcode::MSTORE,
    OlaOpcode::END,
    OlaOpcode::RC,
    OlaOpcode::AND,
    OlaOpcode::OR,
    OlaOpcode::XOR,
    OlaOpcode::NOT,
    OlaOpcode::NEQ,
    OlaOpcode::GTE,
    OlaOpcode::POSEIDON,
    OlaOpcode::SLOAD,
    OlaOpcode::SSTORE,
    OlaOpcode::TLOAD,
    OlaOpcode::TSTORE,
    OlaOpcode::SCCALL,
    OlaOpcode::SIGCHECK,
    OlaOpcode::EVENT,
];

const REGISTERS: [OlaRegister; 10] = [
    OlaRegister::R0,
    OlaRegister::R1,
    OlaRegister::R2,
    OlaRegister::R3,
    OlaRegister::R4,
    OlaRegister::R5,
    OlaRegister::R6,
    OlaRegister::R7,
    OlaRegister::R8,
    OlaRegister::R9,
];

fn register_index(register: &OlaRegister) -> u8 {
    REGISTERS.iter().position(|r| r == register).unwrap() as u8
}

fn number_of(value: &ImmediateValue) -> u64 {
    value.to_u64().unwrap()
}

fn place_of(content: &Option<OlaOperand>) -> Place {
    match content {
        None => Place::Empty,
        Some(OlaOperand::ImmediateOperand { value }) => Place::Number(number_of(value)),
        Some(OlaOperand::RegisterOperand { register }) => Place::Register(register_index(register)),
        Some(OlaOperand::RegisterWithOffset { register, offset }) => Place::Offset(register_index(register), number_of(offset)),
        Some(OlaOperand::RegisterWithFactor { register, factor }) => Place::Factor(register_index(register), number_of(factor)),
        Some(OlaOperand::SpecialReg { special_reg }) => Place::Special(match special_reg {
            OlaSpecialRegister::PC => 0,
            OlaSpecialRegister::PSP => 1,
        }),
    }
}

fn value(number: u64) -> ImmediateValue {
    ImmediateValue { hex: format!("{number:#x}") }
}

fn content_of(place: Place) -> Option<OlaOperand> {
    let register = |r: u8| REGISTERS[r as usize];
    match place {
        Place::Empty => None,
        Place::Number(n) => Some(OlaOperand::ImmediateOperand { value: value(n) }),
        Place::Register(r) => Some(OlaOperand::RegisterOperand { register: register(r) }),
        Place::Offset(r, n) => Some(OlaOperand::RegisterWithOffset { register: register(r), offset: value(n) }),
        Place::Factor(r, n) => Some(OlaOperand::RegisterWithFactor { register: register(r), factor: value(n) }),
        Place::Special(s) => Some(OlaOperand::SpecialReg {
            special_reg: if s == 0 { OlaSpecialRegister::PC } else { OlaSpecialRegister::PSP },
        }),
    }
}

fn made(instruction: &Instruction) -> BinaryInstruction {
    BinaryInstruction {
        opcode: OPCODES[instruction.opcode as usize],
        op0: content_of(instruction.op0),
        op1: content_of(instruction.op1),
        dst: content_of(instruction.dst),
        prophet: None,
    }
}

fn seen(instruction: &BinaryInstruction) -> Instruction {
    Instruction {
        opcode: OPCODES.iter().position(|o| *o == instruction.opcode).unwrap() as u8,
        op0: place_of(&instruction.op0),
        op1: place_of(&instruction.op1),
        dst: place_of(&instruction.dst),
    }
}

/// `encode`: its lines, or 22 and the place.
pub fn encode(instruction: &Instruction) -> Answer<Vec<String>> {
    guarded(|| match made(instruction).encode() {
        Ok(lines) => Answer::Accepted(lines),
        Err(text) => {
            let text = text.strip_prefix("encode err, ").unwrap();
            let place = if text.starts_with("op0") {
                0
            } else if text.starts_with("special_reg") {
                1
            } else {
                assert!(text.starts_with("dst"), "{text}");
                2
            };
            Answer::Refused(22, place)
        }
    })
}

/// `get_asm_form_code`.
pub fn row(instruction: &Instruction) -> Answer<String> {
    guarded(|| Answer::Accepted(made(instruction).get_asm_form_code()))
}

// ---- bytecode

fn decoded(lines: &[&str]) -> Answer<Vec<Instruction>> {
    // Every line with the longer ending, so that a `\r` of its own and an empty last line stay.
    let bytecode: String = lines.iter().map(|line| format!("{line}\r\n")).collect();
    let program = BinaryProgram { bytecode, prophets: vec![], debug_info: None };
    let run = || match decode_binary_program_to_instructions(program) {
        Ok(list) => Answer::Accepted(list.iter().map(seen).collect()),
        Err(text) => Answer::Refused(
            // A text of 18 ends with the line itself, so its beginning is asked first.
            if text.starts_with("Convert str to u64 failed") {
                15
            } else if text.starts_with("Immediate") {
                18
            } else if text.contains("no opcode matched") {
                16
            } else if text.contains("length should be") {
                17
            } else {
                assert!(text.starts_with("No matched"), "{text}");
                19
            },
            0,
        ),
    };
    guarded(run)
}

/// `decode_binary_program_to_instructions`: the instructions, or 15 and the line, or 16 to 19 and the instruction.
pub fn decode(bytecode: &str) -> Answer<Vec<Instruction>> {
    let lines: Vec<&str> = bytecode.lines().collect();
    let whole = guarded(|| {
        let program = BinaryProgram { bytecode: bytecode.to_string(), prophets: vec![], debug_info: None };
        match decode_binary_program_to_instructions(program) {
            Ok(list) => Answer::Accepted(list.iter().map(seen).collect()),
            Err(_) => Answer::Refused(0, 0),
        }
    });
    if whole != Answer::Refused(0, 0) {
        return whole;
    }
    let kind = match decoded(&lines) {
        Answer::Refused(kind, _) => kind,
        other => return other,
    };
    // The shortest beginning that is refused so, found by halves.
    let (mut low, mut high) = (0, lines.len());
    while low + 1 < high {
        let middle = (low + high) / 2;
        let found = match decoded(&lines[..middle]) {
            Answer::Refused(k, _) => kind != 15 || k == 15,
            Answer::Panicked => kind != 15,
            Answer::Accepted(_) => false,
        };
        if found {
            high = middle;
        } else {
            low = middle;
        }
    }
    if kind == 15 {
        return Answer::Refused(15, low as u64);
    }
    match decoded(&lines[..low]) {
        Answer::Accepted(list) => Answer::Refused(kind, list.len() as u64),
        other => other,
    }
}

/// One instruction from a line on, as if the text began there: the instruction and how many lines it has; 20 where none is complete.
pub fn next(bytecode: &str, line: usize) -> Answer<(Instruction, usize)> {
    let lines: Vec<&str> = bytecode.lines().skip(line).take(2).collect();
    for n in 1..=lines.len() {
        match decoded(&lines[..n]) {
            Answer::Accepted(list) => {
                if let Some(first) = list.first() {
                    return Answer::Accepted((*first, n));
                }
            }
            Answer::Refused(kind, _) => return Answer::Refused(kind, 0),
            Answer::Panicked => return Answer::Panicked,
        }
    }
    Answer::Refused(20, 0)
}

// ---- the same functions with nothing around them, for measuring

/// A source as `asm_relocate` takes it.
#[derive(Clone)]
pub struct Bundle(relocate::AsmBundle);

pub fn bundled(source: &str) -> Bundle {
    Bundle(bundle(source, &[]))
}

/// `asm_relocate` and `encode_to_binary` of a source that both accept.
pub fn assemble_bundle(bundle: Bundle) -> BinaryProgram {
    encoder::encode_to_binary(relocate::asm_relocate(bundle.0).unwrap()).unwrap()
}

/// A bytecode as `decode_binary_program_to_instructions` takes it.
pub fn program_of(bytecode: &str) -> BinaryProgram {
    BinaryProgram { bytecode: bytecode.to_string(), prophets: vec![], debug_info: None }
}

/// `decode_binary_program_to_instructions` of a bytecode that it accepts.
pub fn decode_program(program: BinaryProgram) -> Vec<BinaryInstruction> {
    decode_binary_program_to_instructions(program).unwrap()
}
