//! The port's C functions, as include/ola.h declares them, on slices. Each lent buffer has a few entries more than its length says: what stands
//! there must stay.
use oracle::{Instruction, Place};
use std::sync::atomic::{AtomicU64, Ordering::Relaxed};

/// The functions of the header, and how often each was called.
pub static CALLS: [(&str, AtomicU64); 13] = [
    ("ola_assemble", AtomicU64::new(0)),
    ("ola_assemble_parts", AtomicU64::new(0)),
    ("ola_label_name", AtomicU64::new(0)),
    ("ola_write_bytecode", AtomicU64::new(0)),
    ("ola_open", AtomicU64::new(0)),
    ("ola_next", AtomicU64::new(0)),
    ("ola_next_at", AtomicU64::new(0)),
    ("ola_encode", AtomicU64::new(0)),
    ("ola_listing_row", AtomicU64::new(0)),
    ("ola_room_of", AtomicU64::new(0)),
    ("ola_meter_open", AtomicU64::new(0)),
    ("ola_meter_build", AtomicU64::new(0)),
    ("ola_write_source", AtomicU64::new(0)),
];

fn called(function: usize) {
    CALLS[function].1.fetch_add(1, Relaxed);
}

/// How often `ola_room_of` was called.
pub fn room_calls() -> u64 {
    CALLS[9].1.load(Relaxed)
}

#[repr(C)]
#[derive(Debug, Clone, Copy, PartialEq, Eq)]
pub struct Label {
    pub kind: u8,
    pub mapped: bool,
    pub start: usize,
    pub length: usize,
    pub address: u64,
}

#[repr(C)]
#[derive(Debug, Clone, Copy, PartialEq, Eq, Default)]
pub struct Assembly {
    pub refusal: u64,
    pub detail: u64,
    pub labels: u64,
    pub words: u64,
    pub hosts: u64,
    pub kept: u64,
}

/// The words of all accepted builds since it was opened.
#[repr(C)]
#[derive(Debug, Clone, Copy, PartialEq, Eq, Default)]
pub struct Meter {
    pub total: u64,
}

#[repr(C)]
#[derive(Debug, Clone, Copy, PartialEq, Eq, Default)]
pub struct Metered {
    pub assembly: Assembly,
    pub meter: Meter,
}

/// What a source takes. `Room` is what is lent.
#[repr(C)]
#[derive(Debug, Clone, Copy, PartialEq, Eq, Default)]
pub struct Figures {
    pub refusal: u64,
    pub detail: u64,
    pub labels: u64,
    pub instructions: u64,
    pub counted: u64,
    pub words: u64,
}

#[repr(C)]
#[derive(Debug, Clone, Copy, PartialEq, Eq, Default)]
pub struct Written {
    pub refusal: u64,
    pub detail: u64,
    pub written: u64,
}

#[repr(C)]
#[derive(Debug, Clone, Copy, PartialEq, Eq, Default)]
pub struct Opened {
    pub refusal: u64,
    pub detail: u64,
}

#[repr(C)]
#[derive(Debug, Clone, Copy, PartialEq, Eq, Default)]
pub struct NumberedPlace {
    pub content: u8,
    pub reg: u8,
    pub number: u64,
}

#[repr(C)]
#[derive(Debug, Clone, Copy, PartialEq, Eq, Default)]
pub struct NumberedInstruction {
    pub opcode: u8,
    pub op0: NumberedPlace,
    pub op1: NumberedPlace,
    pub dst: NumberedPlace,
}

#[repr(C)]
#[derive(Debug, Clone, Copy, PartialEq, Eq, Default)]
pub struct Step {
    pub refusal: u64,
    pub detail: u64,
    pub line: u64,
    pub instruction: NumberedInstruction,
}

#[repr(C)]
#[derive(Debug, Clone, Copy, PartialEq, Eq, Default)]
pub struct Encoding {
    pub refusal: u64,
    pub detail: u64,
    pub count: u64,
    pub first: u64,
    pub second: u64,
}

#[repr(C)]
#[derive(Debug, Clone, Copy, PartialEq, Eq, Default)]
pub struct Name {
    pub start: usize,
    pub length: usize,
}

mod sys {
    use super::*;
    extern "C" {
        pub fn ola_assemble(
            source: *const u8,
            source_len: usize,
            prophets: *const u8,
            prophets_len: usize,
            table: *mut Label,
            table_len: usize,
            words: *mut u64,
            words_len: usize,
            hosts: *mut u64,
            hosts_len: usize,
        ) -> Assembly;
        pub fn ola_assemble_parts(
            source: *const u8,
            source_len: usize,
            prophets: *const u8,
            prophets_len: usize,
            kinds: *mut u8,
            kinds_len: usize,
            mapped: *mut bool,
            mapped_len: usize,
            starts: *mut usize,
            starts_len: usize,
            lengths: *mut usize,
            lengths_len: usize,
            addresses: *mut u64,
            addresses_len: usize,
            words: *mut u64,
            words_len: usize,
            hosts: *mut u64,
            hosts_len: usize,
        ) -> Assembly;
        pub fn ola_label_name(source: *const u8, source_len: usize, entry: Label) -> Name;
        pub fn ola_write_bytecode(words: *const u64, words_len: usize, text: *mut u8, text_len: usize) -> Written;
        pub fn ola_write_source(bytecode: *const u8, bytecode_len: usize, text: *mut u8, text_len: usize) -> Written;
        pub fn ola_open(text: *const u8, text_len: usize) -> Opened;
        pub fn ola_next(text: *const u8, text_len: usize, line: usize) -> Step;
        pub fn ola_next_at(text: *const u8, text_len: usize, offset: usize) -> Step;
        pub fn ola_encode(instruction: NumberedInstruction) -> Encoding;
        pub fn ola_listing_row(instruction: NumberedInstruction, text: *mut u8, text_len: usize) -> Written;
        pub fn ola_room_of(source: *const u8, source_len: usize) -> Figures;
        pub fn ola_meter_open() -> Meter;
        pub fn ola_meter_build(
            meter: Meter,
            source: *const u8,
            source_len: usize,
            prophets: *const u8,
            prophets_len: usize,
            kinds: *mut u8,
            kinds_len: usize,
            mapped: *mut bool,
            mapped_len: usize,
            starts: *mut usize,
            starts_len: usize,
            lengths: *mut usize,
            lengths_len: usize,
            addresses: *mut u64,
            addresses_len: usize,
            words: *mut u64,
            words_len: usize,
            hosts: *mut u64,
            hosts_len: usize,
        ) -> Metered;
    }
}

/// How many entries stand past the end of each lent buffer.
const PAST: usize = 3;

/// How many entries are lent: the label table's (of its five columns the shortest counts), words, hosts.
#[derive(Debug, Clone, Copy, PartialEq, Eq)]
pub struct Room {
    pub columns: [usize; 5],
    pub words: usize,
    pub hosts: usize,
}

impl Room {
    pub fn entries(&self) -> usize {
        *self.columns.iter().min().unwrap()
    }
}

/// Lent buffers, filled with a pattern, and a few entries past their ends.
#[derive(Debug, Clone, PartialEq, Eq)]
pub struct Lent {
    pub kinds: Vec<u8>,
    pub mapped: Vec<bool>,
    pub starts: Vec<usize>,
    pub lengths: Vec<usize>,
    pub addresses: Vec<u64>,
    pub table: Vec<Label>,
    pub words: Vec<u64>,
    pub hosts: Vec<u64>,
}

fn pattern(n: usize) -> u64 {
    0xA5A5_5A5A_0F0F_0000 + n as u64
}

impl Lent {
    pub fn new(room: &Room) -> Lent {
        let [kinds, mapped, starts, lengths, addresses] = room.columns.map(|n| n + PAST);
        let label = |n: usize| Label { kind: 0xA5, mapped: n % 2 == 0, start: pattern(n) as usize, length: n + 77, address: pattern(n) };
        Lent {
            kinds: vec![0xA5; kinds],
            mapped: (0..mapped).map(|n| n % 2 == 0).collect(),
            starts: (0..starts).map(|n| pattern(n) as usize).collect(),
            lengths: (0..lengths).map(|n| n + 77).collect(),
            addresses: (0..addresses).map(pattern).collect(),
            table: (0..room.entries() + PAST).map(label).collect(),
            words: (0..room.words + PAST).map(pattern).collect(),
            hosts: (0..room.hosts + PAST).map(pattern).collect(),
        }
    }
}

/// `ola_assemble_parts` into everything lent but the table.
pub fn assemble_parts(source: &[u8], prophets: &[u8], room: &Room, lent: &mut Lent) -> Assembly {
    called(1);
    unsafe {
        sys::ola_assemble_parts(
            source.as_ptr(),
            source.len(),
            prophets.as_ptr(),
            prophets.len(),
            lent.kinds.as_mut_ptr(),
            room.columns[0],
            lent.mapped.as_mut_ptr(),
            room.columns[1],
            lent.starts.as_mut_ptr(),
            room.columns[2],
            lent.lengths.as_mut_ptr(),
            room.columns[3],
            lent.addresses.as_mut_ptr(),
            room.columns[4],
            lent.words.as_mut_ptr(),
            room.words,
            lent.hosts.as_mut_ptr(),
            room.hosts,
        )
    }
}

/// `ola_meter_build` into everything lent but the table.
pub fn meter_build(meter: Meter, source: &[u8], prophets: &[u8], room: &Room, lent: &mut Lent) -> Metered {
    called(11);
    unsafe {
        sys::ola_meter_build(
            meter,
            source.as_ptr(),
            source.len(),
            prophets.as_ptr(),
            prophets.len(),
            lent.kinds.as_mut_ptr(),
            room.columns[0],
            lent.mapped.as_mut_ptr(),
            room.columns[1],
            lent.starts.as_mut_ptr(),
            room.columns[2],
            lent.lengths.as_mut_ptr(),
            room.columns[3],
            lent.addresses.as_mut_ptr(),
            room.columns[4],
            lent.words.as_mut_ptr(),
            room.words,
            lent.hosts.as_mut_ptr(),
            room.hosts,
        )
    }
}

/// `ola_assemble` into everything lent but the columns.
pub fn assemble(source: &[u8], prophets: &[u8], room: &Room, lent: &mut Lent) -> Assembly {
    called(0);
    unsafe {
        sys::ola_assemble(
            source.as_ptr(),
            source.len(),
            prophets.as_ptr(),
            prophets.len(),
            lent.table.as_mut_ptr(),
            room.entries(),
            lent.words.as_mut_ptr(),
            room.words,
            lent.hosts.as_mut_ptr(),
            room.hosts,
        )
    }
}

pub fn label_name(source: &[u8], entry: Label) -> Name {
    called(2);
    unsafe { sys::ola_label_name(source.as_ptr(), source.len(), entry) }
}

/// A lent text, filled with a pattern.
pub fn lent_text(room: usize) -> Vec<u8> {
    (0..room + PAST).map(|n| 0x80 | n as u8).collect()
}

pub fn write_bytecode(words: &[u64], room: usize, text: &mut [u8]) -> Written {
    called(3);
    unsafe { sys::ola_write_bytecode(words.as_ptr(), words.len(), text.as_mut_ptr(), room) }
}

pub fn write_source(bytecode: &[u8], room: usize, text: &mut [u8]) -> Written {
    called(12);
    unsafe { sys::ola_write_source(bytecode.as_ptr(), bytecode.len(), text.as_mut_ptr(), room) }
}

pub fn open(text: &[u8]) -> Opened {
    called(4);
    unsafe { sys::ola_open(text.as_ptr(), text.len()) }
}

pub fn next(text: &[u8], line: usize) -> Step {
    called(5);
    unsafe { sys::ola_next(text.as_ptr(), text.len(), line) }
}

pub fn next_at(text: &[u8], offset: usize) -> Step {
    called(6);
    unsafe { sys::ola_next_at(text.as_ptr(), text.len(), offset) }
}

pub fn encode(instruction: NumberedInstruction) -> Encoding {
    called(7);
    unsafe { sys::ola_encode(instruction) }
}

pub fn listing_row(instruction: NumberedInstruction, room: usize, text: &mut [u8]) -> Written {
    called(8);
    unsafe { sys::ola_listing_row(instruction, text.as_mut_ptr(), room) }
}

pub fn room_of(source: &[u8]) -> Figures {
    called(9);
    unsafe { sys::ola_room_of(source.as_ptr(), source.len()) }
}

pub fn meter_open() -> Meter {
    called(10);
    unsafe { sys::ola_meter_open() }
}

/// An instruction as the header numbers it; what a content does not have is 0.
pub fn numbered(instruction: &Instruction) -> NumberedInstruction {
    let place = |place: Place| match place {
        Place::Empty => NumberedPlace { content: 0, reg: 0, number: 0 },
        Place::Number(number) => NumberedPlace { content: 1, reg: 0, number },
        Place::Register(reg) => NumberedPlace { content: 2, reg, number: 0 },
        Place::Offset(reg, number) => NumberedPlace { content: 3, reg, number },
        Place::Factor(reg, number) => NumberedPlace { content: 4, reg, number },
        Place::Special(reg) => NumberedPlace { content: 5, reg, number: 0 },
    };
    NumberedInstruction { opcode: instruction.opcode, op0: place(instruction.op0), op1: place(instruction.op1), dst: place(instruction.dst) }
}
