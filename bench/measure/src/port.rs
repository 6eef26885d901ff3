//! The library's functions, each into buffers that are long enough: the same ones each time, so that where they stand makes no difference between two calls.
//! A refusal ends the program.
use std::cell::{Cell, RefCell};
use std::hint::black_box;

#[repr(C)]
#[derive(Clone, Copy)]
struct Label {
    kind: u8,
    mapped: bool,
    start: usize,
    length: usize,
    address: u64,
}

#[repr(C)]
#[derive(Debug, PartialEq, Eq)]
pub struct Assembly {
    refusal: u64,
    detail: u64,
    labels: u64,
    pub words: u64,
    hosts: u64,
    pub kept: u64,
}

#[repr(C)]
#[derive(Clone, Copy)]
struct Meter {
    total: u64,
}

#[repr(C)]
struct Metered {
    assembly: Assembly,
    meter: Meter,
}

#[repr(C)]
pub struct Room {
    refusal: u64,
    detail: u64,
    labels: u64,
    instructions: u64,
    counted: u64,
    pub words: u64,
}

#[repr(C)]
struct Opened {
    refusal: u64,
    detail: u64,
}

#[repr(C)]
struct Written {
    refusal: u64,
    detail: u64,
    written: u64,
}

#[repr(C)]
struct Place {
    content: u8,
    reg: u8,
    number: u64,
}

#[repr(C)]
struct Instruction {
    opcode: u8,
    op0: Place,
    op1: Place,
    dst: Place,
}

#[repr(C)]
struct Step {
    refusal: u64,
    detail: u64,
    line: u64,
    instruction: Instruction,
}

mod sys {
    use super::*;
    extern "C" {
        pub fn ola_assemble(
            source: *const u8,
            source_len: usize,
            prophets: *const u8,
            prophets_len: usize,
            table: *mut Label,
            table_len: usize,
            words: *mut u64,
            words_len: usize,
            hosts: *mut u64,
            hosts_len: usize,
        ) -> Assembly;
        pub fn ola_assemble_parts(
            source: *const u8,
            source_len: usize,
            prophets: *const u8,
            prophets_len: usize,
            kinds: *mut u8,
            kinds_len: usize,
            mapped: *mut bool,
            mapped_len: usize,
            starts: *mut usize,
            starts_len: usize,
            lengths: *mut usize,
            lengths_len: usize,
            addresses: *mut u64,
            addresses_len: usize,
            words: *mut u64,
            words_len: usize,
            hosts: *mut u64,
            hosts_len: usize,
        ) -> Assembly;
        pub fn ola_meter_open() -> Meter;
        pub fn ola_meter_build(
            meter: Meter,
            source: *const u8,
            source_len: usize,
            prophets: *const u8,
            prophets_len: usize,
            kinds: *mut u8,
            kinds_len: usize,
            mapped: *mut bool,
            mapped_len: usize,
            starts: *mut usize,
            starts_len: usize,
            lengths: *mut usize,
            lengths_len: usize,
            addresses: *mut u64,
            addresses_len: usize,
            words: *mut u64,
            words_len: usize,
            hosts: *mut u64,
            hosts_len: usize,
        ) -> Metered;
        pub fn ola_room_of(source: *const u8, source_len: usize) -> Room;
        pub fn ola_write_bytecode(words: *const u64, words_len: usize, text: *mut u8, text_len: usize) -> Written;
        pub fn ola_open(text: *const u8, text_len: usize) -> Opened;
        pub fn ola_next_at(text: *const u8, text_len: usize, offset: usize) -> Step;
        pub fn ola_write_source(bytecode: *const u8, bytecode_len: usize, text: *mut u8, text_len: usize) -> Written;
    }
}

/// More than a source of 65,536 bytes can fill.
const ROOM: usize = 65_536;

/// The table's columns, the words and the hosts, as they are lent by parts.
struct Parts {
    kinds: Vec<u8>,
    mapped: Vec<bool>,
    starts: Vec<usize>,
    lengths: Vec<usize>,
    addresses: Vec<u64>,
    words: Vec<u64>,
    hosts: Vec<u64>,
}

impl Parts {
    fn new() -> Parts {
        let n = ROOM;
        Parts {
            kinds: vec![0; n],
            mapped: vec![false; n],
            starts: vec![0; n],
            lengths: vec![0; n],
            addresses: vec![0; n],
            words: vec![0; n],
            hosts: vec![0; n],
        }
    }
}

/// What `ola_assemble` is lent: the table's entries, the words and the hosts.
type Entries = (Vec<Label>, Vec<u64>, Vec<u64>);

/// Long enough for the source of any bytecode, and for the bytecode of any source.
const TEXT: usize = 2_970_976;

const UNWRITTEN: Label = Label { kind: 0, mapped: false, start: 0, length: 0, address: 0 };

thread_local! {
    static PARTS: RefCell<Parts> = RefCell::new(Parts::new());
    static ENTRIES: RefCell<Entries> = RefCell::new((vec![UNWRITTEN; ROOM], vec![0; ROOM], vec![0; ROOM]));
    static WRITTEN: RefCell<Vec<u8>> = RefCell::new(vec![0; TEXT]);
}

/// `ola_assemble_parts` of a source with a prophet list.
pub fn parts(source: &[u8], list: &[u8]) -> Assembly {
    let answer = PARTS.with_borrow_mut(|lent| unsafe {
        sys::ola_assemble_parts(
            source.as_ptr(),
            source.len(),
            list.as_ptr(),
            list.len(),
            lent.kinds.as_mut_ptr(),
            ROOM,
            lent.mapped.as_mut_ptr(),
            ROOM,
            lent.starts.as_mut_ptr(),
            ROOM,
            lent.lengths.as_mut_ptr(),
            ROOM,
            lent.addresses.as_mut_ptr(),
            ROOM,
            lent.words.as_mut_ptr(),
            ROOM,
            lent.hosts.as_mut_ptr(),
            ROOM,
        )
    });
    assert_eq!(answer.refusal, 0);
    answer
}

/// The words and the hosts of a source with a prophet list.
pub fn built(source: &[u8], list: &[u8]) -> (Vec<u64>, Vec<u64>) {
    let answer = parts(source, list);
    PARTS.with_borrow(|lent| (lent.words[..answer.words as usize].to_vec(), lent.hosts[..answer.hosts as usize].to_vec()))
}

/// `ola_meter_build` on the meter that the last build answered.
pub fn metered(source: &[u8], list: &[u8]) -> Assembly {
    thread_local!(static METER: Cell<Meter> = Cell::new(unsafe { sys::ola_meter_open() }));
    let answer = PARTS.with_borrow_mut(|lent| unsafe {
        sys::ola_meter_build(
            METER.get(),
            source.as_ptr(),
            source.len(),
            list.as_ptr(),
            list.len(),
            lent.kinds.as_mut_ptr(),
            ROOM,
            lent.mapped.as_mut_ptr(),
            ROOM,
            lent.starts.as_mut_ptr(),
            ROOM,
            lent.lengths.as_mut_ptr(),
            ROOM,
            lent.addresses.as_mut_ptr(),
            ROOM,
            lent.words.as_mut_ptr(),
            ROOM,
            lent.hosts.as_mut_ptr(),
            ROOM,
        )
    });
    assert_eq!(answer.assembly.refusal, 0);
    METER.set(answer.meter);
    answer.assembly
}

/// `ola_assemble` of a source with a prophet list.
pub fn entries(source: &[u8], list: &[u8]) -> Assembly {
    let answer = ENTRIES.with_borrow_mut(|(table, words, hosts)| unsafe {
        sys::ola_assemble(
            source.as_ptr(),
            source.len(),
            list.as_ptr(),
            list.len(),
            table.as_mut_ptr(),
            ROOM,
            words.as_mut_ptr(),
            ROOM,
            hosts.as_mut_ptr(),
            ROOM,
        )
    });
    assert_eq!(answer.refusal, 0);
    answer
}

/// `ola_room_of`.
pub fn room(source: &[u8]) -> Room {
    let answer = unsafe { sys::ola_room_of(source.as_ptr(), source.len()) };
    assert_eq!(answer.refusal, 0);
    answer
}

/// `ola_open`, and then `ola_next_at` until none is left: how many instructions there are.
pub fn read(bytecode: &[u8]) -> usize {
    assert_eq!(unsafe { sys::ola_open(bytecode.as_ptr(), bytecode.len()) }.refusal, 0);
    let (mut count, mut offset) = (0, 0);
    loop {
        let step = unsafe { sys::ola_next_at(bytecode.as_ptr(), bytecode.len(), offset) };
        if step.refusal != 0 {
            assert_eq!(step.refusal, 20);
            return count;
        }
        black_box(&step.instruction.opcode);
        offset = step.line as usize;
        count += 1;
    }
}

/// `ola_write_bytecode`: how many bytes were written.
pub fn write_bytecode(words: &[u64]) -> usize {
    let answer = WRITTEN.with_borrow_mut(|text| unsafe { sys::ola_write_bytecode(words.as_ptr(), words.len(), text.as_mut_ptr(), TEXT) });
    assert_eq!(answer.refusal, 0);
    answer.written as usize
}

/// `ola_write_source`: how many bytes were written.
pub fn write_source(bytecode: &[u8]) -> usize {
    let answer = WRITTEN.with_borrow_mut(|text| unsafe { sys::ola_write_source(bytecode.as_ptr(), bytecode.len(), text.as_mut_ptr(), TEXT) });
    assert_eq!(answer.refusal, 0);
    answer.written as usize
}

/// The text of so many bytes that was written last.
pub fn text(written: usize) -> String {
    WRITTEN.with_borrow(|text| String::from_utf8(text[..written].to_vec()).unwrap())
}
