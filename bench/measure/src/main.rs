//! Measures assembling, reading and writing bytecode by the port and by the Rust with which this is built, in nanoseconds of processor time for a byte: each
//! the median of several samples. The port: ola_assemble_parts, ola_assemble; ola_open and then ola_next_at to the end; ola_write_bytecode. The Rust:
//! asm_relocate and encode_to_binary; decode_binary_program_to_instructions; from_instructions. And what the Rust has nothing for: beside ola_assemble_parts
//! the room of a source, ola_room_of, and a build on a meter, ola_meter_build; beside reading the source of a bytecode, ola_write_source.
//! Every call is tried first, and what it answers is compared with the Rust's answer or with another call's; a difference ends the program.
mod clock;
mod hostile;
mod mixed;
mod port;
mod random;
mod sources;

use clock::{close_medians, medians, now, sampler};
use machine::program::binary_program::BinaryProgram;
use sources::Source;
use std::collections::HashMap;
use std::hint::black_box;

/// What is measured, the source, its bytes, and nanoseconds a byte of the port and of the Rust (which gets the rows in decimal, and whose time is divided by
/// the same bytes); of a room and of a build on a meter, of `ola_room_of` or `ola_meter_build` and of `ola_assemble_parts`; of the source of a bytecode, of
/// `ola_write_source` and of reading.
fn print(what: &str, name: &str, bytes: usize, port: f64, beside: f64) {
    println!("{what}\t{name}\t{bytes}\t{:.4}\t{:.4}", port / bytes as f64, beside / bytes as f64);
}

/// The bytecode of a source, which both ways of assembling accept with the same counts. The hosts of its prophets are the Rust's.
fn bytecode(source: &Source) -> String {
    let (text, list) = (source.text.as_bytes(), source.list());
    let counts = port::parts(text, list.as_bytes());
    assert_eq!(counts, port::entries(text, list.as_bytes()));
    let (words, hosts) = port::built(text, list.as_bytes());
    if !source.prophets.is_empty() {
        let prophets: Vec<&str> = source.prophets.iter().map(|prophet| prophet.as_str()).collect();
        let kept: HashMap<u64, usize> = hosts.iter().enumerate().map(|(place, host)| (*host, place)).collect();
        assert_eq!(counts.kept as usize, kept.len());
        let oracle::Answer::Accepted(assembled) = oracle::assemble(source.in_decimal(), &prophets) else { panic!("{}: refused by the Rust", source.name) };
        assert_eq!(assembled.kept, kept);
    }
    port::text(port::write_bytecode(&words))
}

/// Assembling by parts and by entries. The Rust is first by turns, so that its bytecode is compared before the port's clock starts. It gets no prophet list.
fn assembling(what: &str, source: &Source) {
    let (text, list, expected) = (source.text.as_bytes(), source.list(), bytecode(source));
    let list = list.as_bytes();
    let found = medians(&mut [
        sampler(
            || oracle::bundled(source.in_decimal()),
            oracle::assemble_bundle,
            |program| assert!(program.bytecode == expected, "{}: other words than the Rust's", source.name),
        ),
        sampler(|| (text, list), |(text, list)| port::parts(text, list), |_| ()),
        sampler(|| (text, list), |(text, list)| port::entries(text, list), |_| ()),
    ]);
    print(&format!("{what}, parts"), source.name, text.len(), found[1], found[0]);
    print(&format!("{what}, entries"), source.name, text.len(), found[2], found[0]);
}

/// Reading a bytecode.
fn reading(source: &Source) {
    let text = bytecode(source);
    let (bytes, count) = (text.as_bytes(), port::read(text.as_bytes()));
    let found = medians(&mut [
        sampler(|| oracle::program_of(&text), oracle::decode_program, |instructions| assert_eq!(instructions.len(), count)),
        sampler(|| bytes, port::read, |_| ()),
    ]);
    print("read", source.name, bytes.len(), found[1], found[0]);
}

/// Writing a bytecode: of words, and by the Rust of instructions. The bytes are those that are written.
fn writing(source: &Source) {
    let text = bytecode(source);
    let (words, _) = port::built(source.text.as_bytes(), &[]);
    let instructions = oracle::decode_program(oracle::program_of(&text));
    let found = medians(&mut [
        sampler(
            || instructions.clone(),
            |instructions| BinaryProgram::from_instructions(instructions, None, true).unwrap(),
            |program| assert!(program.bytecode == text, "{}: another bytecode than the Rust's", source.name),
        ),
        sampler(|| &words[..], port::write_bytecode, |written| assert_eq!(*written, text.len())),
    ]);
    print("write", source.name, text.len(), found[1], found[0]);
}

/// The room of a source beside assembling it.
fn room(source: &Source) {
    let text = source.text.as_bytes();
    let words = port::parts(text, &[]).words;
    let found = medians(&mut [sampler(|| text, port::room, |room| assert_eq!(room.words, words)), sampler(|| text, |text| port::parts(text, &[]), |_| ())]);
    print("room", source.name, text.len(), found[0], found[1]);
}

/// A build on a meter beside one without.
fn metered(source: &Source) {
    let text = source.text.as_bytes();
    assert_eq!(port::metered(text, &[]), port::parts(text, &[]));
    let found = close_medians([
        &|| drop(black_box(port::metered(black_box(text), &[]))),
        &|| drop(black_box(port::parts(black_box(text), &[]))),
    ]);
    print("metered", source.name, text.len(), found[0], found[1]);
}

/// Writing the source of a bytecode beside reading it. What is written has a row for each instruction and main's; of its rows those that a source has bytes for
/// are assembled to the words that the bytecode begins with.
fn written_source(source: &Source) {
    let text = bytecode(source);
    let (bytes, (words, _)) = (text.as_bytes(), port::built(source.text.as_bytes(), &[]));
    let written = port::text(port::write_source(bytes));
    assert_eq!(written.lines().count(), 1 + port::read(bytes));
    let end = if written.len() <= 65_536 { written.len() } else { written[..65_536].rfind('\n').unwrap() };
    assert!(words.starts_with(&port::built(written[..end].as_bytes(), &[]).0), "{}: another source", source.name);
    let found = medians(&mut [sampler(|| bytes, port::write_source, |_| ()), sampler(|| bytes, port::read, |_| ())]);
    print("source", source.name, bytes.len(), found[0], found[1]);
}

fn main() {
    // A processor may be slower while a program begins; that second is not told.
    let start = now();
    while now() - start < 1e9 {
        black_box(port::parts(black_box(b"main:\nend"), &[]));
    }
    let (ordinary, hostile, of_bytecodes) = (sources::assembled(), hostile::assembled(), sources::of_bytecodes());
    ordinary.iter().for_each(|source| assembling("assemble", source));
    hostile.iter().for_each(|source| assembling("hostile", source));
    of_bytecodes.iter().for_each(reading);
    of_bytecodes.iter().for_each(writing);
    ordinary.iter().chain(hostile.iter().filter(|source| source.name == hostile::ONE_BUCKET)).for_each(room);
    ordinary.iter().filter(|source| source.name == "4 KB").for_each(metered);
    of_bytecodes.iter().for_each(written_source);
}
