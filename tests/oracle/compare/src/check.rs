//! One case on both sides: the Rust's answer, that of documents 01 and 02 where it departs or does not tell, and the port's.
use crate::brackets::{self, Brackets, Outside};
use crate::hexadecimal::{self, Hexadecimals};
use crate::meter::{self, Build, Meters};
use crate::paper::{self, Respelt, ORDER};
use crate::port::{self, Assembly, Encoding, Figures, Label, Lent, Name, NumberedInstruction, NumberedPlace, Opened, Room, Step};
use crate::source::{self, Sources};
use crate::writing::writes;
use oracle::{Answer, Assembled, Instruction, Place};
use std::borrow::Cow;
use std::collections::{BTreeMap, HashMap};
use std::fmt::Debug;

#[derive(Debug, Clone, PartialEq, Eq)]
pub enum Case {
    Source { source: Vec<u8>, prophets: Vec<u8> },
    Bytecode(Vec<u8>),
    Words(Vec<u64>),
    Instruction(Instruction),
    Numbered(NumberedInstruction),
}

/// What a case must give where a paper says it in so many words.
#[derive(Debug, Clone)]
pub enum Expected {
    Nothing,
    Words(Vec<u64>),
    Rows(Vec<String>),
    Hosts(Vec<u64>),
    /// Of an instruction its row, of a bytecode or a source the source that is written of it.
    Text(String),
    Refused(u64, u64),
    Room(Figures),
    /// Builds one after another on a meter that begins at a total.
    Builds(u64, Vec<Build>),
}

/// How many source cases there were; of how many the Rust told the figures and of how many the papers alone; of how many the Rust was asked for the counted
/// length too; and how many have more words than their counted length.
#[derive(Clone, Copy, Default)]
pub struct Rooms {
    pub sources: u64,
    pub by_rust: u64,
    pub by_paper: u64,
    pub counted: u64,
    pub above: u64,
}

/// How many sources have operands that look like labels and no dot: names alone, how many of these are accepted, unreadable ones alone, both.
#[derive(Clone, Copy, Default)]
pub struct Respellings {
    pub names: u64,
    pub accepted: u64,
    pub unreadable: u64,
    pub both: u64,
}

impl Respellings {
    fn tally(&mut self, respelt: &Respelt, number: u64) {
        match (respelt.names, respelt.unreadable) {
            (_, 0) => {
                self.names += 1;
                self.accepted += u64::from(number == 0);
            }
            (0, _) => self.unreadable += 1,
            _ => self.both += 1,
        }
    }
}

pub struct Checker {
    /// Only the Rust runs.
    pub dry: bool,
    /// Of one in so many of the sources that it accepts the Rust is asked for the counted length.
    every: u64,
    pub rooms: Rooms,
    pub respellings: Respellings,
    pub hexadecimals: Hexadecimals,
    pub brackets: Brackets,
    pub meters: Meters,
    pub sources: Sources,
    /// How often each answer was due: what was asked, and the refusal, 0 for acceptance.
    pub answers: BTreeMap<(&'static str, u64), u64>,
    /// Whether the case is to be accepted.
    pub accepted: bool,
}

pub type Outcome = Result<(), String>;

pub fn same<T: PartialEq + Debug>(what: &str, expected: &T, got: &T) -> Outcome {
    if expected == got {
        return Ok(());
    }
    Err(format!("{what}\n    expected {expected:?}\n    the port {got:?}"))
}

/// The paper and the Rust, which the port has no part in.
pub fn agreed<T: PartialEq + Debug>(what: &str, paper: &T, rust: &T) -> Outcome {
    if paper == rust {
        return Ok(());
    }
    Err(format!("{what}\n    the paper {paper:?}\n    the Rust {rust:?}"))
}

fn same_list<T: PartialEq + Debug>(what: &str, expected: &[T], got: &[T]) -> Outcome {
    match (0..expected.len().max(got.len())).find(|n| expected.get(*n) != got.get(*n)) {
        None => Ok(()),
        Some(n) => same(&format!("{what}, entry {n} of {}", got.len()), &expected.get(n), &got.get(n)),
    }
}

/// -2^127, at which the Rust panics, made -2^128, which it refuses; document 01 refuses both alike.
fn without_panic(text: &str) -> String {
    text.replace("170141183460469231731687303715884105728", "340282366920938463463374607431768211456")
}

fn refusal<T>(answer: &Answer<T>) -> u64 {
    match answer {
        Answer::Accepted(_) => 0,
        Answer::Refused(number, _) => *number,
        Answer::Panicked => 999,
    }
}

/// A room that is tried, and what is expected there: the answer and what is left in the lent buffers.
pub struct Tried {
    pub room: Room,
    pub answer: Assembly,
    left: Lent,
}

impl Tried {
    /// Whether a build by parts gave this answer and left this, past the ends too.
    pub fn same(&self, by: &str, got: &Assembly, lent: &Lent) -> Outcome {
        let what = |part: &str| format!("{part} of {by}, {:?}", self.room);
        same(&what("answer"), &self.answer, got)?;
        same_list(&what("kinds"), &self.left.kinds, &lent.kinds)?;
        same_list(&what("mapped"), &self.left.mapped, &lent.mapped)?;
        same_list(&what("starts"), &self.left.starts, &lent.starts)?;
        same_list(&what("lengths"), &self.left.lengths, &lent.lengths)?;
        same_list(&what("addresses"), &self.left.addresses, &lent.addresses)?;
        same_list(&what("words"), &self.left.words, &lent.words)?;
        same_list(&what("hosts"), &self.left.hosts, &lent.hosts)
    }
}

/// What is expected of a source: refusals 1 to 6, its figures, the label table, refusals 8 to 12 and 25, and else words and hosts.
struct Told {
    untabled: Option<(u64, u64)>,
    figures: Figures,
    entries: Vec<Label>,
    refused: Option<(u64, u64)>,
    words: Vec<u64>,
    listed: usize,
    hosts: Vec<u64>,
    kept: u64,
    bytecode: String,
}

impl Told {
    fn refused(number: u64, detail: u64) -> Told {
        Told {
            untabled: Some((number, detail)),
            figures: Figures { refusal: number, detail, ..Figures::default() },
            entries: vec![],
            refused: None,
            words: vec![],
            listed: 0,
            hosts: vec![],
            kept: 0,
            bytecode: String::new(),
        }
    }

    /// `main:` and rows of these words.
    fn of_main(words: Vec<u64>) -> Told {
        let main = Label { kind: 0, mapped: !words.is_empty(), start: 0, length: 4, address: 0 };
        Told { untabled: None, entries: vec![main], words, ..Told::refused(0, 0) }
    }

    fn refusal(&self) -> Option<(u64, u64)> {
        self.untabled.or(self.refused)
    }

    fn tried(&self, room: Room) -> Tried {
        let (answer, left) = self.expected(&room);
        Tried { room, answer, left }
    }

    /// The answer and what is left in the lent buffers.
    fn expected(&self, room: &Room) -> (Assembly, Lent) {
        let mut left = Lent::new(room);
        let refused = |(refusal, detail)| Assembly { refusal, detail, ..Assembly::default() };
        if let Some(number) = self.untabled {
            return (refused(number), left);
        }
        if room.entries() < self.entries.len() {
            return (refused((7, 0)), left);
        }
        for (n, entry) in self.entries.iter().enumerate() {
            left.kinds[n] = entry.kind;
            left.mapped[n] = entry.mapped;
            left.starts[n] = entry.start;
            left.lengths[n] = entry.length;
            left.addresses[n] = entry.address;
            left.table[n] = *entry;
        }
        if let Some(number) = self.refused {
            return (refused(number), left);
        }
        if room.words < self.words.len() || room.hosts < self.listed {
            return (refused((13, 0)), left);
        }
        left.words[..self.words.len()].copy_from_slice(&self.words);
        left.hosts[..self.hosts.len()].copy_from_slice(&self.hosts);
        let labels = self.entries.len() as u64;
        (Assembly { refusal: 0, detail: 0, labels, words: self.words.len() as u64, hosts: self.hosts.len() as u64, kept: self.kept }, left)
    }

    /// The rooms that are tried: more than enough, and of a small source also just enough, one short and nothing. How many words are enough is told of a refused
    /// source too, so that what is lent stays as it is though it would do, and 13 does not come first where it would not.
    fn rooms(&self, source: &[u8]) -> Vec<Room> {
        let (labels, words, hosts) = (self.entries.len(), self.figures.words as usize, self.listed);
        let ample = Room { columns: [labels + 2, labels + 3, labels + 1, labels + 4, labels + 2], words: words + 2, hosts: hosts + 2 };
        let full = Room { columns: [labels; 5], words, hosts };
        let mut rooms = vec![full, Room { columns: [0; 5], words: 0, hosts: 0 }];
        if labels > 0 {
            let mut short = ample;
            short.columns[source.len() % 5] = labels - 1;
            rooms.push(short);
        }
        if words > 0 {
            rooms.push(Room { words: words - 1, ..ample });
        }
        if hosts > 0 {
            rooms.push(Room { hosts: hosts - 1, ..ample });
        }
        if source.len() > 400 {
            rooms = vec![rooms[source.len() % rooms.len()]];
        }
        rooms.insert(0, ample);
        rooms
    }
}

/// The name of an entry.
fn name<'a>(source: &'a str, entry: &Label) -> &'a str {
    &source[entry.start..entry.start + entry.length]
}

/// The address of each name of a kind: of equal ones the last mapped.
fn held(source: &str, entries: &[Label], kind: u8) -> HashMap<String, u64> {
    entries.iter().filter(|entry| entry.kind == kind && entry.mapped).map(|entry| (name(source, entry).to_string(), entry.address)).collect()
}

/// The words of a bytecode that the Rust wrote.
pub fn words_of(bytecode: &str) -> Vec<u64> {
    bytecode.split('\n').filter(|line| !line.is_empty()).map(|line| u64::from_str_radix(&line[2..], 16).unwrap()).collect()
}

/// The counted length that the Rust tells of a source that it accepts: the address of a call label put at the source's end with one instruction. The source
/// does not contain the label's name. Of a source that this makes too long the Rust is not asked.
fn counted(source: &str) -> Result<Option<u64>, String> {
    let name = (0..).map(|n| format!("e{n}")).find(|name| !source.contains(name.as_str())).unwrap();
    let longer = format!("{source}\n{name}:\nret");
    if longer.len() > paper::SOURCE_LIMIT {
        return Ok(None);
    }
    match oracle::assemble(&longer, &[]) {
        Answer::Accepted(rust) => Ok(Some(rust.calls[&name])),
        answer => Err(format!("the Rust with a row more answers {}", refusal(&answer))),
    }
}

impl Checker {
    pub fn new(dry: bool, every: u64, near_every: u64) -> Checker {
        Checker {
            dry,
            every,
            rooms: Rooms::default(),
            respellings: Respellings::default(),
            hexadecimals: Hexadecimals::default(),
            brackets: Brackets::default(),
            meters: Meters::new(dry, near_every),
            sources: Sources::default(),
            answers: BTreeMap::new(),
            accepted: false,
        }
    }

    fn tally(&mut self, what: &'static str, number: u64) {
        self.accepted |= number == 0;
        *self.answers.entry((what, number)).or_insert(0) += 1;
    }

    pub fn case(&mut self, case: &Case, expected: &Expected) -> Outcome {
        self.accepted = false;
        match case {
            Case::Source { source, prophets } => self.source(source, prophets, expected),
            Case::Bytecode(text) => self.bytecode(text, expected),
            Case::Words(words) => self.words(words, &paper::bytecode(words)),
            Case::Instruction(instruction) => self.instruction(instruction, expected),
            Case::Numbered(instruction) => self.unnamed(*instruction),
        }
    }

    // ---- sources

    fn source(&mut self, source: &[u8], prophets: &[u8], expected: &Expected) -> Outcome {
        self.rooms.sources += 1;
        let room = if self.dry { None } else { Some(port::room_of(source)) };
        let told = self.told(source, prophets)?;
        let refused = told.refusal();
        self.tally("assemble", refused.map_or(0, |(number, _)| number));
        self.rooms.above += u64::from(told.figures.words > told.figures.counted);
        match expected {
            Expected::Words(words) => agreed("refusal and words", &(None, words), &(refused, &told.words))?,
            Expected::Hosts(hosts) => agreed("refusal and hosts", &(None, hosts), &(refused, &told.hosts))?,
            Expected::Rows(_) | Expected::Text(_) => agreed("refusal", &None, &refused)?,
            Expected::Refused(number, detail) => agreed("refusal", &Some((*number, *detail)), &refused)?,
            Expected::Room(figures) => agreed("room", figures, &told.figures)?,
            Expected::Builds(from, builds) => {
                let builds: Vec<(&Build, Tried)> = builds.iter().map(|build| (build, told.tried(build.room))).collect();
                meter::named(source, prophets, *from, &builds, self.dry)?;
            }
            Expected::Nothing => {}
        }
        if let Some(room) = room {
            same("room_of", &told.figures, &room)?;
            let rooms: Vec<Tried> = told.rooms(source).into_iter().map(|room| told.tried(room)).collect();
            for tried in &rooms {
                self.room(source, prophets, tried)?;
            }
            self.meters.source(source, prophets, &rooms)?;
            self.names(source, &told.entries)?;
        }
        if refused.is_none() {
            self.words(&told.words, &told.bytecode)?;
            let read = self.opened(told.bytecode.as_bytes(), expected)?;
            self.written(told.bytecode.as_bytes(), &read, Some(&told.words), expected)?;
        }
        Ok(())
    }

    /// What is expected of a source. Where an operand looks like a label and has no dot all are asked of the source respelt, which has the same length: every
    /// place in it is the source's. Where an operand has a hexadecimal number the Rust is asked of the source in decimal, and where one is bracketed outside
    /// mload and mstore also with psp in its place.
    fn told(&mut self, source: &[u8], prophets: &[u8]) -> Result<Told, String> {
        if source.len() > paper::SOURCE_LIMIT {
            return Ok(Told::refused(1, 0));
        }
        if let Some(at) = source.iter().position(|byte| *byte > 127) {
            return Ok(Told::refused(2, at as u64));
        }
        let source = std::str::from_utf8(source).unwrap();
        let respelt = paper::respelt(source);
        let text = respelt.as_ref().map_or(source, |respelt| &respelt.text);
        let decimal = hexadecimal::in_decimal(text);
        let asked = decimal.as_ref().map_or(text, |decimal| &decimal.text);
        let outside = brackets::outside(asked);
        let told = self.asked(text, asked, outside.as_ref(), prophets)?;
        let number = told.refusal().map_or(0, |(number, _)| number);
        if let Some(respelt) = &respelt {
            self.respellings.tally(respelt, number);
        }
        if let Some(decimal) = &decimal {
            self.hexadecimals.tally(decimal, number);
        }
        if let Some(outside) = &outside {
            self.brackets.tally(outside, number);
        }
        Ok(told)
    }

    /// What the Rust says of a source in decimal, and documents 01 and 02 beside it of the source itself: every place that is told is theirs to tell. What is
    /// behind 8 in a source with brackets outside mload and mstore is told by `outside`.
    fn asked(&mut self, text: &str, decimal: &str, outside: Option<&Outside>, prophets: &[u8]) -> Result<Told, String> {
        let list = paper::listed(prophets);
        let names: Vec<Cow<str>> = list.iter().flatten().map(|name| String::from_utf8_lossy(name)).collect();
        let names: Vec<&str> = names.iter().map(|name| &**name).collect();
        let mut rust = oracle::assemble(decimal, &names);
        if rust == Answer::Panicked {
            self.tally("assemble", 999);
            rust = oracle::assemble(&without_panic(decimal), &names);
        }
        if let Answer::Refused(3, detail) = rust {
            return Ok(Told::refused(3, detail));
        }
        let (mains, entries) = paper::table(text);
        if mains > 1 {
            return Ok(Told::refused(6, 0));
        }
        if let Answer::Refused(number @ 4..=5, detail) = rust {
            return Ok(Told::refused(number, detail));
        }
        let figures = match &rust {
            Answer::Accepted(assembled) => self.figures(text, decimal, &entries, assembled)?,
            _ => {
                self.rooms.by_paper += 1;
                paper::figures(text)
            }
        };
        let mut told = Told { untabled: None, refused: None, figures, entries, listed: names.len(), ..Told::refused(0, 0) };
        if list.is_none() {
            told.refused = Some((8, 0));
            return Ok(told);
        }
        if let Some(outside) = outside {
            told.refused = Some(outside.refusal(&names)?);
            return Ok(told);
        }
        match rust {
            Answer::Panicked => Err("the Rust panics".to_string()),
            Answer::Refused(number, detail) => {
                told.refused = Some((number, detail));
                Ok(told)
            }
            Answer::Accepted(assembled) => self.accepted(text, &names, told, assembled),
        }
    }

    /// The words and hosts of an accepted source, whose "counted length and emitted length are one number".
    fn accepted(&mut self, source: &str, names: &[&str], mut told: Told, rust: Assembled) -> Result<Told, String> {
        let prophets = held(source, &told.entries, 2);
        told.hosts = names.iter().map(|name| prophets.get(*name).copied().unwrap_or(u64::MAX)).collect();
        let kept: HashMap<u64, usize> = told.hosts.iter().enumerate().map(|(n, host)| (*host, n)).collect();
        told.kept = rust.kept.len() as u64;
        told.words = words_of(&rust.bytecode);
        agreed("prophets kept", &kept, &rust.kept)?;
        agreed("words as many as the counted length", &told.figures.counted, &told.figures.words)?;
        told.bytecode = rust.bytecode;
        Ok(told)
    }

    /// The figures of a source that the Rust accepts, with or without brackets: its own counts, and the label rows of the table. Those that document 02 tells
    /// must agree, and its maps with the table that document 01 tells.
    fn figures(&mut self, source: &str, decimal: &str, entries: &[Label], rust: &Assembled) -> Result<Figures, String> {
        agreed("addresses of call names", &held(source, entries, 0), &rust.calls)?;
        agreed("addresses of labels", &held(source, entries, 1), &rust.labels)?;
        let paper = paper::figures(source);
        let (labels, words) = (entries.len() as u64, words_of(&rust.bytecode).len() as u64);
        let mut figures = Figures { labels, instructions: rust.instructions, words, ..paper };
        self.rooms.by_rust += 1;
        if self.rooms.by_rust % self.every == 0 {
            if let Some(counted) = counted(decimal)? {
                self.rooms.counted += 1;
                figures.counted = counted;
            }
        }
        agreed("figures", &paper, &figures)?;
        Ok(figures)
    }

    fn room(&mut self, source: &[u8], prophets: &[u8], tried: &Tried) -> Outcome {
        let mut lent = Lent::new(&tried.room);
        let got = port::assemble_parts(source, prophets, &tried.room, &mut lent);
        tried.same("assemble_parts", &got, &lent)?;
        self.table(source, prophets, tried)
    }

    fn table(&mut self, source: &[u8], prophets: &[u8], Tried { room, answer, left }: &Tried) -> Outcome {
        let mut lent = Lent::new(room);
        let got = port::assemble(source, prophets, room, &mut lent);
        let what = |part: &str| format!("{part} of assemble, {room:?}");
        same(&what("answer"), answer, &got)?;
        same_list(&what("table"), &left.table, &lent.table)?;
        same_list(&what("words"), &left.words, &lent.words)?;
        same_list(&what("hosts"), &left.hosts, &lent.hosts)
    }

    /// The names of the entries, and of entries that reach to the source's end or past it.
    fn names(&mut self, source: &[u8], entries: &[Label]) -> Outcome {
        let end = source.len();
        let entry = |start, length| Label { kind: 0, mapped: false, start, length, address: 0 };
        for e in entries {
            same("label_name", &Name { start: e.start, length: e.length }, &port::label_name(source, *e))?;
        }
        for (start, length) in [(0, end), (end, 0), (end / 2, end - end / 2)] {
            same("label_name", &Name { start, length }, &port::label_name(source, entry(start, length)))?;
        }
        for (start, length) in
            [(0, end + 1), (end, 1), (end + 1, 0), (end / 2, end - end / 2 + 1), (usize::MAX, usize::MAX), (1, usize::MAX), (usize::MAX, 1)]
        {
            same("label_name past the end", &Name::default(), &port::label_name(source, entry(start, length)))?;
        }
        Ok(())
    }

    // ---- words

    fn words(&mut self, words: &[u64], text: &str) -> Outcome {
        agreed("bytecode", &paper::bytecode(words), &text.to_string())?;
        if self.dry {
            return Ok(());
        }
        writes("write_bytecode", Ok(text.as_bytes()), &|room, lent| port::write_bytecode(words, room, lent))
    }

    // ---- instructions

    fn instruction(&mut self, instruction: &Instruction, expected: &Expected) -> Outcome {
        let number = |place: Place| match place {
            Place::Number(n) | Place::Offset(_, n) | Place::Factor(_, n) => n,
            _ => 0,
        };
        let large = [instruction.op0, instruction.op1, instruction.dst].into_iter().any(|place| number(place) >= ORDER);
        let (encoded, row) =
            if large { (Answer::Refused(21, 0), Answer::Refused(21, 0)) } else { (oracle::encode(instruction), oracle::row(instruction)) };
        let row = if row == Answer::Panicked { Answer::Refused(24, 0) } else { row };
        self.tally("encode", refusal(&encoded));
        self.tally("row", refusal(&row));
        let encoding = match &encoded {
            Answer::Accepted(lines) => {
                let word = |n: usize| lines.get(n).map_or(0, |line| u64::from_str_radix(&line[2..], 16).unwrap());
                Encoding { refusal: 0, detail: 0, count: lines.len() as u64, first: word(0), second: word(1) }
            }
            Answer::Refused(refusal, detail) => Encoding { refusal: *refusal, detail: *detail, ..Encoding::default() },
            Answer::Panicked => return Err("the Rust panics in encode".to_string()),
        };
        let text = match &row {
            Answer::Accepted(text) => Ok(text.as_bytes()),
            Answer::Refused(refusal, detail) => Err((*refusal, *detail)),
            Answer::Panicked => unreachable!(),
        };
        match expected {
            Expected::Text(paper) => agreed("row", paper, &String::from_utf8_lossy(text.unwrap_or(b"")).to_string())?,
            Expected::Words(words) => agreed("words", words, &[encoding.first, encoding.second][..encoding.count as usize].to_vec())?,
            Expected::Refused(number, detail) => agreed("refusal", &(*number, *detail), &text.err().unwrap_or((encoding.refusal, encoding.detail)))?,
            _ => {}
        }
        if self.dry {
            return Ok(());
        }
        let numbered = port::numbered(instruction);
        for given in [numbered, overlaid(numbered)] {
            same("encode", &encoding, &port::encode(given))?;
            writes("listing_row", text, &|room, lent| port::listing_row(given, room, lent))?;
        }
        Ok(())
    }

    /// Numbers that name no instruction: the header's 255.
    fn unnamed(&mut self, instruction: NumberedInstruction) -> Outcome {
        if self.dry {
            return Ok(());
        }
        same("encode", &Encoding { refusal: 255, ..Encoding::default() }, &port::encode(instruction))?;
        writes("listing_row", Err((255, 0)), &|room, lent| port::listing_row(instruction, room, lent))
    }

    // ---- bytecode

    fn bytecode(&mut self, text: &[u8], expected: &Expected) -> Outcome {
        if text.len() > paper::BYTECODE_LIMIT {
            self.written(text, &Answer::Refused(14, 0), None, expected)?;
            return self.too_long(text);
        }
        let read = self.opened(text, expected)?;
        self.written(text, &read, None, expected)?;
        if self.dry {
            return Ok(());
        }
        let told = told_text(text);
        let starts = line_starts(text);
        let lines = starts.len() - 1;
        for line in (0..lines + 2).filter(|line| lines < 8 || line % (lines / 4) < 2) {
            let answer = next(&told, line);
            let step = |n: usize| (line + n) as u64;
            same(&format!("next, line {line}"), &expected_step(&answer, line, step), &port::next(text, line))?;
        }
        for offset in (0..text.len() + 2).filter(|offset| text.len() < 12 || offset % (text.len() / 8) == 0) {
            let rest = told.get(offset..).unwrap_or("");
            let answer = next(rest, 0);
            let ends = line_starts(rest.as_bytes());
            let step = |n: usize| (offset + ends[n]) as u64;
            same(&format!("next_at, offset {offset}"), &expected_step(&answer, offset, step), &port::next_at(text, offset))?;
        }
        let far = Step { refusal: 20, line: u64::MAX, ..Step::default() };
        same("next, the last line that a number tells", &far, &port::next(text, usize::MAX))?;
        same("next_at, the last offset that a number tells", &far, &port::next_at(text, usize::MAX))
    }

    fn too_long(&mut self, text: &[u8]) -> Outcome {
        if self.dry {
            return Ok(());
        }
        same("open", &Opened { refusal: 14, detail: 0 }, &port::open(text))?;
        for at in [0, 1, text.len(), text.len() + 1] {
            let step = Step { refusal: 14, line: at as u64, ..Step::default() };
            same("next", &step, &port::next(text, at))?;
            same("next_at", &step, &port::next_at(text, at))?;
        }
        Ok(())
    }

    /// Writing a source of a bytecode in which the Rust reads this, and assembling that; `words` are those of the source that it was assembled from.
    fn written(&mut self, bytecode: &[u8], read: &Answer<Vec<Instruction>>, words: Option<&[u64]>, expected: &Expected) -> Outcome {
        let due = self.sources.due(read, words, expected)?;
        if self.dry {
            return Ok(());
        }
        source::port_writes(bytecode, &due)?;
        let Ok(text) = due.text else { return Ok(()) };
        let told = due.words.map_or(Told::refused(1, 0), Told::of_main);
        let room = Room { columns: [1; 5], words: told.words.len(), hosts: 0 };
        self.room(text.as_bytes(), b"", &told.tried(room))
    }

    /// Opening, and then the run of calls by lines and by offsets, where the text opens. It answers what the Rust reads.
    fn opened(&mut self, text: &[u8], expected: &Expected) -> Result<Answer<Vec<Instruction>>, String> {
        let told = told_text(text);
        let mut rust = oracle::decode(&told);
        if rust == Answer::Panicked {
            self.tally("open", 999);
            rust = oracle::decode(&without_panic(&told));
        }
        self.tally("open", refusal(&rust));
        let opened = match &rust {
            Answer::Accepted(_) => Opened { refusal: 0, detail: 0 },
            Answer::Refused(refusal, detail) => Opened { refusal: *refusal, detail: *detail },
            Answer::Panicked => return Err("the Rust panics in decode".to_string()),
        };
        match expected {
            Expected::Rows(_) | Expected::Text(_) | Expected::Refused(26, _) => agreed("refusal", &(0, 0), &(opened.refusal, opened.detail))?,
            Expected::Refused(number, detail) => agreed("refusal", &(*number, *detail), &(opened.refusal, opened.detail))?,
            _ => {}
        }
        if !self.dry {
            same("open", &opened, &port::open(text))?;
        }
        let Answer::Accepted(list) = &rust else { return Ok(rust) };
        if let Expected::Rows(rows) = expected {
            let listed: Vec<String> = list.iter().map(|i| if let Answer::Accepted(row) = oracle::row(i) { row } else { "24".to_string() }).collect();
            agreed("rows", rows, &listed)?;
        }
        let mut unequal = list.clone();
        unequal.dedup();
        for instruction in &unequal {
            self.instruction(instruction, &Expected::Nothing)?;
        }
        if !self.dry {
            self.run(text, list)?;
        }
        Ok(rust)
    }

    fn run(&mut self, text: &[u8], list: &[Instruction]) -> Outcome {
        let starts = line_starts(text);
        let mut line = 0;
        for (n, instruction) in list.iter().enumerate() {
            let after = line + lines_of(instruction);
            let step = |line: usize| Step { refusal: 0, detail: 0, line: line as u64, instruction: port::numbered(instruction) };
            // A call by its line goes over all lines before it, so of a long list some two hundred are asked at the most.
            if list.len() < 200 || n % 97.max(list.len() / 200) == 0 {
                same(&format!("next, call {n}"), &step(after), &port::next(text, line))?;
            }
            same(&format!("next_at, call {n}"), &step(starts[after]), &port::next_at(text, starts[line]))?;
            line = after;
        }
        let none = |line: usize| Step { refusal: 20, line: line as u64, ..Step::default() };
        same("next after the last", &none(line), &port::next(text, line))?;
        same("next_at after the last", &none(starts[line]), &port::next_at(text, starts[line]))
    }
}

/// Numbers in fields that a content does not have, which are not looked at.
fn overlaid(instruction: NumberedInstruction) -> NumberedInstruction {
    let place = |place: NumberedPlace| NumberedPlace {
        content: place.content,
        reg: if place.content < 2 { 200 } else { place.reg },
        number: if [0, 2, 5].contains(&place.content) { u64::MAX } else { place.number },
    };
    NumberedInstruction { opcode: instruction.opcode, op0: place(instruction.op0), op1: place(instruction.op1), dst: place(instruction.dst) }
}

/// How many lines an instruction that was read has.
fn lines_of(instruction: &Instruction) -> usize {
    let memory = [9, 10].contains(&instruction.opcode);
    if memory || matches!(instruction.op1, Place::Number(_)) {
        2
    } else {
        1
    }
}

/// A bytecode as the Rust gets it: a byte above 127 is no digit, and neither is what takes its place.
fn told_text(text: &[u8]) -> Cow<'_, str> {
    match std::str::from_utf8(text) {
        Ok(told) if told.is_ascii() => Cow::Borrowed(told),
        _ => Cow::Owned(text.iter().map(|byte| if *byte > 127 { '\x7f' } else { *byte as char }).collect()),
    }
}

/// Where each line starts, and the text's end.
pub fn line_starts(text: &[u8]) -> Vec<usize> {
    let mut starts = vec![0];
    starts.extend(text.iter().enumerate().filter(|(_, byte)| **byte == b'\n').map(|(n, _)| n + 1));
    if *starts.last().unwrap() != text.len() {
        starts.push(text.len());
    }
    starts
}

/// The Rust on the lines from one on.
fn next(text: &str, line: usize) -> Answer<(Instruction, usize)> {
    match oracle::next(text, line) {
        Answer::Panicked => oracle::next(&without_panic(text), line),
        answer => answer,
    }
}

fn expected_step(answer: &Answer<(Instruction, usize)>, at: usize, after: impl Fn(usize) -> u64) -> Step {
    match answer {
        Answer::Accepted((instruction, lines)) => Step { refusal: 0, detail: 0, line: after(*lines), instruction: port::numbered(instruction) },
        Answer::Refused(refusal, detail) => Step { refusal: *refusal, detail: *detail, line: at as u64, ..Step::default() },
        Answer::Panicked => Step { refusal: 999, ..Step::default() },
    }
}
