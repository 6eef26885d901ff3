//! Runs the port beside the Rust and compares every result: acceptance, refusals and details, label addresses, hosts and prophets kept, words and bytecode,
//! instructions read, listing rows, encodings, the room of a source, and what is left in every lent buffer, past its end too. Where document 01 departs from
//! the Rust, or 01 or 02 says what the Rust does not tell, paper.rs takes the Rust's place. A source with an operand that looks like a label and has no dot is
//! outside the comparison as it stands, by document 02's Point 2: the port gets it as it is, the Rust respelt, and such sources are counted apart. A
//! source with a hexadecimal number the Rust gets in decimal, by Point 4 (hexadecimal.rs), and these are counted apart too. So are sources with a bracketed
//! operand outside mload and mstore, which are outside by Point 6: the Rust gets them with psp in its place, and the refusal follows from that (brackets.rs).
//! Of every bytecode that the Rust reads the source that is due or 26 is made of its instructions; the port must write it, and it assembles back to the
//! same instructions (source.rs).
//! One build meter is carried through the whole run: every source is built on it in every room that is tried, and its total is to be the sum of the words that
//! the Rust gives for what is accepted. One source in fifty also begins at a meter of 2^64 - 1 - k, for each k from 0 to 3 (meter.rs).
//!   compare [COUNT] [SEED]      default 20000 and 1
//! First the cases of the papers and, from the file that MANUAL names, the manual's examples, then the whole lists (of a small count every so-many-th of them,
//! at most three fifths of the count), then random cases.
//! With DRY=1 only the Rust runs. With TRACE=1 each case is printed before it runs.
//! Exit status: 0 no difference; 1 a difference, a function of the port that was never called, a source whose room was not asked for, the Rust never asked
//! for a counted length, no respelt source with a name, with an unreadable operand, or accepted, no source with a hexadecimal number that was accepted,
//! accepted with one in brackets, unreadable, or unreadable with one of p or more, no source with a bracketed operand outside mload and mstore refused with 25,
//! with 25 and all of them in dst, or with 3, 5, 6, 8, 9, 10 or 11, a source that was not built on the meter, or none that began near the stop, came to just
//! 2^64 - 1, or was stopped there, no source written, written of an accepted source's bytecode, assembled back, or too long for that, none refused with 26, at a
//! later instruction or as opening refuses it, an operation without a row written, or one whose row lacks a place without a 26.
mod brackets;
mod check;
mod generate;
mod hexadecimal;
mod limits;
mod lists;
mod manual;
mod meter;
mod named;
mod numbers;
mod paper;
mod port;
mod random;
mod shrink;
mod source;
mod writing;

use brackets::Brackets;
use check::{Case, Checker, Expected, Respellings, Rooms};
use generate::{GENERATORS, LARGE_EVERY};
use hexadecimal::Hexadecimals;
use meter::Metering;
use random::Random;
use source::Sources;
use std::panic::{catch_unwind, AssertUnwindSafe};
use std::sync::atomic::Ordering::Relaxed;

/// Differences printed whole; more are only counted.
const PRINTED: usize = 20;
/// Of one in so many of the sources that it accepts the Rust is asked for the counted length.
const COUNTED_EVERY: u64 = 8;
/// One in so many sources is also built on meters near their stop.
const NEAR_EVERY: u64 = 50;

struct Run {
    checker: Checker,
    trace: bool,
    cases: usize,
    differences: usize,
    counts: Vec<Count>,
    /// What was written of bytecodes when the drawing began.
    listed: Sources,
}

/// The cases of one list or generator: how many, how many of them are accepted, and how many the whole list has.
#[derive(Clone, Copy)]
struct Count {
    name: &'static str,
    cases: usize,
    accepted: usize,
    whole: usize,
}

/// The outcome of a case; a panic of the comparer itself is a difference.
pub fn outcome(checker: &mut Checker, case: &Case, expected: &Expected) -> Result<(), String> {
    catch_unwind(AssertUnwindSafe(|| checker.case(case, expected))).unwrap_or_else(|panic| {
        let text = panic.downcast_ref::<String>().cloned().or(panic.downcast_ref::<&str>().map(|text| text.to_string()));
        Err(format!("the comparer panicked: {}", text.unwrap_or_default()))
    })
}

pub fn shown(case: &Case) -> String {
    match case {
        Case::Source { source, prophets } => format!("source \"{}\", prophets \"{}\"", source.escape_ascii(), prophets.escape_ascii()),
        Case::Bytecode(text) => format!("bytecode \"{}\"", text.escape_ascii()),
        Case::Words(words) => format!("words {words:#x?}"),
        Case::Instruction(instruction) => format!("{instruction:?}"),
        Case::Numbered(instruction) => format!("{instruction:?}"),
    }
}

impl Run {
    /// Counts of a list or a generator that begins.
    fn begin(&mut self, name: &'static str, whole: usize) -> usize {
        self.counts.push(Count { name, cases: 0, accepted: 0, whole });
        self.counts.len() - 1
    }

    fn case(&mut self, count: usize, name: &str, case: &Case, expected: &Expected) {
        if self.trace {
            eprintln!("{name}: {}", shown(case));
        }
        self.cases += 1;
        let outcome = outcome(&mut self.checker, case, expected);
        self.counts[count].cases += 1;
        self.counts[count].accepted += usize::from(self.checker.accepted);
        let Err(difference) = outcome else { return };
        self.differences += 1;
        if self.differences > PRINTED {
            return;
        }
        println!("DIFFERENCE in case {} ({name})", self.cases);
        println!("  {}\n  {difference}", shown(case));
        if let Some((smaller, difference)) = shrink::smallest(case, self.checker.dry) {
            println!("  smallest: {}\n  {difference}", shown(&smaller));
        }
    }

    fn named(&mut self) {
        let named = named::all();
        let count = self.begin("cases of the papers", named.len());
        for one in &named {
            self.case(count, one.name, &one.case, &one.expected);
        }
    }

    fn manual(&mut self, path: &str) {
        let examples = manual::all(path);
        let count = self.begin("examples of the manual", examples.len());
        for one in &examples {
            self.case(count, "the manual", &one.case, &one.expected);
        }
    }

    /// At most so many cases of the whole lists together, of each its share.
    fn lists(&mut self, most: usize) {
        let total: usize = lists::LISTS.iter().map(|list| list.len).sum();
        for list in &lists::LISTS {
            let count = self.begin(list.name, list.len);
            let cases = if most < total { list.len * most / total } else { list.len };
            for n in 0..cases {
                self.case(count, list.name, &(list.at)(n * list.len / cases), &Expected::Nothing);
            }
        }
    }

    fn random(&mut self, most: usize, seed: u64) {
        let mut r = Random::new(seed);
        self.listed = self.checker.sources;
        let large = self.begin("large sources", 0);
        let counts: Vec<usize> = GENERATORS.iter().map(|generator| self.begin(generator.name, 0)).collect();
        let by_share: Vec<usize> = GENERATORS.iter().enumerate().flat_map(|(n, generator)| vec![n; generator.share]).collect();
        while self.cases < most {
            if r.below(LARGE_EVERY) == 0 {
                self.case(large, "large sources", &generate::large(&mut r), &Expected::Nothing);
                continue;
            }
            let which = by_share[r.below(by_share.len())];
            self.case(counts[which], GENERATORS[which].name, &(GENERATORS[which].draw)(&mut r), &Expected::Nothing);
        }
    }

    fn report(&self) {
        println!("    cases  accepted");
        for Count { name, cases, accepted, whole } in &self.counts {
            let of = if whole > cases { format!(" (of {whole})") } else { String::new() };
            println!("{cases:>9} {accepted:>9}  {name}{of}");
        }
        println!("The answers that were due and how often each (0: accepted; 999: a panic of the Rust, counted beside document 01's refusal):");
        for what in ["assemble", "open", "encode", "row"] {
            let told = |((of, number), count): (&(&str, u64), &u64)| if *of == what { Some(format!("{number}: {count}")) } else { None };
            let list: Vec<String> = self.checker.answers.iter().filter_map(told).collect();
            println!("  {what}  {}", list.join(", "));
        }
        let Rooms { sources, by_rust, by_paper, counted, above } = self.checker.rooms;
        println!("The room of {sources} source cases, and what told it:");
        println!("  refusals 1 to 6: {}, the Rust: {by_rust}, the papers alone: {by_paper}", sources - by_rust - by_paper);
        println!("  the Rust was asked for the counted length of {counted}; {above} have more words than their counted length");
        let Respellings { names, accepted, unreadable, both } = self.checker.respellings;
        println!("Sources with operands that look like labels and have no dot, which the Rust was asked about respelt: {}", names + unreadable + both);
        println!("  with names alone: {names} ({accepted} accepted), with unreadable ones alone: {unreadable}, with both: {both}");
        let Hexadecimals { sources, accepted, bracketed, unreadable, large } = self.checker.hexadecimals;
        println!("Sources with hexadecimal numbers, which the Rust was asked about in decimal: {sources}");
        println!("  accepted: {accepted} ({bracketed} with one in brackets), refused with 3: {unreadable} ({large} with one of p or more)");
        let Brackets { refusals, in_dst } = self.checker.brackets;
        let others: Vec<String> = (0..25).filter(|number| refusals[*number] > 0).map(|number| format!("{number}: {}", refusals[number])).collect();
        let sources: u64 = refusals.iter().sum();
        println!("Sources with a bracketed operand outside mload and mstore, which the Rust was asked about with psp there: {sources}");
        println!("  refused with 25: {} ({in_dst} with all of them in dst), with what comes first: {}", refusals[25], others.join(", "));
        let due = |number: u64| self.checker.answers.get(&("assemble", number)).copied().unwrap_or(0);
        let share = |number: u64| 100.0 * due(number) as f64 / self.checker.rooms.sources as f64;
        println!("  of all sources {:.2}% are refused with 25, {:.2}% are accepted", share(25), share(0));
        let Metering { sources, builds, accepted, near, exact, stopped } = self.checker.meters.counts;
        let (total, sum) = self.checker.meters.carried();
        println!("The build meter: {builds} builds of {sources} sources, {accepted} accepted; its total {total}, the sum of the Rust's words {sum}");
        println!("  from 2^64 - 1 - k, k from 0 to 3: {near} sources, of which {exact} came to just 2^64 - 1 and {stopped} were stopped there");
        let Sources { written, of_sources, assembled, long, off_row, later, unopened, .. } = self.checker.sources;
        println!("Sources written of bytecodes: {written} ({of_sources} of the bytecode of a source), {assembled} assembled back, {long} too long for that");
        println!("  refused with 26: {off_row} ({later} not at the first instruction), as opening refuses them: {unopened}");
        println!("Calls of the port:");
        for (name, calls) in &port::CALLS {
            println!("  {name}  {}", calls.load(Relaxed));
        }
        println!("{} cases, {} differences", self.cases, self.differences);
    }

    /// Whether something was not asked that was to be compared: a function of the port, the room of a source, a counted length of the Rust, a respelt source
    /// of each sort, one that is accepted, a source with a hexadecimal number of each sort, one with brackets outside mload and mstore of each sort, a source on
    /// the meter, one near its stop of each sort, a source written or refused of each sort.
    fn left_out(&self) -> bool {
        let Rooms { sources, counted, .. } = self.checker.rooms;
        let Respellings { accepted, unreadable, .. } = self.checker.respellings;
        let Metering { sources: built, builds, near, exact, stopped, .. } = self.checker.meters.counts;
        let called = port::CALLS.iter().all(|(_, calls)| calls.load(Relaxed) > 0) && port::room_calls() >= sources;
        let metered = builds > 0 && built >= sources && near > 0 && exact > 0 && stopped > 0;
        let respelt = accepted > 0 && unreadable > 0;
        let Hexadecimals { accepted, bracketed, unreadable, large, .. } = self.checker.hexadecimals;
        let hexadecimal = accepted > 0 && bracketed > 0 && unreadable > 0 && large > 0;
        let Brackets { refusals, in_dst } = self.checker.brackets;
        let bracketed = [3, 5, 6, 8, 9, 10, 11, 25].iter().all(|number| refusals[*number] > 0) && in_dst > 0;
        let written = self.checker.sources.complete(&self.listed);
        counted == 0 || !respelt || !hexadecimal || !bracketed || !written || !self.checker.dry && !(called && metered)
    }
}

fn main() {
    let arguments: Vec<u64> = std::env::args().skip(1).map(|word| word.parse().expect("compare [COUNT] [SEED]")).collect();
    let count = arguments.first().copied().unwrap_or(20_000) as usize;
    let seed = arguments.get(1).copied().unwrap_or(1);
    let set = |name: &str| std::env::var(name).is_ok_and(|value| value == "1");
    oracle::silence();
    let checker = Checker::new(set("DRY"), COUNTED_EVERY, NEAR_EVERY);
    let mut run = Run { checker, trace: set("TRACE"), cases: 0, differences: 0, counts: vec![], listed: Sources::default() };
    run.named();
    if let Ok(path) = std::env::var("MANUAL") {
        run.manual(&path);
    }
    run.lists(count / 5 * 3);
    run.random(count, seed);
    run.report();
    std::process::exit(if run.differences == 0 && !run.left_out() { 0 } else { 1 });
}
