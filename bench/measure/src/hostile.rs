//! Sources that someone chose to be slow: names that fall into one bucket of the port's chains, and prophets on as many hosts as there are prophets.
use crate::random::Random;
use crate::sources::{look_ups, Source};

const SEED: u64 = 20_261_118;
const SIZE: usize = 65_536;

/// The buckets of crates/relocate_chains, and the bucket of a name as it is found there.
const BUCKETS: usize = 1_024;

fn bucket(name: &str) -> usize {
    name.bytes().fold(0, |bucket, byte| (bucket * 31 + byte as usize) % BUCKETS)
}

const LETTERS: &[u8; 52] = b"abcdefghijklmnopqrstuvwxyzABCDEFGHIJKLMNOPQRSTUVWXYZ";

/// Every name of so many letters but main, whose scope is there, and psp, which is no name.
fn names(length: u32) -> impl Iterator<Item = String> {
    let letter = |n: usize| LETTERS[n % LETTERS.len()] as char;
    (0..LETTERS.len().pow(length))
        .map(move |n| (0..length).rev().map(|place| letter(n / LETTERS.len().pow(place))).collect::<String>())
        .filter(|name| name != "main" && name != "psp")
}

/// These labels, and as many jumps as fit, each to the label of the place that is told for it.
fn labels_and_jumps(labels: &[String], mut told: impl FnMut() -> usize) -> String {
    let mut text = "main:\n".to_string();
    for label in labels {
        text.push_str(&format!("{label}:\n"));
    }
    loop {
        let jump = format!("jmp {}\n", labels[told()]);
        if text.len() + jump.len() > SIZE {
            return text;
        }
        text.push_str(&jump);
    }
}

/// Different names of one length in one bucket, which begin alike and have four letters of their own, on half of the bytes. Each jump goes to the first, the
/// last that its look-up comes to.
fn one_bucket(beginning: &str) -> String {
    let count = SIZE / 2 / (beginning.len() + "name:\n".len());
    let labels: Vec<String> = names(4).filter(|name| bucket(name) == 0).take(count).map(|name| format!("{beginning}{name}")).collect();
    assert!(labels.len() == count && labels.iter().all(|label| bucket(label) == bucket(&labels[0])));
    labels_and_jumps(&labels, || 0)
}

/// As many names in each bucket as half of the bytes hold: first one of each bucket, then the next of each. Each jump goes to the first of a bucket, the last
/// that its look-up comes to, and the buckets are drawn.
fn every_bucket() -> String {
    let depth = SIZE / 2 / "abc:\n".len() / BUCKETS;
    let mut buckets: Vec<Vec<String>> = vec![vec![]; BUCKETS];
    for name in names(3) {
        let list = &mut buckets[bucket(&name)];
        if list.len() < depth {
            list.push(name);
        }
    }
    let labels: Vec<String> = (0..depth).flat_map(|n| buckets.iter().map(move |list| list[n].clone())).collect();
    let mut r = Random::new(SEED);
    labels_and_jumps(&labels, || r.below(BUCKETS))
}

/// Jumps to a label on half of the bytes, then rows of the same name that no instruction follows: each look-up goes through all of them.
fn unmapped() -> String {
    let jumps = "jmp b\n".repeat(SIZE / 2 / "jmp b\n".len());
    let text = format!("main:\nb:\n{jumps}");
    let rows = "b:\n".repeat((SIZE - text.len()) / "b:\n".len());
    text + &rows
}

/// 1,200 prophets, so many of them together on a host, all of them listed, and as many instructions.
fn prophets(name: &'static str, together: usize) -> Source {
    let prophets: Vec<String> = (0..1_200).map(|n| format!(".PROPHET{}_{}", n / 40, n % 40)).collect();
    let mut text = "main:\n".to_string();
    for on_one_host in prophets.chunks(together) {
        text.push_str(&"mov r1 7\n".repeat(together));
        for prophet in on_one_host {
            text.push_str(&format!("{prophet}:\n"));
        }
    }
    text.push_str("end\n");
    Source { prophets, ..Source::of(name, text) }
}

/// `b` and `ce` fall into one bucket.
pub const ONE_BUCKET: &str = "64 KB, one bucket";

pub fn assembled() -> Vec<Source> {
    assert_eq!(bucket("b"), bucket("ce"));
    vec![
        Source::of(ONE_BUCKET, look_ups(SIZE, "ce")),
        Source::of("one bucket, one length", one_bucket("")),
        Source::of("long common prefixes", one_bucket("twelve_bytes")),
        Source::of("every bucket alike", every_bucket()),
        Source::of("later unmapped rows", unmapped()),
        prophets("prophets, 40 hosts", 30),
        prophets("prophets, 1,200 hosts", 1),
    ]
}
