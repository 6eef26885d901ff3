//! A smaller case that still differs: parts of it left out, the longest first, as long as one is found.
use crate::check::{Case, Checker, Expected};
use crate::outcome;

/// How many bytes the smaller cases that are tried may have together.
const TRIED: usize = 4_000_000;

fn texts(case: &Case) -> Vec<Vec<u8>> {
    match case {
        Case::Source { source, prophets } => vec![source.clone(), prophets.clone()],
        Case::Bytecode(text) => vec![text.clone()],
        _ => vec![],
    }
}

fn with(case: &Case, mut texts: Vec<Vec<u8>>) -> Case {
    match case {
        Case::Source { .. } => {
            let prophets = texts.pop().unwrap();
            Case::Source { source: texts.pop().unwrap(), prophets }
        }
        _ => Case::Bytecode(texts.pop().unwrap()),
    }
}

/// What is left of a case when no part of any size can be left out.
pub fn smallest(case: &Case, dry: bool) -> Option<(Case, String)> {
    let mut checker = Checker::new(dry, 1, 1);
    let mut best: Option<(Case, String)> = None;
    let mut current = texts(case);
    let mut tried = 0;
    loop {
        let before = current.clone();
        for which in 0..current.len() {
            let mut size = current[which].len();
            while size > 0 {
                let mut at = 0;
                while at + size <= current[which].len() && tried < TRIED {
                    let mut next = current.clone();
                    next[which].drain(at..at + size);
                    let smaller = with(case, next.clone());
                    tried += next.iter().map(Vec::len).sum::<usize>() + 100;
                    match outcome(&mut checker, &smaller, &Expected::Nothing) {
                        Ok(()) => at += 1.max(size / 4),
                        Err(difference) => {
                            current = next;
                            best = Some((smaller, difference));
                        }
                    }
                }
                size /= 2;
            }
        }
        if current == before || tried >= TRIED {
            return best;
        }
    }
}
