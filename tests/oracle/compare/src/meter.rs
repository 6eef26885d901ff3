//! The build meter, which the Rust does not have. After each build its total must be the comparer's own sum of the words that the Rust gives for what was
//! accepted, and 2^64 - 1 where that sum is more; all else must be as by `ola_assemble_parts`.
use crate::check::{agreed, same, Outcome, Tried};
use crate::port::{self, Lent, Meter, Room};

/// Where a meter stops.
pub const STOP: u64 = u64::MAX;
/// So far before its stop, at the most, a meter begins.
const BEFORE: u64 = 3;

/// A build that a paper tells: what is lent, the refusal, and the total after it.
#[derive(Debug, Clone)]
pub struct Build {
    pub room: Room,
    pub refusal: u64,
    pub total: u64,
}

/// How many sources were built on the meter that is carried, in how many builds, and how many of these are accepted; how many sources were also built near
/// the stop, with how many of them a total came to 2^64 - 1 exactly, and with how many it was stopped there.
#[derive(Clone, Copy, Default)]
pub struct Metering {
    pub sources: u64,
    pub builds: u64,
    pub accepted: u64,
    pub near: u64,
    pub exact: u64,
    pub stopped: u64,
}

/// The total that a meter tells of a sum.
fn total(sum: u128) -> u64 {
    sum.min(STOP.into()) as u64
}

/// A meter, each time the one that the last build answered, and the sum that it must tell: where it began, and the words of what was accepted since.
struct Carried {
    meter: Meter,
    sum: u128,
}

impl Carried {
    fn opened() -> Carried {
        Carried { meter: port::meter_open(), sum: 0 }
    }

    fn at(total: u64) -> Carried {
        Carried { meter: Meter { total }, sum: total.into() }
    }

    /// A build on it; what is expected of a refused one has no words. After a difference the next begins at the sum, so that each is told once.
    fn build(&mut self, source: &[u8], prophets: &[u8], tried: &Tried) -> Outcome {
        let before = self.meter;
        let mut lent = Lent::new(&tried.room);
        let got = port::meter_build(before, source, prophets, &tried.room, &mut lent);
        self.sum += u128::from(tried.answer.words);
        let after = Meter { total: total(self.sum) };
        let by = format!("meter_build on {before:?}");
        let told = || same(&format!("meter of {by}, {:?}", tried.room), &after, &got.meter);
        let outcome = tried.same(&by, &got.assembly, &lent).and_then(|()| told());
        self.meter = if outcome.is_ok() { got.meter } else { after };
        outcome
    }
}

pub struct Meters {
    /// Of the whole run.
    carried: Carried,
    /// One in so many sources is also built near the stop.
    every: u64,
    pub counts: Metering,
}

impl Meters {
    pub fn new(dry: bool, every: u64) -> Meters {
        Meters { carried: if dry { Carried::at(0) } else { Carried::opened() }, every, counts: Metering::default() }
    }

    /// The total of the meter that is carried, and the sum of the words.
    pub fn carried(&self) -> (u64, u128) {
        (self.carried.meter.total, self.carried.sum)
    }

    /// A source in every room that is tried.
    pub fn source(&mut self, source: &[u8], prophets: &[u8], rooms: &[Tried]) -> Outcome {
        for tried in rooms {
            self.counts.builds += 1;
            self.counts.accepted += u64::from(tried.answer.refusal == 0);
            self.carried.build(source, prophets, tried)?;
        }
        let n = self.counts.sources;
        self.counts.sources += 1;
        // Of the first so many the first, of the next the second and so on, so that it does not always fall on the same places of a list.
        if n % self.every == n / self.every % self.every {
            self.near_stop(source, prophets, rooms)?;
        }
        Ok(())
    }

    /// The same from 2^64 - 1 - k, for each k on a meter of its own, which goes through the rooms.
    fn near_stop(&mut self, source: &[u8], prophets: &[u8], rooms: &[Tried]) -> Outcome {
        let (mut exact, mut stopped) = (false, false);
        for k in 0..=BEFORE {
            let mut near = Carried::at(STOP - k);
            for tried in rooms {
                near.build(source, prophets, tried)?;
                exact |= tried.answer.words > 0 && near.sum == STOP.into();
                stopped |= tried.answer.words > 0 && near.sum > STOP.into();
            }
        }
        self.counts.near += 1;
        self.counts.exact += u64::from(exact);
        self.counts.stopped += u64::from(stopped);
        Ok(())
    }
}

/// Builds that a paper tells, one after another from a total; 0 is that of a meter opened for them.
pub fn named(source: &[u8], prophets: &[u8], from: u64, builds: &[(&Build, Tried)], dry: bool) -> Outcome {
    let mut sum = u128::from(from);
    for (build, tried) in builds {
        sum += u128::from(tried.answer.words);
        agreed("refusal and total", &(build.refusal, build.total), &(tried.answer.refusal, total(sum)))?;
    }
    if dry {
        return Ok(());
    }
    let mut carried = if from == 0 { Carried::opened() } else { Carried::at(from) };
    builds.iter().try_for_each(|(_, tried)| carried.build(source, prophets, tried))
}
