// One writing of the source as networks that can be asked. This text is included once for each writing, under the name `writing`: each is
// a crate of its own, with types of its own.
use super::{Asked, PANIC};
use std::panic::{AssertUnwindSafe, catch_unwind};
use writing::harness::{self, Found, Query, Ready, stop_number};
use writing::raptor::{Allocator, Error, LegType};

/// A network and, once it is asked with `reuse`, the allocator that is reused.
struct Loaded {
    ready: Ready,
    allocator: Option<Allocator>,
}

/// The eight words of a query, as in the C face; a writing has one mode, so the last is not read.
fn query(w: &[u32]) -> Query {
    let kind = |k: u32| if k == 1 { 'a' } else { 's' };
    Query { from: (kind(w[0]), w[1]), to: (kind(w[2]), w[3]), arrival: w[4] == 1, moment: w[5], walks: w[6] != 2 }
}

fn bytes(found: &Found) -> Vec<u8> {
    let mut out = vec![];
    for leg in &found.legs {
        let (from, to) = (stop_number(&leg.from), stop_number(&leg.to));
        let (departure, arrival) = (leg.departue_time.as_seconds(), leg.arrival_time.as_seconds());
        let mut put = |kind: u8, fields: &[u32]| {
            out.push(kind);
            fields.iter().for_each(|x| out.extend(x.to_le_bytes()));
        };
        match leg.leg_type {
            LegType::Transit(trip) => put(1, &[from, to, trip, departure, arrival]),
            LegType::Transfer => put(2, &[from, to, departure, arrival]),
            LegType::Walk => put(3, &[from, to, departure, arrival]),
        }
    }
    out
}

pub fn load(words: &[u32]) -> Result<Box<dyn Asked>, String> {
    Ok(Box::new(Loaded { ready: Ready::new(words)?, allocator: None }))
}

impl Asked for Loaded {
    fn solve(&mut self, words: &[u32], reuse: bool, journey: &mut [u8], answer: &mut [u32]) {
        let q = query(words);
        let found = catch_unwind(AssertUnwindSafe(|| {
            if reuse {
                let allocator = self.allocator.get_or_insert_with(|| self.ready.allocator());
                allocator.reset();
                self.ready.search(&q, allocator)
            } else {
                self.ready.search(&q, &mut self.ready.allocator())
            }
        }));
        answer.fill(0);
        answer[0] = match &found {
            Err(_) => PANIC,
            Ok(Err(Error::InvalidAreaID | Error::InvalidStopID)) => 7,
            Ok(Err(Error::NoRouteFound)) => 10,
            Ok(Err(Error::FailedToBuildRoute)) => 11,
            Ok(Ok(found)) => {
                let legs = bytes(found);
                journey[..legs.len()].copy_from_slice(&legs);
                answer[1..].copy_from_slice(&[found.time, found.stop, found.round, legs.len() as u32]);
                0
            }
        };
        if answer[0] == PANIC {
            self.allocator = None; // the panic may have left parts of it behind
        }
    }
}

/// For each of the queries, eight words each, whether in an arrival search a span reaches its label.
pub fn reaching(words: &[u32], queries: &[u32]) -> Vec<bool> {
    let queries: Vec<Query> = queries.chunks(8).map(query).collect();
    harness::reaching(words, &queries).expect("a network that the Rust takes")
}
