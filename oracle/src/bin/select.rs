//! select: reads generated networks and queries from standard input, and writes those that the kept list takes.
//!
//! Left out: queries outside demand 2 (an arrival search in which a span reaches its label), queries that stand twice, and most of
//! the dull ones. A count of each goes to standard error.
use oracle::{
    flat::words,
    harness::{Query, Ready, prepare, reaching},
};
use std::io::{BufRead, BufWriter, Write};

/// Of the queries of one network whose journeys have several legs at most this many are kept.
const MOST: usize = 4;
/// Of the networks without such a query one in this many is kept.
const DULL: usize = 6;

#[derive(Default)]
struct Count {
    networks: usize,
    kept_networks: usize,
    queries: usize,
    reaching: usize,
    panicked: usize,
    kept: usize,
    dull: usize,
}

/// The number of legs, or 0 where nothing was found.
fn legs(answer: &str) -> usize {
    answer.strip_prefix("0 ").map_or(0, |s| s.split(' ').nth(3).unwrap().parse().unwrap())
}

fn take(net: &str, queries: &[Query], count: &mut Count, out: &mut impl Write) {
    let w = words(net).expect("a net line");
    count.networks += 1;
    count.queries += queries.len();
    let reach = reaching(&w, queries).expect("a network that the harness takes");
    let ready = Ready::new(&w).unwrap();
    let mut within: Vec<(&Query, usize)> = vec![];
    for (i, (q, reach)) in queries.iter().zip(reach).enumerate() {
        let answer = ready.answer(q);
        count.panicked += (answer == "panic") as usize;
        count.reaching += reach as usize;
        assert!(reach || answer != "panic", "a panic that is none of a span");
        if !reach && !queries[..i].contains(q) {
            within.push((q, legs(&answer)))
        }
    }
    let mut kept: Vec<&Query> = vec![];
    // first journeys of several legs, then one of a single leg, then two not found
    kept.extend(within.iter().filter(|x| x.1 > 1).map(|x| x.0).take(MOST));
    if kept.is_empty() {
        count.dull += 1;
        if count.dull % DULL != 0 {
            return;
        }
    }
    kept.extend(within.iter().find(|x| x.1 == 1).map(|x| x.0));
    kept.extend(within.iter().filter(|x| x.1 == 0).map(|x| x.0).take(2));
    if kept.is_empty() {
        return;
    }
    count.kept_networks += 1;
    count.kept += kept.len();
    writeln!(out, "{net}").unwrap();
    for q in kept {
        writeln!(out, "{}", q.line()).unwrap()
    }
}

fn main() {
    prepare();
    let mut out = BufWriter::new(std::io::stdout());
    let mut count = Count::default();
    let mut net = String::new();
    let mut queries: Vec<Query> = vec![];
    for line in std::io::stdin().lock().lines() {
        let line = line.unwrap();
        if line.starts_with("net ") {
            if !net.is_empty() {
                take(&net, &queries, &mut count, &mut out)
            }
            net = line;
            queries.clear();
        } else {
            queries.push(Query::parse(&line).expect("a query line"))
        }
    }
    if !net.is_empty() {
        take(&net, &queries, &mut count, &mut out)
    }
    eprintln!(
        "{} networks and {} queries read; a span reached its label in {} ({} of them panics); {} networks and {} queries kept",
        count.networks, count.queries, count.reaching, count.panicked, count.kept_networks, count.kept
    );
}
