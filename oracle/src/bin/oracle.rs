//! oracle FILE|-: asks the source's search every query of the cases and prints one answer line for each; # lines are passed over.
use oracle::{
    flat::words,
    harness::{Query, Ready, prepare},
};
use std::io::{BufRead, BufReader, BufWriter, Read, Write};

fn main() {
    prepare();
    let name = std::env::args().nth(1).unwrap_or("-".into());
    let input: Box<dyn Read> =
        if name == "-" { Box::new(std::io::stdin()) } else { Box::new(std::fs::File::open(name).unwrap()) };
    let mut out = BufWriter::new(std::io::stdout());
    let mut ready: Result<Ready, String> = Err("no network yet".into());
    for line in BufReader::new(input).lines() {
        let line = line.unwrap();
        if line.starts_with("net ") {
            ready = words(&line).ok_or("not words".into()).and_then(|w| Ready::new(&w));
        } else if line.starts_with("q ") {
            let answer = match (&ready, Query::parse(&line)) {
                (Ok(ready), Some(q)) => ready.answer(&q),
                (Err(e), _) => format!("refused: {e}"),
                (_, None) => "refused: not a query".into(),
            };
            writeln!(out, "{answer}").unwrap();
        }
    }
}
