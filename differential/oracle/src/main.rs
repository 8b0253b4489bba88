//! Hex lines on standard input, answers on standard output.
use std::io::{BufRead, BufWriter, Write};

fn main() {
    let mut session = oxirush_nas::lines::Session::default();
    let mut out = BufWriter::new(std::io::stdout());
    for line in std::io::stdin().lock().split(b'\n') {
        writeln!(out, "{}", session.line(&line.unwrap())).unwrap();
    }
}
