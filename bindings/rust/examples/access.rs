//! An access control: prints for each address or network on standard input whether a list allows it. The list has
//! networks, addresses, ranges and comments.
//!
//! ```sh
//! cargo run --example access allowed.txt < questions.txt
//! ```
//!
//! The list is compiled once, to a set; a question takes a few memory accesses. The status is 0, or 3 if the list cannot
//! be read or has a bad line.
use ipnet_proved::{Error, IpSet, Network};
use std::io::{self, BufRead, Write};
use std::net::IpAddr;
use std::process::ExitCode;

/// An address or a network.
fn parsed(line: &str) -> Result<Network, Error> {
    line.parse::<IpAddr>().map(Network::from).or_else(|_| line.parse())
}

fn answer_all(path: &str) -> Result<(), Box<dyn std::error::Error>> {
    let allowed = IpSet::from_list(std::fs::read(path)?)?;
    let mut out = io::stdout().lock();
    for line in io::stdin().lock().lines() {
        let line = line?;
        let answer = match parsed(&line) {
            Ok(network) if allowed.covers(network) => "allowed",
            Ok(_) => "refused",
            Err(_) => "not a network",
        };
        writeln!(out, "{line}: {answer}")?;
    }
    Ok(())
}

fn main() -> ExitCode {
    let path = std::env::args().nth(1).unwrap_or_default();
    match answer_all(&path) {
        Ok(()) => ExitCode::SUCCESS,
        Err(error) => {
            eprintln!("access: {error}");
            ExitCode::from(3)
        }
    }
}
