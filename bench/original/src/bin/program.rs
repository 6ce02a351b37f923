//! The text program over the Rust crate `ipnet`. It reads networks from standard input, one per line, and prints the
//! shortest list with the same addresses.
//!
//! It has the statuses and messages of this repository's program, and also prints nothing before the end of the input.
//! Two things differ: it uses the crate's grammar, which allows leading zeros, and it aborts if memory runs out.

use std::fmt;
use std::io::{self, BufRead, BufReader, BufWriter, Write};
use std::process::ExitCode;

use ipnet::IpNet;

/// The number of bytes of a read and of a write.
const PIECE: usize = 65536;

/// The reasons why there is no result, or only a part of it.
enum Failure {
    Arguments,
    Unreadable,
    NotUtf8,
    Line(usize),
    Unwritable,
}

impl Failure {
    fn status(&self) -> u8 {
        match self {
            Failure::Line(_) => 1,
            Failure::Arguments => 2,
            Failure::Unreadable | Failure::NotUtf8 | Failure::Unwritable => 3,
        }
    }
}

impl fmt::Display for Failure {
    fn fmt(&self, f: &mut fmt::Formatter<'_>) -> fmt::Result {
        match self {
            Failure::Arguments => write!(f, "ipnet: takes no argument"),
            Failure::Unreadable => write!(f, "ipnet: input cannot be read"),
            Failure::NotUtf8 => write!(f, "ipnet: input is not UTF-8"),
            Failure::Line(number) => write!(f, "line {number}: invalid IP address syntax"),
            Failure::Unwritable => write!(f, "ipnet: output cannot be written"),
        }
    }
}

/// Reads the networks of the lines. A bad line is reported only after the end of the input, because a failed read and
/// invalid UTF-8 take precedence.
fn read_networks(mut input: impl BufRead) -> Result<Vec<IpNet>, Failure> {
    let mut networks = Vec::new();
    let mut line = String::new();
    let mut bad_line = None;
    for number in 1.. {
        line.clear();
        match input.read_line(&mut line) {
            Ok(0) => break,
            Ok(_) => {}
            Err(error) if error.kind() == io::ErrorKind::InvalidData => return Err(Failure::NotUtf8),
            Err(_) => return Err(Failure::Unreadable),
        }
        let text = line.strip_suffix('\n').unwrap_or(&line);
        if text.is_empty() || bad_line.is_some() {
            continue;
        }
        match text.parse() {
            Ok(network) => networks.push(network),
            Err(_) => bad_line = Some(number),
        }
    }
    match bad_line {
        Some(number) => Err(Failure::Line(number)),
        None => Ok(networks),
    }
}

/// Prints the networks, one per line.
fn write_networks(networks: &[IpNet], out: impl Write) -> io::Result<()> {
    let mut out = BufWriter::with_capacity(PIECE, out);
    for network in networks {
        writeln!(out, "{network}")?;
    }
    out.flush()
}

fn run() -> Result<(), Failure> {
    if std::env::args_os().len() > 1 {
        return Err(Failure::Arguments);
    }
    let networks = read_networks(BufReader::with_capacity(PIECE, io::stdin().lock()))?;
    write_networks(&IpNet::aggregate(&networks), io::stdout().lock()).map_err(|_| Failure::Unwritable)
}

fn main() -> ExitCode {
    match run() {
        Ok(()) => ExitCode::SUCCESS,
        Err(failure) => {
            // If this also cannot be written, only the status reports the error.
            let _ = writeln!(io::stderr(), "{failure}");
            ExitCode::from(failure.status())
        }
    }
}
