//! Aggregates lists, text to text, by the proved library and by the crate `ipnet`, and prints the least time of each.
use std::fmt::Write;
use std::time::{Duration, Instant};
use std::{env, error, fs};

const ROUNDS: usize = 7;

/// The aggregate by the crate `ipnet`, of a text without bad lines.
fn original(text: &str) -> Result<String, Box<dyn error::Error>> {
    let lines = text.lines().filter(|line| !line.is_empty());
    let networks = lines.map(str::parse).collect::<Result<Vec<ipnet::IpNet>, _>>()?;
    let mut answer = String::new();
    for network in ipnet::IpNet::aggregate(&networks) {
        writeln!(answer, "{network}")?;
    }
    Ok(answer)
}

fn timed<T>(least: &mut Duration, work: impl FnOnce() -> T) -> T {
    let start = Instant::now();
    let result = work();
    *least = start.elapsed().min(*least);
    result
}

fn main() -> Result<(), Box<dyn error::Error>> {
    for path in env::args().skip(1) {
        let text = fs::read_to_string(&path)?;
        let (mut proved, mut other) = (Duration::MAX, Duration::MAX);
        for _ in 0..ROUNDS {
            let answer = timed(&mut proved, || ipnet_proved::aggregate_text(&text))?;
            let wanted = timed(&mut other, || original(&text))?;
            if answer != wanted {
                return Err(format!("{path}: the answers differ").into());
            }
        }
        let ratio = proved.as_secs_f64() / other.as_secs_f64();
        println!("{path}: proved {proved:.1?}, ipnet {other:.1?}, ratio {ratio:.2}");
    }
    Ok(())
}
