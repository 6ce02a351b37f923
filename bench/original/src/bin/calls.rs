//! Measures calls of the Rust crate `ipnet`: `original_calls TASK [ARGUMENT..] < NETWORKS`.
//!
//! The tasks, their arguments, the output and the checksum of the answers are the same as in this repository's
//! `ipnet_bench`, so that the two can be compared.

use std::collections::{BTreeMap, HashMap};
use std::error::Error;
use std::fmt::Write;
use std::hint::black_box;
use std::io::{self, BufRead};
use std::mem::size_of;
use std::net::{IpAddr, Ipv4Addr, Ipv6Addr};
use std::process::ExitCode;
use std::str::FromStr;
use std::time::Instant;

use ipnet::{IpAdd, IpNet, IpSub, IpSubnets, Ipv4AddrRange, Ipv4Net, Ipv4Subnets, Ipv6AddrRange, Ipv6Net, Ipv6Subnets};

type Outcome = Result<(), Box<dyn Error>>;

/// The number of measured runs.
const RUNS: usize = 11;

/// Runs the work once without measuring it and then `RUNS` times, and prints the figures.
fn report(task: &str, items: usize, mut work: impl FnMut() -> u64) -> Outcome {
    let check = work();
    let mut times = Vec::new();
    for _ in 0..RUNS {
        let start = Instant::now();
        black_box(work());
        times.push(start.elapsed().as_nanos());
    }
    times.sort_unstable();
    let (least, middle) = (times[0], times[RUNS / 2]);
    println!(r#"{{"task":"{task}","items":{items},"min_ns":{least},"median_ns":{middle},"check":{check}}}"#);
    Ok(())
}

/// The checksum of an address of either family.
fn folded(addr: IpAddr) -> u64 {
    match addr {
        IpAddr::V4(addr) => u32::from(addr).into(),
        IpAddr::V6(addr) => {
            let bits = u128::from(addr);
            (bits ^ (bits >> 64)) as u64
        }
    }
}

/// Adds a value to the checksum (FNV-1a, 64 bits at a time).
fn mixed(before: u64, number: u64) -> u64 {
    (before ^ number).wrapping_mul(0x0000_0100_0000_01b3)
}

/// The pseudorandom numbers of SplitMix64 (Steele, Lea, Flood, 2014).
struct SplitMix(u64);

impl SplitMix {
    fn next(&mut self) -> u64 {
        self.0 = self.0.wrapping_add(0x9e37_79b9_7f4a_7c15);
        let mixed = (self.0 ^ (self.0 >> 30)).wrapping_mul(0xbf58_476d_1ce4_e5b9);
        let mixed = (mixed ^ (mixed >> 27)).wrapping_mul(0x94d0_49bb_1331_11eb);
        mixed ^ (mixed >> 31)
    }
}

/// For each network, an argument for `contains`. About half of them are random networks of the list; the others lie in
/// the network itself.
fn inner_networks(networks: &[IpNet]) -> Result<Vec<IpNet>, Box<dyn Error>> {
    let mut numbers = SplitMix(7);
    let mut inner = Vec::with_capacity(networks.len());
    for network in networks {
        if numbers.next() % 2 == 0 {
            let index = numbers.next() % networks.len() as u64;
            inner.push(networks[index as usize]);
        } else {
            let open = u64::from(network.max_prefix_len() - network.prefix_len());
            let longer = (numbers.next() % (open + 1)) as u8;
            inner.push(IpNet::new(network.broadcast(), network.prefix_len() + longer)?);
        }
    }
    Ok(inner)
}

/// Adds an address to the checksum.
fn with_address(check: u64, addr: impl Into<IpAddr>) -> u64 {
    check.wrapping_add(folded(addr.into())) ^ 1
}

// The `next` of each walk is called in only one place, so that the compiler inlines it into the loop. Called in two
// places, it takes 50% more time.

/// The number of networks of a walk, and their checksum.
#[inline(never)]
fn ipv4_walked(walk: Ipv4Subnets) -> (usize, u64) {
    let (mut items, mut check) = (0, 0_u64);
    for network in walk {
        items += 1;
        check = check.wrapping_add(folded(network.addr().into()) ^ u64::from(network.prefix_len()));
    }
    (items, check)
}

/// The number of networks of an IPv6 walk, and their checksum.
#[inline(never)]
fn ipv6_walked(walk: Ipv6Subnets) -> (usize, u64) {
    let (mut items, mut check) = (0, 0_u64);
    for network in walk {
        items += 1;
        check = check.wrapping_add(folded(network.addr().into()) ^ u64::from(network.prefix_len()));
    }
    (items, check)
}

fn sorted(networks: &[IpNet]) -> u64 {
    let mut sorted = networks.to_vec();
    sorted.sort_unstable();
    sorted.get(sorted.len() / 2).map_or(0, |middle| folded(middle.addr()))
}

fn contained(outer: &[IpNet], inner: &[IpNet]) -> u64 {
    outer.iter().zip(inner).filter(|(outer, inner)| outer.contains(*inner)).count() as u64
}

fn aggregated(networks: &Vec<IpNet>) -> u64 {
    listed(&IpNet::aggregate(networks), 0)
}

fn printed(networks: &[IpNet], text: &mut String) -> u64 {
    text.clear();
    for network in networks {
        write!(text, "{network}").expect("a String takes every text");
    }
    text.len() as u64
}

fn read(texts: &[String]) -> u64 {
    texts.iter().fold(0, |check, text| {
        mixed(check, match text.parse::<IpNet>() {
            Ok(network) => u64::from(network.prefix_len()) ^ folded(network.addr()),
            Err(_) => u64::MAX,
        })
    })
}

/// Parses the two addresses in the arguments.
fn addresses<A: FromStr>(arguments: &[String]) -> Result<(A, A), Box<dyn Error>> {
    match arguments {
        [start, end] => match (start.parse(), end.parse()) {
            (Ok(start), Ok(end)) => Ok((start, end)),
            _ => Err("this task takes two addresses of its family".into()),
        },
        _ => Err("this task takes two addresses of its family".into()),
    }
}

fn range_next_ipv4(task: &str, (start, end): (Ipv4Addr, Ipv4Addr)) -> Outcome {
    let range = || Ipv4AddrRange::new(black_box(start), black_box(end));
    report(task, range().size_hint().0, || range().fold(0, with_address))
}

fn range_next_ipv6(task: &str, (start, end): (Ipv6Addr, Ipv6Addr)) -> Outcome {
    let range = || Ipv6AddrRange::new(black_box(start), black_box(end));
    report(task, range().size_hint().0, || range().fold(0, with_address))
}

fn walk_ipv4(task: &str, (start, end): (Ipv4Addr, Ipv4Addr)) -> Outcome {
    let walk = || Ipv4Subnets::new(black_box(start), black_box(end), 24);
    report(task, ipv4_walked(walk()).0, || ipv4_walked(walk()).1)
}

fn walk_ipv6(task: &str, (start, end): (Ipv6Addr, Ipv6Addr)) -> Outcome {
    let walk = || Ipv6Subnets::new(black_box(start), black_box(end), 56);
    report(task, ipv6_walked(walk()).0, || ipv6_walked(walk()).1)
}

fn ipv4_networks(networks: &[IpNet]) -> Vec<Ipv4Net> {
    networks.iter().filter_map(|network| if let IpNet::V4(network) = network { Some(*network) } else { None }).collect()
}

fn ipv6_networks(networks: &[IpNet]) -> Vec<Ipv6Net> {
    networks.iter().filter_map(|network| if let IpNet::V6(network) = network { Some(*network) } else { None }).collect()
}

/// The checksum of a list of networks.
fn listed(networks: &[IpNet], start: u64) -> u64 {
    networks.iter().fold(start, |check, network| {
        mixed(mixed(check, folded(network.addr())), u64::from(network.prefix_len()))
    })
}

/// Every second network starting with the first, and the others.
fn halves(networks: &[IpNet]) -> (Vec<IpNet>, Vec<IpNet>) {
    let every_second = |from: usize| networks.iter().skip(from).step_by(2).copied().collect();
    (every_second(0), every_second(1))
}

// The crate has no sets. These are the simplest fast programs over its aggregate. They merge two aggregates: a network
// of one and a network of the other are nested or disjoint. Each program produces the maximal blocks without
// aggregating again.

fn union(first: &[IpNet], second: &[IpNet]) -> Vec<IpNet> {
    IpNet::aggregate(&[first, second].concat())
}

fn intersection(first: &Vec<IpNet>, second: &Vec<IpNet>) -> Vec<IpNet> {
    let (first, second) = (IpNet::aggregate(first), IpNet::aggregate(second));
    let (mut found, mut one, mut other) = (Vec::new(), 0, 0);
    while one < first.len() && other < second.len() {
        if first[one].contains(&second[other]) {
            found.push(second[other]);
            other += 1;
        } else if second[other].contains(&first[one]) {
            found.push(first[one]);
            one += 1;
        } else if first[one] < second[other] {
            one += 1;
        } else {
            other += 1;
        }
    }
    found
}

/// The networks between two addresses of one family.
fn between(start: IpAddr, end: IpAddr) -> IpSubnets {
    match (start, end) {
        (IpAddr::V4(start), IpAddr::V4(end)) => IpSubnets::V4(Ipv4Subnets::new(start, end, 0)),
        (IpAddr::V6(start), IpAddr::V6(end)) => IpSubnets::V6(Ipv6Subnets::new(start, end, 0)),
        _ => unreachable!("two addresses of one network"),
    }
}

fn before(addr: IpAddr) -> IpAddr {
    match addr {
        IpAddr::V4(addr) => addr.saturating_sub(1_u32).into(),
        IpAddr::V6(addr) => addr.saturating_sub(1_u128).into(),
    }
}

fn after(addr: IpAddr) -> IpAddr {
    match addr {
        IpAddr::V4(addr) => addr.saturating_add(1_u32).into(),
        IpAddr::V6(addr) => addr.saturating_add(1_u128).into(),
    }
}

/// The rest of the network without the given networks, which lie in it and ascend.
fn without(network: IpNet, inner: &[IpNet], found: &mut Vec<IpNet>) {
    let mut start = network.network();
    for gone in inner {
        if start < gone.network() {
            found.extend(between(start, before(gone.network())));
        }
        if gone.broadcast() == network.broadcast() {
            return;
        }
        start = after(gone.broadcast());
    }
    found.extend(between(start, network.broadcast()));
}

fn difference(first: &Vec<IpNet>, second: &Vec<IpNet>) -> Vec<IpNet> {
    let (first, second) = (IpNet::aggregate(first), IpNet::aggregate(second));
    let (mut found, mut at) = (Vec::new(), 0);
    for network in first {
        while at < second.len() && second[at].broadcast() < network.network() {
            at += 1;
        }
        if at < second.len() && second[at].contains(&network) {
            continue;
        }
        let inner = at;
        while at < second.len() && network.contains(&second[at]) {
            at += 1;
        }
        if inner == at {
            found.push(network);
        } else {
            without(network, &second[inner..at], &mut found);
        }
    }
    found
}

/// Whether a network of the aggregate contains the address.
fn is_member(networks: &[IpNet], address: &IpAddr) -> bool {
    let place = networks.partition_point(|network| network.network() <= *address);
    place > 0 && networks[place - 1].contains(address)
}

/// Whether the access list of the networks permits the address: the first network that contains it decides. Every
/// second one permits, starting with the first, and the others deny; if none contains the address, it is denied.
fn is_permitted(networks: &[IpNet], address: &IpAddr) -> bool {
    networks.iter().position(|network| network.contains(address)).map_or(false, |place| place % 2 == 0)
}

/// The position, counted from 1, of the longest network that contains the address, or 0 if there is none. If this
/// network is repeated, the last position counts. Looks up one prefix length after the other in a map.
fn longest_match(places: &HashMap<IpNet, u64>, address: IpAddr) -> u64 {
    let host = IpNet::from(address);
    (0..=host.prefix_len())
        .rev()
        .filter_map(|prefix_len| IpNet::new(address, prefix_len).ok())
        .find_map(|network| places.get(&network.trunc()).map(|place| place + 1))
        .unwrap_or(0)
}

/// The position as `longest_match` has it, by a search through all networks.
fn linear_match(networks: &[IpNet], address: &IpAddr) -> u64 {
    let holds = networks.iter().zip(1..).filter(|(network, _)| network.contains(address));
    holds.max_by_key(|(network, place)| (network.prefix_len(), *place)).map_or(0, |(_, place)| place)
}

/// The routes to the networks in order, each with its position as value. If networks are equal, only the last is kept.
fn routes(networks: &[IpNet]) -> u64 {
    let places = networks.iter().zip(0..).map(|(network, place)| (network.trunc(), place));
    let table = places.collect::<BTreeMap<IpNet, u64>>();
    table.iter().fold(table.len() as u64, |check, (network, place)| {
        mixed(mixed(mixed(check, folded(network.addr())), u64::from(network.prefix_len())), *place)
    })
}

/// The tasks over the two halves of the networks, or over one half and an address of each network.
fn over_halves(task: &str, networks: &[IpNet]) -> Outcome {
    let (first, second) = halves(networks);
    let combined = |found: Vec<IpNet>| listed(&found, found.len() as u64);
    let addresses = networks.iter().map(IpNet::broadcast).collect::<Vec<IpAddr>>();
    match task {
        "union" => report(task, networks.len(), || combined(union(&first, &second))),
        "intersection" => report(task, networks.len(), || combined(intersection(&first, &second))),
        "difference" => report(task, networks.len(), || combined(difference(&first, &second))),
        "set_contains" => {
            let set = IpNet::aggregate(&first);
            report(task, networks.len(), || addresses.iter().filter(|address| is_member(&set, address)).count() as u64)
        }
        "verdict" => {
            let permitted = |address: &&IpAddr| is_permitted(networks, address);
            report(task, networks.len(), || addresses.iter().filter(permitted).count() as u64)
        }
        "longest_match" => {
            let places = first.iter().zip(0..).map(|(network, place)| (network.trunc(), place)).collect();
            report(task, networks.len(), || {
                addresses.iter().fold(0, |check, address| mixed(check, longest_match(&places, *address)))
            })
        }
        "linear_match" => report(task, networks.len(), || {
            addresses.iter().fold(0, |check, address| mixed(check, linear_match(&first, address)))
        }),
        _ => Err("no such task".into()),
    }
}

/// The tasks over the non-empty lines.
fn over_lines(task: &str) -> Outcome {
    let lines = io::stdin().lock().lines().filter(|line| line.as_ref().map_or(true, |line| !line.is_empty()));
    let texts = lines.collect::<Result<Vec<String>, _>>()?;
    let count = texts.len();
    if task == "read" {
        return report(task, count, || read(&texts));
    }
    let networks = texts.iter().map(|text| text.parse()).collect::<Result<Vec<IpNet>, _>>()?;
    match task {
        "hold" => report(task, count, || (count * size_of::<IpNet>()) as u64),
        "sort" => report(task, count, || sorted(&networks)),
        "contains" => {
            let inner = inner_networks(&networks)?;
            report(task, count, || contained(&networks, &inner))
        }
        "aggregate" => report(task, count, || aggregated(&networks)),
        "aggregate_ipv4" => {
            let networks = ipv4_networks(&networks);
            report(task, networks.len(), || Ipv4Net::aggregate(&networks).len() as u64)
        }
        "aggregate_ipv6" => {
            let networks = ipv6_networks(&networks);
            report(task, networks.len(), || Ipv6Net::aggregate(&networks).len() as u64)
        }
        "print" => {
            let mut text = String::new();
            report(task, count, || printed(&networks, &mut text))
        }
        "routes" => report(task, count, || routes(&networks)),
        _ => over_halves(task, &networks),
    }
}

fn run(task: &str, arguments: &[String]) -> Outcome {
    match task {
        "range_next_ipv4" => range_next_ipv4(task, addresses(arguments)?),
        "range_next_ipv6" => range_next_ipv6(task, addresses(arguments)?),
        "walk_ipv4" => walk_ipv4(task, addresses(arguments)?),
        "walk_ipv6" => walk_ipv6(task, addresses(arguments)?),
        _ => over_lines(task),
    }
}

fn main() -> ExitCode {
    let arguments = std::env::args().skip(1).collect::<Vec<String>>();
    let Some((task, rest)) = arguments.split_first() else {
        println!("usage: original_calls TASK [ARGUMENT..] < NETWORKS");
        return ExitCode::SUCCESS;
    };
    match run(task, rest) {
        Ok(()) => ExitCode::SUCCESS,
        Err(error) => {
            eprintln!("original_calls: {error}");
            ExitCode::FAILURE
        }
    }
}
