//! The rows of `bindings/rows.txt`.
use ipnet_proved::{
    aggregate_text, aggregate_text_legacy, difference_text, intersection_text, is_covered_text,
    same_addresses_text, union_text, Error, IpSet, Network, RouteTable, Rows,
};
use std::net::{Ipv4Addr, Ipv6Addr};
use std::fs;

/// The expected result of a row, or the actual result of a call.
#[derive(Debug, PartialEq)]
enum Answer {
    Text(String),
    Network(Network),
    Yes(bool),
}

struct Row {
    function: String,
    first: Vec<u8>,
    second: Vec<u8>,
    status: String,
    answer: String,
}

/// The bytes of a quoted field, and the rest of the line.
fn unquoted(field: &str) -> (Vec<u8>, &str) {
    let mut bytes = Vec::new();
    let mut rest = field.strip_prefix('"').expect("a quote");
    loop {
        let (byte, len) = match rest.as_bytes() {
            [b'"', ..] => return (bytes, &rest[1..]),
            [b'\\', b'n', ..] => (b'\n', 2),
            [b'\\', b'r', ..] => (b'\r', 2),
            [b'\\', b'x', ..] => (u8::from_str_radix(&rest[2..4], 16).unwrap(), 4),
            [byte, ..] => (*byte, 1),
            [] => panic!("a quote is missing: {field}"),
        };
        bytes.push(byte);
        rest = &rest[len..];
    }
}

fn row(line: &str) -> Row {
    let (function, rest) = line.split_once(" | ").unwrap();
    let (first, rest) = unquoted(rest);
    let (second, rest) = unquoted(rest.strip_prefix(" | ").unwrap());
    let (status, answer) = rest.strip_prefix(" | ").unwrap().split_once(" |").unwrap();
    Row {
        function: function.to_owned(),
        first,
        second,
        status: status.to_owned(),
        answer: answer.trim_start().to_owned(),
    }
}

/// The network with this byte form; an error if the bytes are not a network.
fn network(bytes: &[u8]) -> Result<Network, Error> {
    match bytes {
        [0, a, b, c, d, len] => Network::new(Ipv4Addr::new(*a, *b, *c, *d).into(), *len),
        [1, octets @ .., len] => {
            let octets = <[u8; 16]>::try_from(octets).map_err(|_| Error::NotANetwork)?;
            Network::new(Ipv6Addr::from(octets).into(), *len)
        }
        _ => Err(Error::NotANetwork),
    }
}

fn wanted(row: &Row) -> Result<Answer, Error> {
    let number = || row.answer.parse::<usize>().unwrap();
    match row.status.as_str() {
        "OK" => match row.function.as_str() {
            "same_addresses" | "is_covered" => Ok(Answer::Yes(number() == 1)),
            "parse" | "parse_legacy" => network(&unquoted(&row.answer).0).map(Answer::Network),
            _ => Ok(Answer::Text(String::from_utf8(unquoted(&row.answer).0).unwrap())),
        },
        "BAD_LINE" => Err(Error::BadLine(number())),
        "BAD_LINE_IN_OTHER" => Err(Error::BadLineInOther(number())),
        "PREFIX_TOO_LONG" => Err(Error::PrefixTooLong),
        _ => Err(Error::NotANetwork),
    }
}

/// The result of the call; `None` if one of its texts is not UTF-8.
fn given(row: &Row) -> Option<Result<Answer, Error>> {
    let first = std::str::from_utf8(&row.first);
    let second = std::str::from_utf8(&row.second);
    Some(match row.function.as_str() {
        "aggregate_text" => aggregate_text(first.ok()?).map(Answer::Text),
        "aggregate_text_legacy" => aggregate_text_legacy(first.ok()?).map(Answer::Text),
        "union_text" => union_text(first.ok()?, second.ok()?).map(Answer::Text),
        "intersection_text" => intersection_text(first.ok()?, second.ok()?).map(Answer::Text),
        "difference_text" => difference_text(first.ok()?, second.ok()?).map(Answer::Text),
        "same_addresses" => same_addresses_text(first.ok()?, second.ok()?).map(Answer::Yes),
        "is_covered" => {
            network(&row.second).and_then(|n| is_covered_text(first.unwrap_or(""), n)).map(Answer::Yes)
        }
        "parse" => first.ok()?.parse().map(Answer::Network),
        "parse_legacy" => Network::parse_legacy(first.ok()?).map(Answer::Network),
        "print" => network(&row.first).map(|n| Answer::Text(n.to_string())),
        other => panic!("no function {other}"),
    })
}

#[test]
fn rows() {
    let path = concat!(env!("CARGO_MANIFEST_DIR"), "/../rows.txt");
    let mut tried = 0;
    for line in fs::read_to_string(path).unwrap().lines() {
        if line.is_empty() || line.starts_with('#') {
            continue;
        }
        let row = row(line);
        // A `&str` is always UTF-8.
        if row.status != "NOT_UTF8" && row.status != "OTHER_NOT_UTF8" {
            if let Some(given) = given(&row) {
                tried += 1;
                assert_eq!(given, wanted(&row), "{line}");
            }
        }
    }
    assert!(tried > 70, "{tried} rows");
}

#[test]
fn lists_of_networks() {
    let parsed = |texts: &[&str]| texts.iter().map(|t| t.parse().unwrap()).collect::<Vec<Network>>();
    let halves = parsed(&["10.0.0.128/25", "fd00::/32", "10.0.0.9/25"]);
    let whole = parsed(&["10.0.0.0/24", "fd00::/32"]);
    assert_eq!(ipnet_proved::aggregate(&halves), Ok(whole.clone()));
    assert_eq!(ipnet_proved::aggregate(&[]), Ok(vec![]));
    let ipv4 = parsed(&["10.0.0.0/24"]);
    let ipv6 = parsed(&["fd00::/32"]);
    assert_eq!(ipnet_proved::union(&ipv6, &ipv4), Ok(whole.clone()));
    assert_eq!(ipnet_proved::intersection(&halves, &ipv4), Ok(ipv4.clone()));
    assert_eq!(ipnet_proved::difference(&halves, &ipv4), Ok(ipv6));
    assert_eq!(ipnet_proved::same_addresses(&halves, &whole), Ok(true));
    assert_eq!(ipnet_proved::same_addresses(&halves, &whole[..1]), Ok(false));
    assert_eq!(ipnet_proved::is_covered(&halves, whole[0]), Ok(true));
    assert_eq!(ipnet_proved::is_covered(&halves, Ipv4Addr::new(10, 0, 1, 0)), Ok(false));
}

#[test]
fn an_answer_longer_than_its_texts() {
    let rest = difference_text("0.0.0.0/0\n", "255.255.255.255/32\n").unwrap();
    let wanted: String = (0..32).map(|i| format!("{}/{}\n", wanted_block(i), i + 1)).collect();
    assert_eq!(rest, wanted);
}

/// The address of the expected network of length i + 1: i ones, then zeros.
fn wanted_block(i: u32) -> Ipv4Addr {
    Ipv4Addr::from(!(u64::from(u32::MAX) >> i) as u32)
}

#[test]
fn threads() {
    let list: String = (0..1000).map(|i| format!("10.{}.{}.0/24\n", i / 256, i % 256)).collect();
    let alone = aggregate_text(&list).unwrap();
    std::thread::scope(|scope| {
        for _ in 0..4 {
            scope.spawn(|| assert_eq!(aggregate_text(&list).as_ref(), Ok(&alone)));
        }
    });
}

/// Compiles only if other threads may own and share values of the type.
fn is_for_threads<T: Send + Sync>() {}

#[test]
fn types_for_threads() {
    is_for_threads::<(Network, IpSet, RouteTable, Rows, Error)>();
}

#[test]
fn errors_in_words() {
    assert_eq!(Error::BadLine(3).to_string(), "line 3: invalid IP address syntax");
    assert_eq!(Network::new(Ipv4Addr::LOCALHOST.into(), 33), Err(Error::PrefixTooLong));
    assert_eq!(format!("{:>12}|", "10.0.0.0/8".parse::<Network>().unwrap()), "  10.0.0.0/8|");
}
