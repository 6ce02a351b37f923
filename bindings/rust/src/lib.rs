//! Aggregates, combines and compares lists of IP networks, with a library whose results are proved correct.
//!
//! This crate calls the static library `libipnet.a`, which is written in Rattle (Rust with contracts). Each function of
//! the library is proved to satisfy its contract. `docs/PROVED.md` in the repository says what is proved and what
//! is trusted; this crate is trusted. It passes texts and buffers to the library, and returns its results and errors.
//! Nothing here panics. The library frees all its memory before a call returns. Slices of [`Network`] and of routes are
//! written as text first.
//!
//! ```
//! use ipnet_proved::{aggregate_text, is_covered_text, Error};
//! use std::net::Ipv4Addr;
//!
//! fn main() -> Result<(), Error> {
//!     let list = aggregate_text("10.0.1.0/24\n10.0.0.0/24\n")?;
//!     assert_eq!(list, "10.0.0.0/23\n");
//!     assert!(is_covered_text(&list, Ipv4Addr::new(10, 0, 1, 7))?);
//!     assert_eq!(aggregate_text("10.0.0.0/24\n\nx\n"), Err(Error::BadLine(3)));
//!     Ok(())
//! }
//! ```

#![deny(missing_docs)]

mod column;
mod origin;
mod picture;
mod raw;
mod rows;
mod set;
mod table;

pub use column::Rows;
pub use origin::{OriginTable, Payload, Validity};
pub use picture::{BarOptions, MapOptions, RowWidth, Shown, Theme};
pub use raw::Offset;
pub use set::IpSet;
pub use table::RouteTable;

use std::fmt;
use std::net::{IpAddr, Ipv4Addr, Ipv6Addr};
use std::str::FromStr;

/// The reasons why a call fails.
///
/// `BadLine` has the number of one line. To find all bad lines of a text, read each line by itself:
///
/// ```
/// use ipnet_proved::IpSet;
///
/// let text = "10.0.0.0/8\nx\n# ours\n10.0.0.0/33\n";
/// let bad = (1..).zip(text.lines()).filter(|(_, line)| IpSet::from_list(line).is_err());
/// assert_eq!(bad.collect::<Vec<(usize, &str)>>(), [(2, "x"), (4, "10.0.0.0/33")]);
/// ```
#[derive(Clone, Copy, Debug, PartialEq, Eq, Hash)]
#[non_exhaustive]
pub enum Error {
    /// The number of the first line that the call refuses. Lines count from 1, including empty ones.
    BadLine(usize),
    /// The number of the first bad line of the second text. The first text has no bad line.
    BadLineInOther(usize),
    /// The text is not a network.
    NotANetwork,
    /// The prefix length is above 32 (IPv4) or 128 (IPv6).
    PrefixTooLong,
    /// The bytes are not the image of a set.
    NotASet,
    /// The bytes are not the image of a table.
    NotATable,
    /// The text does not end with a line end, there is no offset, or there are not as many numbers as networks.
    WrongLength,
    /// An offset is less than the offset before it, or greater than the length of the text.
    BadOffsets,
    /// The index of the first payload that is not valid: its greatest length is less than the prefix length of its
    /// network, or above 32 (IPv4) or 128 (IPv6).
    BadRow(usize),
    /// The bytes are not the image of a table of payloads.
    NotOrigins,
    /// No network is named, and there is no address around which to draw one.
    NoAddress,
    /// The set has no room for the networks of a plan.
    NoPlace,
    /// `malloc` or `realloc` failed.
    OutOfMemory,
}

impl fmt::Display for Error {
    fn fmt(&self, f: &mut fmt::Formatter<'_>) -> fmt::Result {
        match self {
            Error::BadLine(number) => write!(f, "line {number}: invalid IP address syntax"),
            Error::BadLineInOther(number) => {
                write!(f, "line {number} of the other text: invalid IP address syntax")
            }
            Error::NotANetwork => f.write_str("invalid IP address syntax"),
            Error::PrefixTooLong => f.write_str("invalid IP prefix length"),
            Error::NotASet => f.write_str("not the image of a set"),
            Error::NotATable => f.write_str("not the image of a table"),
            Error::WrongLength => f.write_str("wrong length"),
            Error::BadOffsets => f.write_str("the offsets are not ascending places in the text"),
            Error::BadRow(index) => write!(f, "payload {index}: invalid greatest prefix length"),
            Error::NotOrigins => f.write_str("not the image of a table of payloads"),
            Error::NoAddress => f.write_str("no address to draw"),
            Error::NoPlace => f.write_str("no room for these networks"),
            Error::OutOfMemory => f.write_str("out of memory"),
        }
    }
}

impl std::error::Error for Error {}

/// An IP network: an address, including its host bits, and a prefix length of at most 32 (IPv4) or 128 (IPv6).
///
/// ```
/// use ipnet_proved::{Error, Network};
///
/// let network: Network = "fd00::9/32".parse()?;
/// assert_eq!(network.address(), "fd00::9".parse::<std::net::IpAddr>().unwrap());
/// assert_eq!(network.prefix_len(), 32);
/// assert_eq!("10.0.0.0/33".parse::<Network>(), Err(Error::NotANetwork));
/// # Ok::<(), Error>(())
/// ```
#[derive(Clone, Copy, Debug, PartialEq, Eq, PartialOrd, Ord, Hash)]
pub struct Network {
    address: IpAddr,
    prefix_len: u8,
}

impl Network {
    /// The network with this address, including its host bits, and this prefix length. Fails with
    /// [`Error::PrefixTooLong`] if the length is above 32 (IPv4) or 128 (IPv6).
    pub fn new(address: IpAddr, prefix_len: u8) -> Result<Network, Error> {
        let width = if address.is_ipv4() { 32 } else { 128 };
        if prefix_len > width {
            return Err(Error::PrefixTooLong);
        }
        Ok(Network { address, prefix_len })
    }

    /// Parses a network in the legacy grammar. It allows leading zeros, as in `010.0.0.1/08`, and reads such numbers as
    /// decimal. [`FromStr`] parses the strict grammar.
    pub fn parse_legacy(text: &str) -> Result<Network, Error> {
        raw::parse(text, raw::ipnet_parse_legacy).and_then(|bytes| Network::from_bytes(bytes.as_slice()))
    }

    /// The address, with its host bits.
    pub fn address(&self) -> IpAddr {
        self.address
    }

    /// The prefix length.
    pub fn prefix_len(&self) -> u8 {
        self.prefix_len
    }

    pub(crate) fn to_bytes(self) -> raw::Bytes {
        let mut bytes = raw::Bytes::default();
        match self.address {
            IpAddr::V4(address) => {
                bytes.push(0);
                bytes.extend(&address.octets());
            }
            IpAddr::V6(address) => {
                bytes.push(1);
                bytes.extend(&address.octets());
            }
        }
        bytes.push(self.prefix_len);
        bytes
    }

    pub(crate) fn from_bytes(bytes: &[u8]) -> Result<Network, Error> {
        match bytes {
            [0, a, b, c, d, prefix_len] => Network::new(Ipv4Addr::new(*a, *b, *c, *d).into(), *prefix_len),
            [1, octets @ .., prefix_len] => match <[u8; 16]>::try_from(octets) {
                Ok(octets) => Network::new(Ipv6Addr::from(octets).into(), *prefix_len),
                Err(_) => Err(Error::NotANetwork),
            },
            _ => Err(Error::NotANetwork),
        }
    }
}

/// The network that contains only this address.
impl From<IpAddr> for Network {
    fn from(address: IpAddr) -> Network {
        let prefix_len = if address.is_ipv4() { 32 } else { 128 };
        Network { address, prefix_len }
    }
}

impl From<Ipv4Addr> for Network {
    fn from(address: Ipv4Addr) -> Network {
        IpAddr::from(address).into()
    }
}

impl From<Ipv6Addr> for Network {
    fn from(address: Ipv6Addr) -> Network {
        IpAddr::from(address).into()
    }
}

/// Like [`Network::new`], for an address and a prefix length.
///
/// ```
/// use ipnet_proved::{Error, Network};
/// use std::net::{Ipv4Addr, Ipv6Addr};
///
/// assert_eq!(Network::try_from((Ipv4Addr::new(10, 0, 0, 0), 8))?.to_string(), "10.0.0.0/8");
/// assert_eq!(Network::try_from((Ipv6Addr::LOCALHOST, 129)), Err(Error::PrefixTooLong));
/// # Ok::<(), Error>(())
/// ```
impl<A: Into<IpAddr>> TryFrom<(A, u8)> for Network {
    type Error = Error;

    fn try_from((address, prefix_len): (A, u8)) -> Result<Network, Error> {
        Network::new(address.into(), prefix_len)
    }
}

/// The address, with its host bits, and the prefix length.
///
/// ```
/// use ipnet_proved::{Error, Network};
/// use std::net::{IpAddr, Ipv4Addr};
///
/// let pair: (IpAddr, u8) = "10.0.0.7/24".parse::<Network>()?.into();
/// assert_eq!(pair, (IpAddr::from(Ipv4Addr::new(10, 0, 0, 7)), 24));
/// # Ok::<(), Error>(())
/// ```
impl From<Network> for (IpAddr, u8) {
    fn from(network: Network) -> (IpAddr, u8) {
        (network.address, network.prefix_len)
    }
}

/// Parses the strict grammar: an address, "/" and a prefix length, without leading zeros in decimal numbers.
impl FromStr for Network {
    type Err = Error;

    fn from_str(text: &str) -> Result<Network, Error> {
        raw::parse(text, raw::ipnet_parse).and_then(|bytes| Network::from_bytes(bytes.as_slice()))
    }
}

/// Prints the canonical text: the address (IPv6 as in RFC 5952), "/", and the prefix length.
impl fmt::Display for Network {
    fn fmt(&self, f: &mut fmt::Formatter<'_>) -> fmt::Result {
        raw::print(self.to_bytes().as_slice(), |text| f.pad(text))
    }
}

/// Aggregates a list: returns the shortest list of networks with exactly the same addresses.
///
/// The text has one network per line, in the strict grammar; empty lines are skipped. The networks of the result have
/// no host bits and no repeats, and are in ascending order, IPv4 first. Each ends with `\n`.
///
/// ```
/// use ipnet_proved::{aggregate_text, Error};
///
/// assert_eq!(aggregate_text("fd00::/32\n10.0.0.128/25\n10.0.0.7/25\n")?, "10.0.0.0/24\nfd00::/32\n");
/// # Ok::<(), Error>(())
/// ```
pub fn aggregate_text(text: &str) -> Result<String, Error> {
    raw::text_from(text.as_bytes(), raw::ipnet_aggregate_text)
}

/// Like [`aggregate_text`], for a text in the legacy grammar. The result is in the strict grammar.
///
/// ```
/// use ipnet_proved::{aggregate_text_legacy, Error};
///
/// assert_eq!(aggregate_text_legacy("10.0.0.0/24\n10.0.01.0/24\n")?, "10.0.0.0/23\n");
/// # Ok::<(), Error>(())
/// ```
pub fn aggregate_text_legacy(text: &str) -> Result<String, Error> {
    raw::text_from(text.as_bytes(), raw::ipnet_aggregate_text_legacy)
}

/// The union of two lists, in the strict grammar: the shortest list of networks with exactly the addresses that are in
/// either list or in both. The result has the form of the result of [`aggregate_text`].
///
/// ```
/// use ipnet_proved::{union_text, Error};
///
/// assert_eq!(union_text("10.0.0.0/25\n", "10.0.0.128/25\n")?, "10.0.0.0/24\n");
/// assert_eq!(union_text("", "x"), Err(Error::BadLineInOther(1)));
/// # Ok::<(), Error>(())
/// ```
pub fn union_text(text: &str, other: &str) -> Result<String, Error> {
    raw::combine_texts(text, other, raw::ipnet_union_text)
}

/// Like [`union_text`], for the intersection: exactly the addresses that are in both lists.
///
/// ```
/// use ipnet_proved::{intersection_text, Error};
///
/// assert_eq!(intersection_text("10.0.0.0/24\n", "10.0.0.128/25\n10.0.1.0/24\n")?, "10.0.0.128/25\n");
/// # Ok::<(), Error>(())
/// ```
pub fn intersection_text(text: &str, other: &str) -> Result<String, Error> {
    raw::combine_texts(text, other, raw::ipnet_intersection_text)
}

/// Like [`union_text`], for the difference: exactly the addresses that are in `text` and not in `other`. The result can
/// have many more networks than the two lists.
///
/// ```
/// use ipnet_proved::{difference_text, Error};
///
/// assert_eq!(difference_text("10.0.0.0/24\n", "10.0.0.0/26\n")?, "10.0.0.64/26\n10.0.0.128/25\n");
/// # Ok::<(), Error>(())
/// ```
pub fn difference_text(text: &str, other: &str) -> Result<String, Error> {
    raw::combine_texts(text, other, raw::ipnet_difference_text)
}

/// Whether the two lists, in the strict grammar, cover the same addresses.
///
/// ```
/// use ipnet_proved::{same_addresses_text, Error};
///
/// assert!(same_addresses_text("10.0.0.0/25\n10.0.0.128/25\n", "10.0.0.7/24\n")?);
/// assert_eq!(same_addresses_text("", "x"), Err(Error::BadLineInOther(1)));
/// # Ok::<(), Error>(())
/// ```
pub fn same_addresses_text(text: &str, other: &str) -> Result<bool, Error> {
    raw::same_addresses(text, other)
}

/// Whether the list, in the strict grammar, covers every address of the network. Several networks of the list may cover
/// it together. `network` can also be a single address.
///
/// ```
/// use ipnet_proved::{is_covered_text, Error, Network};
/// use std::net::Ipv4Addr;
///
/// let list = "10.0.0.0/25\n10.0.0.128/25\n";
/// assert!(is_covered_text(list, "10.0.0.0/24".parse::<Network>()?)?);
/// assert!(!is_covered_text(list, Ipv4Addr::new(10, 0, 1, 0))?);
/// # Ok::<(), Error>(())
/// ```
pub fn is_covered_text(text: &str, network: impl Into<Network>) -> Result<bool, Error> {
    raw::is_covered(text, network.into().to_bytes().as_slice())
}

/// The version of the library as one number: a million for each major version, a thousand for each minor version, and
/// one for each patch.
///
/// ```
/// assert_eq!(ipnet_proved::version() / 1_000_000, 1);
/// ```
pub fn version() -> u32 {
    raw::version()
}

/// The text of the networks, one per line.
fn lines(networks: &[Network]) -> String {
    networks.iter().map(|network| format!("{network}\n")).collect()
}

/// Parses the networks of a result.
fn parsed(text: &str) -> Result<Vec<Network>, Error> {
    text.lines().map(str::parse).collect()
}

/// Like [`aggregate_text`], for a list of [`Network`] values.
///
/// ```
/// use ipnet_proved::{aggregate, Error, Network};
/// use std::net::Ipv4Addr;
///
/// let hosts = [Ipv4Addr::new(10, 0, 0, 1).into(), Ipv4Addr::new(10, 0, 0, 0).into()];
/// assert_eq!(aggregate(&hosts)?, ["10.0.0.0/31".parse::<Network>()?]);
/// # Ok::<(), Error>(())
/// ```
pub fn aggregate(networks: &[Network]) -> Result<Vec<Network>, Error> {
    parsed(&aggregate_text(&lines(networks))?)
}

/// Like [`union_text`], for lists of [`Network`] values.
///
/// ```
/// use ipnet_proved::{union, Error, Network};
///
/// let halves: [Network; 2] = ["10.0.0.0/25".parse()?, "10.0.0.128/25".parse()?];
/// assert_eq!(union(&halves[..1], &halves[1..])?, ["10.0.0.0/24".parse::<Network>()?]);
/// # Ok::<(), Error>(())
/// ```
pub fn union(networks: &[Network], others: &[Network]) -> Result<Vec<Network>, Error> {
    parsed(&union_text(&lines(networks), &lines(others))?)
}

/// Like [`intersection_text`], for lists of [`Network`] values.
pub fn intersection(networks: &[Network], others: &[Network]) -> Result<Vec<Network>, Error> {
    parsed(&intersection_text(&lines(networks), &lines(others))?)
}

/// Like [`difference_text`], for lists of [`Network`] values.
pub fn difference(networks: &[Network], others: &[Network]) -> Result<Vec<Network>, Error> {
    parsed(&difference_text(&lines(networks), &lines(others))?)
}

/// Like [`same_addresses_text`], for lists of [`Network`] values.
pub fn same_addresses(networks: &[Network], others: &[Network]) -> Result<bool, Error> {
    same_addresses_text(&lines(networks), &lines(others))
}

/// Like [`is_covered_text`], for a list of [`Network`] values.
pub fn is_covered(networks: &[Network], network: impl Into<Network>) -> Result<bool, Error> {
    is_covered_text(&lines(networks), network)
}
