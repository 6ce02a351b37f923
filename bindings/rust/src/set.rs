//! Sets of addresses.
use crate::{lines, parsed, raw, Error, Network, Rows};
use std::fmt;
use std::net::{IpAddr, Ipv4Addr, Ipv6Addr};
use std::str::FromStr;

/// The length of the image of the empty set.
const EMPTY: usize = 32;

/// A set of IPv4 and IPv6 addresses. It is kept as its image: bytes that can be stored, mapped and sent. Sets are equal
/// if and only if they have the same addresses.
///
/// ```
/// use ipnet_proved::{Error, IpSet};
/// use std::net::Ipv4Addr;
///
/// let allowed: IpSet = "10.0.0.0/8\nfd00::/32\n".parse()?;
/// let denied: IpSet = "10.1.0.0/16".parse()?;
/// let rest = allowed.difference(&denied)?;
/// assert!(rest.contains(Ipv4Addr::new(10, 2, 0, 1)));
/// assert!(!rest.contains(Ipv4Addr::new(10, 1, 0, 1)));
/// assert_eq!(rest.union(&denied)?, allowed);
/// # Ok::<(), Error>(())
/// ```
#[derive(Clone, Debug, PartialEq, Eq, Hash)]
pub struct IpSet {
    image: Vec<u8>,
}

impl IpSet {
    /// The set of the addresses of a list: a text with one network per line, in the strict grammar; empty lines are
    /// skipped. Fails with [`Error::BadLine`] if a line is not a network.
    pub fn from_text(text: &str) -> Result<IpSet, Error> {
        let image = raw::bytes_from(text.as_bytes(), text.len().saturating_add(32), raw::ipnet_set_from_text)?;
        Ok(IpSet { image })
    }

    /// Like [`IpSet::from_text`], for a text in the legacy grammar.
    ///
    /// ```
    /// use ipnet_proved::{Error, IpSet};
    ///
    /// assert_eq!(IpSet::from_text_legacy("010.0.0.0/30")?, IpSet::from_text("10.0.0.0/30")?);
    /// # Ok::<(), Error>(())
    /// ```
    pub fn from_text_legacy(text: &str) -> Result<IpSet, Error> {
        let image = raw::bytes_from(text.as_bytes(), text.len().saturating_add(32), raw::ipnet_set_from_text_legacy)?;
        Ok(IpSet { image })
    }

    /// The set of the addresses of a list as people keep it, read as the program `netset` reads its files. A line is a
    /// network, also with a netmask, an address, a range `FIRST-LAST`, or empty; it may have blanks around it, end with
    /// `\r\n`, and have a comment after `#` or `;`. Fails with [`Error::BadLine`] if a line is none of these.
    ///
    /// ```
    /// use ipnet_proved::{Error, IpSet};
    ///
    /// let set = IpSet::from_list("# ours\n10.0.0.0-10.0.0.3\r\n")?;
    /// assert_eq!(set, IpSet::from_text("10.0.0.0/30")?);
    /// assert_eq!(IpSet::from_list("10.0.0.1\n10.0.0.9-10.0.0.2"), Err(Error::BadLine(2)));
    /// # Ok::<(), Error>(())
    /// ```
    pub fn from_list(text: impl AsRef<[u8]>) -> Result<IpSet, Error> {
        let text = text.as_ref();
        Ok(IpSet { image: raw::bytes_from(text, text.len().saturating_add(32), raw::ipnet_set_from_list)? })
    }

    /// Like [`IpSet::from_list`], with numbers in the legacy grammar, as `netset --legacy` reads its files.
    ///
    /// ```
    /// use ipnet_proved::{Error, IpSet};
    ///
    /// assert_eq!(IpSet::from_list_legacy("010.0.0.0-10.0.0.03 # ours")?, IpSet::from_text("10.0.0.0/30")?);
    /// # Ok::<(), Error>(())
    /// ```
    pub fn from_list_legacy(text: impl AsRef<[u8]>) -> Result<IpSet, Error> {
        let text = text.as_ref();
        Ok(IpSet { image: raw::bytes_from(text, text.len().saturating_add(32), raw::ipnet_set_from_list_legacy)? })
    }

    /// The set of the addresses of the networks.
    ///
    /// ```
    /// use ipnet_proved::{Error, IpSet};
    /// use std::net::Ipv4Addr;
    ///
    /// let set = IpSet::from_networks(&["10.0.0.0/31".parse()?, Ipv4Addr::new(10, 0, 0, 2).into()])?;
    /// assert_eq!(set.to_string(), "10.0.0.0/31\n10.0.0.2/32\n");
    /// # Ok::<(), Error>(())
    /// ```
    pub fn from_networks(networks: &[Network]) -> Result<IpSet, Error> {
        IpSet::from_text(&lines(networks))
    }

    /// The set of which the bytes are the image, as [`IpSet::as_bytes`] returns it. All bytes are tested. Fails with
    /// [`Error::NotASet`].
    ///
    /// ```
    /// use ipnet_proved::{Error, IpSet};
    ///
    /// let set: IpSet = "10.0.0.0/30".parse()?;
    /// assert_eq!(IpSet::from_bytes(set.as_bytes().to_vec())?, set);
    /// assert_eq!(IpSet::from_bytes(Vec::new()), Err(Error::NotASet));
    /// # Ok::<(), Error>(())
    /// ```
    pub fn from_bytes(image: Vec<u8>) -> Result<IpSet, Error> {
        raw::check_set(&image)?;
        Ok(IpSet { image })
    }

    /// The image of the set. Equal sets have equal images.
    pub fn as_bytes(&self) -> &[u8] {
        &self.image
    }

    /// Whether the set contains the address. Allocates nothing.
    pub fn contains(&self, address: impl Into<IpAddr>) -> bool {
        match address.into() {
            IpAddr::V4(address) => raw::set_contains(&self.image, &address.octets()),
            IpAddr::V6(address) => raw::set_contains(&self.image, &address.octets()),
        }
    }

    /// Whether the set contains each of the addresses, in order.
    ///
    /// ```
    /// use ipnet_proved::{Error, IpSet};
    /// use std::net::Ipv4Addr;
    ///
    /// let set: IpSet = "10.0.0.0/31".parse()?;
    /// let asked = [Ipv4Addr::new(10, 0, 0, 1), Ipv4Addr::new(10, 0, 0, 2)];
    /// assert_eq!(set.contains_ipv4(&asked), [true, false]);
    /// # Ok::<(), Error>(())
    /// ```
    pub fn contains_ipv4(&self, addresses: &[Ipv4Addr]) -> Vec<bool> {
        let octets: Vec<u8> = addresses.iter().flat_map(|address| address.octets()).collect();
        self.contains_octets(&octets, 4)
    }

    /// Whether the set contains each of the addresses, in order.
    pub fn contains_ipv6(&self, addresses: &[Ipv6Addr]) -> Vec<bool> {
        let octets: Vec<u8> = addresses.iter().flat_map(|address| address.octets()).collect();
        self.contains_octets(&octets, 16)
    }

    fn contains_octets(&self, octets: &[u8], width: usize) -> Vec<bool> {
        let mut answers = vec![0; octets.len() / width];
        raw::set_contains_all(&self.image, octets, width, &mut answers);
        answers.into_iter().map(|answer| answer == 1).collect()
    }

    /// Whether the set contains every address of the network. Allocates nothing.
    ///
    /// ```
    /// use ipnet_proved::{Error, IpSet, Network};
    ///
    /// let set: IpSet = "10.0.0.0/25\n10.0.0.128/25".parse()?;
    /// assert!(set.covers("10.0.0.0/24".parse::<Network>()?));
    /// assert!(!set.covers("10.0.0.0/23".parse::<Network>()?));
    /// # Ok::<(), Error>(())
    /// ```
    pub fn covers(&self, network: impl Into<Network>) -> bool {
        raw::set_covers(&self.image, network.into().to_bytes().as_slice())
    }

    /// Whether the set contains every address of each of the networks, in order.
    ///
    /// ```
    /// use ipnet_proved::{Error, IpSet};
    ///
    /// let set: IpSet = "10.0.0.0/24\nfd00::/32".parse()?;
    /// let asked = ["10.0.0.128/25".parse()?, "fd00::/31".parse()?, "10.0.0.0/23".parse()?];
    /// assert_eq!(set.covers_all(&asked), [true, false, false]);
    /// # Ok::<(), Error>(())
    /// ```
    pub fn covers_all(&self, networks: &[Network]) -> Vec<bool> {
        let mut covered = vec![false; networks.len()];
        for width in [6, 18] {
            let (mut places, mut rows) = (Vec::new(), Vec::new());
            for (place, network) in networks.iter().enumerate() {
                let bytes = network.to_bytes();
                if bytes.as_slice().len() == width {
                    places.push(place);
                    rows.extend_from_slice(bytes.as_slice());
                }
            }
            let mut answers = vec![0; places.len()];
            raw::set_covers_all(&self.image, &rows, width, &mut answers);
            for (place, answer) in places.into_iter().zip(answers) {
                covered[place] = answer == 1;
            }
        }
        covered
    }

    fn combined(&self, other: &IpSet, combine: raw::BothIntoBuffer) -> Result<IpSet, Error> {
        Ok(IpSet { image: raw::combine(&self.image, &other.image, combine)? })
    }

    /// The addresses that are in either set.
    pub fn union(&self, other: &IpSet) -> Result<IpSet, Error> {
        self.combined(other, raw::ipnet_set_union)
    }

    /// The addresses that are in both sets.
    pub fn intersection(&self, other: &IpSet) -> Result<IpSet, Error> {
        self.combined(other, raw::ipnet_set_intersection)
    }

    /// The addresses that are in this set and not in the other.
    pub fn difference(&self, other: &IpSet) -> Result<IpSet, Error> {
        self.combined(other, raw::ipnet_set_difference)
    }

    /// The addresses that are in exactly one of the two sets.
    pub fn symmetric_difference(&self, other: &IpSet) -> Result<IpSet, Error> {
        self.combined(other, raw::ipnet_set_symmetric_difference)
    }

    /// All addresses, IPv4 and IPv6, that are not in the set.
    pub fn complement(&self) -> Result<IpSet, Error> {
        Ok(IpSet { image: raw::bytes_from(&self.image, self.image.len() + 20, raw::ipnet_set_complement)? })
    }

    /// Whether the other set contains every address of this one.
    ///
    /// ```
    /// use ipnet_proved::{Error, IpSet};
    ///
    /// let set: IpSet = "10.0.0.0/9".parse()?;
    /// assert!(set.is_subset(&"10.0.0.0/8".parse()?)?);
    /// assert!(!set.complement()?.is_subset(&set)?);
    /// # Ok::<(), Error>(())
    /// ```
    pub fn is_subset(&self, other: &IpSet) -> Result<bool, Error> {
        raw::set_is_subset(&self.image, &other.image)
    }

    /// The fewest networks of the set as text, one per line, IPv4 first, ascending.
    ///
    /// ```
    /// use ipnet_proved::{Error, IpSet};
    ///
    /// let set: IpSet = "10.0.0.0/31\n10.0.0.2/32".parse()?;
    /// assert_eq!(set.to_text()?, "10.0.0.0/31\n10.0.0.2/32\n");
    /// # Ok::<(), Error>(())
    /// ```
    pub fn to_text(&self) -> Result<String, Error> {
        raw::text_from(&self.image, raw::ipnet_set_to_text)
    }

    /// The fewest ranges of the set as text, one per line, IPv4 first, ascending: the first and the last address of each.
    ///
    /// ```
    /// use ipnet_proved::{Error, IpSet};
    ///
    /// let set: IpSet = "10.0.0.0/31\n10.0.0.2/32\nfd00::1/128".parse()?;
    /// assert_eq!(set.to_ranges()?, "10.0.0.0-10.0.0.2\nfd00::1-fd00::1\n");
    /// # Ok::<(), Error>(())
    /// ```
    pub fn to_ranges(&self) -> Result<String, Error> {
        raw::text_from(&self.image, raw::ipnet_set_to_ranges)
    }

    /// The fewest ranges of the set, each by its first and its last address, IPv4 first, ascending.
    ///
    /// ```
    /// use ipnet_proved::{Error, IpSet};
    /// use std::net::{IpAddr, Ipv4Addr};
    ///
    /// let set: IpSet = "10.0.0.0/31\n10.0.0.2/32".parse()?;
    /// let (first, last) = (Ipv4Addr::new(10, 0, 0, 0), Ipv4Addr::new(10, 0, 0, 2));
    /// assert_eq!(set.ranges()?, [(IpAddr::from(first), IpAddr::from(last))]);
    /// # Ok::<(), Error>(())
    /// ```
    pub fn ranges(&self) -> Result<Vec<(IpAddr, IpAddr)>, Error> {
        let (families, octets) = raw::set_range_rows(&self.image)?;
        let rows = Rows { families, octets };
        Ok((0..rows.len() / 2).filter_map(|index| rows.get(2 * index).zip(rows.get(2 * index + 1))).collect())
    }

    /// The fewest networks of the set, IPv4 first, ascending.
    ///
    /// ```
    /// use ipnet_proved::{Error, IpSet, Network};
    ///
    /// let set: IpSet = "10.0.0.128/25\n10.0.0.0/25".parse()?;
    /// assert_eq!(set.networks()?, ["10.0.0.0/24".parse::<Network>()?]);
    /// # Ok::<(), Error>(())
    /// ```
    pub fn networks(&self) -> Result<Vec<Network>, Error> {
        parsed(&self.to_text()?)
    }

    /// The number of IPv4 addresses.
    ///
    /// ```
    /// use ipnet_proved::{Error, IpSet};
    ///
    /// let set: IpSet = "10.0.0.0/24\nfd00::/63".parse()?;
    /// assert_eq!((set.ipv4_count()?, set.ipv6_count()?), (256, Some(1 << 65)));
    /// assert_eq!(IpSet::from_text("::/0")?.ipv6_count()?, None);
    /// # Ok::<(), Error>(())
    /// ```
    pub fn ipv4_count(&self) -> Result<u64, Error> {
        let [ipv4, ..] = raw::set_counts(&self.image)?;
        Ok(ipv4)
    }

    /// The number of IPv6 addresses, or `None` if the set has all 2^128 of them.
    pub fn ipv6_count(&self) -> Result<Option<u128>, Error> {
        match raw::set_counts(&self.image)? {
            [_, low, high, 0] => Ok(Some(u128::from(high) << 64 | u128::from(low))),
            _ => Ok(None),
        }
    }

    /// Whether the set has no address.
    ///
    /// ```
    /// use ipnet_proved::{Error, IpSet};
    ///
    /// assert!(IpSet::from_text("\n")?.is_empty());
    /// assert!(!IpSet::from_text("::/0")?.is_empty());
    /// # Ok::<(), Error>(())
    /// ```
    pub fn is_empty(&self) -> bool {
        self.image.len() == EMPTY
    }
}

/// Like [`IpSet::to_text`]. Fails if memory runs out.
impl fmt::Display for IpSet {
    fn fmt(&self, f: &mut fmt::Formatter<'_>) -> fmt::Result {
        f.write_str(&self.to_text().map_err(|_| fmt::Error)?)
    }
}

/// Like [`IpSet::from_networks`].
impl TryFrom<&[Network]> for IpSet {
    type Error = Error;

    fn try_from(networks: &[Network]) -> Result<IpSet, Error> {
        IpSet::from_networks(networks)
    }
}

/// The image of the set.
impl AsRef<[u8]> for IpSet {
    fn as_ref(&self) -> &[u8] {
        self.as_bytes()
    }
}

/// Like [`IpSet::from_text`].
impl FromStr for IpSet {
    type Err = Error;

    fn from_str(text: &str) -> Result<IpSet, Error> {
        IpSet::from_text(text)
    }
}
