//! Tables of routes.
use crate::{raw, Error, Network, Rows};
use std::net::{IpAddr, Ipv4Addr, Ipv6Addr};

/// Networks with a number each, which finds the longest network that contains an address. It is kept as its image: bytes
/// that can be stored, mapped and sent. Tables are equal if and only if they have the same networks with the same
/// numbers.
///
/// ```
/// use ipnet_proved::{Error, Network, RouteTable};
/// use std::net::Ipv4Addr;
///
/// let routes = [("10.0.0.0/8".parse::<Network>()?, 1), ("10.1.0.0/16".parse::<Network>()?, 2)];
/// let table = RouteTable::from_routes(&routes)?;
/// assert_eq!(table.longest_match(Ipv4Addr::new(10, 1, 2, 3)), Some(2));
/// assert_eq!(table.longest_match(Ipv4Addr::new(11, 0, 0, 1)), None);
/// # Ok::<(), Error>(())
/// ```
#[derive(Clone, Debug, PartialEq, Eq, Hash)]
pub struct RouteTable {
    image: Vec<u8>,
}

impl RouteTable {
    /// The table of the routes, in any order. Host bits do not count; if a network is given twice, the last number
    /// counts. Fails only if memory runs out.
    pub fn from_routes(routes: &[(Network, u32)]) -> Result<RouteTable, Error> {
        let text: String = routes.iter().map(|(network, _)| format!("{network}\n")).collect();
        let values: Vec<u32> = routes.iter().map(|route| route.1).collect();
        Ok(RouteTable { image: raw::table_from(&text, &values)? })
    }

    /// The table of which the bytes are the image, as [`RouteTable::as_bytes`] returns it. All routes are tested.
    /// Fails with [`Error::NotATable`].
    ///
    /// ```
    /// use ipnet_proved::{Error, RouteTable};
    ///
    /// let table = RouteTable::from_routes(&[("10.0.0.0/8".parse()?, 7)])?;
    /// assert_eq!(RouteTable::from_bytes(table.as_bytes().to_vec())?.len(), 1);
    /// assert_eq!(RouteTable::from_bytes(Vec::new()).err(), Some(Error::NotATable));
    /// # Ok::<(), Error>(())
    /// ```
    pub fn from_bytes(image: Vec<u8>) -> Result<RouteTable, Error> {
        raw::check_table(&image)?;
        Ok(RouteTable { image })
    }

    /// The image of the table.
    pub fn as_bytes(&self) -> &[u8] {
        &self.image
    }

    /// The number of routes.
    pub fn len(&self) -> usize {
        raw::table_count(&self.image).unwrap_or(0)
    }

    /// Whether the table has no route.
    pub fn is_empty(&self) -> bool {
        self.len() == 0
    }

    /// The networks, each with its number, IPv4 first, ascending, a network before those that it contains. Fails only if
    /// memory runs out.
    ///
    /// ```
    /// use ipnet_proved::{Error, RouteTable};
    ///
    /// let table = RouteTable::from_routes(&[("10.1.0.9/16".parse()?, 2), ("10.0.0.0/8".parse()?, 1)])?;
    /// assert_eq!(table.routes()?, [("10.0.0.0/8".parse()?, 1), ("10.1.0.0/16".parse()?, 2)]);
    /// assert_eq!(table.values()?, [1, 2]);
    /// # Ok::<(), Error>(())
    /// ```
    pub fn routes(&self) -> Result<Vec<(Network, u32)>, Error> {
        let [families, octets, lengths] = raw::table_networks(&self.image)?;
        let rows = Rows { families, octets };
        let values = self.values()?;
        let networks = (0..rows.len()).zip(lengths).filter_map(|(index, len)| Network::new(rows.get(index)?, len).ok());
        Ok(networks.zip(values).collect())
    }

    /// The numbers of the networks, in the order of [`RouteTable::routes`]. Fails only if memory runs out.
    pub fn values(&self) -> Result<Vec<u32>, Error> {
        raw::table_values(&self.image)
    }

    /// The table with the same networks and these numbers, in the order of [`RouteTable::routes`]. Fails with
    /// [`Error::WrongLength`] if there are not as many numbers as networks, and if memory runs out.
    ///
    /// ```
    /// use ipnet_proved::{Error, RouteTable};
    ///
    /// let table = RouteTable::from_routes(&[("10.0.0.0/8".parse()?, 1), ("10.1.0.0/16".parse()?, 2)])?;
    /// assert_eq!(table.with_values(&[7, 8])?.values()?, [7, 8]);
    /// assert_eq!(table.with_values(&[7]), Err(Error::WrongLength));
    /// # Ok::<(), Error>(())
    /// ```
    pub fn with_values(&self, values: &[u32]) -> Result<RouteTable, Error> {
        Ok(RouteTable { image: raw::table_with_values(&self.image, values)? })
    }

    /// The number of the longest network that contains the address, or `None` if none does. Allocates nothing.
    pub fn longest_match(&self, address: impl Into<IpAddr>) -> Option<u32> {
        match address.into() {
            IpAddr::V4(address) => raw::table_longest_match(&self.image, &address.octets()),
            IpAddr::V6(address) => raw::table_longest_match(&self.image, &address.octets()),
        }
    }

    /// The longest network that contains the address, and its number, or `None` if none does. Allocates nothing.
    ///
    /// ```
    /// use ipnet_proved::{Error, Network, RouteTable};
    /// use std::net::Ipv4Addr;
    ///
    /// let table = RouteTable::from_routes(&[("10.0.0.0/8".parse()?, 1), ("10.1.0.9/16".parse()?, 2)])?;
    /// assert_eq!(table.longest_route(Ipv4Addr::new(10, 1, 2, 3)), Some(("10.1.0.0/16".parse()?, 2)));
    /// assert_eq!(table.longest_route(Ipv4Addr::new(11, 0, 0, 1)), None);
    /// # Ok::<(), Error>(())
    /// ```
    pub fn longest_route(&self, address: impl Into<IpAddr>) -> Option<(Network, u32)> {
        let (network, value) = match address.into() {
            IpAddr::V4(address) => raw::table_longest_route(&self.image, &address.octets()),
            IpAddr::V6(address) => raw::table_longest_route(&self.image, &address.octets()),
        }?;
        Some((Network::from_bytes(network.as_slice()).ok()?, value))
    }

    /// The longest network that contains every address of `network`, and its number, or `None` if none does. Allocates
    /// nothing.
    ///
    /// ```
    /// use ipnet_proved::{Error, Network, RouteTable};
    ///
    /// let table = RouteTable::from_routes(&[("10.0.0.0/8".parse()?, 1), ("10.1.0.0/16".parse()?, 2)])?;
    /// let asked: [Network; 3] = ["10.1.2.0/24".parse()?, "10.0.0.0/15".parse()?, "10.0.0.0/7".parse()?];
    /// assert_eq!(table.longest_covering(asked[0]), Some(("10.1.0.0/16".parse()?, 2)));
    /// assert_eq!(table.longest_covering(asked[1]), Some(("10.0.0.0/8".parse()?, 1)));
    /// assert_eq!(table.longest_covering(asked[2]), None);
    /// # Ok::<(), Error>(())
    /// ```
    pub fn longest_covering(&self, network: impl Into<Network>) -> Option<(Network, u32)> {
        let (covering, value) = raw::table_longest_covering(&self.image, network.into().to_bytes().as_slice())?;
        Some((Network::from_bytes(covering.as_slice()).ok()?, value))
    }

    /// The number of the longest network for each of the addresses, in order, or `missing`.
    ///
    /// ```
    /// use ipnet_proved::{Error, RouteTable};
    /// use std::net::Ipv4Addr;
    ///
    /// let table = RouteTable::from_routes(&[("10.0.0.0/8".parse()?, 7)])?;
    /// let asked = [Ipv4Addr::new(10, 0, 0, 1), Ipv4Addr::new(11, 0, 0, 1)];
    /// assert_eq!(table.longest_match_ipv4(&asked, 0), [7, 0]);
    /// # Ok::<(), Error>(())
    /// ```
    pub fn longest_match_ipv4(&self, addresses: &[Ipv4Addr], missing: u32) -> Vec<u32> {
        let octets: Vec<u8> = addresses.iter().flat_map(|address| address.octets()).collect();
        self.longest_match_octets(&octets, 4, missing)
    }

    /// The number of the longest network for each of the addresses, in order, or `missing`.
    pub fn longest_match_ipv6(&self, addresses: &[Ipv6Addr], missing: u32) -> Vec<u32> {
        let octets: Vec<u8> = addresses.iter().flat_map(|address| address.octets()).collect();
        self.longest_match_octets(&octets, 16, missing)
    }

    fn longest_match_octets(&self, octets: &[u8], width: usize, missing: u32) -> Vec<u32> {
        let mut values = vec![missing; octets.len() / width];
        raw::table_longest_match_all(&self.image, octets, width, missing, &mut values);
        values
    }
}
