//! Origins of routes: tables of validated ROA payloads (RFC 6811).
use crate::{raw, Error, Network, Rows};

/// A validated ROA payload: the AS may announce the network, and its subnets up to the greatest prefix length.
#[derive(Clone, Copy, Debug, PartialEq, Eq, Hash)]
pub struct Payload {
    /// The network. Host bits do not count.
    pub network: Network,
    /// The greatest prefix length that the AS may announce.
    pub max_len: u8,
    /// The number of the AS. A payload with the number 0 covers routes and matches none.
    pub asn: u32,
}

/// The validity of the origin of a route (RFC 6811, section 2).
#[derive(Clone, Copy, Debug, PartialEq, Eq, Hash)]
pub enum Validity {
    /// No payload covers the route.
    NotFound,
    /// At least one payload matches the route.
    Valid,
    /// At least one payload covers the route, and none matches it.
    Invalid,
}

/// A table of validated ROA payloads, which may overlap and repeat. It is kept as its image: bytes that can be stored
/// and sent.
///
/// ```
/// use ipnet_proved::{Error, OriginTable, Payload, Validity};
///
/// let payload = Payload { network: "192.0.2.0/24".parse()?, max_len: 26, asn: 64496 };
/// let table = OriginTable::from_payloads(&[payload])?;
/// let routes = [("192.0.2.64/26".parse()?, Some(64496)), ("192.0.2.0/27".parse()?, Some(64496))];
/// assert_eq!(table.validity(&routes)?, [Validity::Valid, Validity::Invalid]);
/// assert_eq!(table.validity(&[("198.51.100.0/24".parse()?, None)])?, [Validity::NotFound]);
/// # Ok::<(), Error>(())
/// ```
#[derive(Clone, Debug, PartialEq, Eq, Hash)]
pub struct OriginTable {
    image: Vec<u8>,
}

impl OriginTable {
    /// The table of the payloads, in any order. Fails with [`Error::BadRow`] at the first payload whose greatest length
    /// is less than the prefix length of its network, or above 32 or 128, and if memory runs out.
    ///
    /// ```
    /// use ipnet_proved::{Error, OriginTable, Payload};
    ///
    /// let payload = Payload { network: "192.0.2.0/24".parse()?, max_len: 23, asn: 64496 };
    /// assert_eq!(OriginTable::from_payloads(&[payload]), Err(Error::BadRow(0)));
    /// # Ok::<(), Error>(())
    /// ```
    pub fn from_payloads(payloads: &[Payload]) -> Result<OriginTable, Error> {
        let rows = columns(payloads.iter().map(|payload| (payload.network, payload.asn)));
        let max_lens: Vec<u8> = payloads.iter().map(|payload| payload.max_len).collect();
        Ok(OriginTable { image: raw::origins_from(&rows, &max_lens)? })
    }

    /// The table of which the bytes are the image, as [`OriginTable::as_bytes`] returns it. All payloads are tested.
    /// Fails with [`Error::NotOrigins`].
    ///
    /// ```
    /// use ipnet_proved::{Error, OriginTable};
    ///
    /// let table = OriginTable::from_payloads(&[])?;
    /// assert_eq!(OriginTable::from_bytes(table.as_bytes().to_vec())?.len(), 0);
    /// assert_eq!(OriginTable::from_bytes(Vec::new()), Err(Error::NotOrigins));
    /// # Ok::<(), Error>(())
    /// ```
    pub fn from_bytes(image: Vec<u8>) -> Result<OriginTable, Error> {
        raw::origins_count(&image)?;
        Ok(OriginTable { image })
    }

    /// The image of the table.
    pub fn as_bytes(&self) -> &[u8] {
        &self.image
    }

    /// The number of payloads.
    pub fn len(&self) -> usize {
        raw::origins_count(&self.image).unwrap_or(0)
    }

    /// Whether the table has no payload.
    pub fn is_empty(&self) -> bool {
        self.len() == 0
    }

    /// The validity of each route, which has a network and the AS number of its origin, or `None` if it has no single
    /// origin. Host bits do not count. Each call reads the whole table, so ask for many routes at once. Fails only if
    /// memory runs out.
    pub fn validity(&self, routes: &[(Network, Option<u32>)]) -> Result<Vec<Validity>, Error> {
        let rows = columns(routes.iter().map(|(network, origin)| (*network, origin.unwrap_or(0))));
        let answers = raw::origins_validity(&self.image, &rows)?;
        Ok(answers.into_iter().map(validity_of).collect())
    }
}

/// The networks and the AS numbers as columns.
fn columns(items: impl Iterator<Item = (Network, u32)>) -> raw::Columns {
    let (mut rows, mut lengths, mut asns) = (Rows::default(), Vec::new(), Vec::new());
    for (network, asn) in items {
        rows.push(Some(network.address()));
        lengths.push(network.prefix_len());
        asns.push(asn);
    }
    raw::Columns { families: rows.families, octets: rows.octets, lengths, asns }
}

/// The validity with this number; a `Network` is always a route.
fn validity_of(answer: u8) -> Validity {
    match answer {
        1 => Validity::Valid,
        2 => Validity::Invalid,
        _ => Validity::NotFound,
    }
}
