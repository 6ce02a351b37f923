//! Columns of addresses: one call for all of their rows.
use crate::raw::{
    ipnet_set_contains_rows, ipnet_set_contains_u32, ipnet_table_longest_match_rows, ipnet_table_longest_match_u32,
    ipnet_truncate_rows, ipnet_unmap_rows, OK,
};
use crate::{Error, IpSet, RouteTable};
use std::net::{IpAddr, Ipv4Addr};

/// The answer for a row that is not an address.
const NO_ADDRESS: u8 = 2;

/// A column of addresses of both families, in which a row may have no address.
///
/// It is kept as two arrays: a byte for the family of each row, 4, 6 or 0; and 16 bytes of octets for each row.
///
/// ```
/// use ipnet_proved::{Error, IpSet, Rows};
/// use std::net::{IpAddr, Ipv4Addr};
///
/// let address = IpAddr::from(Ipv4Addr::new(10, 1, 2, 3));
/// let mut rows: Rows = [Some(address), None].into_iter().collect();
/// let set: IpSet = "10.1.2.0/30".parse()?;
/// assert_eq!(set.contains_rows(&rows), [Some(true), None]);
/// rows.truncate(24, 48)?;
/// assert_eq!(rows.get(0), Some(IpAddr::from(Ipv4Addr::new(10, 1, 2, 0))));
/// # Ok::<(), Error>(())
/// ```
#[derive(Clone, Debug, Default, PartialEq, Eq, Hash)]
pub struct Rows {
    pub(crate) families: Vec<u8>,
    pub(crate) octets: Vec<u8>,
}

impl Rows {
    /// The number of rows.
    pub fn len(&self) -> usize {
        self.families.len()
    }

    /// Whether there is no row.
    pub fn is_empty(&self) -> bool {
        self.families.is_empty()
    }

    /// The address of the row with this index; `None` if the row has no address, and if there is no such row.
    pub fn get(&self, index: usize) -> Option<IpAddr> {
        let octets = self.octets.chunks_exact(16).nth(index)?;
        match self.families.get(index)? {
            4 => <[u8; 4]>::try_from(&octets[..4]).ok().map(IpAddr::from),
            6 => <[u8; 16]>::try_from(octets).ok().map(IpAddr::from),
            _ => None,
        }
    }

    /// The byte of each row's family: 4, 6, or 0 if the row is not an address.
    pub fn families(&self) -> &[u8] {
        &self.families
    }

    /// The octets of each row, 16 bytes: 16 of an IPv6 address, or 4 of an IPv4 address and 12 zeros, or 16 zeros.
    pub fn octets(&self) -> &[u8] {
        &self.octets
    }

    /// The number of rows that are not an address.
    pub fn bad(&self) -> usize {
        self.families.iter().filter(|family| **family == 0).count()
    }

    /// Adds a row.
    pub fn push(&mut self, address: Option<IpAddr>) {
        let (family, octets) = match address {
            Some(IpAddr::V4(address)) => (4, padded(address)),
            Some(IpAddr::V6(address)) => (6, address.octets()),
            None => (0, [0; 16]),
        };
        self.families.push(family);
        self.octets.extend(octets);
    }

    /// Makes an IPv4 row of each row of an IPv4-mapped address, `::ffff:0:0/96`.
    ///
    /// ```
    /// use ipnet_proved::Rows;
    /// use std::net::{IpAddr, Ipv4Addr};
    ///
    /// let address = Ipv4Addr::new(10, 0, 0, 1);
    /// let mut rows: Rows = [Some(IpAddr::from(address.to_ipv6_mapped()))].into_iter().collect();
    /// rows.unmap();
    /// assert_eq!(rows.get(0), Some(IpAddr::from(address)));
    /// ```
    pub fn unmap(&mut self) {
        // SAFETY: both pointers are valid for their lengths, and the memory does not overlap.
        unsafe {
            ipnet_unmap_rows(
                self.families.as_mut_ptr(),
                self.families.len(),
                self.octets.as_mut_ptr(),
                self.octets.len(),
            );
        }
    }

    /// Replaces each address by the first address of its network with the prefix length for its family. Fails with
    /// [`Error::PrefixTooLong`] if a length is above 32 or 128; the rows are then what they were.
    pub fn truncate(&mut self, ipv4_length: u32, ipv6_length: u32) -> Result<(), Error> {
        // SAFETY: both pointers are valid for their lengths, and the memory does not overlap.
        let status = unsafe {
            ipnet_truncate_rows(
                ipv4_length,
                ipv6_length,
                self.families.as_ptr(),
                self.families.len(),
                self.octets.as_mut_ptr(),
                self.octets.len(),
            )
        };
        if status == OK { Ok(()) } else { Err(Error::PrefixTooLong) }
    }
}

impl FromIterator<Option<IpAddr>> for Rows {
    fn from_iter<I: IntoIterator<Item = Option<IpAddr>>>(addresses: I) -> Rows {
        let mut rows = Rows::default();
        addresses.into_iter().for_each(|address| rows.push(address));
        rows
    }
}

/// The octets of the address, and 12 zeros.
fn padded(address: Ipv4Addr) -> [u8; 16] {
    let [a, b, c, d] = address.octets();
    [a, b, c, d, 0, 0, 0, 0, 0, 0, 0, 0, 0, 0, 0, 0]
}

impl IpSet {
    /// Whether the set contains each of many IPv4 addresses, given by their numbers.
    ///
    /// ```
    /// use ipnet_proved::{Error, IpSet};
    ///
    /// let set: IpSet = "10.0.0.0/30".parse()?;
    /// assert_eq!(set.contains_u32(&[0x0a00_0001, 0x0a00_0004]), [true, false]);
    /// # Ok::<(), Error>(())
    /// ```
    pub fn contains_u32(&self, addresses: &[u32]) -> Vec<bool> {
        let set = self.as_bytes();
        let mut answers = vec![0; addresses.len()];
        // SAFETY: the pointers are valid for their lengths, and the answers are memory of their own.
        unsafe {
            ipnet_set_contains_u32(
                set.as_ptr(),
                set.len(),
                addresses.as_ptr(),
                addresses.len(),
                answers.as_mut_ptr(),
                answers.len(),
            );
        }
        answers.into_iter().map(|answer| answer == 1).collect()
    }

    /// Whether the set contains the address of each row; `None` for a row without an address.
    pub fn contains_rows(&self, rows: &Rows) -> Vec<Option<bool>> {
        let set = self.as_bytes();
        let mut answers = vec![NO_ADDRESS; rows.len()];
        // SAFETY: as in `contains_u32`.
        unsafe {
            ipnet_set_contains_rows(
                set.as_ptr(),
                set.len(),
                rows.families.as_ptr(),
                rows.families.len(),
                rows.octets.as_ptr(),
                rows.octets.len(),
                answers.as_mut_ptr(),
                answers.len(),
            );
        }
        answers.into_iter().map(|answer| (answer != NO_ADDRESS).then_some(answer == 1)).collect()
    }
}

impl RouteTable {
    /// The number of the longest network for each of many IPv4 addresses, given by their numbers, or `missing`.
    ///
    /// ```
    /// use ipnet_proved::{Error, RouteTable};
    ///
    /// let table = RouteTable::from_routes(&[("10.0.0.0/8".parse()?, 7)])?;
    /// assert_eq!(table.longest_match_u32(&[0x0a00_0001, 0x0b00_0001], 9), [7, 9]);
    /// # Ok::<(), Error>(())
    /// ```
    pub fn longest_match_u32(&self, addresses: &[u32], missing: u32) -> Vec<u32> {
        let table = self.as_bytes();
        let mut values = vec![missing; addresses.len()];
        // SAFETY: as in `IpSet::contains_u32`.
        unsafe {
            ipnet_table_longest_match_u32(
                table.as_ptr(),
                table.len(),
                addresses.as_ptr(),
                addresses.len(),
                missing,
                values.as_mut_ptr(),
                values.len(),
            );
        }
        values
    }

    /// The number of the longest network for the address of each row; `missing` if there is none, or no address.
    ///
    /// ```
    /// use ipnet_proved::{Error, RouteTable, Rows};
    /// use std::net::{IpAddr, Ipv6Addr};
    ///
    /// let table = RouteTable::from_routes(&[("::/0".parse()?, 7)])?;
    /// let rows: Rows = [None, Some(IpAddr::from(Ipv6Addr::LOCALHOST))].into_iter().collect();
    /// assert_eq!(table.longest_match_rows(&rows, 9), [9, 7]);
    /// # Ok::<(), Error>(())
    /// ```
    pub fn longest_match_rows(&self, rows: &Rows, missing: u32) -> Vec<u32> {
        let table = self.as_bytes();
        let mut values = vec![missing; rows.len()];
        // SAFETY: as in `IpSet::contains_u32`.
        unsafe {
            ipnet_table_longest_match_rows(
                table.as_ptr(),
                table.len(),
                rows.families.as_ptr(),
                rows.families.len(),
                rows.octets.as_ptr(),
                rows.octets.len(),
                missing,
                values.as_mut_ptr(),
                values.len(),
            );
        }
        values
    }
}
