//! Rows of a column that are read from text.
use crate::{raw, Error, Offset, Rows};

impl Rows {
    /// Reads a row from each line of the text, in the strict grammar of addresses. A line that is not an address is a row
    /// that is not an address. Fails with [`Error::WrongLength`] if the last line has no line end, and if memory runs
    /// out.
    ///
    /// ```
    /// use ipnet_proved::{Error, Rows};
    /// use std::net::Ipv4Addr;
    ///
    /// let rows = Rows::from_lines(b"10.0.0.1\nx\nfd00::1\n")?;
    /// assert_eq!(rows.families(), [4, 0, 6]);
    /// assert_eq!(rows.get(0), Some(Ipv4Addr::new(10, 0, 0, 1).into()));
    /// assert_eq!((rows.get(1), rows.bad()), (None, 1));
    /// # Ok::<(), Error>(())
    /// ```
    pub fn from_lines(text: &[u8]) -> Result<Rows, Error> {
        let count = text.iter().filter(|byte| **byte == b'\n').count();
        Rows::made(count, |families, octets| raw::rows_from_lines(text, families, octets))
    }

    /// Reads a row from each text between an offset and the next one, as [`Rows::from_lines`] reads lines. The offsets
    /// are `u32` or `u64`. Fails with [`Error::WrongLength`] if there is no offset, with [`Error::BadOffsets`] if one is
    /// less than the one before it or greater than the length of the text, and if memory runs out.
    ///
    /// ```
    /// use ipnet_proved::{Error, Rows};
    ///
    /// assert_eq!(Rows::from_offsets(b"10.0.0.1fd00::1", &[0u32, 8, 15])?.families(), [4, 6]);
    /// assert_eq!(Rows::from_offsets(b"10.0.0.1fd00::1", &[0u64, 8, 16]), Err(Error::BadOffsets));
    /// # Ok::<(), Error>(())
    /// ```
    pub fn from_offsets<T: Offset>(text: &[u8], offsets: &[T]) -> Result<Rows, Error> {
        let count = offsets.len().saturating_sub(1);
        Rows::made(count, |families, octets| raw::rows_from_offsets(text, offsets, families, octets))
    }

    fn made(count: usize, read: impl Fn(&mut [u8], &mut [u8]) -> Result<usize, Error>) -> Result<Rows, Error> {
        let mut rows = Rows::default();
        raw::grow(&mut rows.families, count)?;
        raw::grow(&mut rows.octets, count.saturating_mul(16))?;
        read(&mut rows.families, &mut rows.octets)?;
        Ok(rows)
    }
}
