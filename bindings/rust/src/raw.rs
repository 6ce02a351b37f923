//! The functions of `include/ipnet.h`, and safe wrappers for them. All `unsafe` code of this crate is in this file.
use crate::Error;
use std::{fmt, str};

pub const OK: u32 = 0;
const BAD_LINE: u32 = 1;
const OUT_OF_MEMORY: u32 = 3;
const BUFFER_TOO_SHORT: u32 = 4;
const NOT_A_NETWORK: u32 = 5;
const WRONG_LENGTH: u32 = 6;
const PREFIX_TOO_LONG: u32 = 8;
const BAD_LINE_IN_OTHER: u32 = 9;
const NOT_A_SET: u32 = 11;
const NOT_A_TABLE: u32 = 13;
const BAD_OFFSETS: u32 = 14;
const BAD_ROW: u32 = 15;
const NOT_ORIGINS: u32 = 16;
const NO_ADDRESS: u32 = 18;
const NO_PLACE: u32 = 19;

/// The maximum number of bytes in the byte form of a network, and in its text.
const MAX_BYTES: usize = 18;
const MAX_TEXT: usize = 43;

/// A function that takes a text and its length, a buffer and its length, and a pointer to a count or line number.
pub type IntoBuffer = unsafe extern "C" fn(*const u8, usize, *mut u8, usize, *mut usize) -> u32;

/// Like [`IntoBuffer`], with two texts.
pub type BothIntoBuffer = unsafe extern "C" fn(*const u8, usize, *const u8, usize, *mut u8, usize, *mut usize) -> u32;

/// A function that draws the set of an image: it takes the image and its length, the bytes of the network that is shown,
/// and the number of the options.
pub type Draw = unsafe extern "C" fn(*const u8, usize, *const u8, usize, u32, *mut u8, usize, *mut usize) -> u32;

/// Like [`Draw`], for the sets of two images.
pub type DrawBoth =
    unsafe extern "C" fn(*const u8, usize, *const u8, usize, *const u8, usize, u32, *mut u8, usize, *mut usize) -> u32;

extern "C" {
    fn ipnet_version() -> u32;
    pub fn ipnet_set_map(
        set: *const u8,
        set_len: usize,
        network: *const u8,
        network_len: usize,
        options: u32,
        buffer: *mut u8,
        buffer_len: usize,
        count: *mut usize,
    ) -> u32;
    pub fn ipnet_set_comparison_map(
        set: *const u8,
        set_len: usize,
        other: *const u8,
        other_len: usize,
        network: *const u8,
        network_len: usize,
        options: u32,
        buffer: *mut u8,
        buffer_len: usize,
        count: *mut usize,
    ) -> u32;
    pub fn ipnet_set_bar(
        set: *const u8,
        set_len: usize,
        network: *const u8,
        network_len: usize,
        options: u32,
        buffer: *mut u8,
        buffer_len: usize,
        count: *mut usize,
    ) -> u32;
    pub fn ipnet_set_comparison_bar(
        set: *const u8,
        set_len: usize,
        other: *const u8,
        other_len: usize,
        network: *const u8,
        network_len: usize,
        options: u32,
        buffer: *mut u8,
        buffer_len: usize,
        count: *mut usize,
    ) -> u32;
    fn ipnet_set_plan(
        set: *const u8,
        set_len: usize,
        family: u32,
        lengths: *const u8,
        lengths_len: usize,
        buffer: *mut u8,
        buffer_len: usize,
        count: *mut usize,
    ) -> u32;
    fn ipnet_info(
        network: *const u8,
        network_len: usize,
        form: u32,
        buffer: *mut u8,
        buffer_len: usize,
        count: *mut usize,
    ) -> u32;
    pub fn ipnet_aggregate_text(
        text: *const u8,
        text_len: usize,
        buffer: *mut u8,
        buffer_len: usize,
        count: *mut usize,
    ) -> u32;
    pub fn ipnet_aggregate_text_legacy(
        text: *const u8,
        text_len: usize,
        buffer: *mut u8,
        buffer_len: usize,
        count: *mut usize,
    ) -> u32;
    pub fn ipnet_union_text(
        text: *const u8,
        text_len: usize,
        other: *const u8,
        other_len: usize,
        buffer: *mut u8,
        buffer_len: usize,
        count: *mut usize,
    ) -> u32;
    pub fn ipnet_intersection_text(
        text: *const u8,
        text_len: usize,
        other: *const u8,
        other_len: usize,
        buffer: *mut u8,
        buffer_len: usize,
        count: *mut usize,
    ) -> u32;
    pub fn ipnet_difference_text(
        text: *const u8,
        text_len: usize,
        other: *const u8,
        other_len: usize,
        buffer: *mut u8,
        buffer_len: usize,
        count: *mut usize,
    ) -> u32;
    fn ipnet_same_addresses(
        text: *const u8,
        text_len: usize,
        other: *const u8,
        other_len: usize,
        same: *mut u8,
        line: *mut usize,
    ) -> u32;
    fn ipnet_is_covered(
        text: *const u8,
        text_len: usize,
        network: *const u8,
        network_len: usize,
        covered: *mut u8,
        line: *mut usize,
    ) -> u32;
    pub fn ipnet_parse(
        text: *const u8,
        text_len: usize,
        buffer: *mut u8,
        buffer_len: usize,
        count: *mut usize,
    ) -> u32;
    pub fn ipnet_parse_legacy(
        text: *const u8,
        text_len: usize,
        buffer: *mut u8,
        buffer_len: usize,
        count: *mut usize,
    ) -> u32;
    fn ipnet_print(
        network: *const u8,
        network_len: usize,
        buffer: *mut u8,
        buffer_len: usize,
        count: *mut usize,
    ) -> u32;
    pub fn ipnet_set_from_text(
        text: *const u8,
        text_len: usize,
        buffer: *mut u8,
        buffer_len: usize,
        count: *mut usize,
    ) -> u32;
    pub fn ipnet_set_from_text_legacy(
        text: *const u8,
        text_len: usize,
        buffer: *mut u8,
        buffer_len: usize,
        count: *mut usize,
    ) -> u32;
    pub fn ipnet_set_from_list_legacy(
        text: *const u8,
        text_len: usize,
        buffer: *mut u8,
        buffer_len: usize,
        count: *mut usize,
    ) -> u32;
    pub fn ipnet_set_from_list(
        text: *const u8,
        text_len: usize,
        buffer: *mut u8,
        buffer_len: usize,
        count: *mut usize,
    ) -> u32;
    pub fn ipnet_set_to_text(
        set: *const u8,
        set_len: usize,
        buffer: *mut u8,
        buffer_len: usize,
        count: *mut usize,
    ) -> u32;
    pub fn ipnet_set_to_ranges(
        set: *const u8,
        set_len: usize,
        buffer: *mut u8,
        buffer_len: usize,
        count: *mut usize,
    ) -> u32;
    pub fn ipnet_set_complement(
        set: *const u8,
        set_len: usize,
        buffer: *mut u8,
        buffer_len: usize,
        count: *mut usize,
    ) -> u32;
    pub fn ipnet_set_union(
        set: *const u8,
        set_len: usize,
        other: *const u8,
        other_len: usize,
        buffer: *mut u8,
        buffer_len: usize,
        count: *mut usize,
    ) -> u32;
    pub fn ipnet_set_intersection(
        set: *const u8,
        set_len: usize,
        other: *const u8,
        other_len: usize,
        buffer: *mut u8,
        buffer_len: usize,
        count: *mut usize,
    ) -> u32;
    pub fn ipnet_set_difference(
        set: *const u8,
        set_len: usize,
        other: *const u8,
        other_len: usize,
        buffer: *mut u8,
        buffer_len: usize,
        count: *mut usize,
    ) -> u32;
    pub fn ipnet_set_symmetric_difference(
        set: *const u8,
        set_len: usize,
        other: *const u8,
        other_len: usize,
        buffer: *mut u8,
        buffer_len: usize,
        count: *mut usize,
    ) -> u32;
    fn ipnet_set_check(set: *const u8, set_len: usize) -> u32;
    fn ipnet_set_contains(set: *const u8, set_len: usize, address: *const u8, address_len: usize) -> u32;
    fn ipnet_set_covers(set: *const u8, set_len: usize, network: *const u8, network_len: usize) -> u32;
    fn ipnet_set_contains_all(
        set: *const u8,
        set_len: usize,
        addresses: *const u8,
        addresses_len: usize,
        width: usize,
        answers: *mut u8,
        answers_len: usize,
    ) -> u32;
    fn ipnet_set_covers_all(
        set: *const u8,
        set_len: usize,
        networks: *const u8,
        networks_len: usize,
        width: usize,
        answers: *mut u8,
        answers_len: usize,
    ) -> u32;
    fn ipnet_set_counts(set: *const u8, set_len: usize, counts: *mut u64, counts_len: usize) -> u32;
    fn ipnet_set_is_subset(set: *const u8, set_len: usize, other: *const u8, other_len: usize) -> u32;
    fn ipnet_set_range_rows(
        set: *const u8,
        set_len: usize,
        families: *mut u8,
        families_len: usize,
        octets: *mut u8,
        octets_len: usize,
        count: *mut usize,
    ) -> u32;
    fn ipnet_rows_from_lines(
        text: *const u8,
        text_len: usize,
        families: *mut u8,
        families_len: usize,
        octets: *mut u8,
        octets_len: usize,
        bad: *mut usize,
    ) -> u32;
    fn ipnet_rows_from_offsets(
        text: *const u8,
        text_len: usize,
        offsets: *const u8,
        offsets_len: usize,
        families: *mut u8,
        families_len: usize,
        octets: *mut u8,
        octets_len: usize,
        bad: *mut usize,
    ) -> u32;
    fn ipnet_table_from_text(
        text: *const u8,
        text_len: usize,
        values: *const u32,
        values_len: usize,
        buffer: *mut u8,
        buffer_len: usize,
        count: *mut usize,
    ) -> u32;
    fn ipnet_table_check(table: *const u8, table_len: usize) -> u32;
    fn ipnet_table_count(table: *const u8, table_len: usize, count: *mut usize) -> u32;
    fn ipnet_table_networks(
        table: *const u8,
        table_len: usize,
        start: usize,
        families: *mut u8,
        families_len: usize,
        octets: *mut u8,
        octets_len: usize,
        lengths: *mut u8,
        lengths_len: usize,
    ) -> u32;
    fn ipnet_table_values(
        table: *const u8,
        table_len: usize,
        start: usize,
        values: *mut u32,
        values_len: usize,
    ) -> u32;
    fn ipnet_table_with_values(
        table: *const u8,
        table_len: usize,
        values: *const u32,
        values_len: usize,
        buffer: *mut u8,
        buffer_len: usize,
        count: *mut usize,
    ) -> u32;
    fn ipnet_table_longest_match(
        table: *const u8,
        table_len: usize,
        address: *const u8,
        address_len: usize,
        value: *mut u32,
    ) -> u32;
    fn ipnet_table_longest_route(
        table: *const u8,
        table_len: usize,
        address: *const u8,
        address_len: usize,
        network: *mut u8,
        network_len: usize,
        value: *mut u32,
    ) -> u32;
    fn ipnet_table_longest_covering(
        table: *const u8,
        table_len: usize,
        network: *const u8,
        network_len: usize,
        covering: *mut u8,
        covering_len: usize,
        value: *mut u32,
    ) -> u32;
    fn ipnet_table_longest_match_all(
        table: *const u8,
        table_len: usize,
        addresses: *const u8,
        addresses_len: usize,
        width: usize,
        missing: u32,
        values: *mut u32,
        values_len: usize,
    ) -> u32;
    pub fn ipnet_set_contains_u32(
        set: *const u8,
        set_len: usize,
        addresses: *const u32,
        addresses_len: usize,
        answers: *mut u8,
        answers_len: usize,
    ) -> u32;
    pub fn ipnet_set_contains_rows(
        set: *const u8,
        set_len: usize,
        families: *const u8,
        families_len: usize,
        octets: *const u8,
        octets_len: usize,
        answers: *mut u8,
        answers_len: usize,
    ) -> u32;
    pub fn ipnet_table_longest_match_u32(
        table: *const u8,
        table_len: usize,
        addresses: *const u32,
        addresses_len: usize,
        missing: u32,
        values: *mut u32,
        values_len: usize,
    ) -> u32;
    pub fn ipnet_table_longest_match_rows(
        table: *const u8,
        table_len: usize,
        families: *const u8,
        families_len: usize,
        octets: *const u8,
        octets_len: usize,
        missing: u32,
        values: *mut u32,
        values_len: usize,
    ) -> u32;
    fn ipnet_origins_from_rows(
        families: *const u8,
        families_len: usize,
        octets: *const u8,
        octets_len: usize,
        lengths: *const u8,
        lengths_len: usize,
        max_lens: *const u8,
        max_lens_len: usize,
        asns: *const u32,
        asns_len: usize,
        buffer: *mut u8,
        buffer_len: usize,
        count: *mut usize,
    ) -> u32;
    fn ipnet_origins_count(origins: *const u8, origins_len: usize, count: *mut usize) -> u32;
    fn ipnet_origins_validity(
        origins: *const u8,
        origins_len: usize,
        families: *const u8,
        families_len: usize,
        octets: *const u8,
        octets_len: usize,
        lengths: *const u8,
        lengths_len: usize,
        asns: *const u32,
        asns_len: usize,
        answers: *mut u8,
        answers_len: usize,
    ) -> u32;
    pub fn ipnet_unmap_rows(families: *mut u8, families_len: usize, octets: *mut u8, octets_len: usize) -> u32;
    pub fn ipnet_truncate_rows(
        ipv4_length: u32,
        ipv6_length: u32,
        families: *const u8,
        families_len: usize,
        octets: *mut u8,
        octets_len: usize,
    ) -> u32;
}

/// The version of the library as one number.
pub fn version() -> u32 {
    // SAFETY: the function takes nothing.
    unsafe { ipnet_version() }
}

/// The byte form of a network.
#[derive(Default)]
pub struct Bytes {
    bytes: [u8; MAX_BYTES],
    len: usize,
}

impl Bytes {
    pub fn push(&mut self, byte: u8) {
        self.extend(&[byte]);
    }

    /// Callers add at most 18 bytes in total: a byte for the family, 4 or 16 octets, and a prefix length.
    pub fn extend(&mut self, more: &[u8]) {
        self.bytes[self.len..self.len + more.len()].copy_from_slice(more);
        self.len += more.len();
    }

    pub fn as_slice(&self) -> &[u8] {
        &self.bytes[..self.len]
    }
}

/// The error for a status and the line number reported with it. The statuses for invalid UTF-8 cannot occur for a
/// `str`, and the statuses for invalid bytes, except a wrong length, cannot occur for a [`crate::Network`].
fn error_of(status: u32, line: usize) -> Error {
    match status {
        BAD_LINE => Error::BadLine(line),
        BAD_LINE_IN_OTHER => Error::BadLineInOther(line),
        OUT_OF_MEMORY => Error::OutOfMemory,
        PREFIX_TOO_LONG => Error::PrefixTooLong,
        NOT_A_SET => Error::NotASet,
        NOT_A_TABLE => Error::NotATable,
        WRONG_LENGTH => Error::WrongLength,
        BAD_OFFSETS => Error::BadOffsets,
        BAD_ROW => Error::BadRow(line),
        NOT_ORIGINS => Error::NotOrigins,
        NO_ADDRESS => Error::NoAddress,
        NO_PLACE => Error::NoPlace,
        _ => Error::NotANetwork,
    }
}

/// Calls the function, and returns the status and the count or line number.
fn call(into_buffer: IntoBuffer, text: &[u8], buffer: &mut [u8]) -> (u32, usize) {
    let mut count = 0;
    // SAFETY: the pointers and lengths belong to two slices and a variable. They live through the call. They do not
    // overlap, because two of them are borrowed mutably. A pointer to a slice or a variable is never null.
    let status =
        unsafe { into_buffer(text.as_ptr(), text.len(), buffer.as_mut_ptr(), buffer.len(), &mut count) };
    (status, count)
}

/// The bytes that `call` writes. They are usually not more than `expected`. If they are, the first call reports their
/// number and a second one writes them.
fn answer(expected: usize, call: impl Fn(&mut [u8]) -> (u32, usize)) -> Result<Vec<u8>, Error> {
    let mut buffer = Vec::new();
    grow(&mut buffer, expected.saturating_add(1))?;
    loop {
        let (status, count) = call(&mut buffer);
        match status {
            OK => {
                buffer.truncate(count);
                return Ok(buffer);
            }
            BUFFER_TOO_SHORT => grow(&mut buffer, count)?,
            _ => return Err(error_of(status, count)),
        }
    }
}

/// The bytes of a result as text.
fn text_of(bytes: Vec<u8>) -> Result<String, Error> {
    String::from_utf8(bytes).map_err(|_| Error::NotANetwork)
}

/// Aggregates a list, or prints the networks of an image.
pub fn text_from(given: &[u8], into_buffer: IntoBuffer) -> Result<String, Error> {
    text_of(bytes_from(given, given.len(), into_buffer)?)
}

/// Calls a function that makes bytes of bytes.
pub fn bytes_from(given: &[u8], expected: usize, into_buffer: IntoBuffer) -> Result<Vec<u8>, Error> {
    answer(expected, |buffer| call(into_buffer, given, buffer))
}

/// Computes a union, intersection or difference of two lists.
pub fn combine_texts(text: &str, other: &str, into_buffer: BothIntoBuffer) -> Result<String, Error> {
    text_of(combine(text.as_bytes(), other.as_bytes(), into_buffer)?)
}

/// Calls a function that makes bytes of two texts or two images.
pub fn combine(text: &[u8], other: &[u8], into_buffer: BothIntoBuffer) -> Result<Vec<u8>, Error> {
    answer(text.len().saturating_add(other.len()), |buffer| {
        let mut count = 0;
        // SAFETY: as in `call`. The two texts are only read, so they may overlap.
        let status = unsafe {
            into_buffer(
                text.as_ptr(),
                text.len(),
                other.as_ptr(),
                other.len(),
                buffer.as_mut_ptr(),
                buffer.len(),
                &mut count,
            )
        };
        (status, count)
    })
}

/// The length of the buffer for a picture or for facts: most fit, and the others are made twice.
const PICTURE_LEN: usize = 1 << 19;
const TEXT_LEN: usize = 1 << 13;

/// Draws the set of a tested image. `network` has the bytes for the network that is shown.
pub fn draw(set: &[u8], network: &[u8], options: u32, draw: Draw) -> Result<String, Error> {
    text_of(answer(PICTURE_LEN, |buffer| {
        let mut count = 0;
        // SAFETY: as in `call`.
        let status = unsafe {
            draw(
                set.as_ptr(),
                set.len(),
                network.as_ptr(),
                network.len(),
                options,
                buffer.as_mut_ptr(),
                buffer.len(),
                &mut count,
            )
        };
        (status, count)
    })?)
}

/// Like [`draw`], for the sets of two tested images.
pub fn draw_both(images: (&[u8], &[u8]), network: &[u8], options: u32, draw: DrawBoth) -> Result<String, Error> {
    let (set, other) = images;
    text_of(answer(PICTURE_LEN, |buffer| {
        let mut count = 0;
        // SAFETY: as in `call`. The two images are only read, so they may overlap.
        let status = unsafe {
            draw(
                set.as_ptr(),
                set.len(),
                other.as_ptr(),
                other.len(),
                network.as_ptr(),
                network.len(),
                options,
                buffer.as_mut_ptr(),
                buffer.len(),
                &mut count,
            )
        };
        (status, count)
    })?)
}

/// Networks of these prefix lengths in the set of a tested image, as text. The family is 4 or 6.
pub fn set_plan(set: &[u8], family: u32, lengths: &[u8]) -> Result<String, Error> {
    text_of(answer(lengths.len().saturating_mul(MAX_TEXT + 1), |buffer| {
        let mut count = 0;
        // SAFETY: as in `call`.
        let status = unsafe {
            ipnet_set_plan(
                set.as_ptr(),
                set.len(),
                family,
                lengths.as_ptr(),
                lengths.len(),
                buffer.as_mut_ptr(),
                buffer.len(),
                &mut count,
            )
        };
        (status, count)
    })?)
}

/// The facts about the network in byte form, in the form with this number.
pub fn info(network: &[u8], form: u32) -> Result<String, Error> {
    text_of(answer(TEXT_LEN, |buffer| {
        let mut count = 0;
        // SAFETY: as in `call`.
        let status = unsafe {
            ipnet_info(network.as_ptr(), network.len(), form, buffer.as_mut_ptr(), buffer.len(), &mut count)
        };
        (status, count)
    })?)
}

/// Extends the buffer to `len` items.
pub fn grow<T: Clone + Default>(buffer: &mut Vec<T>, len: usize) -> Result<(), Error> {
    buffer.try_reserve_exact(len - buffer.len()).map_err(|_| Error::OutOfMemory)?;
    buffer.resize(len, T::default());
    Ok(())
}

/// Parses the text of a network and returns its byte form.
pub fn parse(text: &str, into_buffer: IntoBuffer) -> Result<Bytes, Error> {
    let mut bytes = Bytes::default();
    let (status, count) = call(into_buffer, text.as_bytes(), &mut bytes.bytes);
    match status {
        OK => {
            bytes.len = count;
            Ok(bytes)
        }
        NOT_A_NETWORK => Err(Error::NotANetwork),
        _ => Err(error_of(status, count)),
    }
}

/// Prints a network in byte form, and passes the text to `write`.
pub fn print(network: &[u8], write: impl FnOnce(&str) -> fmt::Result) -> fmt::Result {
    let mut buffer = [0; MAX_TEXT];
    let (status, count) = call(ipnet_print, network, &mut buffer);
    let text = buffer.get(..count).map(str::from_utf8);
    match (status, text) {
        (OK, Some(Ok(text))) => write(text),
        _ => Err(fmt::Error),
    }
}

/// Whether two lists cover the same addresses.
pub fn same_addresses(text: &str, other: &str) -> Result<bool, Error> {
    let (mut same, mut line) = (0, 0);
    // SAFETY: as in `call`. The two texts are only read, so they may overlap.
    let status = unsafe {
        ipnet_same_addresses(text.as_ptr(), text.len(), other.as_ptr(), other.len(), &mut same, &mut line)
    };
    match status {
        OK => Ok(same == 1),
        _ => Err(error_of(status, line)),
    }
}

/// Whether a list covers every address of the network.
pub fn is_covered(text: &str, network: &[u8]) -> Result<bool, Error> {
    let (mut covered, mut line) = (0, 0);
    // SAFETY: as in `call`.
    let status = unsafe {
        ipnet_is_covered(text.as_ptr(), text.len(), network.as_ptr(), network.len(), &mut covered, &mut line)
    };
    match status {
        OK => Ok(covered == 1),
        _ => Err(error_of(status, line)),
    }
}

/// Tests that the bytes are the image of a set.
pub fn check_set(set: &[u8]) -> Result<(), Error> {
    // SAFETY: as in `call`.
    match unsafe { ipnet_set_check(set.as_ptr(), set.len()) } {
        OK => Ok(()),
        status => Err(error_of(status, 0)),
    }
}

/// Whether the set of a tested image contains the address with these octets, 4 or 16.
pub fn set_contains(set: &[u8], octets: &[u8]) -> bool {
    // SAFETY: as in `call`.
    unsafe { ipnet_set_contains(set.as_ptr(), set.len(), octets.as_ptr(), octets.len()) == 1 }
}

/// Whether the set of a tested image contains every address of the network in byte form.
pub fn set_covers(set: &[u8], network: &[u8]) -> bool {
    // SAFETY: as in `call`.
    unsafe { ipnet_set_covers(set.as_ptr(), set.len(), network.as_ptr(), network.len()) == 1 }
}

/// Writes 1 or 0 for each address of `width` octets. The lengths fit.
pub fn set_contains_all(set: &[u8], addresses: &[u8], width: usize, answers: &mut [u8]) {
    // SAFETY: as in `call`.
    unsafe {
        ipnet_set_contains_all(
            set.as_ptr(),
            set.len(),
            addresses.as_ptr(),
            addresses.len(),
            width,
            answers.as_mut_ptr(),
            answers.len(),
        );
    }
}

/// Writes 1 or 0 for each network in byte form of `width` bytes. The lengths fit, and the bytes are networks.
pub fn set_covers_all(set: &[u8], networks: &[u8], width: usize, answers: &mut [u8]) {
    // SAFETY: as in `call`.
    unsafe {
        ipnet_set_covers_all(
            set.as_ptr(),
            set.len(),
            networks.as_ptr(),
            networks.len(),
            width,
            answers.as_mut_ptr(),
            answers.len(),
        );
    }
}

/// The number of IPv4 addresses of the set of an image, and three digits of the number of IPv6 addresses.
pub fn set_counts(set: &[u8]) -> Result<[u64; 4], Error> {
    let mut counts = [0; 4];
    // SAFETY: as in `call`.
    match unsafe { ipnet_set_counts(set.as_ptr(), set.len(), counts.as_mut_ptr(), counts.len()) } {
        OK => Ok(counts),
        status => Err(error_of(status, 0)),
    }
}

/// Whether the first set is a subset of the second.
pub fn set_is_subset(set: &[u8], other: &[u8]) -> Result<bool, Error> {
    // SAFETY: as in `call`. The two images are only read, so they may overlap.
    match unsafe { ipnet_set_is_subset(set.as_ptr(), set.len(), other.as_ptr(), other.len()) } {
        answer @ (0 | 1) => Ok(answer == 1),
        status => Err(error_of(status, 0)),
    }
}

/// The ends of the fewest ranges of a set as rows: their families, and 16 octets for each.
pub fn set_range_rows(set: &[u8]) -> Result<(Vec<u8>, Vec<u8>), Error> {
    // for an image of n bytes, n / 4 rows are always enough
    let (rows, mut count) = (set.len() / 4, 0);
    let (mut families, mut octets) = (Vec::new(), Vec::new());
    grow(&mut families, rows)?;
    grow(&mut octets, rows.saturating_mul(16))?;
    // SAFETY: as in `call`.
    let status = unsafe {
        ipnet_set_range_rows(
            set.as_ptr(),
            set.len(),
            families.as_mut_ptr(),
            families.len(),
            octets.as_mut_ptr(),
            octets.len(),
            &mut count,
        )
    };
    if status != OK {
        return Err(error_of(status, count));
    }
    families.truncate(count.saturating_mul(2));
    octets.truncate(count.saturating_mul(32));
    Ok((families, octets))
}

/// The image of the table of the networks of a text, each with the value at its place. There are as many values as
/// networks.
pub fn table_from(text: &str, values: &[u32]) -> Result<Vec<u8>, Error> {
    answer(values.len().saturating_mul(24).saturating_add(44), |buffer| {
        let mut count = 0;
        // SAFETY: as in `call`.
        let status = unsafe {
            ipnet_table_from_text(
                text.as_ptr(),
                text.len(),
                values.as_ptr(),
                values.len(),
                buffer.as_mut_ptr(),
                buffer.len(),
                &mut count,
            )
        };
        (status, count)
    })
}

/// Tests that the bytes are the image of a table.
pub fn check_table(table: &[u8]) -> Result<(), Error> {
    // SAFETY: as in `call`.
    match unsafe { ipnet_table_check(table.as_ptr(), table.len()) } {
        OK => Ok(()),
        status => Err(error_of(status, 0)),
    }
}

/// The number of routes of the table of an image.
pub fn table_count(table: &[u8]) -> Result<usize, Error> {
    let mut count = 0;
    // SAFETY: as in `call`.
    match unsafe { ipnet_table_count(table.as_ptr(), table.len(), &mut count) } {
        OK => Ok(count),
        status => Err(error_of(status, 0)),
    }
}

/// The networks of all routes of a table as rows: their families, 16 octets for each, and their prefix lengths.
pub fn table_networks(table: &[u8]) -> Result<[Vec<u8>; 3], Error> {
    let count = table_count(table)?;
    let (mut families, mut octets, mut lengths) = (Vec::new(), Vec::new(), Vec::new());
    grow(&mut families, count)?;
    grow(&mut octets, count.saturating_mul(16))?;
    grow(&mut lengths, count)?;
    // SAFETY: as in `call`.
    let status = unsafe {
        ipnet_table_networks(
            table.as_ptr(),
            table.len(),
            0,
            families.as_mut_ptr(),
            families.len(),
            octets.as_mut_ptr(),
            octets.len(),
            lengths.as_mut_ptr(),
            lengths.len(),
        )
    };
    if status == OK { Ok([families, octets, lengths]) } else { Err(error_of(status, 0)) }
}

/// The values of all routes of a table, in the order of [`table_networks`].
pub fn table_values(table: &[u8]) -> Result<Vec<u32>, Error> {
    let mut values = Vec::new();
    grow(&mut values, table_count(table)?)?;
    // SAFETY: as in `call`.
    match unsafe { ipnet_table_values(table.as_ptr(), table.len(), 0, values.as_mut_ptr(), values.len()) } {
        OK => Ok(values),
        status => Err(error_of(status, 0)),
    }
}

/// The image of the table with the same networks and these values.
pub fn table_with_values(table: &[u8], values: &[u32]) -> Result<Vec<u8>, Error> {
    answer(table.len(), |buffer| {
        let mut count = 0;
        // SAFETY: as in `call`.
        let status = unsafe {
            ipnet_table_with_values(
                table.as_ptr(),
                table.len(),
                values.as_ptr(),
                values.len(),
                buffer.as_mut_ptr(),
                buffer.len(),
                &mut count,
            )
        };
        (status, count)
    })
}

/// The value of the longest match for the address with these octets, 4 or 16.
pub fn table_longest_match(table: &[u8], octets: &[u8]) -> Option<u32> {
    let mut value = 0;
    // SAFETY: as in `call`.
    let status = unsafe {
        ipnet_table_longest_match(table.as_ptr(), table.len(), octets.as_ptr(), octets.len(), &mut value)
    };
    (status == 1).then_some(value)
}

/// The byte form and the value of the longest network that contains the address with these octets, 4 or 16.
pub fn table_longest_route(table: &[u8], octets: &[u8]) -> Option<(Bytes, u32)> {
    let mut network = Bytes::default();
    let mut value = 0;
    // SAFETY: as in `call`.
    let status = unsafe {
        ipnet_table_longest_route(
            table.as_ptr(),
            table.len(),
            octets.as_ptr(),
            octets.len(),
            network.bytes.as_mut_ptr(),
            network.bytes.len(),
            &mut value,
        )
    };
    network.len = if network.bytes[0] == 0 { 6 } else { MAX_BYTES };
    (status == 1).then_some((network, value))
}

/// The byte form and the value of the longest network that contains every address of the network in byte form.
pub fn table_longest_covering(table: &[u8], network: &[u8]) -> Option<(Bytes, u32)> {
    let mut covering = Bytes::default();
    let mut value = 0;
    // SAFETY: as in `call`.
    let status = unsafe {
        ipnet_table_longest_covering(
            table.as_ptr(),
            table.len(),
            network.as_ptr(),
            network.len(),
            covering.bytes.as_mut_ptr(),
            covering.bytes.len(),
            &mut value,
        )
    };
    covering.len = if covering.bytes[0] == 0 { 6 } else { MAX_BYTES };
    (status == 1).then_some((covering, value))
}

/// Reads a row from each line of the text: a byte of `families` and 16 of `octets`. Returns the number of rows that are
/// not an address.
pub fn rows_from_lines(text: &[u8], families: &mut [u8], octets: &mut [u8]) -> Result<usize, Error> {
    let mut bad = 0;
    // SAFETY: as in `call`.
    let status = unsafe {
        ipnet_rows_from_lines(
            text.as_ptr(),
            text.len(),
            families.as_mut_ptr(),
            families.len(),
            octets.as_mut_ptr(),
            octets.len(),
            &mut bad,
        )
    };
    match status {
        OK => Ok(bad),
        status => Err(error_of(status, 0)),
    }
}

/// Reads a row from each text between two offsets, as [`rows_from_lines`] does from lines. The offsets have 4 or 8 bytes
/// each, in the order of x86-64, on which the library runs.
pub fn rows_from_offsets<T: Offset>(
    text: &[u8],
    offsets: &[T],
    families: &mut [u8],
    octets: &mut [u8],
) -> Result<usize, Error> {
    let mut bad = 0;
    // SAFETY: as in `call`. `Offset` is `u32` or `u64`, so the bytes of the offsets may be read.
    let status = unsafe {
        ipnet_rows_from_offsets(
            text.as_ptr(),
            text.len(),
            offsets.as_ptr().cast(),
            std::mem::size_of_val(offsets),
            families.as_mut_ptr(),
            families.len(),
            octets.as_mut_ptr(),
            octets.len(),
            &mut bad,
        )
    };
    match status {
        OK => Ok(bad),
        status => Err(error_of(status, 0)),
    }
}

/// The types of offsets: `u32` and `u64`.
pub trait Offset: sealed::Sealed {}

impl Offset for u32 {}
impl Offset for u64 {}

mod sealed {
    pub trait Sealed {}
    impl Sealed for u32 {}
    impl Sealed for u64 {}
}

/// Writes the value of the longest match for each address of `width` octets, or `missing`. The lengths fit.
pub fn table_longest_match_all(table: &[u8], addresses: &[u8], width: usize, missing: u32, values: &mut [u32]) {
    // SAFETY: as in `call`.
    unsafe {
        ipnet_table_longest_match_all(
            table.as_ptr(),
            table.len(),
            addresses.as_ptr(),
            addresses.len(),
            width,
            missing,
            values.as_mut_ptr(),
            values.len(),
        );
    }
}

/// Networks with AS numbers as columns: a family, 16 octets, a prefix length and an AS number for each.
pub struct Columns {
    pub families: Vec<u8>,
    pub octets: Vec<u8>,
    pub lengths: Vec<u8>,
    pub asns: Vec<u32>,
}

/// The image of the table of the payloads of the rows with these greatest lengths.
pub fn origins_from(rows: &Columns, max_lens: &[u8]) -> Result<Vec<u8>, Error> {
    answer(max_lens.len().saturating_mul(32).saturating_add(24), |buffer| {
        let mut count = 0;
        // SAFETY: as in `call`.
        let status = unsafe {
            ipnet_origins_from_rows(
                rows.families.as_ptr(),
                rows.families.len(),
                rows.octets.as_ptr(),
                rows.octets.len(),
                rows.lengths.as_ptr(),
                rows.lengths.len(),
                max_lens.as_ptr(),
                max_lens.len(),
                rows.asns.as_ptr(),
                rows.asns.len(),
                buffer.as_mut_ptr(),
                buffer.len(),
                &mut count,
            )
        };
        (status, count)
    })
}

/// The number of payloads of the table of an image.
pub fn origins_count(origins: &[u8]) -> Result<usize, Error> {
    let mut count = 0;
    // SAFETY: as in `call`.
    match unsafe { ipnet_origins_count(origins.as_ptr(), origins.len(), &mut count) } {
        OK => Ok(count),
        status => Err(error_of(status, 0)),
    }
}

/// The answer for each route of the rows.
pub fn origins_validity(origins: &[u8], rows: &Columns) -> Result<Vec<u8>, Error> {
    let mut answers = Vec::new();
    grow(&mut answers, rows.families.len())?;
    // SAFETY: as in `call`.
    let status = unsafe {
        ipnet_origins_validity(
            origins.as_ptr(),
            origins.len(),
            rows.families.as_ptr(),
            rows.families.len(),
            rows.octets.as_ptr(),
            rows.octets.len(),
            rows.lengths.as_ptr(),
            rows.lengths.len(),
            rows.asns.as_ptr(),
            rows.asns.len(),
            answers.as_mut_ptr(),
            answers.len(),
        )
    };
    if status == OK { Ok(answers) } else { Err(error_of(status, 0)) }
}
