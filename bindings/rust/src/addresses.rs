//! Addresses as patterns: IPv4 of 32 bits and IPv6 of 128, the first octet or group in the highest bits, as the original reads them.

use std::error::Error;
use std::fmt;
use std::net::{IpAddr, Ipv4Addr, Ipv6Addr};
use std::str::FromStr;

use crate::{bits, Pattern};

/// The 32 bits of an address, least significant first: the first octet is in the highest eight.
///
/// ```
/// use netkat::{bits, bits_of_ipv4};
///
/// let address = "10.0.0.5".parse().unwrap();
/// assert_eq!(bits_of_ipv4(address), bits(0x0a00_0005, 32));
/// ```
pub fn bits_of_ipv4(address: Ipv4Addr) -> Vec<bool> {
    bits(u32::from(address).into(), 32)
}

/// The 128 bits of an address, least significant first: the first group is in the highest sixteen.
///
/// ```
/// use netkat::{bits, bits_of_ipv6};
///
/// let address = "2001:db8::5".parse().unwrap();
/// assert_eq!(bits_of_ipv6(address), bits(0x2001_0db8 << 96 | 5, 128));
/// ```
pub fn bits_of_ipv6(address: Ipv6Addr) -> Vec<bool> {
    bits(address.into(), 128)
}

/// Patterns for a range of 32 fields that holds an IPv4 address, or of 128 that holds an IPv6 address.
///
/// ```
/// use std::net::Ipv4Addr;
/// use netkat::{Expr, Pattern};
///
/// let net = Ipv4Addr::new(10, 1, 0, 0);
/// let patterns = [
///     Pattern::ipv4(net),
///     Pattern::ipv4_prefix(net, 16),
///     Pattern::ipv4_range(net, Ipv4Addr::new(10, 1, 0, 99)),
///     Pattern::ipv4_wildcard(net, Ipv4Addr::new(0, 0, 255, 255)),
/// ];
/// for pattern in patterns {
///     assert_eq!(pattern.to_string().parse(), Ok(pattern.clone()));
///     assert_eq!(Expr::bit_range_match(0, 32, pattern).check(), Ok(true));
/// }
/// ```
///
/// Text is read by [`str::parse`]; see [`ParsePatternError`] for what it can be. The text that a pattern is written as is that of the original's syntax, which
/// has no IPv6: such patterns are written as numbers and not read back.
impl Pattern {
    /// This address alone.
    pub fn ipv4(address: Ipv4Addr) -> Self {
        Pattern::Exact(bits_of_ipv4(address))
    }

    /// The addresses that agree with `address` in the highest `prefix_len` bits; its other bits are not looked at. A prefix above 32 is
    /// refused by 17 when the pattern is used.
    pub fn ipv4_prefix(address: Ipv4Addr, prefix_len: usize) -> Self {
        Pattern::Cidr { address: bits_of_ipv4(address), prefix_len }
    }

    /// The addresses from `first` to `last`, both included. If `first` is above `last`, that is refused by 21 when the pattern is used.
    pub fn ipv4_range(first: Ipv4Addr, last: Ipv4Addr) -> Self {
        Pattern::IpRange { start: bits_of_ipv4(first), end: bits_of_ipv4(last) }
    }

    /// The addresses that agree with `address` where the mask's bit is 0, as in access lists: a mask of 0.0.0.255 leaves the last octet
    /// free. This is the inverse of a netmask.
    pub fn ipv4_wildcard(address: Ipv4Addr, mask: Ipv4Addr) -> Self {
        Pattern::Wildcard { address: bits_of_ipv4(address), mask: bits_of_ipv4(mask) }
    }

    /// As [`Pattern::ipv4`], with 128 bits.
    pub fn ipv6(address: Ipv6Addr) -> Self {
        Pattern::Exact(bits_of_ipv6(address))
    }

    /// As [`Pattern::ipv4_prefix`], with 128 bits.
    pub fn ipv6_prefix(address: Ipv6Addr, prefix_len: usize) -> Self {
        Pattern::Cidr { address: bits_of_ipv6(address), prefix_len }
    }

    /// As [`Pattern::ipv4_range`], with 128 bits.
    pub fn ipv6_range(first: Ipv6Addr, last: Ipv6Addr) -> Self {
        Pattern::IpRange { start: bits_of_ipv6(first), end: bits_of_ipv6(last) }
    }

    /// As [`Pattern::ipv4_wildcard`], with 128 bits.
    pub fn ipv6_wildcard(address: Ipv6Addr, mask: Ipv6Addr) -> Self {
        Pattern::Wildcard { address: bits_of_ipv6(address), mask: bits_of_ipv6(mask) }
    }
}

/// Why a text is not a pattern of addresses.
///
/// Such a text is an address, an address with a prefix, two addresses, or an address with a wildcard mask, IPv4 or IPv6:
///
/// ```
/// use netkat::{ParsePatternError, Pattern};
///
/// for text in ["10.0.0.1", "10.0.0.0/8", "10.0.0.1-10.0.0.9", "10.0.0.0 mask 0.0.0.255", "2001:db8::/32", "::1 - ::9"] {
///     assert!(text.parse::<Pattern>().is_ok(), "{text}");
/// }
///
/// let error = "10.0.0.0/33".parse::<Pattern>().unwrap_err();
/// assert_eq!(error, ParsePatternError::Prefix { found: "33".into(), longest: 32 });
/// assert_eq!(error.to_string(), "a prefix is a number from 0 to 32, and \"33\" is not");
/// ```
///
/// Octets have no leading zeros, which the original allows. A range that runs backwards is read; it is refused by 21 when it is used.
#[derive(Clone, Debug, PartialEq, Eq)]
#[non_exhaustive]
pub enum ParsePatternError {
    /// This part is not an address.
    Address(String),
    /// The prefix is not a number from 0 to the width of the address.
    Prefix {
        /// The text behind the `/`.
        found: String,
        /// The width of the address.
        longest: usize,
    },
    /// One address is IPv4 and the other IPv6.
    MixedFamilies,
}

impl fmt::Display for ParsePatternError {
    fn fmt(&self, f: &mut fmt::Formatter<'_>) -> fmt::Result {
        match self {
            Self::Address(found) => write!(f, "{found:?} is not an IPv4 or IPv6 address"),
            Self::Prefix { found, longest } => write!(f, "a prefix is a number from 0 to {longest}, and {found:?} is not"),
            Self::MixedFamilies => f.write_str("one address is IPv4 and the other IPv6"),
        }
    }
}

impl Error for ParsePatternError {}

impl FromStr for Pattern {
    type Err = ParsePatternError;

    fn from_str(text: &str) -> Result<Self, Self::Err> {
        if let Some((address, prefix_len)) = text.split_once('/') {
            let address = address_bits(address)?;
            let prefix_len = prefix(prefix_len, address.len())?;
            return Ok(Pattern::Cidr { address, prefix_len });
        }
        if let Some((first, last)) = text.split_once('-') {
            let (start, end) = same_family(first, last)?;
            return Ok(Pattern::IpRange { start, end });
        }
        if let Some((address, mask)) = text.split_once(" mask ") {
            let (address, mask) = same_family(address, mask)?;
            return Ok(Pattern::Wildcard { address, mask });
        }
        address_bits(text).map(Pattern::Exact)
    }
}

fn address_bits(text: &str) -> Result<Vec<bool>, ParsePatternError> {
    match text.trim().parse() {
        Ok(IpAddr::V4(address)) => Ok(bits_of_ipv4(address)),
        Ok(IpAddr::V6(address)) => Ok(bits_of_ipv6(address)),
        Err(_) => Err(ParsePatternError::Address(text.trim().to_owned())),
    }
}

fn same_family(first: &str, second: &str) -> Result<(Vec<bool>, Vec<bool>), ParsePatternError> {
    let (first, second) = (address_bits(first)?, address_bits(second)?);
    if first.len() == second.len() {
        Ok((first, second))
    } else {
        Err(ParsePatternError::MixedFamilies)
    }
}

fn prefix(text: &str, longest: usize) -> Result<usize, ParsePatternError> {
    let digits = text.trim();
    // `parse` alone would take a sign.
    let number = if digits.bytes().all(|byte| byte.is_ascii_digit()) { digits.parse().ok() } else { None };
    number.filter(|number| *number <= longest).ok_or_else(|| ParsePatternError::Prefix { found: digits.to_owned(), longest })
}
