//! The operations on terms, cores and packets that are bytes already.
//!
//! Each answers as the function of `include/netkat.h` that has its name behind `netkat_`; buffers and work memory are allocated
//! here.
//!
//! ```
//! use netkat::bytes;
//!
//! let test = [0x49, 0x18, 2, 0, 0, 0, 2, 1]; // x[0..2] == 1/2
//! assert_eq!(bytes::check(&test), Ok(true));
//! assert_eq!(bytes::desugar(&test).unwrap(), [1, 8, 0x21, 6, 1, 5, 6, 1, 0, 0, 0]);
//! assert_eq!(bytes::check(&[1, 20]).unwrap_err().number, 12);
//! ```

use crate::limits::{MAX_LITERAL_BITS, MAX_RECORDS};
use crate::{desugarer, ffi, slots, CoreRecord, Refusal};

/// The most bytes of a literal, with its length.
const MAX_LITERAL_BYTES: usize = 1 + MAX_LITERAL_BITS.div_ceil(8);

/// No term of good form is longer: no record is longer than one with a map, a kind, start and end, a pattern and two literals.
const MAX_TERM_BYTES: usize = MAX_RECORDS * (1 + 1 + 4 + 4 + 1 + 2 * MAX_LITERAL_BYTES);

/// Form, then the rules 11 to 23. True if the term is a test.
pub fn check(term: &[u8]) -> Result<bool, Refusal> {
    ffi::check(term).map(|(first, _)| first == 1)
}

/// The bytes of the term's core, at the greatest allowance. The work memory is kept for the thread's next
/// call, as [`desugar()`](crate::desugar()) says. For another allowance see [`Desugarer`](crate::Desugarer).
pub fn desugar(term: &[u8]) -> Result<Vec<u8>, Refusal> {
    desugarer::with_kept(|desugarer| desugarer.desugar_bytes(term).map(|desugared| desugared.core.to_vec()))
}

/// The bytes of the term with each occurrence of the variable replaced that does not lie in the body of a Let or LetBitRange of
/// that name. A fault of the replacement's form is 31 to 38.
///
/// ```
/// use netkat::bytes;
///
/// let star_of_variable_1 = [1, 14, 3, 20, 1, 0];
/// let dup = [1, 3];
/// assert_eq!(bytes::substitute(&star_of_variable_1, 1, &dup).unwrap(), [1, 14, 1, 3]);
/// ```
pub fn substitute(term: &[u8], name: u16, replacement: &[u8]) -> Result<Vec<u8>, Refusal> {
    // A variable has two bytes or more, so there are not more of them than this.
    let occurrences = term.len() / 2;
    let enough = occurrences.saturating_mul(replacement.len()).saturating_add(term.len());
    let mut out = Vec::with_capacity(enough.min(MAX_TERM_BYTES));
    ffi::substitute(term, name, replacement, &mut out)?;
    out.shrink_to_fit();
    Ok(out)
}

/// Form only. True if the term is in the original's test fragment.
pub fn is_test_fragment(term: &[u8]) -> Result<bool, Refusal> {
    ffi::is_test_fragment(term).map(|(first, _)| first == 1)
}

/// The field count: the greatest of field + 1 of an Assign or Test and the end of a direct range or of a LetBitRange; 0 where
/// there is none. 25 for an Assign or Test of field 4,294,967,295.
pub fn num_fields(term: &[u8]) -> Result<u32, Refusal> {
    ffi::num_fields(term).map(|(first, _)| first)
}

/// What [`read_core`] reads.
#[derive(Clone, Debug, PartialEq, Eq)]
#[non_exhaustive]
pub struct CoreRecords {
    /// All records in prefix order, at least one. A kind says how many children follow.
    pub records: Vec<CoreRecord>,
    /// One more than the greatest field of an Assign or Test; 0 where there is none.
    pub num_fields: u32,
}

/// The records of a core and its field count, for a solver that has a table of its own; [`Core::from_bytes`](crate::Core::from_bytes)
/// makes the tree. Refused as that is. The list that the library writes them to is kept for the thread's next call.
///
/// ```
/// use netkat::{bytes, Kind};
///
/// let core = bytes::desugar(&[0x49, 0x18, 2, 0, 0, 0, 2, 1]).unwrap();
/// let read = bytes::read_core(&core).unwrap();
/// assert_eq!(read.num_fields, 2);
/// let records: Vec<_> = read.records.iter().map(|r| (r.kind, r.field, r.value)).collect();
/// assert_eq!(records, [(Kind::Intersect, 0, false), (Kind::Test, 0, true), (Kind::Test, 1, false)]);
/// ```
pub fn read_core(core: &[u8]) -> Result<CoreRecords, Refusal> {
    desugarer::with_kept(|desugarer| {
        let (numbers, num_fields) = desugarer.read_core(core)?;
        let records = slots::slots_of_records(numbers).map(|slot| CoreRecord::of(&slot)).collect();
        Ok(CoreRecords { records, num_fields })
    })
}

/// Which of 1 to 64 packets pass a core that is a test, for captures that lie in one piece of memory; for others see
/// [`Core::run`](crate::Core::run) and [`Core::run_all`](crate::Core::run_all). Bit i of the number is that of packet i. The packets lie end to
/// end, and `lengths` has the length of each in bytes. A packet that goes beyond the end of the slice is cut there, one that begins beyond
/// it is empty; bytes behind the last packet are not looked at.
///
/// ```
/// use netkat::bytes;
///
/// let field_8_is_set = [0x25, 6, 8, 0, 0, 0, 1];
/// let packets = [0, 1, 255, 0, 0, 255, 255, 255];
/// assert_eq!(bytes::run_packets(&field_8_is_set, &packets, &[2, 2, 4]), Ok(0b101));
/// assert_eq!(bytes::run_packets(&field_8_is_set, &packets[..5], &[2, 2, 4]).unwrap_err().number, 50);
/// ```
///
/// Refused as [`Core::from_bytes`](crate::Core::from_bytes) is, then by 48 for a core that is not a test, by 49 for no packet or more than
/// [`MAX_PACKETS`](crate::limits::MAX_PACKETS), and by 50 at the first packet that has fewer bits than the field count; the place of 50 is the
/// packet's index.
pub fn run_packets(core: &[u8], packets: &[u8], lengths: &[u32]) -> Result<u64, Refusal> {
    desugarer::with_kept(|desugarer| desugarer.run_packets(core, packets, lengths))
}
