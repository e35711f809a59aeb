//! The functions of libnetkat.a as safe functions on slices. The only file with unsafe code.
//!
//! The declarations follow include/netkat.h. A Rust slice meets what that file asks of a pointer and its length: the pointer is
//! never null, the elements are there, and the borrow rules keep a slice that is written apart from all others.
#![allow(unsafe_code)]

use std::ops::Range;

use crate::limits::MAX_CORE_RECORDS;
use crate::Refusal;

#[repr(C)]
struct Answer {
    number: u32,
    place: u32,
    first: u32,
    second: u32,
}

extern "C" {
    fn netkat_check(term: *const u8, term_len: usize) -> Answer;
    fn netkat_desugar(
        term: *const u8,
        term_len: usize,
        allowance: u32,
        work: *mut u32,
        work_len: usize,
        out: *mut u8,
        out_len: usize,
    ) -> Answer;
    fn netkat_substitute(
        term: *const u8,
        term_len: usize,
        name: u16,
        replacement: *const u8,
        replacement_len: usize,
        out: *mut u8,
        out_len: usize,
    ) -> Answer;
    fn netkat_is_test_fragment(term: *const u8, term_len: usize) -> Answer;
    fn netkat_num_fields(term: *const u8, term_len: usize) -> Answer;
    fn netkat_compute_subrange(alias_start: u32, alias_end: u32, sub_start: u32, sub_end: u32) -> Answer;
    fn netkat_cost(
        start: u32,
        end: u32,
        pattern: u32,
        number: u32,
        a: *const u8,
        a_len: usize,
        a_bits: u32,
        b: *const u8,
        b_len: usize,
        b_bits: u32,
    ) -> Answer;
    fn netkat_read_core(core: *const u8, core_len: usize, records: *mut u32, records_len: usize) -> Answer;
    fn netkat_run_packets(
        core: *const u8,
        core_len: usize,
        records: *mut u32,
        records_len: usize,
        packets: *const u8,
        packets_len: usize,
        lengths: *const u32,
        lengths_len: usize,
    ) -> Answer;
    fn netkat_version() -> u32;
}

/// The two values of a success.
type Values = Result<(u32, u32), Refusal>;

impl Answer {
    fn values(self) -> Values {
        match self.number {
            0 => Ok((self.first, self.second)),
            number => Err(Refusal { number, place: self.place }),
        }
    }
}

/// The values as one number, the first its low half.
fn wide((low, high): (u32, u32)) -> u64 {
    u64::from(high) << 32 | u64::from(low)
}

/// First value: 1 if the term is a test.
pub(crate) fn check(term: &[u8]) -> Values {
    // SAFETY: the pointer and the length are those of a slice.
    unsafe { netkat_check(term.as_ptr(), term.len()) }.values()
}

/// What the library is lent to make a core: work memory and an answer buffer. To read one, or to run packets through it, the work memory is
/// the record list.
///
/// Neither is cleared, and the vectors' lengths are 0 but for the answer: pages that no call has touched take no memory.
pub(crate) struct Memory {
    work: Vec<u32>,
    out: Vec<u8>,
}

impl Memory {
    /// Enough for an allowance of so many nodes.
    pub fn for_nodes(nodes: usize) -> Self {
        Memory {
            work: Vec::with_capacity(8 * nodes + 8_192),
            // A core has no more nodes than were drawn. The longest record, a test or an assignment, has 7 bytes.
            out: Vec::with_capacity(7 * nodes),
        }
    }

    /// The bytes of the term's core, and the drawn total.
    pub fn desugar(&mut self, term: &[u8], allowance: u32) -> Result<(&[u8], u32), Refusal> {
        self.work.clear();
        self.out.clear();
        let (work, out) = (self.work.spare_capacity_mut(), self.out.spare_capacity_mut());
        let (work_len, out_len) = (work.len(), out.len());
        // SAFETY: each pointer and its length are those of a slice; `work` and `out` are borrowed mutably, so nothing overlaps them.
        // They are not initialised, and they need not be: the answer does not depend on what they hold (proved). Of `out` the library
        // may read a byte to write it back as it is, which is no more than to leave it.
        let answer = unsafe {
            netkat_desugar(
                term.as_ptr(),
                term.len(),
                allowance,
                work.as_mut_ptr().cast(),
                work_len,
                out.as_mut_ptr().cast(),
                out_len,
            )
        };
        let (length, drawn) = answer.values()?;
        assert!(length as usize <= out_len, "the answer lies in its buffer");
        // SAFETY: the capacity is not exceeded, and on success the library has written the core's bytes, as many as `length`.
        unsafe { self.out.set_len(length as usize) };
        Ok((&self.out, drawn))
    }

    /// Which packets pass the core, a bit for each.
    pub fn run_packets(&mut self, core: &[u8], packets: &[u8], lengths: &[u32]) -> Result<u64, Refusal> {
        run_packets(core, &mut self.work, packets, lengths)
    }

    /// The records of a core, three numbers each, and the field count.
    pub fn read_core(&mut self, core: &[u8]) -> Result<(&[u32], u32), Refusal> {
        self.work.clear();
        let list_len = list_len(core);
        self.work.reserve(list_len);
        // SAFETY: the first pointer and its length are those of a slice; behind the second there is room for so many numbers, which are
        // borrowed mutably, so nothing overlaps them. They are not initialised, and the library does not read them.
        let answer = unsafe { netkat_read_core(core.as_ptr(), core.len(), self.work.as_mut_ptr(), list_len) };
        let (count, fields) = answer.values()?;
        let numbers = 3 * count as usize;
        assert!(numbers <= list_len, "the records lie in their list");
        // SAFETY: the capacity is not exceeded, and on success the library has written three numbers for each record.
        unsafe { self.work.set_len(numbers) };
        Ok((&self.work, fields))
    }
}

/// The numbers of a record list for the core. A record has at least one byte, so that a list of this length is never refused by 10.
fn list_len(core: &[u8]) -> usize {
    3 * core.len().min(MAX_CORE_RECORDS)
}

/// Which packets pass the core, a bit for each. The list's capacity becomes what the core needs, and is there already at the next call.
pub(crate) fn run_packets(core: &[u8], list: &mut Vec<u32>, packets: &[u8], lengths: &[u32]) -> Result<u64, Refusal> {
    let list_len = list_len(core);
    list.clear();
    list.reserve(list_len);
    // SAFETY: each pointer and its length are those of a slice, but for the list: behind its pointer there is room for so many numbers, which
    // are borrowed mutably, so nothing overlaps them. They are not initialised, and they need not be: the library reads no number that the
    // same call has not written (seen in its code; proved is that the answer does not depend on what they hold).
    let answer = unsafe {
        netkat_run_packets(
            core.as_ptr(),
            core.len(),
            list.as_mut_ptr(),
            list_len,
            packets.as_ptr(),
            packets.len(),
            lengths.as_ptr(),
            lengths.len(),
        )
    };
    answer.values().map(wide)
}

/// Writes the result to `out`, which has room for it or is refused by 26.
pub(crate) fn substitute(term: &[u8], name: u16, replacement: &[u8], out: &mut Vec<u8>) -> Result<(), Refusal> {
    out.clear();
    let room = out.spare_capacity_mut();
    let room_len = room.len();
    // SAFETY: each pointer and its length are those of a slice; `room` is borrowed mutably, so nothing overlaps it. It is not
    // initialised, and the library does not read it. The two slices that are only read may overlap.
    let answer = unsafe {
        netkat_substitute(
            term.as_ptr(),
            term.len(),
            name,
            replacement.as_ptr(),
            replacement.len(),
            room.as_mut_ptr().cast(),
            room_len,
        )
    };
    let (length, _) = answer.values()?;
    assert!(length as usize <= room_len, "the answer lies in its buffer");
    // SAFETY: the capacity is not exceeded, and on success the library has written the result's bytes, as many as `length`.
    unsafe { out.set_len(length as usize) };
    Ok(())
}

/// First value: 1 if the term is in the test fragment.
pub(crate) fn is_test_fragment(term: &[u8]) -> Values {
    // SAFETY: the pointer and the length are those of a slice.
    unsafe { netkat_is_test_fragment(term.as_ptr(), term.len()) }.values()
}

/// First value: the field count, as include/netkat.h says it.
pub(crate) fn num_fields(term: &[u8]) -> Values {
    // SAFETY: the pointer and the length are those of a slice.
    unsafe { netkat_num_fields(term.as_ptr(), term.len()) }.values()
}

/// Values: from, and up to.
pub(crate) fn compute_subrange(alias_start: u32, alias_end: u32, sub_start: u32, sub_end: u32) -> Values {
    // SAFETY: the function takes and gives numbers only.
    unsafe { netkat_compute_subrange(alias_start, alias_end, sub_start, sub_end) }.values()
}

/// The number of core nodes. A literal is its bytes and its length in bits.
pub(crate) fn cost(range: Range<u32>, pattern: u8, number: u32, a: (&[u8], u32), b: (&[u8], u32)) -> Result<u64, Refusal> {
    let (start, end, pattern) = (range.start, range.end, pattern.into());
    // SAFETY: each pointer and its length are those of a slice. Both slices are only read.
    let answer = unsafe { netkat_cost(start, end, pattern, number, a.0.as_ptr(), a.0.len(), a.1, b.0.as_ptr(), b.0.len(), b.1) };
    answer.values().map(wide)
}

/// The library's version as one number: major * 65,536 + minor * 256 + patch.
pub(crate) fn version() -> u32 {
    // SAFETY: the function takes nothing and gives a number.
    unsafe { netkat_version() }
}
