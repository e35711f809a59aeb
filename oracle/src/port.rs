//! The functions of include/netkat.h. Each wrapper also looks for what the header rules out: values beside a refusal, a changed byte
//! where none may change, a number written behind the lent work memory or beside the lent list, an answer that depends on bytes beside what
//! is lent, or on what a scratch list has before the call. It panics there.
use crate::cores::Listing;
use crate::costs::Match;
use crate::model::{Desugared, Res};
use crate::packets::Packets;
use std::fmt::Debug;

#[repr(C)]
#[derive(Clone, Copy, Debug)]
struct Answer {
    number: u32,
    place: u32,
    first: u32,
    second: u32,
}

extern "C" {
    fn netkat_check(term: *const u8, term_len: usize) -> Answer;
    fn netkat_desugar(
        term: *const u8, term_len: usize, allowance: u32, work: *mut u32, work_len: usize, out: *mut u8, out_len: usize,
    ) -> Answer;
    fn netkat_substitute(
        term: *const u8, term_len: usize, name: u16, replacement: *const u8, replacement_len: usize, out: *mut u8, out_len: usize,
    ) -> Answer;
    fn netkat_is_test_fragment(term: *const u8, term_len: usize) -> Answer;
    fn netkat_num_fields(term: *const u8, term_len: usize) -> Answer;
    fn netkat_compute_subrange(alias_start: u32, alias_end: u32, sub_start: u32, sub_end: u32) -> Answer;
    fn netkat_cost(
        start: u32, end: u32, pattern: u32, number: u32, a: *const u8, a_len: usize, a_bits: u32, b: *const u8, b_len: usize, b_bits: u32,
    ) -> Answer;
    fn netkat_read_core(core: *const u8, core_len: usize, records: *mut u32, records_len: usize) -> Answer;
    fn netkat_run_packets(
        core: *const u8, core_len: usize, records: *mut u32, records_len: usize, packets: *const u8, packets_len: usize,
        lengths: *const u32, lengths_len: usize,
    ) -> Answer;
}

/// The operation's values, or number and place of the refusal.
fn values(a: Answer) -> Res<(u32, u32)> {
    if a.number == 0 {
        assert!(a.place == 0, "success with a place: {a:?}");
        Ok((a.first, a.second))
    } else {
        assert!(a.first == 0 && a.second == 0, "refusal with values: {a:?}");
        Err((a.number, a.place))
    }
}

fn one_value(a: Answer) -> Res<u32> {
    let (first, second) = values(a)?;
    assert!(second == 0, "a second value: {a:?}");
    Ok(first)
}

fn flag(a: Answer) -> Res<bool> {
    let first = one_value(a)?;
    assert!(first < 2, "not a yes or no: {a:?}");
    Ok(first == 1)
}

/// How much of a buffer stands behind the part that is lent.
const BEHIND: usize = 64;
const WORK_MARK: u32 = 0xdead_beef;

fn marks(len: usize) -> Vec<u8> {
    (0..len + BEHIND).map(|i| (i as u8).wrapping_mul(37).wrapping_add(0xa5)).collect()
}

/// Lends a marked buffer of `len` bytes, then checks that only the front, and only on success, has changed.
fn with_out<T>(len: usize, call: impl FnOnce(&mut [u8]) -> Res<T>, written: impl Fn(&T) -> u32) -> Res<(T, Vec<u8>)> {
    let mut out = marks(len);
    let before = out.clone();
    match call(&mut out[..len]) {
        Err(e) => {
            assert!(out == before, "a refused call wrote to the answer buffer");
            Err(e)
        }
        Ok(v) => {
            let n = written(&v) as usize;
            assert!(n <= len && out[n..] == before[n..], "a byte changed behind the answer");
            out.truncate(n);
            Ok((v, out))
        }
    }
}

pub fn check(term: &[u8]) -> Res<bool> {
    flag(unsafe { netkat_check(term.as_ptr(), term.len()) })
}

/// The core's length and the drawn total.
pub fn desugar_into(term: &[u8], allowance: u64, work: &mut [u32], out: &mut [u8]) -> Res<(u32, u32)> {
    values(unsafe {
        netkat_desugar(term.as_ptr(), term.len(), allowance as u32, work.as_mut_ptr(), work.len(), out.as_mut_ptr(), out.len())
    })
}

pub fn desugar(term: &[u8], allowance: u64, work_len: u64, out_len: u64) -> Res<Desugared> {
    let lent = work_len as usize;
    let mut work = vec![WORK_MARK; lent + BEHIND];
    let answer = with_out(out_len as usize, |out| desugar_into(term, allowance, &mut work[..lent], out), |v| v.0);
    assert!(work[lent..].iter().all(|n| *n == WORK_MARK), "a number changed behind the work memory");
    answer.map(|((_, drawn), core)| Desugared { drawn: drawn as u64, core })
}

pub fn substitute(term: &[u8], name: u16, replacement: &[u8], out_len: u64) -> Res<Vec<u8>> {
    let call = |out: &mut [u8]| {
        one_value(unsafe {
            netkat_substitute(
                term.as_ptr(), term.len(), name, replacement.as_ptr(), replacement.len(), out.as_mut_ptr(), out.len(),
            )
        })
    };
    with_out(out_len as usize, call, |n| *n).map(|(_, bytes)| bytes)
}

pub fn fragment(term: &[u8]) -> Res<bool> {
    flag(unsafe { netkat_is_test_fragment(term.as_ptr(), term.len()) })
}

pub fn fields(term: &[u8]) -> Res<u32> {
    one_value(unsafe { netkat_num_fields(term.as_ptr(), term.len()) })
}

pub fn subrange(a: u32, b: u32, s: u32, e: u32) -> Res<(u32, u32)> {
    values(unsafe { netkat_compute_subrange(a, b, s, e) })
}

pub fn cost(m: &Match) -> Res<u64> {
    one_answer([0, 0xff].map(|behind| cost_before(m, behind)))
}

/// The answer, which does not depend on the bytes behind what was lent.
fn one_answer<T: PartialEq + Debug>([answer, other]: [T; 2]) -> T {
    assert!(answer == other, "bytes behind what is lent count: {answer:?}, {other:?}");
    answer
}

/// Each literal is lent as the front of a buffer that goes on with these bytes.
fn cost_before(m: &Match, behind: u8) -> Res<u64> {
    let [a, b] = [&m.a, &m.b].map(|lent| [&lent.bytes[..], &[behind; BEHIND]].concat());
    let (a_len, b_len) = (m.a.bytes.len(), m.b.bytes.len());
    let answer = unsafe {
        netkat_cost(m.start, m.end, m.pattern, m.number, a.as_ptr(), a_len, m.a.bits, b.as_ptr(), b_len, m.b.bits)
    };
    halves(answer)
}

/// A value of 64 bits, the low half first.
fn halves(a: Answer) -> Res<u64> {
    values(a).map(|(low, high)| (high as u64) << 32 | low as u64)
}

/// The record count and the field count.
pub fn read_core_into(core: &[u8], records: &mut [u32]) -> Res<(u32, u32)> {
    values(unsafe { netkat_read_core(core.as_ptr(), core.len(), records.as_mut_ptr(), records.len()) })
}

pub fn read_core(core: &[u8], room: u64) -> Res<Listing> {
    one_answer([0, 0xff].map(|behind| read_core_before(core, room as usize, behind)))
}

/// The core is lent as the front of a buffer that goes on with these bytes, the list as the middle of one with marks. Only the list's front,
/// and only on success, may change.
fn read_core_before(core: &[u8], room: usize, behind: u8) -> Res<Listing> {
    let lent = [core, &[behind; BEHIND]].concat();
    let before: Vec<u32> = (0..room + 2 * BEHIND).map(|i| (i as u32).wrapping_mul(0x9e37_79b9) ^ WORK_MARK).collect();
    let mut list = before.clone();
    let answer = read_core_into(&lent[..core.len()], &mut list[BEHIND..BEHIND + room]);
    assert!(lent[..core.len()] == *core && lent[core.len()..] == [behind; BEHIND], "a byte of the core changed");
    let written = answer.map_or(0, |(count, _)| 3 * count as usize);
    let end = BEHIND + written;
    assert!(written <= room && list[..BEHIND] == before[..BEHIND] && list[end..] == before[end..], "a number changed beside the answer");
    let records = list[BEHIND..end].chunks_exact(3).map(|record| [record[0], record[1], record[2]]).collect();
    answer.map(|(_, fields)| Listing { records, fields })
}

/// The mask of the packets that pass.
pub fn run_packets_into(core: &[u8], records: &mut [u32], packets: &[u8], lengths: &[u32]) -> Res<u64> {
    halves(unsafe {
        netkat_run_packets(
            core.as_ptr(), core.len(), records.as_mut_ptr(), records.len(), packets.as_ptr(), packets.len(), lengths.as_ptr(), lengths.len(),
        )
    })
}

pub fn run_packets(p: &Packets) -> Res<u64> {
    one_answer([0, 0xff].map(|around| run_packets_among(p, around)))
}

/// What is lent, with others of its sort before and behind it.
fn among<T: Clone>(lent: &[T], other: T) -> Vec<T> {
    let others = vec![other; BEHIND];
    [&others, lent, &others].concat()
}

/// Each buffer is lent as the middle of one. Only the numbers of the list may change; what they are before differs with the bytes around.
fn run_packets_among(p: &Packets, around: u8) -> Res<u64> {
    let other = u32::from_ne_bytes([around; 4]);
    let [core, packets] = [&p.core, &p.bytes].map(|bytes| among(bytes, around));
    let lengths = among(&p.lengths, other);
    let mut list = among(&vec![other; p.room as usize], WORK_MARK);
    let list_end = list.len() - BEHIND;
    let answer = run_packets_into(
        &core[BEHIND..core.len() - BEHIND], &mut list[BEHIND..list_end], &packets[BEHIND..packets.len() - BEHIND],
        &lengths[BEHIND..lengths.len() - BEHIND],
    );
    assert!(core == among(&p.core, around) && packets == among(&p.bytes, around), "a byte of the core or of the packets changed");
    assert!(lengths == among(&p.lengths, other), "a length changed");
    let beside = list[..BEHIND].iter().chain(&list[list_end..]);
    assert!(beside.into_iter().all(|n| *n == WORK_MARK), "a number changed beside the list");
    answer
}
