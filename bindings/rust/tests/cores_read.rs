//! Reading core bytes, which the library does: beside a plain reading of the requirement, and beside what was desugared.

#[allow(dead_code)] // Ranges and patterns are for other tests.
mod common;

use common::{core_exprs, terms, Random};
use netkat::limits::{MAX_CORE_RECORDS, MAX_LEVELS, MAX_RECORDS};
use netkat::{bits, bytes, desugar, Core, CoreRecord, Expr, Kind, Pattern, Refusal};

/// Kind, field and value.
type Plain = (u8, u32, bool);

/// The records of a core and its field count, read plainly: the requirement's form with the kinds 0 to 15, any depth and 65,535 records.
fn plain_reading(bytes: &[u8]) -> Result<(Vec<Plain>, u32), (u32, u32)> {
    let mut records = Vec::new();
    let mut rest = bytes;
    let mut open = 1;
    while open > 0 {
        let record = if records.len() < 65_535 { plain_record(&mut rest) } else { Err(42) };
        let record = record.map_err(|number| (number, records.len() as u32))?;
        open = open - 1 + [0, 0, 0, 0, 0, 0, 0, 2, 2, 2, 2, 2, 2, 1, 1, 1][usize::from(record.0)];
        records.push(record);
    }
    if !rest.is_empty() {
        return Err((8, records.len() as u32));
    }
    let atoms = || records.iter().enumerate().filter(|(_, record)| matches!(record.0, 5 | 6));
    match atoms().find(|(_, record)| record.1 == u32::MAX) {
        Some((place, _)) => Err((25, place as u32)),
        None => Ok((records.clone(), atoms().map(|(_, record)| record.1 + 1).max().unwrap_or(0))),
    }
}

fn plain_record(rest: &mut &[u8]) -> Result<Plain, u32> {
    fn number(rest: &mut &[u8], bytes: usize) -> Result<u32, u32> {
        if rest.len() < bytes {
            return Err(1);
        }
        let (front, back) = rest.split_at(bytes);
        *rest = back;
        Ok(front.iter().rev().fold(0, |number, byte| number << 8 | u32::from(*byte)))
    }
    fn written(rest: &mut &[u8], bytes: usize) -> Result<u32, u32> {
        number(rest, bytes).and_then(|number| if number == 0 { Err(4) } else { Ok(number) })
    }
    let map = number(rest, 1)?;
    let kind = if map & 1 != 0 { written(rest, 1)? } else { 0 };
    match kind {
        0..=15 => {}
        16..=26 => return Err(41),
        _ => return Err(2),
    }
    let may_have = if matches!(kind, 5 | 6) { 1 | 4 | 32 } else { 1 };
    if map & !may_have != 0 {
        return Err(3);
    }
    let field = if map & 4 != 0 { written(rest, 4)? } else { 0 };
    let value = if map & 32 != 0 { written(rest, 1)? } else { 0 };
    if value > 1 {
        return Err(5);
    }
    Ok((kind as u8, field, value == 1))
}

fn refused<T: std::fmt::Debug>(result: Result<T, Refusal>) -> (u32, u32) {
    let refusal = result.unwrap_err();
    (refusal.number, refusal.place)
}

/// Compares the readings; gives the refusal's number, 0 for none.
fn same_reading(bytes: &[u8]) -> u32 {
    let listed = bytes::read_core(bytes);
    match (Core::from_bytes(bytes), plain_reading(bytes)) {
        (Ok(core), Ok((records, num_fields))) => {
            let plain = |record: CoreRecord| (record.kind.number(), record.field, record.value);
            assert!(core.records().map(plain).eq(records), "{bytes:?}");
            assert_eq!(core.num_fields(), Ok(num_fields));
            assert_eq!(core.to_bytes(), bytes);
            let listed = listed.unwrap();
            assert!(listed.records.into_iter().eq(core.records()));
            assert_eq!(listed.num_fields, num_fields);
            assert_eq!(Core::from_expr(&core.to_expr()), Ok(core));
            0
        }
        (read, plain) => {
            assert_eq!(Err(refused(read)), plain, "{bytes:?}");
            assert_eq!(Err(refused(listed)), plain);
            plain.unwrap_err().0
        }
    }
}

#[test]
fn short_strings() {
    same_reading(&[]);
    for first in 0..=255 {
        same_reading(&[first]);
        for second in 0..=255 {
            same_reading(&[first, second]);
        }
    }
    // Longer ones of bytes that mean something.
    let bytes = [0, 1, 2, 4, 5, 6, 7, 12, 13, 15, 16, 0x20, 0x21, 0x24, 0x25, 0xff];
    for index in 0..bytes.len().pow(4) {
        let at = |i: u32| bytes[index / bytes.len().pow(i) % bytes.len()];
        same_reading(&[at(0), at(1), at(2)]);
        same_reading(&[at(0), at(1), at(2), at(3)]);
    }
}

#[test]
fn changed_cores() {
    let mut random = Random::new(5);
    let mut seen = [0; 43];
    for expr in core_exprs(6, 6_000) {
        let bytes = Core::from_expr(&expr).unwrap().to_bytes();
        seen[same_reading(&bytes) as usize] += 1;
        for _ in 0..4 {
            seen[same_reading(&random.changed(&bytes)) as usize] += 1;
        }
    }
    for number in [0, 1, 2, 3, 4, 5, 8, 25, 41] {
        assert!(seen[number] > 0, "{number} did not occur: {seen:?}");
    }
}

/// The library's own cores, large enough for every way through the reader of what it writes.
#[test]
fn cores_of_the_library() {
    for term in [
        Expr::let_bit_range(1, 0, 300, Expr::union(Expr::var_test(1, vec![true]), Expr::var_assign(1, vec![true, false, true]))),
        Expr::bit_range_match(0, 40, Pattern::IpRange { start: bits(12_345, 40), end: bits(1 << 39, 40) }),
    ] {
        let bytes = bytes::desugar(&term.to_bytes().unwrap()).unwrap();
        assert_eq!(same_reading(&bytes), 0);
        assert_eq!(desugar(&term).unwrap().to_bytes(), bytes);
        for at in 0..bytes.len() {
            assert_eq!(refused(Core::from_bytes(&bytes[..at])).0, 1);
        }
    }
}

/// What is desugared comes back from its bytes, with the field count that it has as a term. A field that cannot be counted is refused.
#[test]
fn desugared_cores() {
    let (mut read, mut uncounted, mut counted) = (0, 0, 0);
    for term in terms(9, 6_000) {
        let Ok(core) = desugar(&term) else { continue };
        assert_eq!(bytes::desugar(&term.to_bytes().unwrap()), Ok(core.to_bytes()));
        match Core::from_bytes(&core.to_bytes()) {
            Ok(again) => {
                assert_eq!(again, core);
                read += 1;
            }
            refusal => {
                assert_eq!(refused(refusal).0, 25);
                uncounted += 1;
            }
        }
        assert_eq!(bytes::read_core(&core.to_bytes()).map(|read| read.num_fields), core.num_fields());
        match core.to_expr().num_fields() {
            Err(Refusal { number: 6 | 7, .. }) => assert!(core.len() > MAX_LEVELS),
            as_a_term => {
                assert_eq!(core.num_fields(), as_a_term);
                counted += 1;
            }
        }
    }
    assert!(read >= 600 && uncounted >= 20 && counted >= 600, "{read} read, {uncounted} refused, {counted} counted");
}

#[test]
fn the_last_field() {
    let last = |value| Expr::assign(u32::MAX, value);
    let core = desugar(&Expr::union(Expr::test(3, true), Expr::sequence(last(true), last(false)))).unwrap();
    assert_eq!(core.len(), 5);
    assert_eq!(refused(core.num_fields()), (25, 3));
    assert_eq!(refused(Core::from_bytes(&core.to_bytes())), (25, 3));
    // Form comes before it, at any record.
    assert_eq!(refused(Core::from_bytes(&[core.to_bytes(), vec![0]].concat())), (8, 5));
    let counted = desugar(&Expr::test(u32::MAX - 1, false)).unwrap();
    assert_eq!(Core::from_bytes(&counted.to_bytes()).unwrap().num_fields(), Ok(u32::MAX));
}

/// The bytes of so many Stars above the bottom.
fn stars(count: usize, bottom: &[u8]) -> Vec<u8> {
    [[1, 14].repeat(count), bottom.to_vec()].concat()
}

#[test]
fn as_many_records_as_a_core_has() {
    let most = MAX_CORE_RECORDS;
    assert_eq!(same_reading(&stars(most - 1, &[0x21, 6, 1])), 0);
    assert_eq!(refused(Core::from_bytes(&stars(most - 1, &[1, 20]))), (41, 65_534));
    assert_eq!(refused(Core::from_bytes(&stars(most - 1, &[5, 5, 255, 255, 255, 255]))), (25, 65_534));
    assert_eq!(refused(Core::from_bytes(&stars(most - 1, &[0, 0]))), (8, 65_535));
    assert_eq!(refused(Core::from_bytes(&stars(most, &[0]))), (42, 65_535));
    assert_eq!(refused(Core::from_bytes(&stars(most, &[]))), (42, 65_535));
    let wide = Expr::let_bit_range(1, 0, 32_768, Expr::var_assign(1, bits(5, 3)));
    let core = desugar(&wide).unwrap();
    assert_eq!((core.len(), core.num_fields()), (most, Ok(32_768)));
    assert_eq!(Core::from_bytes(&core.to_bytes()), Ok(core));
}

/// Joined cores can be larger than what is read: their parts are stored.
#[test]
fn parts_of_a_larger_core() {
    let part = |first| desugar(&Expr::let_bit_range(1, first, first + 20_000, Expr::var_test(1, bits(5, 3)))).unwrap();
    let parts: Vec<Core> = (0..3).map(|i| part(20_000 * i)).collect();
    let whole = Core::union_all(parts.clone());
    assert_eq!((whole.len(), whole.num_fields()), (3 * 39_999 + 2, Ok(60_000)));
    let refusal = Core::from_bytes(&whole.to_bytes()).unwrap_err();
    assert_eq!(refusal.to_string(), "the core has more than 65,535 nodes (record 65535, refusal 42)");
    let stored = parts.iter().map(|part| Core::from_bytes(&part.to_bytes()).unwrap());
    assert_eq!(Core::union_all(stored), whole);
}

/// The list of the records is memory that was used before: for work, and for a larger core.
#[test]
fn reading_between_other_calls() {
    let wide = Expr::let_bit_range(1, 0, 32_768, Expr::var_test(1, bits(5, 3)));
    let large = desugar(&wide).unwrap();
    let small = desugar(&Expr::star(Expr::assign(7, true))).unwrap();
    for _ in 0..3 {
        assert_eq!(Core::from_bytes(&large.to_bytes()).as_ref(), Ok(&large));
        assert_eq!(Core::from_bytes(&small.to_bytes()).as_ref(), Ok(&small));
        assert_eq!(refused(Core::from_bytes(&stars(MAX_RECORDS, &[]))), (1, 4_096));
        assert_eq!(desugar(&wide).as_ref(), Ok(&large));
        assert_eq!(bytes::read_core(&small.to_bytes()).unwrap().records.len(), 2);
    }
    assert_eq!(small.records().map(|record| record.kind).collect::<Vec<_>>(), [Kind::Star, Kind::Assign]);
}
