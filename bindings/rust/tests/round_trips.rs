//! Encoding and decoding of random terms, and the decoder beside the library's form.

mod common;

use common::{terms, Random};
use netkat::limits::MAX_LITERAL_BITS;
use netkat::{bytes, Core, Desugarer, Exp, Expr, Refusal};

#[test]
fn terms_come_back() {
    for term in terms(1, 800) {
        let bytes = term.to_bytes().unwrap();
        let back = Expr::from_bytes(&bytes).unwrap();
        assert_eq!(back, term);
        assert_eq!(back.clone(), term);
        assert_eq!(back.to_bytes().unwrap(), bytes);
        assert!(bytes::is_test_fragment(&bytes).is_ok(), "the library takes the bytes");
    }
}

#[test]
fn every_kind_is_among_them() {
    let mut kinds: Vec<String> = terms(1, 800)
        .flat_map(|term| {
            let name = |node: &Expr| format!("{node:?}").split('(').next().unwrap().to_owned();
            term.nodes().map(name).collect::<Vec<_>>()
        })
        .collect();
    kinds.sort();
    kinds.dedup();
    assert_eq!(kinds.len(), 27, "{kinds:?}");
}

#[test]
fn long_literals_are_among_them() {
    let length = |node: &Expr| match node {
        Expr::VarAssign(_, bits) | Expr::VarTest(_, bits) => Some(bits.len()),
        Expr::BitRangeAssign(_, _, bits) | Expr::BitRangeTest(_, _, bits) => Some(bits.len()),
        _ => None,
    };
    let lengths: Vec<usize> = terms(1, 800).flat_map(|term| term.nodes().filter_map(length).collect::<Vec<_>>()).collect();
    for wanted in [127, 128, 129, 191, 192] {
        assert!(lengths.contains(&wanted), "none of {wanted} bits");
    }
    assert!(lengths.iter().all(|length| *length <= MAX_LITERAL_BITS));
}

#[test]
fn cores_come_back() {
    let mut desugarer = Desugarer::new();
    let mut made = 0;
    for term in terms(2, 3_000) {
        let bytes = term.to_bytes().unwrap();
        let checked = bytes::check(&bytes);
        match desugarer.desugar_bytes(&bytes) {
            Ok(desugared) => {
                made += 1;
                assert!(checked.is_ok());
                let (written, drawn) = (desugared.core.to_vec(), desugared.drawn);
                let core = desugarer.desugar(&term).unwrap().core;
                assert_eq!(core.to_bytes(), written);
                assert_eq!(core.clone(), core);
                assert!(core.len() <= drawn as usize);
                assert_eq!(core.to_expr().nodes().count(), core.len());
                assert_eq!(Core::from_bytes(&written), core.num_fields().map(|_| core));
            }
            Err(Refusal { number: 24, .. }) => assert!(checked.is_ok()),
            Err(refusal) => assert_eq!(checked, Err(refusal)),
        }
    }
    assert!(made >= 300, "only {made} cores");
}

#[test]
fn substitution() {
    for term in terms(3, 300) {
        assert_eq!(term.substitute(1, &Expr::Var(1)).unwrap(), term);
        assert_eq!(term.substitute(77, &Expr::Dup).unwrap(), term);
        let closed = term.substitute(1, &Expr::Dup).unwrap();
        assert_eq!(closed.substitute(1, &Expr::End).unwrap(), closed);
    }
}

#[test]
fn field_count() {
    for term in terms(4, 300) {
        let ends = term.nodes().map(|node| match node {
            Expr::Assign(field, _) | Expr::Test(field, _) => u64::from(*field) + 1,
            Expr::BitRangeAssign(_, end, _) | Expr::BitRangeTest(_, end, _) | Expr::BitRangeMatch(_, end, _) => (*end).into(),
            Expr::LetBitRange(_, _, end, _) => (*end).into(),
            _ => 0,
        });
        match term.num_fields() {
            Ok(count) => assert_eq!(Some(u64::from(count)), ends.max()),
            Err(refusal) => {
                assert_eq!(refusal.number, 25);
                let node = term.nodes().nth(refusal.place as usize).unwrap();
                assert!(matches!(node, Expr::Assign(u32::MAX, _) | Expr::Test(u32::MAX, _)));
            }
        }
    }
}

/// The decoder and the library's form give the same refusal, or none.
fn same_form(bytes: &[u8]) -> Result<Exp, Refusal> {
    let decoded = Expr::from_bytes(bytes);
    assert_eq!(decoded.as_ref().err().copied(), bytes::is_test_fragment(bytes).err(), "{bytes:?}");
    if let Ok(term) = &decoded {
        assert_eq!(term.to_bytes().unwrap(), bytes, "bytes of good form are the only ones of their term");
    }
    decoded
}

#[test]
fn form_of_short_strings() {
    same_form(&[]).unwrap_err();
    for first in 0..=255 {
        let _ = same_form(&[first]);
        for second in 0..=255 {
            let _ = same_form(&[first, second]);
        }
    }
}

/// Every length byte, with the bytes that it asks for, one less, and a spare bit.
#[test]
fn form_of_literals() {
    for length in 0..=255u8 {
        let number = |bytes: &[u8]| same_form(bytes).map_or_else(|refusal| refusal.number, |_| 0);
        let packed = usize::from(length).div_ceil(8);
        let term = [vec![0x41, 22, length], vec![0; packed]].concat(); // VarTest of name 0
        let expected = |good| match length {
            0 => 4,
            1..=192 => good,
            _ => 5,
        };
        assert_eq!(number(&term), expected(0), "{length}");
        if length > 0 {
            assert_eq!(number(&term[..term.len() - 1]), expected(1), "{length}");
            let mut highest = term.clone();
            highest[2 + packed] = 0x80;
            assert_eq!(number(&highest), expected(if length % 8 == 0 { 0 } else { 4 }), "{length}");
        }
    }
}

#[test]
fn form_of_changed_terms() {
    let mut random = Random::new(5);
    let mut refused = [0; 9];
    for term in terms(6, 4_000) {
        let bytes = term.to_bytes().unwrap();
        for _ in 0..5 {
            match same_form(&random.changed(&bytes)) {
                Ok(_) => refused[0] += 1,
                Err(refusal) => refused[refusal.number as usize] += 1,
            }
        }
    }
    for number in [0, 1, 2, 3, 4, 5, 8] {
        assert!(refused[number] > 0, "{number} did not occur");
    }
}

/// Bytes are a core if they are a term, limits aside, and have only the kinds of cores.
#[test]
fn form_of_cores() {
    for kind in 16..=27 {
        let number = if kind <= 26 { 41 } else { 2 };
        assert_eq!(Core::from_bytes(&[1, 14, 1, kind]), Err(Refusal { number, place: 1 }));
    }
    let mut random = Random::new(7);
    let mut accepted = 0;
    for term in terms(8, 3_000) {
        let Ok(mut bytes) = bytes::desugar(&term.to_bytes().unwrap()) else { continue };
        let at = random.below(bytes.len());
        bytes[at] = random.below(32) as u8;
        match (Core::from_bytes(&bytes), Expr::from_bytes(&bytes)) {
            (Ok(core), Ok(term)) => {
                accepted += 1;
                assert_eq!(core.to_expr(), term);
                assert_eq!(core.to_bytes(), bytes);
            }
            (Ok(_), Err(limit)) => assert!(matches!(limit.number, 6 | 7), "{limit}"),
            (Err(a), Ok(_)) => assert!(matches!(a.number, 25 | 41), "{a}"),
            (Err(a), Err(limit)) if matches!(limit.number, 6 | 7) => {
                assert!(a.number == 41 || limit.place <= a.place, "{a}, {limit}")
            }
            (Err(a), Err(b)) => assert!(a == b || a.number == 41 && a.place <= b.place, "{a}, {b}"),
        }
    }
    assert!(accepted > 0);
}

/// A Union of Zeros with this odd number of records, each Union the right child of the one before.
fn unions(records: usize) -> Exp {
    (0..records / 2).fold(Expr::zero(), |rest, _| Expr::union(Expr::zero(), rest))
}

/// A balanced tree of Unions with 2 to the power of `depth`, less 1, records.
fn balanced(depth: usize) -> Exp {
    (1..depth).fold(Expr::one(), |half, _| Expr::union(half.clone(), half))
}

#[test]
fn limits() {
    let largest = Expr::star(balanced(12));
    assert_eq!(largest.nodes().count(), 4_096);
    assert_eq!(same_form(&largest.to_bytes().unwrap()), Ok(largest.clone()));
    let larger = Expr::star(largest);
    assert_eq!(larger.to_bytes(), Err(Refusal { number: 6, place: 4_096 }));

    let deepest = unions(511);
    assert_eq!(same_form(&deepest.to_bytes().unwrap()), Ok(deepest.clone()));
    let deeper = Expr::star(deepest);
    assert_eq!(deeper.to_bytes(), Err(Refusal { number: 7, place: 510 })); // the left child of the last Union
}
