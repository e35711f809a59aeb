//! The memory that a thread keeps: answers and refusals do not depend on what was done before in it.

mod common;

use std::cell::RefCell;
use std::thread;

use common::terms;
use netkat::{bits, bytes, desugar, desugar_to_expr, release_memory, Core, Desugarer, Exp, Expr};

/// All ways give the answer of a fresh desugarer with the greatest allowance.
fn same_answers(term: &Expr, kept: &mut Desugarer) -> bool {
    let fresh = Desugarer::new().desugar(term);
    assert_eq!(kept.desugar(term), fresh);
    let core = fresh.map(|desugared| desugared.core);
    assert_eq!(desugar(term), core);
    let expr = core.as_ref().map(|core| core.to_expr()).map_err(|refusal| *refusal);
    assert_eq!(desugar_to_expr(term), expr);
    assert_eq!(kept.desugar_to_expr(term), expr);
    let term = term.to_bytes().unwrap();
    assert_eq!(bytes::desugar(&term), core.as_ref().map(|core| core.to_bytes()).map_err(|refusal| *refusal));
    core.map(|core| assert_eq!(Core::from_bytes(&core.to_bytes()), core.num_fields().map(|_| core))).is_ok()
}

/// A term that makes a large core, or spends the allowance.
fn wide(fields: u32) -> Exp {
    Expr::let_bit_range(1, 0, fields, Expr::var_test(1, bits(5, 3)))
}

#[test]
fn answers_do_not_depend_on_what_was_before() {
    let mut kept = Desugarer::new();
    let (mut made, mut refused) = (0, 0);
    for (i, term) in terms(1, 2_500).enumerate() {
        match same_answers(&term, &mut kept) {
            true => made += 1,
            false => refused += 1,
        }
        if i % 250 == 0 {
            assert!(same_answers(&wide(32_768), &mut kept), "65,535 nodes");
            assert!(!same_answers(&wide(32_769), &mut kept), "refused by 24");
            assert!(!same_answers(&Expr::union(wide(20_000), Expr::var(9)), &mut kept), "refused by 12 behind many draws");
        }
    }
    assert!(made >= 300 && refused >= 300, "{made} made, {refused} refused");
}

/// An allowance that is smaller changes nothing but where it is spent.
#[test]
fn smaller_allowances() {
    let mut small = Desugarer::with_allowance(20);
    for term in terms(2, 2_000) {
        let full = Desugarer::new().desugar(&term);
        match small.desugar(&term) {
            Err(refusal) if refusal.number == 24 => assert!(full.map_or(true, |full| full.drawn > 20)),
            answer => assert_eq!(answer, full),
        }
    }
}

#[test]
fn several_threads() {
    let threads: Vec<_> = (0..4)
        .map(|seed| {
            thread::spawn(move || {
                let mut kept = Desugarer::new();
                terms(10 + seed, 300).filter(|term| same_answers(term, &mut kept)).count()
            })
        })
        .collect();
    assert!(threads.into_iter().map(|thread| thread.join().unwrap()).sum::<usize>() > 0);
}

#[test]
fn released() {
    let before = desugar(&wide(1_000));
    release_memory();
    release_memory();
    assert_eq!(desugar(&wide(1_000)), before);
}

/// Calls where the thread's memory may be gone already.
struct AtTheEnd;

impl Drop for AtTheEnd {
    fn drop(&mut self) {
        release_memory();
        assert_eq!(desugar(&Expr::One).unwrap().len(), 1);
        assert_eq!(bytes::desugar(&[1, 1]).unwrap(), [1, 1]);
        assert_eq!(Core::from_bytes(&[1, 1]).unwrap().len(), 1);
        assert_eq!(Core::from_bytes(&[1, 1]).unwrap().run(&[&[]]), Ok(1));
    }
}

#[test]
fn while_a_thread_ends() {
    thread_local! {
        static LAST: RefCell<Option<AtTheEnd>> = const { RefCell::new(None) };
    }
    for first in [true, false] {
        let ended = thread::spawn(move || {
            if first {
                desugar(&Expr::One).unwrap();
            }
            LAST.with(|last| *last.borrow_mut() = Some(AtTheEnd));
            desugar(&Expr::One).unwrap();
        });
        ended.join().unwrap();
    }
}
