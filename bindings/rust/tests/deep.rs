//! Deep cores and terms: nothing may need a stack that grows with the depth.

use std::thread;

use netkat::{bits, Core, Desugarer, Exp, Expr};

/// Runs in a thread with a stack of so many KiB.
fn on_a_stack_of(kib: usize, work: impl FnOnce() + Send + 'static) {
    thread::Builder::new().stack_size(kib * 1024).spawn(work).unwrap().join().unwrap();
}

/// Runs in a thread whose stack is far too small for recursion over a deep tree.
fn on_a_small_stack(work: impl FnOnce() + Send + 'static) {
    on_a_stack_of(64, work);
}

#[test]
fn core_of_65_535_levels() {
    on_a_small_stack(|| {
        let mut bytes = [1, 15].repeat(65_534); // LtlNext
        bytes.push(0); // Zero
        let core = Core::from_bytes(&bytes).unwrap();
        assert_eq!(core.len(), 65_535);
        assert_eq!(core.root().nodes().count(), 65_535);
        assert_eq!(core.to_bytes(), bytes);
        assert_eq!(core.num_fields(), Ok(0));
        let copy = core.clone();
        assert!(copy == core);
        drop(core);
        assert_eq!(format!("{copy:?}"), format!("{}Zero{}", "LtlNext(".repeat(65_534), ")".repeat(65_534)));
        let expr = copy.to_expr();
        drop(copy);
        assert_eq!(expr.clone().nodes().count(), 65_535);
        assert_eq!(expr.check().unwrap_err().number, 7);
    });
}

#[test]
fn core_that_the_library_made() {
    // An alias of 30,001 fields: a chain of as many tests.
    let wide = Expr::let_bit_range(1, 0, 30_001, Expr::var_test(1, bits(1, 1)));
    let desugared = Desugarer::new().desugar(&wide).unwrap();
    assert_eq!(desugared.drawn, 60_001);
    on_a_small_stack(move || {
        let core = desugared.core;
        assert_eq!(core.len(), 60_001);
        assert_eq!(Core::from_bytes(&core.to_bytes()).unwrap(), core);
    });
}

#[test]
fn core_that_leans_left() {
    on_a_small_stack(|| {
        let leaning = (0..32_767).fold(Expr::one(), |rest, field| Expr::sequence(rest, Expr::assign(field, true)));
        let core = Core::from_expr(&leaning).unwrap();
        assert!(core.clone() == core);
        assert!(core.root() == core.clone().root());
        assert!(core.to_expr() == leaning);
        assert!(leaning.clone() == leaning);
        assert!(Core::from_bytes(&core.to_bytes()).unwrap() == core);
    });
}

#[test]
fn packets_through_deep_tests() {
    on_a_small_stack(|| {
        let field = |i: u32| Expr::test(i % 64, true);
        let left = (0..32_767).fold(field(0), |rest, i| Expr::intersect(rest, field(i)));
        let right = (0..32_767).fold(field(0), |rest, i| Expr::xor(field(i), rest));
        // Of field 0 there are 513 tests, of all fields 32,768.
        let packets: [&[u8]; 3] = [&[1, 0, 0, 0, 0, 0, 0, 0], &[255; 8], &[0; 8]];
        for (deep, passed) in [(left, 0b010), (right, 0b001)] {
            let core = Core::from_expr(&deep).unwrap();
            assert_eq!(core.len(), 65_535);
            assert_eq!(core.run(&packets), Ok(passed));
        }
    });
}

/// Trees that are deep at any child, or at two of them in turn.
#[test]
fn deep_trees_of_each_shape() {
    on_a_small_stack(|| {
        let wraps: [fn(Exp) -> Exp; 9] = [
            Expr::test_negation,
            |body| Expr::let_bit_range(1, 0, 4, body),
            |body| Expr::let_in(1, body, Expr::one()),
            |body| Expr::let_in(1, Expr::var_test(2, vec![true]), body),
            |body| Expr::union(body, Expr::dup()),
            |body| Expr::union(Expr::star(Expr::dup()), body),
            |body| Expr::if_then_else(body, Expr::star(Expr::one()), Expr::zero()),
            |body| Expr::if_then_else(Expr::one(), body, Expr::star(Expr::one())),
            |body| Expr::if_then_else(Expr::star(Expr::one()), Expr::one(), body),
        ];
        for (i, first) in wraps.iter().enumerate() {
            for second in &wraps[i..] {
                let deep = (0..5_000).fold(Expr::one(), |body, level| if level % 2 == 0 { first(body) } else { second(body) });
                assert!(deep.clone() == deep);
                drop(Expr::sequence(deep.clone(), deep));
            }
        }
    });
}

#[test]
fn lines_of_a_deep_tree() {
    on_a_small_stack(|| {
        let deep = (0..20_000).fold(Expr::one(), |body, _| Expr::star(body));
        let lines = format!("{:#?}", Core::from_expr(&deep).unwrap());
        assert_eq!(lines.lines().count(), 40_001);
        assert!(lines.len() < 20_000_000);
        assert!(format!("{deep:#?}") == lines);
    });
}

#[test]
fn children_can_be_taken() {
    let mut term = Expr::union(Expr::test(0, true), Expr::dup());
    let Expr::Union(a, b) = &mut *term else { unreachable!() };
    let (a, b) = (std::mem::take(&mut **a), std::mem::take(&mut **b));
    assert_eq!((a, b), (Expr::Test(0, true), Expr::Dup));
    assert_eq!(term, Expr::union(Expr::zero(), Expr::zero()));
}

/// The library recurses over a term, whose depth is limited.
#[test]
fn deepest_terms() {
    on_a_stack_of(256, || {
        let wraps: [fn(Exp) -> Exp; 6] = [
            Expr::star,
            Expr::test_negation,
            |body| Expr::let_in(1, Expr::one(), body),
            |body| Expr::let_bit_range(1, 0, 4, body),
            |body| Expr::union(Expr::one(), body),
            |body| Expr::if_then_else(Expr::one(), Expr::one(), body),
        ];
        for wrap in wraps {
            let term = (1..256).fold(Expr::one(), |body, _| wrap(body));
            assert!(term.check().is_ok());
            assert!(term.desugar().is_ok());
            assert_eq!(term.substitute(9, &Expr::Dup).as_ref(), Ok(&term));
            assert_eq!(Expr::one().substitute(9, &term), Ok(Expr::one()));
            assert!(term.is_test_fragment().is_ok());
            assert!(term.num_fields().is_ok());
            assert_eq!(wrap(term).check().unwrap_err().number, 7);
        }
    });
}

#[test]
fn threads_with_a_desugarer_each() {
    let threads: Vec<_> = (0..4)
        .map(|field| {
            thread::spawn(move || {
                let mut desugarer = Desugarer::with_allowance(100);
                let term = Expr::bit_range_test(field, field + 8, bits(0x5a, 8));
                let first = desugarer.desugar(&term).unwrap();
                for _ in 0..200 {
                    assert_eq!(desugarer.desugar(&term).unwrap(), first);
                }
            })
        })
        .collect();
    for thread in threads {
        thread.join().unwrap();
    }
}
