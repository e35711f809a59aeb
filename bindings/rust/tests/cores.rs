//! Cores: the nodes beside the boxed tree.

#[allow(dead_code)] // Terms are for other tests.
mod common;

use std::collections::hash_map::DefaultHasher;
use std::hash::{Hash, Hasher};

use common::core_exprs;
use netkat::{desugar, Core, Exp, Expr, Kind, Node, View};

/// The children of a view, or the field and value.
fn parts<'a>(view: View<'a>) -> (Vec<Node<'a>>, Option<(u32, bool)>) {
    match view {
        View::Zero | View::One | View::Top | View::Dup | View::End => (vec![], None),
        View::Assign(field, value) | View::Test(field, value) => (vec![], Some((field, value))),
        View::Complement(a) | View::Star(a) | View::LtlNext(a) => (vec![a], None),
        View::Union(a, b)
        | View::Intersect(a, b)
        | View::Xor(a, b)
        | View::Difference(a, b)
        | View::Sequence(a, b)
        | View::LtlUntil(a, b) => (vec![a, b], None),
    }
}

/// What the node is beside what the boxed node is, children aside.
fn same_head(node: Node, expr: &Expr) -> bool {
    match (node.view(), expr) {
        (View::Assign(f, v), Expr::Assign(g, w)) | (View::Test(f, v), Expr::Test(g, w)) => (f, v) == (*g, *w),
        (view, expr) => {
            let name = |text: String| text.split('(').next().unwrap().to_owned();
            name(format!("{view:?}")) == name(format!("{expr:?}"))
        }
    }
}

#[test]
fn nodes_and_the_boxed_tree() {
    for expr in core_exprs(1, 3_000) {
        let core = Core::from_expr(&expr).unwrap();
        assert_eq!(core.to_expr(), expr);
        assert_eq!(core.len(), expr.nodes().count());
        assert_eq!(core.nodes().len(), core.len());
        assert!(core.nodes().zip(expr.nodes()).all(|(node, expr)| same_head(node, expr)));
        assert_eq!(format!("{core:?}"), format!("{expr:?}"));
        assert_eq!(format!("{core:#?}"), format!("{expr:#?}"));
        assert_eq!(core.to_bytes(), expr_bytes(&expr));
        assert_eq!(Core::try_from(&*expr).as_ref(), Ok(&core));
        assert_eq!(Exp::from(&core), expr);
    }
}

/// The bytes of an expression, which may be beyond the limits of terms.
fn expr_bytes(expr: &Expr) -> Vec<u8> {
    expr.to_bytes().or_else(|_| Core::from_expr(expr).map(|core| core.to_bytes())).unwrap()
}

#[test]
fn views_children_and_indexes() {
    for expr in core_exprs(2, 1_500) {
        let core = Core::from_expr(&expr).unwrap();
        // The parent of each node, as its children say; the root has none.
        let mut parents = vec![0; core.len()];
        for (index, node) in core.nodes().enumerate() {
            assert_eq!(node.index(), index);
            assert_eq!(core.node(index), Some(node));
            let (children, atom) = parts(node.view());
            assert_eq!(
                node.children().map(Node::index).collect::<Vec<_>>(),
                children.iter().map(|c| c.index()).collect::<Vec<_>>()
            );
            assert_eq!(node.kind().arity(), children.len());
            let record = node.record();
            assert_eq!(
                (record.kind, record.field, record.value),
                (node.kind(), atom.map_or(0, |a| a.0), atom.is_some_and(|a| a.1))
            );
            // The trees of the children stand one behind the other, and together end where the node's does.
            let mut next = index + 1;
            for child in children {
                assert_eq!(child.index(), next);
                next += child.nodes().len();
                parents[child.index()] += 1;
            }
            assert_eq!(index + node.nodes().len(), next);
            let own = node.to_core();
            assert_eq!(own.root(), node);
            assert_eq!(own.to_expr(), node.to_expr());
            assert_eq!(own.to_expr(), core.node(index).unwrap().to_expr());
        }
        assert_eq!(parents[0], 0);
        assert!(parents[1..].iter().all(|count| *count == 1));
        assert_eq!(core.node(core.len()), None);
        assert!(core.records().eq(core.nodes().map(Node::record)));
    }
}

fn hash(node: Node) -> u64 {
    let mut hasher = DefaultHasher::new();
    node.hash(&mut hasher);
    hasher.finish()
}

#[test]
fn equality() {
    let cores: Vec<Core> = core_exprs(3, 120).map(|expr| Core::from_expr(&expr).unwrap()).collect();
    for a in &cores {
        for b in &cores {
            let same = a.to_bytes() == b.to_bytes();
            assert_eq!(a == b, same);
            assert_eq!(a.root() == b.root(), same);
            assert_eq!(hash(a.root()) == hash(b.root()), same);
            assert_eq!(a.root().view() == b.root().view(), same);
            assert_eq!(a.to_expr() == b.to_expr(), same);
        }
    }
    assert_eq!(Core::default().root().view(), View::Zero);
}

#[test]
fn kinds() {
    let all: Vec<Kind> =
        core_exprs(4, 500).flat_map(|e| Core::from_expr(&e).unwrap().records().map(|r| r.kind).collect::<Vec<_>>()).collect();
    for number in 0..16 {
        let kind = *all.iter().find(|kind| kind.number() == number).unwrap();
        let bytes = match (number, kind.arity()) {
            (0, _) => vec![0],
            (_, arity) => [vec![1, number], vec![0; arity]].concat(),
        };
        assert_eq!(Core::from_bytes(&bytes).unwrap().root().kind(), kind);
    }
}

#[test]
fn expressions_that_are_no_cores() {
    let others = [
        Expr::var(1),
        Expr::test_negation(Expr::one()),
        Expr::if_then_else(Expr::one(), Expr::one(), Expr::one()),
        Expr::let_in(1, Expr::one(), Expr::one()),
        Expr::let_bit_range(1, 0, 1, Expr::one()),
        Expr::var_test(1, vec![]),
        Expr::bit_range_assign(0, 0, vec![]),
    ];
    for other in others {
        let expr = Expr::union(Expr::star(Expr::dup()), other);
        assert_eq!(Core::from_expr(&expr).unwrap_err(), Core::from_bytes(&expr.to_bytes().unwrap()).unwrap_err());
        assert_eq!(Core::from_expr(&expr).map_err(|r| (r.number, r.place)), Err((41, 3)));
    }
}

#[test]
fn several_lines() {
    let policy = Expr::let_bit_range(1, 0, 8, Expr::union(Expr::test(0, true), Expr::star(Expr::dup())));
    let lines =
        "LetBitRange(1, 0, 8,\n    Union(\n        Test(0, true),\n        Star(\n            Dup,\n        ),\n    ),\n)";
    assert_eq!(format!("{policy:#?}"), lines);
    assert_eq!(format!("{policy:?}"), "LetBitRange(1, 0, 8, Union(Test(0, true), Star(Dup)))");
    let core = desugar(&policy).unwrap();
    assert_eq!(format!("{core:#?}"), "Union(\n    Test(0, true),\n    Star(\n        Dup,\n    ),\n)");
    assert_eq!(format!("{:#?}", core.root()), format!("{core:#?}"));
    assert_eq!(format!("{:?}", core.root().view()), "Union(Test(0, true), Star(Dup))");
}
