//! Operators on lists.

use crate::{Core, Exp, Expr, Kind};

/// Operators on lists of terms. The tree is balanced, so that a list of a thousand terms adds ten levels and not a thousand; the order of the
/// terms is kept. Meaning does not depend on how unions or sequences are grouped.
///
/// There is none for `&`: of tests it means what `;` means, and of no terms it would be `T`, which is not a test.
impl Expr {
    /// `a + b + ..`: the union of all terms, `0` of none. For thousands of them see [`limits`](crate::limits).
    ///
    /// ```
    /// use netkat::Expr;
    ///
    /// let ports = Expr::union_all([22, 80, 443].map(|field| Expr::test(field, true)));
    /// assert_eq!(ports.to_string(), "x22 == 1 + x80 == 1 + x443 == 1");
    /// assert_eq!(Expr::union_all([]), Expr::zero());
    /// ```
    pub fn union_all(terms: impl IntoIterator<Item = Exp>) -> Exp {
        balanced(terms, Expr::union).unwrap_or_else(Expr::zero)
    }

    /// `a ; b ; ..`: all terms one after the other, `1` of none. Of tests, this is their conjunction.
    ///
    /// ```
    /// use netkat::Expr;
    ///
    /// let rule = Expr::sequence_all([Expr::test(0, true), Expr::test(1, false), Expr::assign(2, true)]);
    /// assert_eq!(rule.to_string(), "x0 == 1 ; x1 == 0 ; x2 := 1");
    /// assert_eq!(Expr::sequence_all([]), Expr::one());
    /// ```
    pub fn sequence_all(terms: impl IntoIterator<Item = Exp>) -> Exp {
        balanced(terms, Expr::sequence).unwrap_or_else(Expr::one)
    }
}

impl Core {
    /// The union of two cores.
    pub fn union(a: &Core, b: &Core) -> Core {
        joined(Kind::Union, a, b)
    }

    /// One core after the other, as it stands. (Desugaring a `;` leaves out a `1` on either side, and that of an if does not.)
    ///
    /// ```
    /// use netkat::{desugar, Core, Expr};
    ///
    /// let (test, a, b) = (Expr::test(0, true), Expr::assign(1, true), Expr::assign(2, true));
    /// let core = |term: &Expr| desugar(term).unwrap();
    /// let then = Core::sequence(&core(&test), &core(&a));
    /// let otherwise = Core::sequence(&core(&Expr::test_negation(test.clone())), &core(&b));
    /// assert_eq!(Core::union(&then, &otherwise), core(&Expr::if_then_else(test, a, b)));
    /// ```
    pub fn sequence(a: &Core, b: &Core) -> Core {
        joined(Kind::Sequence, a, b)
    }

    /// The union of all cores, grouped as [`Expr::union_all`] groups terms; `Zero` of none.
    ///
    /// So the cores of parts become the core of the whole: for terms that keep the rules, `Core::union_all` of their cores is the core of
    /// `Expr::union_all` of the terms.
    ///
    /// ```
    /// use netkat::{desugar, Core, Expr};
    ///
    /// let terms: Vec<_> = (0..5).map(|field| Expr::test_negation(Expr::test(field, true))).collect();
    /// let cores = terms.iter().map(|term| desugar(term).unwrap());
    /// assert_eq!(Core::union_all(cores), desugar(&Expr::union_all(terms.clone())).unwrap());
    /// ```
    ///
    /// # Panics
    ///
    /// If it has more than 4,294,967,295 nodes; so do [`Core::union`] and [`Core::sequence`].
    pub fn union_all(cores: impl IntoIterator<Item = Core>) -> Core {
        let operator = [1, Kind::Union.number()];
        let union = |a: Vec<u8>, b: Vec<u8>| [&operator[..], &a, &b].concat();
        let Some(bytes) = balanced(cores.into_iter().map(|core| core.to_bytes()), union) else {
            return Core::default();
        };
        // Mostly, tests and assignments of seven bytes have an operator of two bytes each.
        Core::of_good_form(&bytes, bytes.len() / 4)
    }
}

fn joined(operator: Kind, a: &Core, b: &Core) -> Core {
    let bytes = [&[1, operator.number()], &a.to_bytes()[..], &b.to_bytes()].concat();
    Core::of_good_form(&bytes, 1 + a.len() + b.len())
}

/// Joins neighbours, then the joined neighbours, until one is left.
fn balanced<T>(parts: impl IntoIterator<Item = T>, join: impl Fn(T, T) -> T) -> Option<T> {
    let mut parts: Vec<T> = parts.into_iter().collect();
    while parts.len() > 1 {
        let mut joined = Vec::with_capacity(parts.len().div_ceil(2));
        let mut rest = parts.into_iter();
        while let Some(first) = rest.next() {
            joined.push(match rest.next() {
                Some(second) => join(first, second),
                None => first,
            });
        }
        parts = joined;
    }
    parts.pop()
}
