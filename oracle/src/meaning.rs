//! Document 01's packet meaning on six fields: the written term beside its core, and the test sort beside it.
use crate::cores::Record;
use crate::gen::{Gen, Rng};
use crate::model::*;
use crate::vectors::hex;

pub const FIELDS: u32 = 6;
pub const N: usize = 1 << FIELDS;
/// Row p holds the set of q.
pub type Rel = Box<[u64; N]>;

fn rel(f: impl Fn(usize, usize) -> bool) -> Rel {
    let mut r = Box::new([0u64; N]);
    for p in 0..N {
        for q in 0..N {
            if f(p, q) {
                r[p] |= 1 << q;
            }
        }
    }
    r
}
fn ident(f: impl Fn(usize) -> bool) -> Rel {
    let mut r = Box::new([0u64; N]);
    for p in 0..N {
        if f(p) {
            r[p] = 1 << p;
        }
    }
    r
}
fn zip(a: &Rel, b: &Rel, f: impl Fn(u64, u64) -> u64) -> Rel {
    let mut r = Box::new([0u64; N]);
    for p in 0..N {
        r[p] = f(a[p], b[p]);
    }
    r
}
fn compose(a: &Rel, b: &Rel) -> Rel {
    let mut r = Box::new([0u64; N]);
    for p in 0..N {
        let mut x = a[p];
        while x != 0 {
            r[p] |= b[x.trailing_zeros() as usize];
            x &= x - 1;
        }
    }
    r
}
fn combine(kind: u8, a: &Rel, b: &Rel) -> Rel {
    match kind {
        UNION => zip(a, b, |x, y| x | y),
        INTERSECT => zip(a, b, |x, y| x & y),
        XOR => zip(a, b, |x, y| x ^ y),
        DIFFERENCE => zip(a, b, |x, y| x & !y),
        SEQUENCE => compose(a, b),
        _ => unreachable!(),
    }
}
fn star(a: &Rel) -> Rel {
    let mut r = ident(|_| true);
    loop {
        let n = zip(&r, &compose(&r, a), |x, y| x | y);
        if n == r {
            return r;
        }
        r = n;
    }
}
fn bit(p: usize, f: u32) -> bool {
    p >> f & 1 == 1
}
fn value(bits: &[bool]) -> usize {
    bits.iter().enumerate().fold(0, |v, (i, b)| v | (*b as usize) << i)
}

fn leaf(kind: u8, field: u32, v: bool) -> Rel {
    match kind {
        ZERO => ident(|_| false),
        ONE => ident(|_| true),
        TEST => ident(|p| bit(p, field) == v),
        _ => rel(|p, q| q == if v { p | 1 << field } else { p & !(1 << field) }),
    }
}

fn written(n: &Node, vars: &mut Vec<(u16, Rel)>, al: &mut Vec<(u16, (u32, u32))>) -> Rel {
    match n.kind {
        ZERO | ONE | ASSIGN | TEST => leaf(n.kind, n.start, n.num == 1),
        UNION..=SEQUENCE => {
            let a = written(&n.kids[0], vars, al);
            let b = written(&n.kids[1], vars, al);
            combine(n.kind, &a, &b)
        }
        STAR => star(&written(&n.kids[0], vars, al)),
        NEGATION => {
            let a = written(&n.kids[0], vars, al);
            ident(|p| a[p] >> p & 1 == 0)
        }
        IF => {
            let c = written(&n.kids[0], vars, al);
            let t = written(&n.kids[1], vars, al);
            let e = written(&n.kids[2], vars, al);
            let mut r = Box::new([0u64; N]);
            for p in 0..N {
                r[p] = if c[p] >> p & 1 == 1 { t[p] } else { e[p] };
            }
            r
        }
        LET => {
            let d = written(&n.kids[0], vars, al);
            vars.push((n.name, d));
            let r = written(&n.kids[1], vars, al);
            vars.pop();
            r
        }
        LETRANGE => {
            al.push((n.name, (n.start, n.end)));
            let r = written(&n.kids[0], vars, al);
            al.pop();
            r
        }
        VAR => vars.iter().rev().find(|v| v.0 == n.name).unwrap().1.clone(),
        _ => {
            let (s, e) = if matches!(n.kind, VARASSIGN | VARTEST | VARMATCH) {
                al.iter().rev().find(|v| v.0 == n.name).unwrap().1
            } else {
                (n.start, n.end)
            };
            let w = e - s;
            let of = |p: usize| p >> s & ((1 << w) - 1);
            let (a, b) = (value(&n.a), value(&n.b));
            match n.kind {
                VARASSIGN | RANGEASSIGN => rel(|p, q| q == (p & !(((1 << w) - 1) << s) | a << s)),
                VARTEST | RANGETEST => ident(|p| of(p) == a),
                _ => match n.pat {
                    0 => ident(|p| of(p) == a),
                    1 => ident(|p| of(p) >> (w - n.num as u32) == a >> (w - n.num as u32)),
                    2 => ident(|p| of(p) & !b == a & !b),
                    _ => ident(|p| a <= of(p) && of(p) <= b),
                },
            }
        }
    }
}

fn of_core(c: &Core) -> Rel {
    match c.kind {
        UNION..=SEQUENCE => combine(c.kind, &of_core(&c.kids[0]), &of_core(&c.kids[1])),
        STAR => star(&of_core(&c.kids[0])),
        _ => leaf(c.kind, c.field, c.value),
    }
}

/// The relation of a test, given by its records on the six fields.
pub fn of_records(records: &[Record]) -> Rel {
    let mut relations: Vec<Rel> = Vec::new();
    for &[kind, field, value] in records.iter().rev() {
        let kind = kind as u8;
        let relation = match children(kind) {
            0 => leaf(kind, field, value == 1),
            _ => {
                // the left operand was pushed last
                let (left, right) = (relations.pop().unwrap(), relations.pop().unwrap());
                combine(kind, &left, &right)
            }
        };
        relations.push(relation);
    }
    relations.pop().unwrap()
}

fn one_step(n: &Node) -> bool {
    !matches!(n.kind, TOP | DUP | END | COMPLEMENT | NEXT | UNTIL) && n.kids.iter().all(one_step)
}

pub fn run(seed: u64, count: u64) -> bool {
    let (mut compared, mut bad, mut tests) = (0u64, 0u64, 0u64);
    let mut shortest: Option<String> = None;
    let mut i = 0;
    while compared < count {
        i += 1;
        let mut r = Rng::new(seed.wrapping_mul(0x1_0000_0007).wrapping_add(i));
        let depth = 1 + r.below(7) as u32;
        let budget = 1 + r.below(25) as i64;
        let test = r.bool();
        let mut g = Gen::new(&mut r, 0, budget, false);
        g.small = true;
        let n = if test { g.test(depth) } else { g.any(depth) };
        let b = encoded(&n);
        let (n, _) = decode(&b).unwrap();
        if !one_step(&n) || fields(&b).map(|f| f > FIELDS).unwrap_or(true) {
            continue;
        }
        let Ok(sort) = check(&b) else { continue };
        let core = desugar_walk(&n, &mut Env::new(), &mut Meter::new(20_000));
        let Ok(core) = core else { continue };
        compared += 1;
        let w = written(&n, &mut vec![], &mut vec![]);
        let c = of_core(&core);
        tests += sort as u64;
        let within = (0..N).all(|p| w[p] & !(1 << p) == 0);
        if w != c || (sort && !within) {
            bad += 1;
            let h = hex(&b);
            if shortest.as_ref().map(|s| h.len() < s.len()).unwrap_or(true) {
                shortest = Some(h);
            }
        }
    }
    println!("meaning: {compared} one-step terms ({tests} tests) on {FIELDS} fields, {bad} where the core means something else");
    if let Some(s) = shortest {
        println!("DIFFERENCE of meaning, shortest {s}");
    }
    bad == 0
}
