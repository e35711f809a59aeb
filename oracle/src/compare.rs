//! Every comparison for one input: the model in itself, the original beside the model, the port beside the model.
use crate::gen::{self, node, Rng};
use crate::model::{self, *};
use crate::vectors::hex;
use crate::{cores, original, port};
use std::collections::BTreeMap;
use std::fmt::Debug;
use std::panic::{catch_unwind, AssertUnwindSafe};

/// The comparison with the original makes no core with more nodes than this.
pub const LARGEST_CORE: u64 = 150_000;
/// Work of the original, in nodes, above which it is not called.
const MOST_WORK: u64 = 3_000_000;
/// Cores above this, times the bindings around: the original copies all bindings at each binding.
const MOST_COPIED: u64 = 30_000_000;
/// No limit on an answer buffer, for the model.
const ANY_LENGTH: u64 = u64::MAX;
/// Literals of more bits than this are counted apart.
const SHORT: usize = u128::BITS as usize;

/// What was compared, and what differed, with the shortest input for each kind of difference.
#[derive(Default)]
pub struct Stats {
    pub inputs: u64,
    counts: BTreeMap<String, u64>,
    records: [u64; 27],
    long_literals: LongLiterals,
    differences: BTreeMap<String, (u64, String)>,
}

/// An allowance and a buffer length that suit a term, and its core without limit, if it has one that is not too large.
struct Suited {
    allowance: u64,
    out: u64,
    core: Option<Core>,
}

/// Inputs with a literal of 129 to 192 bits.
#[derive(Default)]
struct LongLiterals {
    /// How many inputs have one, by Desugar's number, 0 for a core.
    answers: BTreeMap<u32, u64>,
    /// How many such literals the terms of good form have: kinds 21 to 24, then patterns 0 to 3.
    forms: [u64; 8],
    /// How many inputs have one of more bits, where Form comes to it.
    beyond: u64,
}

impl LongLiterals {
    fn merge(&mut self, other: LongLiterals) {
        for (number, n) in other.answers {
            *self.answers.entry(number).or_default() += n;
        }
        for (sum, n) in self.forms.iter_mut().zip(other.forms) {
            *sum += n;
        }
        self.beyond += other.beyond;
    }
    fn print(&self) {
        let mut refused = self.answers.clone();
        let cores = refused.remove(&0).unwrap_or(0);
        let inputs = cores + refused.values().sum::<u64>();
        if inputs + self.beyond == 0 {
            return;
        }
        println!("  literals of 129 to 192 bits: {inputs} inputs, {cores} cores, refusals {refused:?}; of more bits: {}", self.beyond);
        println!("  literals of 129 to 192 bits in kinds 21 to 24, patterns 0 to 3: {:?}", self.forms);
    }
    fn count(&mut self, bytes: &[u8], number: u32) {
        match longest_literal(bytes) {
            0..=SHORT => {}
            ..=MAX_LITERAL => *self.answers.entry(number).or_default() += 1,
            _ => self.beyond += 1,
        }
    }
    fn count_forms(&mut self, n: &Node) {
        let long = [&n.a, &n.b].iter().filter(|bits| bits.len() > SHORT).count() as u64;
        match n.kind {
            VARASSIGN..=RANGETEST => self.forms[(n.kind - VARASSIGN) as usize] += long,
            RANGEMATCH | VARMATCH => self.forms[4 + n.pat as usize] += long,
            _ => {}
        }
        n.kids.iter().for_each(|k| self.count_forms(k));
    }
}

impl Stats {
    pub fn count(&mut self, what: &str) {
        self.add(what, 1);
    }
    pub fn add(&mut self, what: &str, times: u64) {
        *self.counts.entry(what.to_string()).or_default() += times;
    }
    pub fn differs(&mut self, what: &str, times: u64, detail: String) {
        let entry = self.differences.entry(what.to_string()).or_insert((0, detail.clone()));
        entry.0 += times;
        if detail.len() < entry.1.len() {
            entry.1 = detail;
        }
    }
    pub fn expect(&mut self, good: bool, what: &str, detail: impl Fn() -> String) {
        if !good {
            self.differs(what, 1, detail());
        }
    }
    pub fn same<T: PartialEq + Debug>(&mut self, what: &str, input: &str, model: T, other: T) {
        self.expect(model == other, what, || format!("{input}: model {model:?}, other {other:?}"));
    }
    pub fn merge(&mut self, other: Stats) {
        self.inputs += other.inputs;
        for (what, n) in other.counts {
            self.add(&what, n);
        }
        for (sum, n) in self.records.iter_mut().zip(other.records) {
            *sum += n;
        }
        self.long_literals.merge(other.long_literals);
        for (what, (times, detail)) in other.differences {
            self.differs(&what, times, detail);
        }
    }
    /// True if nothing differed.
    pub fn print(&self) -> bool {
        println!("inputs {}", self.inputs);
        for (what, n) in &self.counts {
            println!("  {what}: {n}");
        }
        if self.records != [0; 27] {
            println!("  records of kinds 0 to 26: {:?}", self.records);
        }
        self.long_literals.print();
        for (what, (times, detail)) in &self.differences {
            println!("DIFFERENCE {what}: {times} times, shortest {detail}");
        }
        if self.differences.is_empty() {
            println!("no difference");
        }
        self.differences.is_empty()
    }

    /// One input through everything.
    pub fn case(&mut self, bytes: &[u8], r: &mut Rng) {
        self.inputs += 1;
        let suited = match decode(bytes) {
            Ok((tree, records)) => self.good_form(bytes, &tree, records, r),
            Err(refusal) => {
                self.bad_form(bytes, refusal);
                Suited { allowance: 1 + r.below(65535), out: 300, core: None }
            }
        };
        let compared = catch_unwind(AssertUnwindSafe(|| self.port(bytes, r, suited)));
        if compared.is_err() {
            self.differs("PORT breaks a promise of the header, see the panic's message", 1, hex(bytes));
        }
    }

    /// Every operation of the model refuses alike.
    fn bad_form(&mut self, bytes: &[u8], refusal: Refusal) {
        let (number, place) = refusal;
        self.count(&format!("form {number:02}"));
        let alike = model::check(bytes) == Err(refusal)
            && model::fragment(bytes) == Err(refusal)
            && model::fields(bytes) == Err(refusal)
            && model::desugar(bytes, 1, work_needed(1), 0) == Err(refusal)
            && model::substitute(bytes, 0, &[0], 0) == Err(refusal)
            && model::substitute(&[0], 0, bytes, 100) == Err((number + 30, place));
        self.expect(alike, "model: form refusals of the operations", || hex(bytes));
    }

    /// The model in itself and the original beside it. Gives what suits the term.
    fn good_form(&mut self, bytes: &[u8], tree: &Node, records: u32, r: &mut Rng) -> Suited {
        let input = hex(bytes);
        self.count("form good");
        count_kinds(tree, &mut self.records);
        self.long_literals.count_forms(tree);
        self.expect(encoded(tree) == bytes, "model: encode of decode", || input.clone());
        self.expect(size_depth(tree).0 == records as u64, "model: record count", || input.clone());

        // Check beside Desugar without limit
        let checked = model::check(bytes);
        match &checked {
            Ok(true) => self.count("check: a test"),
            Ok(false) => self.count("check: not a test"),
            Err(_) => self.count("check: refused by a rule"),
        }
        let mut meter = Meter::new(LARGEST_CORE);
        let core = desugar_walk(tree, &mut Env::new(), &mut meter);
        let too_large = matches!(core, Err((24, _)));
        if !too_large {
            let sort = core.as_ref().map(|c| c.test).map_err(|e| *e);
            self.same("model: Check and Desugar without limit", &input, sort, checked);
        }

        // the allowance, from the list of draws
        let drawn = meter.total();
        let base = drawn.clamp(1, 65535);
        let allowance = match r.below(10) {
            0 => 1,
            1 => 65535,
            2 => 1 + r.below(65535),
            3 => base.saturating_sub(1).max(1),
            4 => (base + 1).min(65535),
            5 | 6 => 1 + r.below(base),
            _ => base,
        };
        let limited = model::desugar(bytes, allowance, work_needed(allowance), ANY_LENGTH);
        let mut sum = 0;
        let first_beyond = meter.draws.iter().find(|(_, n)| {
            sum += n;
            sum > allowance
        });
        let expected = match (&core, first_beyond) {
            (_, Some((place, _))) => Err((24, *place)),
            (Err(e), None) => Err(*e),
            (Ok(c), None) => Ok(Desugared { drawn, core: core_bytes(c) }),
        };
        self.same("model: Desugar and the list of draws", &format!("{input} allowance {allowance}"), &limited, &expected);

        if too_large {
            self.count("original desugar: left out, core too large");
        } else if work(tree, &sums(&meter.draws)) > MOST_WORK || bindings(tree) * drawn > MOST_COPIED {
            self.count("original desugar: left out, too much work");
        } else {
            self.original_desugar(&input, tree, &core);
        }
        self.original_operations(bytes, tree, r);

        let out = match &limited {
            Ok(d) => match r.below(4) {
                0 => (d.core.len() as u64).saturating_sub(1),
                1 => d.core.len() as u64,
                _ => d.core.len() as u64 + r.below(30),
            },
            Err(_) => r.below(200),
        };
        Suited { allowance, out, core: core.ok() }
    }

    fn original_desugar(&mut self, input: &str, tree: &Node, core: &Res<Core>) {
        self.count("original desugar compared");
        match (original::desugar(tree), core) {
            (Ok(bytes), Ok(core)) => {
                self.count("original desugar compared: core");
                self.expect(bytes == core_bytes(core), "ORIGINAL desugar: cores", || format!("{input} original {}", hex(&bytes)));
            }
            (Err((number, message)), Err((refusal, place))) => {
                self.count(&format!("original desugar compared: refusal {refusal}"));
                let panics = original::CHECKED && matches!(refusal, 22 | 23) && original::shown_beyond_u128(&at(tree, *place).kids[0]);
                if panics {
                    self.count(&format!("original desugar compared: refusal {refusal}: panics, as overflow is checked"));
                }
                let expected = if panics { original::SHIFT_PANIC } else { *refusal };
                self.expect(number == expected, "ORIGINAL desugar: refusals", || format!("{input} model {refusal}, {message}"));
            }
            (Ok(_), Err(e)) => self.differs("ORIGINAL accepts, model refuses", 1, format!("{input} {e:?}")),
            (Err((_, message)), Ok(_)) => self.differs("ORIGINAL refuses, model accepts", 1, format!("{input} {message}")),
        }
    }

    /// Test fragment, Field count, Substitute and Subrange of the original.
    fn original_operations(&mut self, bytes: &[u8], tree: &Node, r: &mut Rng) {
        let input = hex(bytes);
        let expr = original::to_expr(tree);
        self.expect(original::expr_bytes(&expr) == bytes, "harness: tree to Expr and back", || input.clone());
        self.expect(original::read(bytes).as_ref() == Some(&expr), "harness: bytes to Expr", || input.clone());

        self.count("original is_test_fragment compared");
        self.same("ORIGINAL is_test_fragment", &input, model::fragment(bytes), Ok(expr.is_test_fragment()));

        self.count("original num_fields compared");
        match (original::fields(&expr), model::fields(bytes)) {
            (None, Err((25, place))) => {
                self.count("original num_fields compared: 25");
                self.expect(first_top_field(tree) == Some(place), "model: place of 25", || input.clone());
            }
            (original, model) => self.same("ORIGINAL num_fields", &input, model.ok(), original),
        }

        let replacement = match r.below(30) {
            0 => gen::balanced(r, 300),
            1 => (0..200).fold(node(ONE, vec![]), |n, _| node(NEGATION, vec![n])),
            _ => gen::term(r, 12),
        };
        self.original_substitute(tree, *r.pick(&[0u16, 1, 2, 3, 255]), &replacement);
        let with_free = gen::with_free_vars(r, tree);
        self.original_substitute(&with_free, *r.pick(&[0u16, 1, 2, 3]), &replacement);

        for _ in 0..3 {
            let [a, b, s, e] = gen::subrange(r);
            self.count("original compute_subrange compared");
            let answer = model::subrange(a, b, s, e).ok();
            if answer.is_some() {
                self.count("original compute_subrange compared: some");
            }
            self.same("ORIGINAL compute_subrange", &format!("{a} {b} {s} {e}"), answer, original::subrange(a, b, s, e));
        }
    }

    fn original_substitute(&mut self, tree: &Node, name: u16, replacement: &Node) {
        let (term, with) = (encoded(tree), encoded(replacement));
        let input = format!("{} {name} {}", hex(&term), hex(&with));
        let Some(result) = substitute_tree(tree, name, replacement, 200_000) else {
            self.count("original substitute: left out, too large");
            return;
        };
        self.count("original substitute compared");
        let expr = original::to_expr(tree).substitute(&original::name(name), &original::to_expr(replacement));
        let bytes = original::expr_bytes(&expr);
        self.expect(bytes == encoded(&result), "ORIGINAL substitute", || input.clone());

        let (records, depth) = size_depth(&result);
        if records > MAX_RECORDS as u64 || depth > MAX_DEPTH as u64 {
            self.count("substitute 27");
            self.same("model: substitute", &input, model::substitute(&term, name, &with, ANY_LENGTH), Err((27, 0)));
            return;
        }
        if bytes != term {
            self.count("original substitute compared: changed");
        }
        self.expect(decode(&bytes).is_ok(), "model: form of a substitution's result", || input.clone());
        let short = bytes.len() as u64 - 1;
        self.same("model: substitute 26", &input, model::substitute(&term, name, &with, short), Err((26, 0)));
        self.same("model: substitute", &input, model::substitute(&term, name, &with, ANY_LENGTH), Ok(bytes));
    }

    /// The six functions of the port that document 01 asks for, and the one that reads cores: the input as a core, and the core that the port
    /// made.
    fn port(&mut self, bytes: &[u8], r: &mut Rng, Suited { allowance, out, core }: Suited) {
        self.count("port compared");
        let input = hex(bytes);
        let allowance = if r.below(400) == 0 { *r.pick(&[0u64, 65536, 1 << 20, u32::MAX as u64]) } else { allowance };
        let need = if allowance <= 65535 { work_needed(allowance) } else { 9000 };
        let work = if r.below(400) == 0 { need - 1 } else { need };
        let answer = model::desugar(bytes, allowance, work, out);
        self.count(&match &answer {
            Ok(_) => "port desugar compared: core".to_string(),
            Err((n, _)) => format!("port desugar compared: refusal {n:02}"),
        });
        self.long_literals.count(bytes, answer.as_ref().err().map_or(0, |e| e.0));
        let lent = format!("{input} allowance {allowance} work {work} out {out}");
        let made = port::desugar(bytes, allowance, work, out);
        if let (Ok(made), Some(tree)) = (&made, &core) {
            cores::beside_desugar(self, &made.core, tree);
        }
        self.same("PORT desugar", &lent, answer, made);
        cores::beside_port(self, bytes, bytes.len() as u64);
        self.same("PORT check", &input, model::check(bytes), port::check(bytes));
        self.same("PORT is_test_fragment", &input, model::fragment(bytes), port::fragment(bytes));
        self.same("PORT num_fields", &input, model::fields(bytes), port::fields(bytes));

        let name = *r.pick(&[0u16, 1, 2, 3, 255]);
        let other = gen::input(r, 12);
        let (term, with): (&[u8], &[u8]) = if r.pct(90) { (bytes, &other) } else { (&other, bytes) };
        let length = model::substitute(term, name, with, ANY_LENGTH).map(|b| b.len() as u64).unwrap_or(50);
        let out = match r.below(4) {
            0 => length - 1,
            1 => length,
            _ => length + r.below(20),
        };
        let lent = format!("{} {name} {} out {out}", hex(term), hex(with));
        self.same("PORT substitute", &lent, model::substitute(term, name, with, out), port::substitute(term, name, with, out));

        let [a, b, s, e] = gen::subrange(r);
        self.same("PORT compute_subrange", &format!("{a} {b} {s} {e}"), model::subrange(a, b, s, e), port::subrange(a, b, s, e));
    }
}

fn count_kinds(n: &Node, counts: &mut [u64; 27]) {
    counts[n.kind as usize] += 1;
    n.kids.iter().for_each(|k| count_kinds(k, counts));
}

fn sums(draws: &[(u32, u64)]) -> BTreeMap<u32, u64> {
    let mut of_place = BTreeMap::new();
    for (place, n) in draws {
        *of_place.entry(*place).or_default() += n;
    }
    of_place
}

/// How many nodes the original makes: it desugars the condition of an if twice.
fn work(n: &Node, draws: &BTreeMap<u32, u64>) -> u64 {
    let mut nodes = 1 + draws.get(&n.place).copied().unwrap_or(0);
    for (i, k) in n.kids.iter().enumerate() {
        let times = if n.kind == IF && i == 0 { 2 } else { 1 };
        nodes = nodes.saturating_add(work(k, draws).saturating_mul(times));
    }
    nodes
}

fn bindings(n: &Node) -> u64 {
    (n.kind == LET || n.kind == LETRANGE) as u64 + n.kids.iter().map(bindings).sum::<u64>()
}

/// The term at a place.
fn at(n: &Node, place: u32) -> &Node {
    // the last child that does not begin behind it
    match n.kids.iter().rev().find(|k| k.place <= place) {
        Some(kid) => at(kid, place),
        None => n,
    }
}

/// The first Assign or Test of the highest field number, in written order.
fn first_top_field(n: &Node) -> Option<u32> {
    if (n.kind == ASSIGN || n.kind == TEST) && n.start == u32::MAX {
        return Some(n.place);
    }
    n.kids.iter().find_map(first_top_field)
}

pub fn random(seed: u64, count: u64, budget: i64, input: fn(&mut Rng, i64) -> Vec<u8>) -> Stats {
    let mut stats = Stats::default();
    for i in 0..count {
        let mut r = Rng::new(seed.wrapping_mul(0x1_0000_0001).wrapping_add(i));
        let bytes = input(&mut r, budget);
        stats.case(&bytes, &mut r);
    }
    stats
}

/// All byte strings of up to `length` bytes; of three and more, only those of good form are compared.
pub fn exhaustive(length: usize) -> Stats {
    let mut stats = Stats::default();
    for len in 0..=length {
        for number in 0..1u64 << (8 * len) {
            let bytes = &number.to_be_bytes()[8 - len..];
            if len < 3 || decode(bytes).is_ok() {
                stats.case(bytes, &mut Rng::new(number));
            }
        }
    }
    stats
}

/// What each makes of one term.
pub fn show(bytes: &[u8]) -> bool {
    println!("model check    {:?}", model::check(bytes));
    println!("port check     {:?}", port::check(bytes));
    let show = |d: Desugared| format!("drawn {}, {}", d.drawn, hex(&d.core));
    println!("model desugar  {:?}", model::desugar(bytes, 65535, work_needed(65535), ANY_LENGTH).map(show));
    println!("port desugar   {:?}", port::desugar(bytes, 65535, work_needed(65535), 7 * 65535).map(show));
    if let Ok((tree, _)) = decode(bytes) {
        println!("original       {}", original::text(&original::to_expr(&tree)));
        println!("its desugar    {:?}", original::desugar(&tree).map(|core| hex(&core)));
    }
    let mut stats = Stats::default();
    stats.case(bytes, &mut Rng::new(1));
    stats.print()
}
