//! Vector files: one case a line. docs/TESTS.md has the form of the lines.
use crate::bounds;
use crate::compare::Stats;
use crate::cores::{self, Listing};
use crate::costs::{self, Match};
use crate::gen::{self, Gen, Rng};
use crate::lent::Lent;
use crate::model::{self, *};
use crate::packets::{self, Packets};
use crate::port;

pub fn hex(b: &[u8]) -> String {
    if b.is_empty() { "-".into() } else { b.iter().map(|x| format!("{x:02x}")).collect() }
}
/// Groups with a dot between them, each with `*` and a number behind it where it stands there more than once.
pub fn unhex(s: &str) -> Vec<u8> {
    if s == "-" {
        return vec![];
    }
    let group = |s: &str| {
        let (digits, times) = s.split_once('*').unwrap_or((s, "1"));
        digit_bytes(digits).repeat(times.parse().expect("a number"))
    };
    s.split('.').flat_map(group).collect()
}
fn digit_bytes(s: &str) -> Vec<u8> {
    (0..s.len()).step_by(2).map(|i| u8::from_str_radix(&s[i..(i + 2).min(s.len())], 16).expect("hexadecimal digits")).collect()
}

/// What one line asks.
enum Case {
    Desugar { term: Vec<u8>, allowance: u64, work: u64, out: u64 },
    Check(Vec<u8>),
    Substitute { term: Vec<u8>, name: u16, replacement: Vec<u8>, out: u64 },
    Fragment(Vec<u8>),
    Fields(Vec<u8>),
    Subrange([u32; 4]),
    /// Two bounds over a field of so many bits. The library exports no function for it: the model alone answers.
    Compare(u32, Lent, Lent),
    Cost(Match),
    /// A core, and how many numbers the list has.
    Read(Vec<u8>, u64),
    Packets(Packets),
    /// The program of document 01 on a term.
    Program(Vec<u8>),
}

/// Who answers: the model or the port.
struct Answerer {
    desugar: fn(&[u8], u64, u64, u64) -> Res<Desugared>,
    check: fn(&[u8]) -> Res<bool>,
    substitute: fn(&[u8], u16, &[u8], u64) -> Res<Vec<u8>>,
    fragment: fn(&[u8]) -> Res<bool>,
    fields: fn(&[u8]) -> Res<u32>,
    subrange: fn(u32, u32, u32, u32) -> Res<(u32, u32)>,
    cost: fn(&Match) -> Res<u64>,
    read: fn(&[u8], u64) -> Res<Listing>,
    packets: fn(&Packets) -> Res<u64>,
}
const MODEL: Answerer = Answerer {
    desugar: model::desugar,
    check: model::check,
    substitute: model::substitute,
    fragment: model::fragment,
    fields: model::fields,
    subrange: model::subrange,
    cost: costs::cost,
    read: cores::read,
    packets: packets::run,
};
const PORT: Answerer = Answerer {
    desugar: port::desugar,
    check: port::check,
    substitute: port::substitute,
    fragment: port::fragment,
    fields: port::fields,
    subrange: port::subrange,
    cost: port::cost,
    read: port::read_core,
    packets: port::run_packets,
};

fn show<T>(r: Res<T>, values: impl Fn(T) -> String) -> String {
    match r {
        Ok(v) => format!("ok {}", values(v)),
        Err((number, place)) => format!("no {number} {place}"),
    }
}

impl Case {
    fn parse(question: &str) -> Case {
        let words: Vec<&str> = question.split(' ').collect();
        let number = |i: usize| words[i].parse::<u64>().expect("a number");
        let lent = |i: usize| Lent { bits: number(i) as u32, bytes: unhex(words[i + 1]) };
        match words[0] {
            "desugar" => Case::Desugar { term: unhex(words[1]), allowance: number(2), work: number(3), out: number(4) },
            "check" => Case::Check(unhex(words[1])),
            "substitute" => {
                Case::Substitute { term: unhex(words[1]), name: number(2) as u16, replacement: unhex(words[3]), out: number(4) }
            }
            "fragment" => Case::Fragment(unhex(words[1])),
            "fields" => Case::Fields(unhex(words[1])),
            "subrange" => Case::Subrange([1, 2, 3, 4].map(|i| number(i) as u32)),
            "compare" => Case::Compare(number(1) as u32, lent(2), lent(4)),
            "cost" => {
                let [start, end, pattern, number] = [1, 2, 3, 4].map(|i| number(i) as u32);
                Case::Cost(Match { start, end, pattern, number, a: lent(5), b: lent(7) })
            }
            "read" => Case::Read(unhex(words[1]), number(2)),
            "packets" => {
                let (core, bytes, lengths) = (unhex(words[1]), unhex(words[3]), packets::lengths(words[4]));
                Case::Packets(Packets { core, room: number(2), bytes, lengths })
            }
            term => Case::Program(unhex(term)),
        }
    }

    fn question(&self) -> String {
        match self {
            Case::Desugar { term, allowance, work, out } => format!("desugar {} {allowance} {work} {out}", hex(term)),
            Case::Check(t) => format!("check {}", hex(t)),
            Case::Substitute { term, name, replacement, out } => {
                format!("substitute {} {name} {} {out}", hex(term), hex(replacement))
            }
            Case::Fragment(t) => format!("fragment {}", hex(t)),
            Case::Fields(t) => format!("fields {}", hex(t)),
            Case::Subrange([a, b, s, e]) => format!("subrange {a} {b} {s} {e}"),
            Case::Compare(width, a, b) => format!("compare {width} {} {}", a.text(), b.text()),
            Case::Cost(m) => m.question(),
            Case::Read(core, room) => format!("read {} {room}", hex(core)),
            Case::Packets(p) => p.question(),
            Case::Program(t) => hex(t),
        }
    }

    fn answer(&self, by: &Answerer) -> String {
        match self {
            Case::Desugar { term, allowance, work, out } => {
                show((by.desugar)(term, *allowance, *work, *out), |d| format!("{} {} {}", d.drawn, d.core.len(), hex(&d.core)))
            }
            Case::Check(t) => show((by.check)(t), |b| format!("{}", b as u8)),
            Case::Substitute { term, name, replacement, out } => {
                show((by.substitute)(term, *name, replacement, *out), |b| format!("{} {}", b.len(), hex(&b)))
            }
            Case::Fragment(t) => show((by.fragment)(t), |b| format!("{}", b as u8)),
            Case::Fields(t) => show((by.fields)(t), |n| format!("{n}")),
            Case::Subrange([a, b, s, e]) => show((by.subrange)(*a, *b, *s, *e), |(from, to)| format!("{from} {to}")),
            Case::Compare(width, a, b) => show(bounds::compare(*width, a, b), |(order, looked)| format!("{order} {looked}")),
            Case::Cost(m) => show((by.cost)(m), |nodes| format!("{nodes}")),
            Case::Read(core, room) => {
                show((by.read)(core, *room), |l| format!("{} {} {}", l.records.len(), l.fields, cores::text(&l.records)))
            }
            Case::Packets(p) => show((by.packets)(p), |mask| format!("{mask:016x}")),
            Case::Program(t) if t.len() > 8192 => "long".into(),
            Case::Program(t) => {
                show((by.desugar)(t, 1000, work_needed(1000), 7000), |d| format!("{} {} | {}", d.drawn, d.core.len(), hex(&d.core)))
            }
        }
    }

    /// Whether the port has a function for it.
    fn exported(&self) -> bool {
        !matches!(self, Case::Compare(..))
    }

    fn term(&self) -> Option<&[u8]> {
        match self {
            Case::Desugar { term, .. } | Case::Substitute { term, .. } => Some(term),
            Case::Check(t) | Case::Fragment(t) | Case::Fields(t) | Case::Program(t) => Some(t),
            Case::Subrange(_) | Case::Compare(..) | Case::Cost(_) | Case::Read(..) | Case::Packets(_) => None,
        }
    }
}

/// Each line's answer by the model and by the port; its term also through every comparison of compare.rs, its lent match through those of
/// costs.rs, its core through those of cores.rs, its packets through those of packets.rs.
pub fn replay(files: &[String]) -> bool {
    let mut stats = Stats::default();
    let mut all_good = true;
    for file in files {
        let text = std::fs::read_to_string(file).unwrap_or_else(|e| panic!("{file}: {e}"));
        let (mut good, mut bad) = (0, 0);
        for line in text.lines().filter(|l| !l.starts_with('#') && !l.is_empty()) {
            let (question, want) = line.split_once(" => ").expect("a line with =>");
            let case = Case::parse(question);
            let model = case.answer(&MODEL);
            let port = if case.exported() { case.answer(&PORT) } else { "not asked".into() };
            if model == want && (port == want || !case.exported()) {
                good += 1;
            } else {
                bad += 1;
                println!("DIFFERENCE {line}\n    model {model}\n    port  {port}");
            }
            let mut r = Rng::new(good + bad);
            match &case {
                Case::Cost(m) => costs::case(&mut stats, m, &mut r),
                Case::Read(core, room) => cores::case(&mut stats, core, *room),
                Case::Packets(p) => packets::case(&mut stats, p),
                _ => case.term().into_iter().for_each(|term| stats.case(term, &mut r)),
            }
        }
        println!("{file}: {good} as expected, {bad} not");
        all_good &= bad == 0;
    }
    stats.print() && all_good
}

/// Completes lines: the part before => is kept, the model's answer follows.
pub fn answer() -> bool {
    for line in std::io::stdin().lines() {
        let line = line.expect("text on standard input");
        let question = line.split(" => ").next().unwrap();
        println!("{question} => {}", Case::parse(question).answer(&MODEL));
    }
    true
}

/// Random lines with the model's answers.
pub fn sample(seed: u64, count: u64, budget: i64) -> bool {
    for i in 0..count {
        let case = random_case(&mut Rng::new(seed.wrapping_mul(0x1_0000_0003).wrapping_add(i)), budget);
        println!("{} => {}", case.question(), case.answer(&MODEL));
    }
    true
}

/// Comparisons of bounds with the model's answers.
pub fn bounds(seed: u64, count: u64) -> bool {
    for (width, a, b) in bounds::pairs(seed, count) {
        let case = Case::Compare(width, a, b);
        println!("{} => {}", case.question(), case.answer(&MODEL));
    }
    true
}

fn random_case(r: &mut Rng, budget: i64) -> Case {
    match r.below(100) {
        0..=4 => return Case::Cost(costs::random(r)),
        5..=9 => {
            let (core, room) = cores::random(r);
            return Case::Read(core, room);
        }
        10..=14 => return Case::Packets(packets::random(r)),
        _ => {}
    }
    let term = random_term(r, budget);
    match r.below(20) {
        0..=9 => random_desugar(r, term),
        10..=13 => Case::Check(term),
        14..=16 => {
            let term = match decode(&term) {
                Ok((n, _)) if r.pct(80) => encoded(&gen::with_free_vars(r, &n)),
                _ => term,
            };
            let replacement = if r.pct(75) { encoded(&gen::term(r, 6)) } else { gen::input(r, 10) };
            let name = *r.pick(&[0u16, 1, 2, 3]);
            let out = match model::substitute(&term, name, &replacement, u64::MAX) {
                Ok(b) => (b.len() as u64 + r.below(8)).saturating_sub(2),
                Err(_) => r.below(64),
            };
            Case::Substitute { term, name, replacement, out }
        }
        17 => Case::Fragment(term),
        18 => Case::Fields(term),
        _ => Case::Subrange(gen::subrange(r)),
    }
}

/// A random input, or a term that breaks many rules.
fn random_term(r: &mut Rng, budget: i64) -> Vec<u8> {
    if !r.pct(25) {
        return gen::input(r, budget);
    }
    let (depth, is_test, size) = (1 + r.below(6) as u32, r.bool(), 2 + r.below(14) as i64);
    let long = r.pct(18);
    let mut g = Gen::new(r, 150, size, true);
    g.long = long;
    encoded(&if is_test { g.test(depth) } else { g.any(depth) })
}

fn random_desugar(r: &mut Rng, term: Vec<u8>) -> Case {
    let mut meter = Meter::new(65535);
    if let Ok((n, _)) = decode(&term) {
        let _ = desugar_walk(&n, &mut Env::new(), &mut meter);
    }
    let drawn = meter.total().clamp(1, 65535);
    let allowance = match r.below(12) {
        0 => drawn.saturating_sub(1).max(1),
        1 => drawn,
        2 => 1 + r.below(drawn),
        3 if r.pct(10) => *r.pick(&[0, 65536, 70000]),
        4 => 65535,
        _ => (drawn + r.below(40)).min(65535),
    };
    let need = work_needed(allowance.min(65535));
    let work = if r.pct(2) { need - 1 } else { need };
    let out = match model::desugar(&term, allowance, need, u64::MAX) {
        Ok(d) => match r.below(6) {
            0 => d.core.len() as u64 - 1,
            1 => d.core.len() as u64,
            _ => d.core.len() as u64 + r.below(20),
        },
        Err(_) => r.below(64),
    };
    Case::Desugar { term, allowance, work, out }
}
