//! Times of the port and of the original, on policies of a folder and of policies.rs; terms of growing size, to count instructions on. The
//! times of packets are in captures.rs.
use crate::costs::Match;
use crate::desugar::desugar;
use crate::expr::Expr;
use crate::model::{decode, desugar_walk, work_needed, Env, Meter, RANGEMATCH};
use crate::policies::PACKET_BYTES;
use crate::{captures, original, policies, port};
use std::hint::black_box;
use std::path::Path;
use std::time::Instant;

pub const ALLOWANCE: u64 = 65535;
const LONGEST_CORE: usize = 7 * 65535;
const ROUNDS: usize = 41;
/// Calls are timed together until they take about this long.
const BATCH_MICROSECONDS: f64 = 500.0;
/// The copy of a core's records is timed from this many nodes on.
const MANY_NODES: u64 = 5000;

// What is timed, as indexes.
const PORT: usize = 0; // netkat_desugar, work memory and answer buffer reused
const ORIGINAL: usize = 1; // bytes to tree, desugar, tree to bytes, trees freed
const BARE: usize = 2; // the original's desugar on a tree already built, its result freed outside the time
const CHECK: usize = 3; // netkat_check
const COPY: usize = 4; // memcpy of 12 bytes for each core node
const READ: usize = 5; // netkat_read_core on the core, the list reused
const DECODE: usize = 6; // the core's bytes to the original's tree, which is freed outside the time
const TIMED: usize = 7;

/// What the first table has.
const WRITING: [usize; 5] = [PORT, ORIGINAL, BARE, CHECK, COPY];
/// What the second table has.
const READING: [usize; 3] = [READ, PORT, DECODE];

struct Policy {
    name: String,
    term: Vec<u8>,
    tree: Box<Expr>,
    core: Vec<u8>,
    nodes: u64,
    drawn: u64,
}

struct Buffers {
    work: Vec<u32>,
    out: Vec<u8>,
    original_out: Vec<u8>,
    records: Vec<u8>,
    copy: Vec<u8>,
    list: Vec<u32>,
}

pub fn load(folder: &str) -> Vec<(String, Vec<u8>)> {
    let entries = std::fs::read_dir(folder).unwrap_or_else(|e| panic!("{folder}: {e}"));
    let mut paths: Vec<_> = entries.map(|e| e.unwrap().path()).filter(|p| p.extension().is_some_and(|x| x == "bin")).collect();
    paths.sort();
    let mut all = policies::all();
    all.extend(paths.iter().map(|p| (p.file_stem().unwrap().to_string_lossy().into_owned(), std::fs::read(p).unwrap())));
    all
}

/// The policy with its figures; both sides must give the same core, and it must read back.
fn prepare(name: String, term: Vec<u8>, b: &mut Buffers) -> Policy {
    let (node, _) = decode(&term).unwrap_or_else(|e| panic!("{name}: no good form, {e:?}"));
    let core = desugar_walk(&node, &mut Env::new(), &mut Meter::new(ALLOWANCE)).unwrap_or_else(|e| panic!("{name}: refused, {e:?}"));
    let (len, drawn) = port::desugar_into(&term, ALLOWANCE, &mut b.work, &mut b.out).unwrap();
    by_original(&term, &mut b.original_out);
    assert!(b.out[..len as usize] == b.original_out[..], "{name}: the cores differ");
    let tree = original::read(&term).unwrap();
    let (count, _) = port::read_core_into(&b.original_out, &mut b.list).unwrap_or_else(|e| panic!("{name}: not read back, {e:?}"));
    assert!(count as u64 == core.size, "{name}: another number of records");
    Policy { name, term, tree, core: b.original_out.clone(), nodes: core.size, drawn: drawn as u64 }
}

fn by_original(term: &[u8], out: &mut Vec<u8>) {
    out.clear();
    let core = desugar(&original::read(term).unwrap()).unwrap();
    original::write_core(&core, out);
}

/// Microseconds of one call, from `calls` of them. What a call gives is freed outside the time.
pub fn microseconds<T>(calls: usize, mut call: impl FnMut() -> T) -> f64 {
    let mut kept = Vec::with_capacity(calls);
    let begin = Instant::now();
    for _ in 0..calls {
        kept.push(black_box(call()));
    }
    begin.elapsed().as_secs_f64() * 1e6 / calls as f64
}

fn measure(p: &Policy, what: usize, calls: usize, b: &mut Buffers) -> f64 {
    let term = black_box(&p.term);
    match what {
        PORT => microseconds(calls, || port::desugar_into(term, ALLOWANCE, &mut b.work, &mut b.out).unwrap()),
        ORIGINAL => microseconds(calls, || by_original(term, &mut b.original_out)),
        BARE => microseconds(calls, || desugar(black_box(&p.tree)).unwrap()),
        CHECK => microseconds(calls, || port::check(term).unwrap()),
        READ => microseconds(calls, || port::read_core_into(black_box(&p.core), &mut b.list).unwrap()),
        DECODE => microseconds(calls, || original::read(black_box(&p.core)).unwrap()),
        _ => {
            let len = 12 * p.nodes as usize;
            microseconds(calls, || b.copy[..len].copy_from_slice(black_box(&b.records[..len])))
        }
    }
}

/// Lower quartile, median, upper quartile.
pub fn quartiles(mut v: Vec<f64>) -> [f64; 3] {
    v.sort_by(|a, b| a.total_cmp(b));
    [1, 2, 3].map(|q| v[(v.len() - 1) * q / 4])
}

/// Median (lower quartile to upper quartile).
fn spread(ratios: Vec<f64>) -> String {
    let [low, median, high] = quartiles(ratios);
    format!("{median:.3} ({low:.3} to {high:.3})")
}

/// How many calls to time together, of which one takes about so long.
fn calls_of(microseconds: f64) -> usize {
    (BATCH_MICROSECONDS / microseconds).ceil().clamp(1.0, 5000.0) as usize
}

/// The time of one policy over that of another, in the same rounds; every other round goes in the opposite order.
fn beside(p: &Policy, other: &Policy, what: usize, b: &mut Buffers) -> String {
    let calls = calls_of(measure(other, what, 2, b));
    let mut ratios = Vec::new();
    for round in 0..ROUNDS {
        let mut times = [0.0; 2];
        for i in if round % 2 == 0 { [0, 1] } else { [1, 0] } {
            times[i] = measure([p, other][i], what, calls, b);
        }
        ratios.push(times[0] / times[1]);
    }
    spread(ratios)
}

/// The microseconds of some of what is timed, by index, round by round.
pub struct Rounds(Vec<[f64; TIMED]>);

impl Rounds {
    /// `measure` gives the microseconds of one call, from so many. Every other round goes in the opposite order.
    pub fn of(timed: &[usize], mut measure: impl FnMut(usize, usize) -> f64) -> Rounds {
        let mut order: Vec<(usize, usize)> = timed.iter().map(|&what| (what, calls_of(measure(what, 2)))).collect();
        let mut all = Vec::new();
        for _ in 0..ROUNDS {
            let mut times = [0.0; TIMED];
            for &(what, calls) in &order {
                times[what] = measure(what, calls);
            }
            all.push(times);
            order.reverse();
        }
        Rounds(all)
    }

    /// The median.
    pub fn time(&self, what: usize) -> String {
        let median = quartiles(self.0.iter().map(|t| t[what]).collect())[1];
        if median < 10.0 { format!("{median:.2}") } else { format!("{median:.0}") }
    }

    pub fn ratio(&self, what: usize, over: usize) -> String {
        spread(self.0.iter().map(|t| t[what] / t[over]).collect())
    }
}

/// The policy's line of the first table.
fn writing_row(p: &Policy, b: &mut Buffers) {
    let r = Rounds::of(&WRITING, |what, calls| measure(p, what, calls, b));
    let large = p.nodes >= MANY_NODES;
    let copy = if large { r.time(COPY) } else { "-".into() };
    let copies = if large { r.ratio(PORT, COPY) } else { "-".into() };
    println!(
        "| {} | {} | {} | {} | {} | {} | {} | {} | {} | {copy} | {} | {} | {copies} | {} |",
        p.name, p.term.len(), p.core.len(), p.nodes, p.drawn, r.time(PORT), r.time(ORIGINAL), r.time(BARE), r.time(CHECK),
        r.ratio(PORT, ORIGINAL), r.ratio(PORT, BARE), r.ratio(CHECK, PORT)
    );
}

/// The policy's line of the second table.
fn reading_row(p: &Policy, b: &mut Buffers) {
    let r = Rounds::of(&READING, |what, calls| measure(p, what, calls, b));
    println!(
        "| {} | {} | {} | {} | {} | {} | {} | {} |",
        p.name, p.core.len(), p.nodes, r.time(READ), r.time(PORT), r.time(DECODE), r.ratio(READ, PORT), r.ratio(READ, DECODE)
    );
}

pub fn run(folder: &str) -> bool {
    let mut b = Buffers {
        work: vec![0; work_needed(ALLOWANCE) as usize],
        out: vec![0; LONGEST_CORE],
        original_out: Vec::with_capacity(LONGEST_CORE),
        records: vec![1; 12 * ALLOWANCE as usize],
        copy: vec![0; 12 * ALLOWANCE as usize],
        list: vec![0; 3 * ALLOWANCE as usize],
    };
    println!("Microseconds, medians of {ROUNDS} rounds; ratios of one round, median (lower quartile to upper quartile).");
    println!("original: bytes to tree, desugar, tree to bytes. bare: its desugar on a built tree. copy: 12 bytes for each core node.\n");
    println!(
        "| policy | term bytes | core bytes | nodes | drawn | port | original | bare | check | copy | port / original | port / bare | \
         port / copy | check / port |"
    );
    println!("|{}", "---|".repeat(14));
    // one policy at a time: its trees are freed before the next is timed
    for (name, term) in load(folder) {
        writing_row(&prepare(name, term, &mut b), &mut b);
    }
    println!("\nread: netkat_read_core on the core. decoder: the core's bytes to the original's tree, not freed in the time.\n");
    println!("| policy | core bytes | records | read | port | decoder | read / port | read / decoder |");
    println!("|{}", "---|".repeat(8));
    for (name, term) in load(folder) {
        reading_row(&prepare(name, term, &mut b), &mut b);
    }
    captures::table();
    let [long, two, words] = policies::label_stack_policies().map(|(name, term)| prepare(name, term, &mut b));
    println!();
    for other in [two, words] {
        let [port, original, check] = [PORT, ORIGINAL, CHECK].map(|what| beside(&long, &other, what, &mut b));
        println!("{} / {}: port {port}, original {original}, check {check}", long.name, other.name);
    }
    true
}

/// Writes the growing policies of policies.rs to a folder, a file each, and for access lists that are tests a file of packets beside it.
pub fn terms(folder: &str) -> bool {
    let write = |file: String, bytes: Vec<u8>| {
        let path = format!("{folder}/{file}");
        std::fs::write(&path, bytes).unwrap_or_else(|e| panic!("{path}: {e}"));
    };
    for (name, term) in policies::growing() {
        write(format!("{name}.bin"), term);
    }
    for count in [6, 12, 24, 48, 96, 192] {
        for (family, traffic) in ["packets_captured", "packets_passing"].iter().zip(policies::traffic(count)) {
            write(format!("{family}-{count}.bin"), traffic.test);
            write(format!("{family}-{count}.packets"), traffic.packets);
        }
    }
    true
}

/// One call of each operation of the port, for a tool that counts instructions: prints the term's bytes, the core's bytes, the drawn total and
/// the core's records. Substitute replaces a variable that no term here has. Packets are those of the file beside the term, if there is one.
pub fn once(path: &str) -> bool {
    let term = std::fs::read(path).unwrap_or_else(|e| panic!("{path}: {e}"));
    let mut work = vec![0; work_needed(ALLOWANCE) as usize];
    let mut out = vec![0; LONGEST_CORE];
    let mut list = vec![0; 3 * ALLOWANCE as usize];
    let made = port::desugar_into(&term, ALLOWANCE, &mut work, &mut out);
    let figures = made.and_then(|(length, drawn)| {
        port::read_core_into(&out[..length as usize], &mut list).map(|(count, _)| format!("{length} {drawn} {count}"))
    });
    if let (Ok((length, _)), Ok(packets)) = (made, std::fs::read(Path::new(path).with_extension("packets"))) {
        let lengths = vec![PACKET_BYTES as u32; packets.len() / PACKET_BYTES];
        port::run_packets_into(&out[..length as usize], &mut list, &packets, &lengths).expect("packets that run");
    }
    match figures {
        Ok(figures) => println!("{} {figures}", term.len()),
        Err((number, place)) => println!("{path}: refused by {number} at {place}"),
    }
    let root = decode(&term).expect("a term").0;
    if root.kind == RANGEMATCH && port::cost(&Match::of(&root)).is_err() {
        return false;
    }
    let others = [port::check(&term).is_ok(), port::fragment(&term).is_ok(), port::fields(&term).is_ok()];
    others.iter().all(|&good| good) && port::substitute(&term, u16::MAX, &[1, 1], term.len() as u64).is_ok()
}
