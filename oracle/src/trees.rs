//! Times from tree to tree: the crate bindings/rust beside the original, on terms that are built already.
use crate::bench::{load, quartiles};
use crate::{desugar::desugar, expr, original, policies};
use std::hint::black_box;

const ROUNDS: usize = 41;
/// Calls are timed together until they take about this long.
const BATCH_MICROSECONDS: f64 = 500.0;
const MOST_CALLS: f64 = 5000.0;
/// Bytes of a large piece of memory.
const LARGE: usize = 100_000;

// What is timed, as indexes.
const ORIGINAL: usize = 0; // the original's desugar
const CORE: usize = 1; // netkat::desugar, to a flat core
const DESUGARER: usize = 2; // the same by a netkat::Desugarer
const BOXED: usize = 3; // netkat::desugar, then to_expr: a boxed tree as the original gives
const DIRECT: usize = 4; // netkat::desugar_to_expr: the same without a flat core in between
const BYTES: usize = 5; // term bytes to core bytes by a netkat::Desugarer
const TIMED: usize = 6;

struct Policy {
    name: String,
    bytes: Vec<u8>,
    original: expr::Exp,
    term: netkat::Exp,
    nodes: usize,
}

/// The policy as a tree of each side; both must give the same core.
fn prepare((name, bytes): (String, Vec<u8>)) -> Policy {
    let original = original::read(&bytes).unwrap();
    let term = netkat::Expr::from_bytes(&bytes).unwrap_or_else(|e| panic!("{name}: {e}"));
    let core = netkat::desugar(&term).unwrap_or_else(|e| panic!("{name}: {e}"));
    let mut by_original = Vec::new();
    original::write_core(&desugar(&original).unwrap(), &mut by_original);
    assert!(core.to_bytes() == by_original, "{name}: the cores differ");
    Policy { name, bytes, original, term, nodes: core.nodes().count() }
}

/// Seconds that this thread has run on a processor: other work on the machine does not count.
fn cpu_seconds() -> f64 {
    extern "C" {
        fn clock_gettime(clock: i32, time: *mut [i64; 2]) -> i32;
    }
    const CLOCK_THREAD_CPUTIME_ID: i32 = 3;
    let mut time = [0; 2];
    // Linux on 64 bits: seconds, then nanoseconds
    let failed = unsafe { clock_gettime(CLOCK_THREAD_CPUTIME_ID, &mut time) };
    assert!(failed == 0, "no clock of the thread's processor time");
    time[0] as f64 + time[1] as f64 * 1e-9
}

/// When what a call gives is freed.
#[derive(Clone, Copy)]
enum Freed {
    Outside,
    Inside,
}

/// Microseconds of one call, from `calls` of them.
fn microseconds<T>(calls: usize, freed: Freed, mut call: impl FnMut() -> T) -> f64 {
    // What was timed before leaves its freed memory in small pieces. The allocator joins them when a large piece is wanted: not in
    // the time of the next.
    drop(black_box(Vec::<u8>::with_capacity(LARGE)));
    drop(black_box(call()));
    let mut kept = Vec::with_capacity(calls);
    let begin = cpu_seconds();
    for _ in 0..calls {
        let result = black_box(call());
        match freed {
            Freed::Outside => kept.push(result),
            Freed::Inside => drop(result),
        }
    }
    (cpu_seconds() - begin) * 1e6 / calls as f64
}

fn measure(p: &Policy, what: usize, calls: usize, freed: Freed, desugarer: &mut netkat::Desugarer) -> f64 {
    let term = black_box(&p.term);
    match what {
        ORIGINAL => microseconds(calls, freed, || desugar(black_box(&p.original)).unwrap()),
        CORE => microseconds(calls, freed, || netkat::desugar(term).unwrap()),
        DESUGARER => microseconds(calls, freed, || desugarer.desugar(term).unwrap()),
        BOXED => microseconds(calls, freed, || netkat::desugar(term).unwrap().to_expr()),
        DIRECT => microseconds(calls, freed, || netkat::desugar_to_expr(term).unwrap()),
        _ => microseconds(calls, freed, || desugarer.desugar_bytes(black_box(&p.bytes)).unwrap().core.len()),
    }
}

/// Rounds of all that is timed; every other round goes in the opposite order.
fn rounds(p: &Policy, freed: Freed) -> Vec<[f64; TIMED]> {
    let mut desugarer = netkat::Desugarer::new();
    let mut calls = [0; TIMED];
    for what in 0..TIMED {
        let one = measure(p, what, 2, freed, &mut desugarer);
        calls[what] = (BATCH_MICROSECONDS / one).ceil().clamp(1.0, MOST_CALLS) as usize;
    }
    let mut all = Vec::new();
    for round in 0..ROUNDS {
        let mut times = [0.0; TIMED];
        for i in 0..TIMED {
            let what = if round % 2 == 0 { i } else { TIMED - 1 - i };
            times[what] = measure(p, what, calls[what], freed, &mut desugarer);
        }
        all.push(times);
    }
    all
}

fn table(policies: &[Policy], freed: Freed) {
    println!(
        "| policy | nodes | original | core | `Desugarer` | boxed | direct | bytes | core / original | `Desugarer` / original | \
         boxed / original | direct / original |"
    );
    println!("|{}", "---|".repeat(12));
    for p in policies {
        let all = rounds(p, freed);
        let time = |what: usize| {
            let median = quartiles(all.iter().map(|t| t[what]).collect())[1];
            if median < 10.0 { format!("{median:.3}") } else { format!("{median:.0}") }
        };
        let ratio = |what: usize| {
            let [low, median, high] = quartiles(all.iter().map(|t| t[what] / t[ORIGINAL]).collect());
            format!("{median:.3} ({low:.3} to {high:.3})")
        };
        println!(
            "| {} | {} | {} | {} | {} | {} | {} | {} | {} | {} | {} | {} |",
            p.name, p.nodes, time(ORIGINAL), time(CORE), time(DESUGARER), time(BOXED), time(DIRECT), time(BYTES), ratio(CORE),
            ratio(DESUGARER), ratio(BOXED), ratio(DIRECT)
        );
    }
}

pub fn run(folder: &str) -> bool {
    let policies: Vec<Policy> = policies::small_and_lists().into_iter().chain(load(folder)).map(prepare).collect();
    println!("Microseconds of processor time, medians of {ROUNDS} rounds; ratios of one round, median (lower quartile to upper quartile).");
    println!("original: its desugar on a built tree. core: netkat::desugar on a built tree. boxed: the same with to_expr.");
    println!("direct: netkat::desugar_to_expr. bytes: term bytes to core bytes.\n");
    println!("Results freed outside the time:\n");
    table(&policies, Freed::Outside);
    println!("\nResults freed inside the time:\n");
    table(&policies, Freed::Inside);
    true
}
