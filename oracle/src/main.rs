//! Four readings of document 01 beside each other: the model, the original, the ported library, and second.py on files.
pub mod pre {
    //! Two types that the original takes from a module of this name.
    pub type Field = u32;
    pub type Value = bool;
}
include!(concat!(env!("OUT_DIR"), "/modules.rs"));
mod bench;
mod bounds;
mod captures;
mod compare;
mod cores;
mod costs;
mod gen;
mod lent;
mod meaning;
mod model;
mod original;
mod packets;
mod policies;
mod port;
mod trees;
mod vectors;

const USAGE: &str = "oracle replay FILE...                       vector files, through the model, the original and the port
oracle compare SEED COUNT BUDGET THREADS    random inputs, terms of up to about BUDGET records
oracle long SEED COUNT BUDGET THREADS       the same, each with a literal of more than 128 bits
oracle exhaustive LENGTH                    all byte strings up to LENGTH; beyond 2 bytes, those of good form
oracle meaning SEED COUNT                   packet meaning of a written term and of its core, on six fields
oracle costs SEED COUNT                     what matches cost, all small ones and random ones, through the model, the original and the port
oracle cores SEED COUNT                     cores read back, the largest, damaged and random ones, through the model, the original and the port
oracle packets SEED COUNT                   packets through cores that are tests, through the model, the original and the port
oracle sample SEED COUNT BUDGET             random vector lines with the model's answers
oracle bounds SEED COUNT                    lines that compare bounds, all small ones and random ones, with the model's answers
oracle answer                               completes the vector lines on standard input, from what stands before =>
oracle show HEX                             what each makes of one term
oracle bench FOLDER                         times of the port and of the original
oracle bench-trees FOLDER                   times of bindings/rust and of the original, from tree to tree
oracle terms FOLDER                         writes terms of growing size
oracle once FILE                            one call of the port";

fn number(args: &[String], i: usize) -> u64 {
    args.get(i).and_then(|s| s.parse().ok()).unwrap_or_else(|| {
        eprintln!("{USAGE}");
        std::process::exit(2)
    })
}

fn compared([seed, count, budget, threads]: [u64; 4], input: fn(&mut gen::Rng, i64) -> Vec<u8>) -> bool {
    let threads = threads.max(1);
    let parts: Vec<_> = (0..threads)
        .map(|t| {
            let share = count / threads + (t < count % threads) as u64;
            let seed = seed.wrapping_mul(1000).wrapping_add(t);
            on_large_stack(move || compare::random(seed, share, budget as i64, input))
        })
        .collect();
    let mut all = compare::Stats::default();
    for part in parts {
        all.merge(part.join().expect("a comparison thread ended early"));
    }
    all.print()
}

fn run(args: Vec<String>) -> bool {
    let n = |i| number(&args, i);
    match args.get(1).map(|s| s.as_str()).unwrap_or("") {
        "replay" => vectors::replay(&args[2..]),
        "compare" => compared([n(2), n(3), n(4), n(5)], gen::input),
        "long" => compared([n(2), n(3), n(4), n(5)], gen::long_input),
        "exhaustive" => compare::exhaustive(n(2) as usize).print(),
        "meaning" => meaning::run(n(2), n(3)),
        "costs" => costs::run(n(2), n(3)).print(),
        "cores" => cores::run(n(2), n(3)).print(),
        "packets" => packets::compared(n(2), n(3)).print(),
        "sample" => vectors::sample(n(2), n(3), n(4) as i64),
        "bounds" => vectors::bounds(n(2), n(3)),
        "answer" => vectors::answer(),
        "show" if args.len() == 3 => compare::show(&vectors::unhex(&args[2])),
        "bench" if args.len() == 3 => bench::run(&args[2]),
        "bench-trees" if args.len() == 3 => trees::run(&args[2]),
        "terms" if args.len() == 3 => bench::terms(&args[2]),
        "once" if args.len() == 3 => bench::once(&args[2]),
        _ => {
            eprintln!("{USAGE}");
            false
        }
    }
}

/// A core is as deep as it is large, and the original recurses.
fn on_large_stack<T: Send + 'static>(f: impl FnOnce() -> T + Send + 'static) -> std::thread::JoinHandle<T> {
    std::thread::Builder::new().stack_size(1 << 30).spawn(f).unwrap()
}

fn main() {
    // No message for two panics of the original: num_fields where document 01 has refusal 25, and a literal beyond a u128 that is shown
    // where overflow is checked. compare.rs judges both.
    let hook = std::panic::take_hook();
    std::panic::set_hook(Box::new(move |info| {
        let known = ["Field count overflow", "shift left with overflow"].iter().any(|text| info.to_string().contains(text));
        if !(known && info.location().is_some_and(|l| l.file().ends_with("/expr.rs"))) {
            hook(info);
        }
    }));
    let args: Vec<String> = std::env::args().collect();
    let good = on_large_stack(move || run(args)).join().unwrap_or(false);
    std::process::exit(!good as i32);
}
