//! Random policies written by the crate's `Display` and read back by the original's parser.
//!
//!     readback compare SEED COUNT     compares; ends with 1 on a difference
//!     readback sample SEED COUNT      prints policies that are read back: the term's bytes in hexadecimal and the text
//!
//! Where the written syntax can say a policy, the parser must give the same tree, but a match for each test of an alias or a range; where
//! it cannot, the parser must refuse the text. Which is the case, `sayable` says by the grammar, apart from how `Display` decides it.
pub mod pre {
    //! Two types that the original takes from a module of this name.
    pub type Field = u32;
    pub type Value = bool;
}
include!(concat!(env!("OUT_DIR"), "/modules.rs"));
mod back;
mod long;
mod random;

use netkat::{Exp, Expr, Names, Pattern};
use random::Random;
use std::collections::{BTreeMap, HashMap};

/// Words that the parser reads as names and words that it does not. `n3` and `n3_` are also what a name without a word gets.
const WORDS: [&str; 18] = [
    "a",
    "dst",
    "src_ip",
    "x",
    "x7",
    "T",
    "in",
    "mask",
    "two words",
    "",
    "n3",
    "n3_",
    "x4294967296",
    "_a",
    "größe",
    "a;b",
    "X1",
    "x_",
];

/// Whether the written syntax can say a node, its children aside, by the rules on widths of literals.
fn sayable(node: &Expr) -> bool {
    if literals(node).iter().any(|bits| bits.len() > long::NUMBER_BITS) {
        return false;
    }
    match node {
        Expr::VarAssign(_, bits) | Expr::VarTest(_, bits) => !bits.is_empty(),
        Expr::BitRangeAssign(start, end, bits) => bits.len() == width(*start, *end),
        Expr::BitRangeTest(start, end, bits) => !bits.is_empty() && bits.len() == width(*start, *end),
        Expr::BitRangeMatch(start, end, pattern) => sayable_pattern(pattern, width(*start, *end)),
        Expr::VarMatch(_, pattern) => sayable_pattern(pattern, 0),
        _ => true,
    }
}

fn literals(node: &Expr) -> Vec<&[bool]> {
    match node {
        Expr::VarAssign(_, bits) | Expr::VarTest(_, bits) => vec![bits],
        Expr::BitRangeAssign(_, _, bits) | Expr::BitRangeTest(_, _, bits) => vec![bits],
        Expr::BitRangeMatch(_, _, pattern) | Expr::VarMatch(_, pattern) => match &**pattern {
            Pattern::Exact(bits) => vec![bits],
            Pattern::Cidr { address, .. } => vec![address],
            Pattern::Wildcard { address, mask } => vec![address, mask],
            Pattern::IpRange { start, end } => vec![start, end],
        },
        _ => vec![],
    }
}

fn sayable_pattern(pattern: &Pattern, width: usize) -> bool {
    match pattern {
        Pattern::Exact(bits) => !bits.is_empty(),
        Pattern::Cidr { address, prefix_len } => address.len() == 32 && *prefix_len <= 32,
        Pattern::Wildcard { address, mask } => address.len() == 32 && mask.len() == 32,
        Pattern::IpRange { start, end } => {
            let numbers = width.max(length(start)).max(length(end));
            let trailing = end.iter().take_while(|bit| !**bit).count();
            let below_address = width.max(length(start)).max(end.len().saturating_sub(trailing));
            start.len() == 32 && end.len() == 32
                || start.len() == numbers && end.len() == numbers
                || end.len() == 32 && start.len() == below_address
        }
    }
}

fn width(start: u32, end: u32) -> usize {
    end.wrapping_sub(start) as usize
}

/// The number of bits of the value, 1 for zero.
fn length(bits: &[bool]) -> usize {
    (1..=bits.len()).rev().find(|n| bits[n - 1]).unwrap_or(1)
}

/// Numbers by the text that a name is written with.
fn numbers(names: &Names) -> HashMap<String, u16> {
    (0..random::NAMES).map(|number| (Expr::Var(number).display(names).to_string(), number)).collect()
}

#[derive(Default)]
struct Tally {
    read: u64,
    refused: u64,
    cores: u64,
    kinds: BTreeMap<String, u64>,
}

/// Compares one policy; false if there is a difference.
fn compare(policy: &Exp, names: &Names, numbers: &HashMap<String, u16>, tally: &mut Tally) -> bool {
    let text = policy.display(names).to_string();
    let parsed = std::panic::catch_unwind(|| parser::parse_expressions(&text));
    let Ok(parsed) = parsed else {
        println!("the parser panics: {text}");
        return false;
    };
    if !policy.nodes().all(sayable) {
        tally.refused += 1;
        if parsed.is_ok() {
            println!("read, but cannot be said: {text}\n  {policy:?}");
        }
        return parsed.is_err();
    }
    tally.read += 1;
    for node in policy.nodes() {
        *tally.kinds.entry(format!("{node:?}").split('(').next().unwrap().to_owned()).or_default() += 1;
    }
    let back = match parsed {
        Ok(list) if list.len() == 1 => back::convert(&list[0], numbers),
        Ok(list) => return report(&text, policy, &format!("{} expressions", list.len())),
        Err(error) => return report(&text, policy, &error.message),
    };
    if back != back::tests_as_matches(policy) {
        return report(&text, policy, &format!("{back:?}"));
    }
    let core = policy.desugar();
    if policy.check() != back.check() || core != back.desugar() {
        return report(&text, policy, "another core or refusal");
    }
    let Ok(core) = core else { return true };
    tally.cores += 1;
    let text = core.to_string();
    match parser::parse_expressions(&text) {
        Ok(list) if list.len() == 1 && back::convert(&list[0], numbers) == core.to_expr() => true,
        _ => report(&text, policy, "the core is not read back"),
    }
}

fn report(text: &str, policy: &Exp, found: &str) -> bool {
    println!("{text}\n  {policy:?}\n  {found}");
    false
}

fn run(seed: u64, count: u64) -> bool {
    let mut names = Names::new();
    for word in WORDS {
        names.intern(word);
    }
    let numbers = numbers(&names);
    assert_eq!(numbers.len(), usize::from(random::NAMES), "different names have different texts");
    let mut random = Random::new(seed);
    let mut tally = Tally::default();
    let mut differences = 0;
    for _ in 0..count {
        let policy = random.policy();
        if !compare(&policy, &names, &numbers, &mut tally) {
            differences += 1;
        }
    }
    println!(
        "{count} policies: {} read back, {} refused as they should be; {} cores read back",
        tally.read, tally.refused, tally.cores
    );
    println!("kinds in those read back: {:?}", tally.kinds);
    println!("{differences} differences");
    long::compare(&names, &numbers) && differences == 0
}

/// Prints short policies without words for their names.
fn sample(seed: u64, count: usize) -> bool {
    let names = Names::new();
    let numbers = numbers(&names);
    let mut random = Random::new(seed);
    let short = std::iter::repeat_with(|| random.policy())
        .filter(|policy| policy.nodes().all(sayable) && (20..110).contains(&policy.to_string().chars().count()));
    short.take(count).all(|policy| {
        let hex: String = policy.to_bytes().unwrap().iter().map(|byte| format!("{byte:02x}")).collect();
        println!("{hex} {policy}");
        compare(&policy, &names, &numbers, &mut Tally::default())
    })
}

fn main() {
    let args: Vec<String> = std::env::args().collect();
    let numbers: Vec<u64> = args.iter().skip(2).filter_map(|text| text.parse().ok()).collect();
    let ([_, command, ..], &[seed, count]) = (&args[..], &numbers[..]) else {
        eprintln!("readback compare|sample SEED COUNT");
        std::process::exit(2)
    };
    let samples = command == "sample";
    // The parser recurses.
    let work = move || if samples { sample(seed, count as usize) } else { run(seed, count) };
    let thread = std::thread::Builder::new().stack_size(1 << 30).spawn(work).unwrap();
    std::process::exit(!thread.join().unwrap_or(false) as i32);
}
