//! Policies that look like real ones, for `oracle bench` and `oracle terms`: each of any number of rules.
use crate::gen::{node, Rng};
use crate::model::*;

const SRC: u16 = 1;
const DST: u16 = 2;
const PORT: u16 = 3;
const OUT: u16 = 4;
/// Variables are numbered from here on.
const FIRST_VARIABLE: u16 = 100;

fn literal(value: u32, width: usize) -> Vec<bool> {
    (0..width).map(|i| value >> i & 1 == 1).collect()
}
fn two(kind: u8, a: Node, b: Node) -> Node {
    node(kind, vec![a, b])
}
fn not(a: Node) -> Node {
    node(NEGATION, vec![a])
}
fn var(name: u16) -> Node {
    Node { kind: VAR, name, ..Node::default() }
}
fn let_in(name: u16, definition: Node, body: Node) -> Node {
    Node { kind: LET, name, kids: vec![definition, body], ..Node::default() }
}
fn alias(name: u16, start: u32, end: u32, body: Node) -> Node {
    Node { kind: LETRANGE, name, start, end, kids: vec![body], ..Node::default() }
}
fn prefix(name: u16, address: u32, length: u8) -> Node {
    Node { kind: VARMATCH, name, pat: 1, num: length, a: literal(address, 32), ..Node::default() }
}
fn range(name: u16, width: usize, from: u32, to: u32) -> Node {
    Node { kind: VARMATCH, name, pat: 3, a: literal(from, width), b: literal(to, width), ..Node::default() }
}
fn port_is(port: u32) -> Node {
    Node { kind: VARMATCH, name: PORT, a: literal(port, 16), ..Node::default() }
}
fn send_to(out: u32) -> Node {
    Node { kind: VARASSIGN, name: OUT, a: literal(out, 8), ..Node::default() }
}
fn with_aliases(body: Node) -> Node {
    alias(SRC, 0, 32, alias(DST, 32, 64, alias(PORT, 64, 80, alias(OUT, 80, 88, body))))
}
/// A balanced tree of one operator; a chain of 200 would come near the depth limit.
fn joined(kind: u8, mut items: Vec<Node>) -> Node {
    if items.len() == 1 {
        return items.pop().unwrap();
    }
    let back = items.split_off(items.len() / 2);
    two(kind, joined(kind, items), joined(kind, back))
}

const SERVICES: [u32; 8] = [22, 53, 80, 123, 443, 3306, 5432, 8080];

/// What an entry of an access list says of a field.
#[derive(Clone, Copy)]
enum Part {
    Prefix(u32, u8),
    Range(u32, u32),
    Exact(u32),
}

impl Part {
    fn matched(self, name: u16, width: usize) -> Node {
        match self {
            Part::Prefix(address, length) => prefix(name, address, length),
            Part::Range(from, to) => range(name, width, from, to),
            Part::Exact(value) => Node { kind: VARMATCH, name, a: literal(value, width), ..Node::default() },
        }
    }

    /// A random value that it holds of.
    fn value(self, r: &mut Rng) -> u32 {
        match self {
            Part::Prefix(address, length) => {
                let free = u32::MAX >> length;
                address & !free | r.next() as u32 & free
            }
            Part::Range(from, to) => from + r.below((to - from) as u64 + 1) as u32,
            Part::Exact(value) => value,
        }
    }
}

/// Source, destination, port.
type Entry = [Part; 3];

/// `count` entries: a source prefix, a destination prefix or, in each tenth, an address range, and a port or, in each eighth, a port range.
fn access_entries(count: u32) -> Vec<Entry> {
    let mut r = Rng::new(1);
    let entry = |i| {
        let source = Part::Prefix(0x0a00_0000 | r.below(1 << 24) as u32, 16 + r.below(9) as u8);
        let network = 0xc0a8_0000 | (r.below(256) as u32) << 8;
        let destination = match i % 10 {
            9 => Part::Range(network + 1 + r.below(20) as u32, network + 100 + r.below(100) as u32),
            _ => Part::Prefix(network, 24),
        };
        let port = match i % 8 {
            7 => Part::Range(1024 * (1 + r.below(8) as u32), 32767 + 1024 * r.below(8) as u32),
            _ => Part::Exact(*r.pick(&SERVICES)),
        };
        [source, destination, port]
    };
    (0..count).map(entry).collect()
}

fn any_entry(count: u32) -> Node {
    let entry = |[source, destination, port]: Entry| {
        two(INTERSECT, source.matched(SRC, 32), two(INTERSECT, destination.matched(DST, 32), port.matched(PORT, 16)))
    };
    joined(UNION, access_entries(count).into_iter().map(entry).collect())
}

fn access_list(count: u32) -> Node {
    with_aliases(two(SEQUENCE, any_entry(count), send_to(1)))
}

/// The bytes of a packet: source, destination and port, as the aliases have them.
pub const PACKET_BYTES: usize = 10;

fn packet(source: u32, destination: u32, port: u32) -> Vec<u8> {
    [&source.to_le_bytes()[..], &destination.to_le_bytes(), &port.to_le_bytes()[..2]].concat()
}

/// An access list as a test, and packets end to end to run through it.
pub struct Traffic {
    pub name: String,
    pub test: Vec<u8>,
    pub packets: Vec<u8>,
}

/// The same access list with 64 packets twice. The first have random sources in 10.0.0.0/8, destinations in 192.168.0.0/16 and ports of the
/// services; each of the others passes, by a random entry.
pub fn traffic(count: u32) -> [Traffic; 2] {
    let mut r = Rng::new(8);
    let test = encoded(&with_aliases(any_entry(count)));
    let capture = |r: &mut Rng| {
        let (source, destination) = (0x0a00_0000 | r.below(1 << 24) as u32, 0xc0a8_0000 | r.below(1 << 16) as u32);
        packet(source, destination, *r.pick(&SERVICES))
    };
    let entries = access_entries(count);
    let passing = |r: &mut Rng| {
        let [source, destination, port] = r.pick(&entries).map(|part| part.value(r));
        packet(source, destination, port)
    };
    let captured = (0..64).flat_map(|_| capture(&mut r)).collect();
    let passed = (0..64).flat_map(|_| passing(&mut r)).collect();
    [("capture", captured), ("each passes", passed)].map(|(name, packets)| Traffic { name: name.into(), test: test.clone(), packets })
}

/// `count` entries, each a source prefix and a port: many small leaves.
fn prefix_list(count: u32) -> Node {
    let mut r = Rng::new(3);
    let entries = (0..count)
        .map(|_| {
            let source = prefix(SRC, 0x0a00_0000 | r.below(1 << 24) as u32, 16 + r.below(9) as u8);
            two(INTERSECT, source, port_is(r.below(1 << 16) as u32))
        })
        .collect();
    with_aliases(two(SEQUENCE, joined(UNION, entries), send_to(1)))
}

/// `count` rules, the first that matches counts: ifs in else branches, the last drops.
fn first_match(count: u32) -> Node {
    let mut r = Rng::new(2);
    let mut rest = node(ZERO, vec![]);
    for i in (0..count).rev() {
        let service = if i % 8 == 7 { range(PORT, 16, 8000, 8000 + r.below(1000) as u32) } else { port_is(r.below(10_000) as u32) };
        let network = 0x0a00_0000 | (r.below(1 << 16) as u32) << 8;
        let condition = two(INTERSECT, prefix(if i % 2 == 0 { SRC } else { DST }, network, 24), service);
        let action = if i % 3 == 0 { node(ZERO, vec![]) } else { send_to(i % 256) };
        rest = node(IF, vec![condition, action, rest]);
    }
    with_aliases(rest)
}

/// `count` tenants, each with variables for its sources and its destinations. A tenant reaches itself and the shared services, unless the
/// source is in quarantine; nothing else passes.
fn tenants(count: u16) -> Node {
    let source = |i: u16| FIRST_VARIABLE + 2 * i;
    let destination = |i: u16| FIRST_VARIABLE + 2 * i + 1;
    let (shared, quarantine) = (FIRST_VARIABLE + 2 * count, FIRST_VARIABLE + 2 * count + 1);
    let flows = (0..count)
        .map(|i| {
            let reached = two(UNION, var(destination(i)), var(shared));
            two(SEQUENCE, two(INTERSECT, var(source(i)), reached), send_to(i as u32))
        })
        .collect();
    let mut body = two(SEQUENCE, not(var(quarantine)), joined(UNION, flows));
    for i in (0..count).rev() {
        let network = 0x0a00_0000 | (i as u32) << 16;
        body = let_in(source(i), prefix(SRC, network, 16), let_in(destination(i), prefix(DST, network, 16), body));
    }
    let services = two(INTERSECT, prefix(DST, 0x0aff_0000, 24), two(UNION, port_is(53), port_is(443)));
    let held = two(UNION, prefix(SRC, 0x0a05_0700, 24), range(SRC, 32, 0x0a09_0010, 0x0a09_004f));
    with_aliases(let_in(shared, services, let_in(quarantine, held, body)))
}

/// Words of a label stack, each a label of 20 bits, then traffic class and bottom mark, then 8 bits of time to live. The first word is in
/// the highest bits.
const WORDS: u32 = 6;
const LABEL_BITS: u32 = 20;
const TIME_TO_LIVE: u32 = 0xff;
/// The aliases of a stack's parts are numbered from here on, the lowest part first.
const FIRST_PART: u16 = 5;

/// What an entry says of a stack.
#[derive(Clone, Copy)]
enum Labels {
    /// So many of the highest bits are the entry's.
    Prefix(u32),
    /// All but the times to live.
    AnyTime,
}

/// An entry, by a match of each part that it says something of. The parts have these widths, the lowest first.
fn label_stack(words: &[u32], labels: Labels, widths: &[u32]) -> Node {
    let bits = |words: &[u32]| words.iter().flat_map(|word| literal(*word, 32)).collect::<Vec<_>>();
    let (mut matches, mut start) = (vec![], 0);
    for (name, width) in (FIRST_PART..).zip(widths) {
        let part = start as usize..(start + width) as usize;
        let exact = Node { kind: VARMATCH, name, a: bits(words)[part.clone()].to_vec(), ..Node::default() };
        let above = 32 * WORDS - start - width;
        start += width;
        match labels {
            Labels::Prefix(n) if n >= above + width => matches.push(exact),
            Labels::Prefix(n) if n > above => matches.push(Node { pat: 1, num: (n - above) as u8, ..exact }),
            Labels::Prefix(_) => {}
            Labels::AnyTime => matches.push(Node { pat: 2, b: bits(&[TIME_TO_LIVE; WORDS as usize])[part].to_vec(), ..exact }),
        }
    }
    joined(INTERSECT, matches)
}

/// `count` entries, half of them whole label stacks, a quarter prefixes that end with a label, a quarter for any time to live.
fn label_stacks(count: u32, widths: &[u32]) -> Node {
    let mut r = Rng::new(4);
    let entries = (0..count)
        .map(|i| {
            let words: Vec<u32> = (0..WORDS).map(|_| r.next() as u32).collect();
            let labels = match i % 4 {
                0 | 1 => Labels::Prefix(32 * WORDS),
                2 => Labels::Prefix(32 * r.below(WORDS as u64) as u32 + LABEL_BITS),
                _ => Labels::AnyTime,
            };
            label_stack(&words, labels, widths)
        })
        .collect();
    let mut policy = alias(OUT, 32 * WORDS, 32 * WORDS + 8, two(SEQUENCE, joined(UNION, entries), send_to(1)));
    let mut start = 0;
    for (name, width) in (FIRST_PART..).zip(widths) {
        policy = alias(name, start, start + width, policy);
        start += width;
    }
    policy
}

/// One test of a range of `width` fields.
fn wide_test(width: u32) -> Node {
    alias(SRC, 0, width, Node { kind: VARTEST, name: SRC, a: literal(1, 1), ..Node::default() })
}

/// A test of 30,000 fields below so many Lets of One, each the operand that `over` puts below an operator.
fn below_lets(levels: u32, over: fn(Node) -> Node) -> Node {
    (0..levels).fold(wide_test(30_000), |inner, _| over(let_in(FIRST_VARIABLE, node(ONE, vec![]), inner)))
}

/// The same access list with one literal of 192 bits for a stack, with two literals of at most 128, and with one for each word.
pub fn label_stack_policies() -> [(String, Vec<u8>); 3] {
    [("100 label stacks, 192 bits", &[192][..]), ("100 label stacks, 128 and 64", &[128, 64]), ("100 label stacks, six words", &[32; 6])]
        .map(|(name, widths)| (name.to_string(), encoded(&label_stacks(100, widths))))
}

pub fn all() -> Vec<(String, Vec<u8>)> {
    [("access list, 200 entries", access_list(200)), ("first match, 40 rules", first_match(40)), ("tenant isolation", tenants(24))]
        .map(|(name, tree)| (name.to_string(), encoded(&tree)))
        .into_iter()
        .chain(label_stack_policies())
        .collect()
}

/// One test, and access lists of about 3,500 and 43,000 nodes, with ranges and without.
pub fn small_and_lists() -> Vec<(String, Vec<u8>)> {
    [
        ("one test", Node { kind: TEST, start: 3, num: 1, ..Node::default() }),
        ("access list, 50 prefixes", prefix_list(50)),
        ("access list, 600 prefixes", prefix_list(600)),
        ("access list, 12 entries", access_list(12)),
        ("access list, 140 entries", access_list(140)),
    ]
    .map(|(name, tree)| (name.to_string(), encoded(&tree)))
    .into()
}

/// A range pattern on `width` fields whose bounds differ in the bit `differs` alone, or in none; beside a test that makes the term longer than
/// those of 32 bytes, for which Check clears less memory.
fn bounds(width: usize, differs: Option<usize>) -> Node {
    let low: Vec<bool> = (0..width).map(|i| i % 2 == 1 && Some(i) != differs).collect();
    let high = low.iter().enumerate().map(|(i, &bit)| bit || Some(i) == differs).collect();
    let pattern = Node { kind: RANGEMATCH, end: width as u32, pat: 3, a: low, b: high, ..Node::default() };
    two(UNION, pattern, Node { kind: RANGETEST, end: 192, a: vec![true; 192], ..Node::default() })
}

fn values(a: Vec<bool>, b: Vec<bool>) -> Node {
    Node { kind: RANGEMATCH, end: a.len() as u32, pat: 3, a, b, ..Node::default() }
}

/// The range pattern that costs most on `width` fields: from the top bit alone to all bits but the second.
fn dearest_range(width: usize) -> Node {
    values((0..width).map(|i| i == width - 1).collect(), (0..width).map(|i| i != width - 2).collect())
}

/// A range between random bounds; the top bit keeps them in order.
fn middle_range(width: usize) -> Node {
    let mut r = Rng::new(width as u64);
    let mut bound = |top| (1..width).map(|_| r.bool()).chain([top]).collect();
    values(bound(false), bound(true))
}

/// The same policies from about 1,000 to about 60,000 drawn nodes, or to the deepest term that is allowed; one large core below more and
/// more Lets; range patterns, by the first bit in which their bounds differ; and matches alone, whose cost is asked too.
pub fn growing() -> Vec<(String, Vec<u8>)> {
    let mut all = Vec::new();
    let mut add = |family: &str, size: u32, tree: Node| all.push((format!("{family}-{size}"), encoded(&tree)));
    for n in [6, 12, 24, 48, 96, 192] {
        add("access_list", n, access_list(n));
    }
    for n in [4, 8, 16, 32, 64, 128, 225] {
        add("first_match", n, first_match(n));
    }
    for n in [3, 6, 12, 24, 48, 96, 118] {
        add("tenants", n, tenants(n as u16));
    }
    for n in [500, 1000, 2000, 4000, 8000, 16000, 30000] {
        add("wide_test", n, wide_test(n));
    }
    for n in [0, 30, 60, 126] {
        add("lets", n, below_lets(n, |inner| inner));
        add("complement_lets", n, below_lets(n, |inner| node(COMPLEMENT, vec![inner])));
        add("union_lets", n, below_lets(n, |inner| two(UNION, node(ZERO, vec![]), inner)));
    }
    for n in [8, 32, 64, 128] {
        add("bounds_top", n, bounds(n as usize, Some(n as usize - 1)));
        add("bounds_lowest", n, bounds(n as usize, Some(0)));
        add("bounds_none", n, bounds(n as usize, None));
    }
    for n in [8, 32, 64, 128] {
        add("match_dearest", n, dearest_range(n as usize));
        add("match_middle", n, middle_range(n as usize));
        add("match_prefix", n, Node { kind: RANGEMATCH, end: n, pat: 1, num: n as u8, a: vec![true; n as usize], ..Node::default() });
    }
    all
}
