//! Packets through a core that is a test (document 02, change 8): the model, one packet at a time, from the core's last record to its first.
//! Compared with netkat_run_packets on all packets and on each alone, with a recursion over the original's tree of the same bytes, and with the
//! packet meaning on six fields.
use crate::compare::Stats;
use crate::cores::{self, Listing, Record};
use crate::gen::{Gen, Rng};
use crate::model::*;
use crate::vectors::hex;
use crate::{meaning, original, port};
use std::panic::{catch_unwind, AssertUnwindSafe};

/// The most packets of a call.
const MAX_PACKETS: usize = 64;
/// The packet meaning is taken of cores of at most so many records.
const SMALL: usize = 60;
/// Packets are made as long as the core needs, up to so many bytes.
const LONGEST: u64 = 600;
/// How many rounds there are of the largest cores, and of causes of refusal that meet.
const LARGEST_ROUNDS: u64 = 2;
const CAUSE_ROUNDS: u64 = 100;
/// How many calls of a hundred have a core, packets or a list that is careless.
const CARELESS: u64 = 20;
/// Of many bytes only these many are shown.
const SHOWN: usize = 200;

/// What a host lends: a core, a list of so many numbers, packets end to end, and how many bytes each has.
#[derive(Clone)]
pub struct Packets {
    pub core: Vec<u8>,
    pub room: u64,
    pub bytes: Vec<u8>,
    pub lengths: Vec<u32>,
}

impl Packets {
    /// Each packet: those of its bytes that the slice holds.
    fn each(&self) -> Vec<&[u8]> {
        let within = |at: u64| at.min(self.bytes.len() as u64) as usize;
        let mut begin = 0;
        let cut = |length: &u32| {
            let end = begin + *length as u64;
            let packet = &self.bytes[within(begin)..within(end)];
            begin = end;
            packet
        };
        self.lengths.iter().map(cut).collect()
    }

    /// The line that asks it.
    pub fn question(&self) -> String {
        format!("packets {} {} {} {}", hex(&self.core), self.room, hex(&self.bytes), lengths_text(&self.lengths))
    }

    /// As much of it as a report shows.
    fn shown(&self) -> String {
        let bytes = hex(&self.bytes[..self.bytes.len().min(SHOWN)]);
        format!("{} {} {bytes} {}", cores::shown(&self.core), self.room, lengths_text(&self.lengths))
    }
}

/// Lengths as a vector line has them: equal ones in a row once, with their number behind them.
fn lengths_text(lengths: &[u32]) -> String {
    if lengths.is_empty() { "-".into() } else { cores::runs(lengths, |length| length.to_string()) }
}

pub fn lengths(text: &str) -> Vec<u32> {
    if text == "-" {
        return vec![];
    }
    let run = |s: &str| {
        let (length, times) = s.split_once('*').unwrap_or((s, "1"));
        vec![length.parse().expect("a length"); times.parse().expect("a number")]
    };
    text.split(',').flat_map(run).collect()
}

// ---------------------------------------------------------------- model

fn is_test(record: &Record) -> bool {
    matches!(record[0] as u8, ZERO | ONE | TEST | UNION..=SEQUENCE)
}

/// The field's bit.
pub fn bit(packet: &[u8], field: u32) -> bool {
    packet[field as usize / 8] >> (field % 8) & 1 == 1
}

/// Whether the packet passes.
fn passes(records: &[Record], packet: &[u8]) -> bool {
    let mut values = Vec::new();
    for &[kind, field, value] in records.iter().rev() {
        let holds = match kind as u8 {
            ZERO => false,
            ONE => true,
            TEST => bit(packet, field) == (value == 1),
            operator => {
                // the left operand was pushed last
                let (left, right) = (values.pop().unwrap(), values.pop().unwrap());
                match operator {
                    UNION => left || right,
                    XOR => left != right,
                    DIFFERENCE => left && !right,
                    _ => left && right,
                }
            }
        };
        values.push(holds);
    }
    values.pop().unwrap()
}

/// The model: bit i of the mask says whether packet i passes.
pub fn run(p: &Packets) -> Res<u64> {
    let Listing { records, fields } = cores::read(&p.core, p.room)?;
    if !records.iter().all(is_test) {
        return Err((48, 0));
    }
    if !(1..=MAX_PACKETS).contains(&p.lengths.len()) {
        return Err((49, 0));
    }
    let packets = p.each();
    if let Some(i) = packets.iter().position(|packet| 8 * (packet.len() as u64) < fields as u64) {
        return Err((50, i as u32));
    }
    Ok(packets.iter().enumerate().fold(0, |mask, (i, packet)| mask | (passes(&records, packet) as u64) << i))
}

// ---------------------------------------------------------------- comparisons

/// One call through everything.
pub fn case(stats: &mut Stats, p: &Packets) {
    stats.inputs += 1;
    let answer = run(p);
    match catch_unwind(AssertUnwindSafe(|| port::run_packets(p))) {
        Ok(got) => stats.same("PORT run_packets", &p.shown(), answer, got),
        Err(_) => stats.differs("PORT breaks a promise of the header, see the panic's message", 1, p.shown()),
    }
    match answer {
        Ok(mask) => answered(stats, p, mask),
        Err((number, _)) => stats.count(&format!("call refused by {number:02}")),
    }
}

/// The mask, packet by packet.
fn answered(stats: &mut Stats, p: &Packets, mask: u64) {
    stats.count("call answered");
    stats.add("packets", p.lengths.len() as u64);
    stats.add("packets that pass", mask.count_ones() as u64);
    let packets = p.each();
    let passing: Vec<bool> = (0..packets.len()).map(|i| mask >> i & 1 == 1).collect();
    let unused = mask.checked_shr(packets.len() as u32).unwrap_or(0);
    stats.expect(unused == 0, "model: a bit without a packet", || p.shown());
    beside_original(stats, p, &packets, &passing);
    beside_meaning(stats, p, &packets, &passing);
    one_by_one(stats, p, &packets, &passing);
}

/// The original's tree of the core, by recursion.
fn beside_original(stats: &mut Stats, p: &Packets, packets: &[&[u8]], passing: &[bool]) {
    let tree = original::read(&p.core).expect("a core that was read");
    let got: Vec<bool> = packets.iter().map(|packet| original::passes(&tree, packet)).collect();
    stats.expect(got == passing, "ORIGINAL: packets that pass the tree", || p.shown());
}

/// The relation of a core on at most six fields: a test relates a packet that passes to itself, any other to none.
fn beside_meaning(stats: &mut Stats, p: &Packets, packets: &[&[u8]], passing: &[bool]) {
    let Listing { records, fields } = cores::read(&p.core, p.room).expect("a core that was read");
    if fields > meaning::FIELDS || records.len() > SMALL {
        return;
    }
    stats.add("packets compared by their meaning", packets.len() as u64);
    let relation = meaning::of_records(&records);
    for (packet, passes) in packets.iter().zip(passing) {
        let packet = packet.first().map_or(0, |byte| *byte as usize % meaning::N);
        let related = if *passes { 1 << packet } else { 0 };
        stats.expect(relation[packet] == related, "model: the packet meaning of the core", || p.shown());
    }
}

/// A call with each packet alone.
fn one_by_one(stats: &mut Stats, p: &Packets, packets: &[&[u8]], passing: &[bool]) {
    let mut list = vec![0; p.room as usize];
    for (packet, passes) in packets.iter().zip(passing) {
        let got = port::run_packets_into(&p.core, &mut list, packet, &[packet.len() as u32]);
        stats.same("PORT run_packets on one packet", &p.shown(), Ok(*passes as u64), got);
    }
}

// ---------------------------------------------------------------- inputs

/// Records of a test of about `size` records on so many fields from 0 on.
fn random_records(r: &mut Rng, size: u64, fields: u64) -> Vec<Record> {
    let mut records: Vec<Record> = Vec::new();
    let mut due = 1;
    while due > 0 {
        let leaf = records.len() as u64 + due >= size || due > 1 && r.pct(25);
        due = if leaf { due - 1 } else { due + 1 };
        let kind = if leaf { *r.pick(&[ZERO, ONE, TEST, TEST, TEST, TEST]) } else { UNION + r.below(5) as u8 };
        let (field, value) = if kind == TEST { (r.below(fields), r.below(2)) } else { (0, 0) };
        records.push([kind as u32, field as u32, value as u32]);
    }
    records
}

/// The core of a written test, if it is not large.
fn desugared_test(r: &mut Rng) -> Option<Vec<u8>> {
    let (depth, budget, small) = (1 + r.below(5) as u32, 1 + r.below(12) as i64, r.pct(60));
    let mut g = Gen::new(r, 0, budget, false);
    g.small = small;
    let test = encoded(&g.test(depth));
    desugar(&test, 400, work_needed(400), 3000).map(|desugared| desugared.core).ok()
}

/// A core that is a test.
fn random_test(r: &mut Rng) -> Vec<u8> {
    if r.pct(40) {
        if let Some(core) = desugared_test(r) {
            return core;
        }
    }
    let size = if r.pct(2) { 300 + r.below(3000) } else { 1 + r.below(30) };
    let fields = *r.pick(&[1, 4, 6, 8, 9, 16, 17, 40, 90]);
    let mut records = random_records(r, size, fields);
    if r.pct(15) {
        far_apart(r, &mut records);
    }
    cores::written(&records)
}

/// Some fields are moved up by a multiple of a power of two: a function may keep what it knows of a field by its low bits.
fn far_apart(r: &mut Rng, records: &mut [Record]) {
    let step = 1 << (4 + r.below(7));
    for record in records.iter_mut().filter(|record| record[0] == TEST as u32) {
        record[1] += step * r.below(4) as u32;
    }
}

/// Before a core, an operator and a left operand that may leave no packet: then the core counts for refusals alone.
fn below_operator(r: &mut Rng, core: Vec<u8>) -> Vec<u8> {
    let operator = vec![1, UNION + r.below(5) as u8];
    let left = match r.below(4) {
        0 => random_test(r),
        1 => cores::written(&[[INTERSECT as u32, 0, 0], [TEST as u32, 0, 1], [TEST as u32, 0, 0]]),
        _ => vec![ZERO],
    };
    [operator, left, core].concat()
}

/// A test, or what is made of one; some of them below operators.
fn random_core(r: &mut Rng) -> Vec<u8> {
    let mut core = random_operand(r);
    while r.pct(20) {
        core = below_operator(r, core);
    }
    core
}

/// A test, or, if careless, what cores that are read back are made of, no test, a damaged test, or a test of a high field.
fn random_operand(r: &mut Rng) -> Vec<u8> {
    let test = random_test(r);
    if !r.pct(CARELESS) {
        return test;
    }
    match r.below(4) {
        0 => cores::random(r).0,
        1 => {
            let records = random_records(r, 12, 12);
            cores::written(&not_a_test(r, records))
        }
        2 => cores::damaged(r, test),
        _ => {
            let field = *r.pick(&[400, 700, 65_536, u32::MAX - 1, u32::MAX]);
            cores::written(&[[UNION as u32, 0, 0], [TEST as u32, field, 0], [TEST as u32, r.below(600) as u32, 1]])
        }
    }
}

/// The same records with a leaf or an operator that no test has.
fn not_a_test(r: &mut Rng, mut records: Vec<Record>) -> Vec<Record> {
    let i = r.below(records.len() as u64) as usize;
    match records[i][0] as u8 {
        UNION..=SEQUENCE => records[i][0] = UNTIL as u32,
        _ if r.bool() => records.insert(i, [COMPLEMENT as u32 + r.below(3) as u32, 0, 0]),
        _ => records[i] = [TOP as u32 + r.below(4) as u32, 0, 0],
    }
    records
}

/// How many packets.
fn random_count(r: &mut Rng) -> u64 {
    match r.below(20) {
        0 | 1 => 1,
        2 | 3 => 64,
        4 => 63,
        5 => 33,
        6 => 32,
        7 => *r.pick(&[0, 65, 66, 100, 257]),
        _ => 1 + r.below(16),
    }
}

fn random_bytes(r: &mut Rng, count: u64) -> Vec<u8> {
    (0..count).map(|_| r.next() as u8).collect()
}

/// Packets for a core that needs so many bytes of each: some with more; if careless, some with fewer or with a length that passes 32 bits
/// together with the next, or the slice ends early.
fn random_lent(r: &mut Rng, needed: u64) -> (Vec<u8>, Vec<u32>) {
    let careless = r.pct(CARELESS);
    let count = random_count(r);
    let length = |r: &mut Rng| match r.below(100) {
        0..=9 if careless => needed.saturating_sub(1),
        10..=12 if careless => *r.pick(&[0, 1 << 31, u32::MAX as u64 - 1, u32::MAX as u64]),
        _ if r.pct(80) => needed,
        _ => needed + r.below(4),
    };
    let lengths: Vec<u32> = (0..count).map(|_| length(r) as u32).collect();
    let total = lengths.iter().map(|length| *length as u64).sum::<u64>().min(40_000);
    let held = if careless && r.bool() { total.saturating_sub(r.below(2 * needed + 2)) } else { total + r.below(2) * r.below(5) };
    (random_bytes(r, held), lengths)
}

/// A random call.
pub fn random(r: &mut Rng) -> Packets {
    let core = random_core(r);
    let (count, fields) = cores::read(&core, u64::MAX).map_or((10, 5), |listing| (listing.records.len() as u64, listing.fields));
    let (bytes, lengths) = random_lent(r, (fields as u64).div_ceil(8).min(LONGEST));
    let room = match r.below(100) {
        0..=2 => 3 * count - 1,
        3..=5 => r.below(3 * count),
        _ => 3 * count + r.below(9),
    };
    Packets { core, room, bytes, lengths }
}

/// The refusals of which each can be caused beside any others, in their order: a byte behind the core, the top field, a list that is too
/// short, no test, no packet or too many, a packet that is too short.
const CAUSES: [u32; 6] = [8, 25, 10, 48, 49, 50];

/// A call with those causes of refusal whose bits are set.
fn with_causes(r: &mut Rng, causes: u32) -> Packets {
    let caused = |number: u32| CAUSES.iter().position(|cause| *cause == number).is_some_and(|i| causes >> i & 1 == 1);
    let size = 3 + r.below(12);
    let mut records = random_records(r, size, 20);
    records.splice(0..0, [[UNION as u32, 0, 0], [TEST as u32, 20, 1]]);
    if caused(48) {
        records = not_a_test(r, records);
    }
    if r.bool() {
        records.splice(0..0, [[INTERSECT as u32, 0, 0], [ZERO as u32, 0, 0]]);
    }
    if caused(25) {
        records.splice(0..0, [[XOR as u32, 0, 0], [TEST as u32, u32::MAX, 0]]);
    }
    let mut core = cores::written(&records);
    core.extend(caused(8).then_some(0));
    let needed = 3 * records.len() as u64;
    let room = if caused(10) { r.below(needed) } else { needed };
    let count = if caused(49) { *r.pick(&[0, 65, 66]) } else { 1 + r.below(64) as usize };
    let mut lengths = vec![3; count];
    let mut bytes = random_bytes(r, 3 * count as u64);
    if caused(50) && count > 0 {
        let i = r.below(count as u64) as usize;
        if r.bool() { lengths[i] = 2 } else { bytes.truncate(3 * i + 2) }
    }
    Packets { core, room, bytes, lengths }
}

/// Every set of causes: the first of them in order decides.
fn all_causes(stats: &mut Stats, r: &mut Rng) {
    for causes in 1u32..1 << CAUSES.len() {
        let p = with_causes(r, causes);
        let first = CAUSES[causes.trailing_zeros() as usize];
        stats.expect(run(&p).is_err_and(|(number, _)| number == first), "model: the first cause of a refusal", || p.shown());
        case(stats, &p);
    }
}

/// Packets of 24 bits: none set, all set, one set, all but one set, random ones.
fn telling_packets(r: &mut Rng) -> Vec<u8> {
    let mut bytes = Vec::new();
    for i in 0..MAX_PACKETS {
        let bit = 1u32 << r.below(24);
        let packet = match i % 8 {
            0 => 0,
            1 => u32::MAX,
            2..=4 => bit,
            5 | 6 => !bit,
            _ => r.next() as u32,
        };
        bytes.extend_from_slice(&packet.to_le_bytes()[..3]);
    }
    bytes
}

/// Chains of so many links of an operator, leaning to the left and to the right, with tests of random fields out of a random half of 24.
fn chains(r: &mut Rng, kind: u8, links: usize) -> [Vec<Record>; 2] {
    let operator = [kind as u32, 0, 0];
    let fields: Vec<u32> = (0..24).filter(|_| r.bool()).chain([23]).collect();
    let mut leaf = || [TEST as u32, *r.pick(&fields), 1];
    let left = [vec![operator; links], (0..=links).map(|_| leaf()).collect()].concat();
    let right = (0..links).flat_map(|_| [operator, leaf()]).collect::<Vec<_>>();
    [left, [right, vec![leaf()]].concat()]
}

/// Chains of 65,533 records, of as many as a core may have, and of more; the first also below an operator whose left operand leaves no
/// packet, and so with the top field or with an atom that no test has at the end.
fn largest(stats: &mut Stats, r: &mut Rng) {
    for links in [32_766, 32_767, 32_768] {
        for kind in UNION..=SEQUENCE {
            for records in chains(r, kind, links) {
                large(stats, r, &records);
                if links == 32_766 {
                    let operator = [INTERSECT as u32 + r.below(4) as u32, 0, 0];
                    let mut settled = [&[operator, [ZERO as u32, 0, 0]], &records[..]].concat();
                    let last = settled.len() - 1;
                    large(stats, r, &settled);
                    settled[last][1] = u32::MAX;
                    large(stats, r, &settled);
                    settled[last] = [DUP as u32, 0, 0];
                    large(stats, r, &settled);
                }
            }
        }
    }
}

fn large(stats: &mut Stats, r: &mut Rng, records: &[Record]) {
    let (core, room) = (cores::written(records), 3 * records.len() as u64);
    case(stats, &Packets { core, room, bytes: telling_packets(r), lengths: vec![3; MAX_PACKETS] });
}

/// The largest cores; every set of causes of a refusal; `count` random calls.
pub fn compared(seed: u64, count: u64) -> Stats {
    let mut stats = Stats::default();
    let mut r = Rng::new(seed);
    for _ in 0..LARGEST_ROUNDS {
        largest(&mut stats, &mut r);
    }
    for _ in 0..CAUSE_ROUNDS {
        all_causes(&mut stats, &mut r);
    }
    for i in 0..count {
        let mut r = Rng::new(seed.wrapping_mul(0x1_0000_0015).wrapping_add(i));
        case(&mut stats, &random(&mut r));
    }
    stats
}
