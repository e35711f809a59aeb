//! Cores read back (document 02, change 1): the model, a loop over the bytes with a count of the records still due. Compared with
//! netkat_read_core, with the original's tree of the same bytes, and with the form of terms.
use crate::compare::Stats;
use crate::gen::{self, Rng};
use crate::model::{core_nodes, decode, fields, put_record, Core as Tree, Node, Res, ASSIGN, COMPLEMENT, NEXT, TEST, UNION};
use crate::vectors::hex;
use crate::{original, port};
use std::panic::{catch_unwind, AssertUnwindSafe};

/// The most records of a core.
const MAX_CORE: usize = 65_535;
/// The map bits of a core's record: its kind, its field, its value.
const KIND_BIT: u8 = 1 << 0;
const FIELD_BIT: u8 = 1 << 2;
const VALUE_BIT: u8 = 1 << 5;
/// How many cores are damaged in every way.
const DAMAGED: usize = 20;
/// Of a long core only its ends are shown.
const SHOWN: usize = 64;

/// Kind, field, value.
pub type Record = [u32; 3];

/// What a core reads to: its records in prefix order, and how many fields it needs.
#[derive(Clone, Debug, PartialEq)]
pub struct Listing {
    pub records: Vec<Record>,
    pub fields: u32,
}

fn on_a_field(record: &Record) -> bool {
    record[0] == ASSIGN as u32 || record[0] == TEST as u32
}

fn children(kind: u32) -> usize {
    match kind {
        7..=12 => 2,
        13..=15 => 1,
        _ => 0,
    }
}

/// A number of so many bytes at the front, not zero. Err is the refusal's number.
fn number(rest: &mut &[u8], width: usize) -> Result<u32, u32> {
    let (front, back) = rest.split_at_checked(width).ok_or(1u32)?;
    *rest = back;
    match front.iter().rev().fold(0, |value, byte| value << 8 | *byte as u32) {
        0 => Err(4),
        value => Ok(value),
    }
}

/// The record at the front. Err is the refusal's number.
fn record(rest: &mut &[u8]) -> Result<Record, u32> {
    let (&map, back) = rest.split_first().ok_or(1u32)?;
    *rest = back;
    let mut record = [0; 3];
    if map & KIND_BIT != 0 {
        record[0] = match number(rest, 1)? {
            27.. => return Err(2),
            16..=26 => return Err(41),
            kind => kind,
        };
    }
    let bits = if on_a_field(&record) { KIND_BIT | FIELD_BIT | VALUE_BIT } else { KIND_BIT };
    if map & !bits != 0 {
        return Err(3);
    }
    if map & FIELD_BIT != 0 {
        record[1] = number(rest, 4)?;
    }
    if map & VALUE_BIT != 0 {
        record[2] = number(rest, 1)?;
    }
    if record[2] > 1 { Err(5) } else { Ok(record) }
}

/// The records, or the refusal of the form.
fn form(core: &[u8]) -> Res<Vec<Record>> {
    let mut rest = core;
    let mut records = Vec::new();
    let mut due = 1;
    while due > 0 {
        let place = records.len() as u32;
        if records.len() == MAX_CORE {
            return Err((42, place));
        }
        let next = record(&mut rest).map_err(|number| (number, place))?;
        due += children(next[0]);
        due -= 1;
        records.push(next);
    }
    if rest.is_empty() { Ok(records) } else { Err((8, records.len() as u32)) }
}

/// The model, with a list of so many numbers.
pub fn read(core: &[u8], room: u64) -> Res<Listing> {
    let records = form(core)?;
    let mut fields = 0;
    for (place, record) in records.iter().enumerate().filter(|(_, record)| on_a_field(record)) {
        fields = fields.max(record[1].checked_add(1).ok_or((25, place as u32))?);
    }
    if room < 3 * records.len() as u64 { Err((10, 0)) } else { Ok(Listing { records, fields }) }
}

/// The bytes of records.
pub fn written(records: &[Record]) -> Vec<u8> {
    let mut out = Vec::new();
    for [kind, field, value] in records {
        put_record(&Node { kind: *kind as u8, start: *field, num: *value as u8, ..Node::default() }, &mut out);
    }
    out
}

/// The records of a core that the model's Desugar made.
fn records_of(tree: &Tree) -> Vec<Record> {
    core_nodes(tree).iter().map(|node| [node.kind as u32, node.field, node.value as u32]).collect()
}

/// A list as a vector line has it: equal ones in a row once, with their number behind them.
pub fn runs<T: PartialEq>(list: &[T], text: impl Fn(&T) -> String) -> String {
    let runs = list.chunk_by(|a, b| a == b).map(|run| match run.len() {
        1 => text(&run[0]),
        times => format!("{}*{times}", text(&run[0])),
    });
    runs.collect::<Vec<_>>().join(",")
}

/// Records as a vector line has them.
pub fn text(records: &[Record]) -> String {
    runs(records, |[kind, field, value]| format!("{kind}:{field}:{value}"))
}

/// As much of a core's bytes as a report shows.
pub fn shown(core: &[u8]) -> String {
    if core.len() <= 2 * SHOWN {
        return hex(core);
    }
    format!("{}..{} ({} bytes)", hex(&core[..SHOWN]), hex(&core[core.len() - SHOWN..]), core.len())
}

/// One byte string through everything, with a list of any length, and, where its form is good, with lists of one number less than three a
/// record, of as many, of one more; and of none.
pub fn case(stats: &mut Stats, core: &[u8], room: u64) {
    stats.inputs += 1;
    let answer = read(core, u64::MAX);
    match &answer {
        Ok(_) => stats.count("core read"),
        Err((number, _)) => stats.count(&format!("core refused by {number:02}")),
    }
    beside_terms(stats, core, &answer);
    let form = form(core);
    let mut rooms = vec![room, 0];
    if let Ok(records) = &form {
        let needed = 3 * records.len() as u64;
        rooms.extend([needed - 1, needed, needed + 1]);
        stats.expect(written(records) == core, "model: the bytes of the records", || shown(core));
    }
    beside_original(stats, core, form, answer.map(|listing| listing.fields).ok());
    rooms.sort();
    rooms.dedup();
    for room in rooms {
        beside_port(stats, core, room);
    }
}

/// netkat_read_core, with a list of so many numbers.
pub fn beside_port(stats: &mut Stats, core: &[u8], room: u64) {
    stats.count("port read_core compared");
    match catch_unwind(AssertUnwindSafe(|| port::read_core(core, room))) {
        Ok(got) => stats.same("PORT read_core", &format!("{} list {room}", shown(core)), read(core, room), got),
        Err(_) => stats.differs("PORT breaks a promise of the header, see the panic's message", 1, shown(core)),
    }
}

/// The form of terms on the same bytes: the same refusal, unless it is one that only cores or only terms have. Where the core is a term too,
/// its records are as many and Field count answers the same, by the model and by the port.
fn beside_terms(stats: &mut Stats, core: &[u8], answer: &Res<Listing>) {
    let input = shown(core);
    let as_term = decode(core).map(|(_, records)| records);
    match (answer, as_term) {
        (_, Err((6 | 7, _))) => stats.count("as a term: too large"),
        (Err((41, place)), as_term) => {
            stats.count("as a term: has a term's kind");
            stats.expect(as_term.map_or_else(|refusal| refusal.1, |_| *place) >= *place, "model: 41 and the form of a term", || input.clone());
        }
        (Err(refusal @ (1..=5 | 8, _)), as_term) => stats.same("model: form of a core and of a term", &input, as_term, Err(*refusal)),
        (answer, as_term) => {
            stats.count("as a term: field count compared");
            let count = answer.as_ref().ok().map(|listing| listing.records.len() as u32);
            stats.expect(as_term.is_ok() && count.is_none_or(|n| as_term == Ok(n)), "model: records of a core and of a term", || input.clone());
            let expected = answer.as_ref().map(|listing| listing.fields).map_err(|refusal| *refusal);
            stats.same("model: fields of a core and of a term", &input, fields(core), expected);
            stats.same("PORT num_fields of a core", &input, expected, port::fields(core));
        }
    }
}

/// The original's tree of bytes of good form: its records, its bytes, its field count, which it lacks where 25 is answered. Where bytes lack
/// or are left over there is no tree.
fn beside_original(stats: &mut Stats, core: &[u8], form: Res<Vec<Record>>, fields: Option<u32>) {
    match (form, original::read(core)) {
        (Ok(records), Some(tree)) => {
            stats.count("original compared: tree");
            stats.expect(original::core_records(&tree) == records, "ORIGINAL: records of the tree", || shown(core));
            stats.expect(original::expr_bytes(&tree) == core, "ORIGINAL: bytes of the tree", || shown(core));
            stats.same("ORIGINAL num_fields of a core", &shown(core), fields, original::fields(&tree));
        }
        (Err((1 | 8, _)), None) => stats.count("original compared: no tree"),
        (Ok(_), None) | (Err((1 | 8, _)), Some(_)) => stats.differs("ORIGINAL: a tree or none", 1, shown(core)),
        (Err(_), _) => {}
    }
}

/// A core that netkat_desugar wrote: it reads back to the tree that the model's Desugar made, unless 25 applies. The field count is that of
/// netkat_num_fields, unless the core is too large for a term.
pub fn beside_desugar(stats: &mut Stats, core: &[u8], tree: &Tree) {
    stats.count("core read back");
    let records = records_of(tree);
    let top = records.iter().position(|record| on_a_field(record) && record[1] == u32::MAX);
    let got = port::read_core(core, 3 * records.len() as u64);
    let counted = got.as_ref().map(|listing| listing.fields).map_err(|refusal| *refusal);
    match port::fields(core) {
        Err((6 | 7, _)) => stats.count("core read back: too large for num_fields"),
        as_term => stats.same("PORT num_fields and read_core", &shown(core), as_term, counted),
    }
    match (&got, top) {
        (Err(refusal), Some(place)) => {
            stats.count("core read back: 25");
            stats.same("PORT read_core of a desugared core", &shown(core), (25, place as u32), *refusal);
        }
        (Ok(listing), None) => {
            stats.expect(listing.records == records, "PORT read_core of a desugared core: records", || shown(core));
            stats.expect(written(&listing.records) == core, "PORT read_core of a desugared core: bytes", || shown(core));
        }
        _ => stats.differs("PORT read_core of a desugared core: read or refused", 1, format!("{} {counted:?}, top field {top:?}", shown(core))),
    }
    beside_original(stats, core, Ok(records), counted.ok());
}

// ---------------------------------------------------------------- inputs

/// Records of a core of about `size` records.
fn random_records(r: &mut Rng, size: u64) -> Vec<Record> {
    let mut records: Vec<Record> = Vec::new();
    let mut due = 1;
    while due > 0 {
        let full = records.len() as u64 + due >= size;
        let kind = if full || due > 1 && r.pct(25) { *r.pick(&[0, 1, 2, 3, 4, 5, 5, 6, 6, 6]) } else { 7 + r.below(9) as u32 };
        let mut record = [kind, 0, 0];
        if on_a_field(&record) {
            let field = if r.pct(5) { *r.pick(&[255, 256, 65_535, 65_536, u32::MAX - 1]) } else { r.below(300) as u32 };
            record = [kind, field, r.below(2) as u32];
        }
        due = due - 1 + children(kind) as u64;
        records.push(record);
    }
    records
}

/// The same core with the top field in one of its records, if that has a field.
fn with_top_field(r: &mut Rng, mut records: Vec<Record>) -> Vec<Record> {
    let i = r.below(records.len() as u64) as usize;
    if on_a_field(&records[i]) {
        records[i][1] = u32::MAX;
    }
    records
}

/// One thing amiss with the bytes: a byte changed, lacking or doubled, the end lacking, bytes behind.
pub fn damaged(r: &mut Rng, mut core: Vec<u8>) -> Vec<u8> {
    let i = r.below(core.len() as u64) as usize;
    match r.below(6) {
        0 => core[i] = r.next() as u8,
        1 => core[i] ^= 1 << r.below(8),
        2 => drop(core.remove(i)),
        3 => core.insert(i, core[i]),
        4 => core.truncate(i),
        _ => core.extend((0..1 + r.below(3)).map(|_| if r.bool() { 0 } else { r.next() as u8 })),
    }
    core
}

/// A core, one with the top field, a damaged one, one with a kind beyond those of cores, or what random terms are made of.
fn random_core(r: &mut Rng) -> Vec<u8> {
    let size = if r.pct(2) { 300 + r.below(4000) } else { 1 + r.below(30) };
    let mut records = random_records(r, size);
    match r.below(100) {
        0..=39 => written(&records),
        40..=49 => written(&with_top_field(r, records)),
        50..=74 => {
            if r.pct(20) {
                records = with_top_field(r, records);
            }
            damaged(r, written(&records))
        }
        75..=84 => {
            let i = r.below(records.len() as u64) as usize;
            records[i][0] = 16 + r.below(13) as u32;
            written(&records)
        }
        85..=92 => gen::near_records(r),
        _ => gen::input(r, 10),
    }
}

/// A random core, and a list of about as many numbers as it needs.
pub fn random(r: &mut Rng) -> (Vec<u8>, u64) {
    let core = random_core(r);
    let needed = read(&core, u64::MAX).map_or(30, |listing| 3 * listing.records.len() as u64);
    let room = match r.below(8) {
        0 => needed - 1,
        1 => needed - 3,
        2 => r.below(needed),
        _ => needed + r.below(7),
    };
    (core, room)
}

/// Chains of so many records: of an operator with one operand; of one with two, leaning to the left and to the right.
fn chains(count: usize, kind: u8, leaf: &[u8]) -> Vec<Vec<u8>> {
    let operator = [1, kind];
    if children(kind as u32) == 1 {
        return vec![[&operator.repeat(count - 1), leaf].concat()];
    }
    // operators with two operands alone make an odd number of records
    let root: &[u8] = if count % 2 == 0 { &[1, COMPLEMENT] } else { &[] };
    let links = (count - 1) / 2;
    let left = [root, &operator.repeat(links), &leaf.repeat(links + 1)].concat();
    let right = [root, &[&operator, leaf].concat().repeat(links), leaf].concat();
    vec![left, right]
}

/// Chains of about 65,535 records, also with a byte behind, with a byte lacking, and with a last record that has no kind of a core.
fn largest(mut each: impl FnMut(Vec<u8>)) {
    let leaves: [&[u8]; 3] = [&[0], &[0x25, TEST, 1, 2, 3, 4, 1], &[0x05, ASSIGN, 0xff, 0xff, 0xff, 0xff]];
    for count in MAX_CORE - 1..=MAX_CORE + 2 {
        for (kind, leaf) in (UNION..=NEXT).flat_map(|kind| leaves.map(|leaf| (kind, leaf))) {
            for chain in chains(count, kind, leaf) {
                each([&chain[..], &[0]].concat());
                each(chain[..chain.len() - 1].to_vec());
                for wrong in [16, 27] {
                    each([&chain[..chain.len() - leaf.len()], &[1, wrong]].concat());
                }
                each(chain);
            }
        }
    }
}

/// A core with each of its bytes changed to each other value, lacking, and doubled, with each end cut off, and with each byte behind it.
fn all_damaged(core: &[u8], mut each: impl FnMut(Vec<u8>)) {
    for i in 0..core.len() {
        let (front, back) = (&core[..i], &core[i + 1..]);
        for byte in (0..=u8::MAX).filter(|byte| *byte != core[i]) {
            each([front, &[byte], back].concat());
        }
        each([front, back].concat());
        each([front, &[core[i]; 2], back].concat());
        each(front.to_vec());
    }
    for byte in 0..=u8::MAX {
        each([core, &[byte]].concat());
    }
}

/// Chains around the most records; some cores with every single damage; `count` random cores.
pub fn run(seed: u64, count: u64) -> Stats {
    let mut stats = Stats::default();
    let room = 3 * MAX_CORE as u64;
    largest(|core| case(&mut stats, &core, room));
    let mut r = Rng::new(seed);
    for _ in 0..DAMAGED {
        all_damaged(&written(&random_records(&mut r, 12)), |core| case(&mut stats, &core, 40));
    }
    for i in 0..count {
        let mut r = Rng::new(seed.wrapping_mul(0x1_0000_000f).wrapping_add(i));
        let (core, room) = random(&mut r);
        case(&mut stats, &core, room);
    }
    stats
}
