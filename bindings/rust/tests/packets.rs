//! Packets that are run through a core, beside each packet by itself: by recursion over the tree.

#[allow(dead_code)] // Ranges and patterns are for other tests.
mod common;

use common::{terms, Random};
use netkat::limits::{MAX_CORE_RECORDS, MAX_PACKETS};
use netkat::{bits, bytes, desugar, Core, Expr, Node, Pattern, Refusal, View};

/// Whether the packet passes: the requirement's packet meaning of a test.
fn passes(node: Node, packet: &[u8]) -> bool {
    match node.view() {
        View::Zero => false,
        View::One => true,
        View::Test(field, value) => (packet[field as usize / 8] >> (field % 8) & 1 == 1) == value,
        View::Union(a, b) => passes(a, packet) || passes(b, packet),
        View::Intersect(a, b) | View::Sequence(a, b) => passes(a, packet) && passes(b, packet),
        View::Xor(a, b) => passes(a, packet) != passes(b, packet),
        View::Difference(a, b) => passes(a, packet) && !passes(b, packet),
        view => panic!("not a test: {view:?}"),
    }
}

/// The bytes that the core looks at.
fn needed(core: &Core) -> usize {
    core.num_fields().unwrap().div_ceil(8) as usize
}

fn slices(packets: &[Vec<u8>]) -> Vec<&[u8]> {
    packets.iter().map(Vec::as_slice).collect()
}

/// The number whose bit i is that of packet i.
fn mask(passed: impl Iterator<Item = bool>) -> u64 {
    passed.enumerate().fold(0, |mask, (i, passes)| mask | u64::from(passes) << i)
}

/// All ways of running at most 64 packets that are long enough.
fn compare(core: &Core, packets: &[Vec<u8>]) {
    let one_by_one: Vec<bool> = packets.iter().map(|packet| passes(core.root(), packet)).collect();
    let expected = Ok(mask(one_by_one.iter().copied()));
    assert_eq!(core.run(&slices(packets)), expected, "{core:?} {packets:?}");
    let lengths: Vec<u32> = packets.iter().map(|packet| packet.len() as u32).collect();
    assert_eq!(bytes::run_packets(&core.to_bytes(), &packets.concat(), &lengths), expected);
    assert_eq!(core.run_all(packets).collect::<Result<Vec<bool>, _>>(), Ok(one_by_one));
}

fn refused<T: std::fmt::Debug>(result: Result<T, Refusal>) -> (u32, u32) {
    let refusal = result.unwrap_err();
    (refusal.number, refusal.place)
}

/// Packets of at least so many bytes.
fn random_packets(random: &mut Random, count: usize, bytes: usize) -> Vec<Vec<u8>> {
    let mut packet = || {
        let length = bytes + random.below(3) * random.below(2);
        (0..length).map(|_| random.below(256) as u8).collect()
    };
    (0..count).map(|_| packet()).collect()
}

fn random_core(random: &mut Random) -> Core {
    let (depth, fields) = (1 + random.below(9), [1, 2, 8, 9, 16, 17, 90, 600][random.below(8)]);
    Core::from_expr(&random.test(depth, fields)).unwrap()
}

#[test]
fn random_cores() {
    let mut random = Random::new(1);
    for round in 0..4_000 {
        let core = random_core(&mut random);
        let packets = random_packets(&mut random, 1 + round % MAX_PACKETS, needed(&core));
        compare(&core, &packets);
    }
}

/// The core of a policy is a test exactly if the policy is one.
#[test]
fn desugared_tests() {
    let mut random = Random::new(2);
    let (mut tests, mut others) = (0, 0);
    for term in terms(3, 20_000) {
        let Some(core) = desugar(&term).ok().filter(|core| core.num_fields().is_ok_and(|fields| fields < 1_000)) else {
            continue;
        };
        let packets = random_packets(&mut random, 20, needed(&core));
        if term.check() == Ok(true) {
            compare(&core, &packets);
            tests += 1;
        } else {
            assert_eq!(refused(core.run(&slices(&packets))), (48, 0));
            others += 1;
        }
    }
    assert!(tests > 1_000 && others > 1_000, "{tests} tests, {others} others");
}

/// Every value of a byte beside what a pattern means.
#[test]
fn patterns() {
    let values: Vec<[u8; 1]> = (0..=255).map(|value| [value]).collect();
    let run = |pattern| {
        let core = desugar(&Expr::bit_range_match(0, 8, pattern)).unwrap();
        core.run_all(&values).collect::<Result<Vec<bool>, _>>().unwrap()
    };
    let expected = |holds: fn(u8) -> bool| (0..=255).map(holds).collect::<Vec<bool>>();
    assert_eq!(run(Pattern::Exact(bits(100, 8))), expected(|value| value == 100));
    assert_eq!(run(Pattern::Cidr { address: bits(160, 8), prefix_len: 3 }), expected(|value| value >> 5 == 5));
    assert_eq!(run(Pattern::Wildcard { address: bits(0x35, 8), mask: bits(0xf0, 8) }), expected(|value| value & 15 == 5));
    assert_eq!(run(Pattern::IpRange { start: bits(37, 8), end: bits(201, 8) }), expected(|value| (37..=201).contains(&value)));
}

#[test]
fn bits_without_a_packet_are_zero() {
    let one = Core::from_expr(&Expr::one()).unwrap();
    let odd = Core::from_expr(&Expr::test(0, true)).unwrap();
    let packets: Vec<Vec<u8>> = (0..=64).map(|i| vec![i]).collect();
    for count in 1..=MAX_PACKETS {
        let all = u64::MAX >> (MAX_PACKETS - count);
        assert_eq!(one.run(&slices(&packets[..count])), Ok(all));
        assert_eq!(odd.run(&slices(&packets[..count])), Ok(all & 0xaaaa_aaaa_aaaa_aaaa));
    }
}

/// Fields beyond those that the core tests, and packets without a byte for a core without a test.
#[test]
fn what_is_not_looked_at() {
    let core = Core::from_expr(&Expr::test(3, true)).unwrap();
    for rest in 0..=255 {
        assert_eq!(core.run(&[&[8 | rest & 0xf0], &[rest & 0xf7, rest], &[8, rest, rest]]), Ok(0b101));
    }
    assert_eq!(Core::from_expr(&Expr::one()).unwrap().run(&[&[], &[1, 2], &[]]), Ok(0b111));
    let far = Core::from_expr(&Expr::test(100_000, true)).unwrap();
    let mut packets = vec![vec![0; 12_501]; 2];
    packets[1][12_500] = 1;
    compare(&far, &packets);
}

const EMPTY: &[u8] = &[];

#[test]
fn refusals_in_order() {
    let core = |expr: &Expr| Core::from_expr(expr).unwrap();
    let no_tests = [
        Expr::top(),
        Expr::dup(),
        Expr::end(),
        Expr::assign(0, true),
        Expr::ltl_until(Expr::zero(), Expr::zero()),
        Expr::complement(Expr::test(0, true)),
        Expr::star(Expr::one()),
        Expr::ltl_next(Expr::one()),
        Expr::union(Expr::test(8, true), Expr::sequence(Expr::one(), Expr::assign(9, true))),
    ];
    for expr in no_tests {
        assert_eq!(refused(core(&expr).run(&[&[0, 0]])), (48, 0), "{expr:?}");
        assert_eq!(refused(core(&expr).run(&[])), (48, 0));
        assert_eq!(refused(core(&expr).run(&[EMPTY; 65])), (48, 0));
    }
    let test = core(&Expr::test(8, true));
    assert_eq!(refused(test.run(&[])), (49, 0));
    assert_eq!(refused(test.run(&[EMPTY; 65])), (49, 0));
    assert_eq!(refused(test.run(&[EMPTY; 1_000])), (49, 0));
    assert_eq!(refused(test.run(&[EMPTY; 64])), (50, 0));
    assert_eq!(refused(test.run(&[&[1, 1], &[1, 1], &[1], &[]])), (50, 2));
    // The last field, before the core is seen to be no test; its place is the record.
    let last = core(&Expr::union(Expr::star(Expr::one()), Expr::test(u32::MAX, true)));
    assert_eq!(refused(last.run(&[])), (25, 3));
    let before_it = core(&Expr::test(u32::MAX - 1, true));
    assert_eq!(refused(before_it.run(&[&[255; 100]])), (50, 0));
}

#[test]
fn packets_end_to_end() {
    let core = [0x25, 6, 8, 0, 0, 0, 1]; // field 8 is 1
    let run = |packets: &[u8], lengths: &[u32]| bytes::run_packets(&core, packets, lengths);
    assert_eq!(run(&[0, 1, 0, 0, 255, 0, 3, 9], &[2, 3, 2]), Ok(0b101));
    assert_eq!(run(&[0, 1, 7, 0, 1], &[3, 9]), Ok(0b11), "cut at the end");
    assert_eq!(refused(run(&[0, 1, 7, 0], &[3, 9])), (50, 1), "cut before the field");
    assert_eq!(refused(run(&[0, 1], &[2, 2, 2])), (50, 1), "past the end");
    assert_eq!(refused(run(&[0, 1, 0, 1], &[u32::MAX, 1, 2])), (50, 1), "a sum beyond 32 bits");
    assert_eq!(run(&[0, 1], &[u32::MAX]), Ok(1));
    assert_eq!(bytes::run_packets(&[1, 1], &[], &[0, 7, u32::MAX]), Ok(0b111), "no field is tested");
    assert_eq!(refused(bytes::run_packets(&[1, 14], &[], &[])), (1, 1));
    assert_eq!(refused(bytes::run_packets(&[1, 16, 0], &[], &[])), (41, 0));
    assert_eq!(refused(bytes::run_packets(&[1, 2, 0], &[], &[])), (8, 1));
    assert_eq!(refused(bytes::run_packets(&[1, 2], &[], &[])), (48, 0));
    assert_eq!(refused(run(&[], &[])), (49, 0));
}

/// Captures of many lengths, with packets that are too short.
#[test]
fn captures() {
    let mut random = Random::new(4);
    for round in 0..400 {
        let core = random_core(&mut random);
        let length = [0, 1, 63, 64, 65, 127, 128, 129, 300, 1_000][round % 10];
        let mut capture = random_packets(&mut random, length, needed(&core));
        let short_of = [1_000, 100, 10, 2, 1][round % 5];
        for packet in &mut capture {
            if random.below(short_of) == 0 {
                packet.truncate(random.below(needed(&core) + 1));
            }
        }
        let answer = |(i, packet): (usize, &Vec<u8>)| match packet.len() < needed(&core) {
            true => Err(Refusal { number: 50, place: i as u32 }),
            false => Ok(passes(core.root(), packet)),
        };
        let expected: Vec<Result<bool, Refusal>> = capture.iter().enumerate().map(answer).collect();
        assert_eq!(core.run_all(&capture).collect::<Vec<_>>(), expected);
    }
}

/// Packets come as arrays, slices, vectors, from an iterator that goes on for ever, or from one that begins anew.
#[test]
fn sources() {
    let odd = Core::from_expr(&Expr::test(0, true)).unwrap();
    assert_eq!(odd.run_all([[0u8], [1]]).collect::<Vec<_>>(), [Ok(false), Ok(true)]);
    assert_eq!(odd.run_all([&b"0"[..], b"123"]).collect::<Vec<_>>(), [Ok(false), Ok(true)]);
    assert!(odd.run_all((0..).map(|i: u32| i.to_le_bytes())).take(1_000).enumerate().all(|(i, passes)| passes == Ok(i % 2 == 1)));

    let mut count = 0;
    let anew = std::iter::from_fn(|| {
        count += 1;
        (count % 3 != 0).then_some([1])
    });
    let mut run = odd.run_all(anew);
    assert_eq!([run.next(), run.next(), run.next(), run.next()], [Some(Ok(true)), Some(Ok(true)), None, None]);
}

#[test]
fn cores_that_a_capture_cannot_be_run_through() {
    let no_test = Core::from_expr(&Expr::assign(0, true)).unwrap();
    let last = Core::from_expr(&Expr::test(u32::MAX, true)).unwrap();
    for (core, number) in [(no_test, 48), (last, 25)] {
        assert_eq!(core.run_all([[0u8; 0]; 0]).count(), 0, "no packet comes");
        let capture = [[0u8]; 200];
        assert_eq!(core.run_all(&capture).collect::<Vec<_>>(), [Err(Refusal { number, place: 0 })]);
        assert_eq!(core.run_all(&capture).collect::<Result<Vec<_>, _>>().unwrap_err().number, number);
    }
}

/// A core that was joined to more nodes than can be read: packets are run through its parts.
#[test]
fn parts_of_a_larger_core() {
    let part = |first| desugar(&Expr::let_bit_range(1, first, first + 20_000, Expr::var_test(1, bits(5, 3)))).unwrap();
    let parts: Vec<Core> = (0..2).map(|i| part(20_000 * i)).collect();
    let whole = Core::union_all(parts.clone());
    assert!(whole.len() > MAX_CORE_RECORDS);
    let mut packets = vec![vec![0; 5_000]; 3];
    packets[0][0] = 5;
    packets[2][2_500] = 5;
    assert_eq!(refused(whole.run(&slices(&packets))), (42, 65_535));
    assert_eq!(whole.run_all(&packets).collect::<Vec<_>>(), [Err(Refusal { number: 42, place: 65_535 })]);
    let passed = parts.iter().map(|part| part.run(&slices(&packets)).unwrap()).fold(0, |all, part| all | part);
    assert_eq!(passed, 0b101);
}

/// The record list of `run` is memory that other calls use too.
#[test]
fn between_other_calls() {
    let wide = Expr::let_bit_range(1, 0, 32_768, Expr::var_test(1, bits(5, 3)));
    let large = desugar(&wide).unwrap();
    let small = desugar(&Expr::test(1, true)).unwrap();
    let mut packet = vec![0; 4_096];
    packet[0] = 5;
    for _ in 0..3 {
        assert_eq!(large.run(&[&packet, &[0; 4_096]]), Ok(1));
        assert_eq!(small.run(&[&[1], &[2], &[3]]), Ok(0b110));
        assert_eq!(desugar(&wide).as_ref(), Ok(&large));
        assert_eq!(refused(large.run(&[&packet[1..]])), (50, 0));
        assert_eq!(Core::from_bytes(&small.to_bytes()).as_ref(), Ok(&small));
    }
}
