//! Times of packets in one pass, on access lists that are tests.
use crate::bench::{microseconds, Rounds, ALLOWANCE};
use crate::expr::Exp;
use crate::model::{desugar, work_needed};
use crate::policies::{self, Traffic, PACKET_BYTES};
use crate::{original, port};
use std::hint::black_box;

// What is timed, as indexes.
const ONE_PASS: usize = 0; // netkat_run_packets on all packets, the list reused
const ONE_BY_ONE: usize = 1; // a call for each packet
const TREE: usize = 2; // the original's tree of the core, packet by packet, by a recursion that stops early
const DECODED: usize = 3; // the same, from the core's bytes; the tree is made once and freed outside the time
const TIMED: [usize; 4] = [ONE_PASS, ONE_BY_ONE, TREE, DECODED];

/// A core, the same as a tree, packets, and the list that is lent.
struct Capture {
    core: Vec<u8>,
    tree: Exp,
    packets: Vec<u8>,
    lengths: Vec<u32>,
    list: Vec<u32>,
}

impl Capture {
    fn of(traffic: &Traffic) -> Capture {
        let core = desugar(&traffic.test, ALLOWANCE, work_needed(ALLOWANCE), u64::MAX).expect("a core").core;
        let tree = original::read(&core).unwrap();
        let lengths = vec![PACKET_BYTES as u32; traffic.packets.len() / PACKET_BYTES];
        let list = vec![0; 3 * original::core_records(&tree).len()];
        Capture { core, tree, packets: traffic.packets.clone(), lengths, list }
    }

    fn each(&self) -> impl Iterator<Item = &[u8]> {
        black_box(&self.packets).chunks_exact(PACKET_BYTES)
    }

    fn in_one_pass(&mut self) -> u64 {
        port::run_packets_into(black_box(&self.core), &mut self.list, &self.packets, &self.lengths).unwrap()
    }

    fn one_by_one(&mut self) -> u64 {
        let mut call = |packet| port::run_packets_into(black_box(&self.core), &mut self.list, packet, &self.lengths[..1]).unwrap();
        let packets = self.packets.chunks_exact(PACKET_BYTES);
        packets.enumerate().fold(0, |mask, (i, packet)| mask | call(packet) << i)
    }

    fn through(&self, tree: &Exp) -> u64 {
        self.each().enumerate().fold(0, |mask, (i, packet)| mask | (original::passes(tree, packet) as u64) << i)
    }

    fn decoded(&self) -> (u64, Exp) {
        let tree = original::read(black_box(&self.core)).unwrap();
        (self.through(&tree), tree)
    }

    /// How many packets pass; all four must say the same.
    fn passing(&mut self) -> u32 {
        let mask = self.in_one_pass();
        let others = [self.one_by_one(), self.through(&self.tree), self.decoded().0];
        assert!(others == [mask; 3], "the masks differ: {mask:x}, {others:x?}");
        mask.count_ones()
    }

    fn measure(&mut self, what: usize, calls: usize) -> f64 {
        match what {
            ONE_PASS => microseconds(calls, || self.in_one_pass()),
            ONE_BY_ONE => microseconds(calls, || self.one_by_one()),
            TREE => microseconds(calls, || self.through(black_box(&self.tree))),
            _ => microseconds(calls, || self.decoded()),
        }
    }
}

fn row(count: u32, traffic: &Traffic) {
    let mut c = Capture::of(traffic);
    let passing = c.passing();
    let r = Rounds::of(&TIMED, |what, calls| c.measure(what, calls));
    println!(
        "| {count} entries, {} | {} | {} | {passing} of {} | {} | {} | {} | {} | {} | {} | {} |",
        traffic.name, c.core.len(), c.list.len() / 3, c.lengths.len(), r.time(ONE_PASS), r.time(ONE_BY_ONE), r.time(TREE), r.time(DECODED),
        r.ratio(ONE_BY_ONE, ONE_PASS), r.ratio(TREE, ONE_PASS), r.ratio(DECODED, ONE_PASS)
    );
}

/// The third table of `oracle bench`.
pub fn table() {
    println!("\none pass: netkat_run_packets on all packets. one by one: a call for each. tree: the original's tree of the core, packet by packet,");
    println!("by a recursion that stops early. decoded: the same from the core's bytes, the tree made once and not freed in the time.\n");
    println!(
        "| access list | core bytes | records | packets that pass | one pass | one by one | tree | decoded | one by one / one pass | \
         tree / one pass | decoded / one pass |"
    );
    println!("|{}", "---|".repeat(11));
    for count in [12, 200] {
        for traffic in policies::traffic(count) {
            row(count, &traffic);
        }
    }
}
