//! Packets that are run through a core.

use crate::limits::MAX_PACKETS;
use crate::record::refusal;
use crate::{bytes, ffi, Core, Refusal, RefusalKind};

/// Packets, as bytes, that are run through a core which is a test. Field 0 is the lowest bit of a packet's first byte, field 8 that of its
/// second. A packet may be longer than the fields that the core tests: the rest of it makes no difference.
///
/// A core is a test if it has no other kinds than Zero, One, Test, Union, Intersect, Xor, Difference and Sequence. The core of a policy that
/// is a test ([`Expr::check`](crate::Expr::check)) is one.
impl Core {
    /// Which of 1 to 64 packets pass: bit i of the number is that of packet i. Bits of packets that are not there are 0. The library goes
    /// over the core once for all of them.
    ///
    /// ```
    /// use netkat::{desugar, Expr, Pattern};
    ///
    /// // The fields 0 to 31 are an address, so its lowest byte comes first.
    /// let guests = desugar(&Expr::bit_range_match(0, 32, "10.1.0.0/16".parse::<Pattern>()?))?;
    /// let passed = guests.run(&[&[7, 0, 1, 10], &[7, 0, 2, 10], &[8, 0, 1, 10, 255]])?;
    /// assert_eq!(passed, 0b101);
    /// # Ok::<(), Box<dyn std::error::Error>>(())
    /// ```
    ///
    /// Refused by 25 or 42 as [`Core::from_bytes`] is, the latter for a core that was joined from others; by 48 for a core that is not a test;
    /// by 49 for no packet or more than [`MAX_PACKETS`]; by 50 at the first packet that does not have all fields which the core tests. The
    /// place of 50 is the packet's index. For more packets there is [`Core::run_all`].
    ///
    /// ```
    /// use netkat::{desugar, Core, Expr, Names};
    ///
    /// let core = desugar(&Expr::test(8, true))?;
    /// let refusal = core.run(&[&[0, 1], &[255]]).unwrap_err();
    /// assert_eq!(refusal.to_string(), "the packet is too short for the fields that the core tests (packet 1, refusal 50)");
    ///
    /// let policy = Expr::sequence(Expr::test(8, true), Expr::assign(9, true));
    /// let refusal = desugar(&policy)?.run(&[&[0, 1]]).unwrap_err();
    /// assert_eq!(
    ///     refusal.explain(&policy, &Names::new()),
    ///     "packets can be run through a test only, and this is not one because of `x9 := 1` at record 2 (refusal 48)\n  \
    ///      in: x8 == 1 ; x9 := 1"
    /// );
    /// # Ok::<(), netkat::Refusal>(())
    /// ```
    pub fn run(&self, packets: &[&[u8]]) -> Result<u64, Refusal> {
        let mut batch = Batch::for_core(self);
        // One more than there may be is enough to be refused.
        packets.iter().take(MAX_PACKETS + 1).for_each(|packet| batch.push(packet));
        bytes::run_packets(&self.to_bytes(), &batch.bytes, &batch.lengths)
    }

    /// Whether each packet of a capture of any length passes, in the order of the packets. They are run in batches of 64, in memory that is
    /// allocated once: up to 64 packets are taken before the first answer is given.
    ///
    /// ```
    /// use netkat::{desugar, Expr, Refusal};
    ///
    /// let odd = desugar(&Expr::test(0, true))?;
    /// let capture: Vec<Vec<u8>> = (0..1_000u32).map(|i| i.to_le_bytes().to_vec()).collect();
    ///
    /// let passed = odd.run_all(&capture).collect::<Result<Vec<bool>, Refusal>>()?;
    /// assert!(passed.iter().enumerate().all(|(i, passes)| *passes == (i % 2 == 1)));
    /// # Ok::<(), Refusal>(())
    /// ```
    ///
    /// A packet that is too short is refused by 50 in its turn, with its index in the whole capture as the place, and those behind it are run
    /// all the same; each such packet costs one or two more readings of the core. A core that is refused, by 25, 42 or 48, is so once, when the
    /// first packet comes, and that is the end.
    ///
    /// ```
    /// use netkat::{desugar, Expr, Refusal};
    ///
    /// let core = desugar(&Expr::test(8, true))?;
    /// let mut capture = vec![vec![0, 1]; 100];
    /// capture[70].pop();
    ///
    /// let answers: Vec<Result<bool, Refusal>> = core.run_all(&capture).collect();
    /// assert_eq!(answers[70], Err(Refusal { number: 50, place: 70 }));
    /// assert_eq!(answers.iter().filter(|answer| **answer == Ok(true)).count(), 99);
    /// # Ok::<(), Refusal>(())
    /// ```
    pub fn run_all<P: AsRef<[u8]>>(&self, packets: impl IntoIterator<Item = P>) -> impl Iterator<Item = Result<bool, Refusal>> {
        Runs {
            core: self.to_bytes(),
            list: Vec::new(),
            capture: Some(packets.into_iter()),
            batch: Batch::for_core(self),
            first: 0,
            passed: 0,
            ready: 0,
            refusal: None,
        }
    }
}

/// Packets end to end, each with as many of its bytes as the core looks at.
struct Batch {
    needed: usize,
    bytes: Vec<u8>,
    lengths: Vec<u32>,
}

impl Batch {
    fn for_core(core: &Core) -> Self {
        // A core without a field count (25) is refused before packets are looked at.
        let needed = core.num_fields().map_or(0, |fields| fields.div_ceil(8));
        Batch { needed: needed as usize, bytes: Vec::new(), lengths: Vec::new() }
    }

    fn push(&mut self, packet: &[u8]) {
        // At most 2^29 bytes, as there are 2^32 fields.
        let front = &packet[..packet.len().min(self.needed)];
        self.bytes.extend_from_slice(front);
        self.lengths.push(front.len() as u32);
    }

    /// Drops the first packets.
    fn drop_front(&mut self, count: usize) {
        let bytes: usize = self.lengths.drain(..count).map(|length| length as usize).sum();
        self.bytes.drain(..bytes);
    }
}

/// A capture on its way through a core.
struct Runs<I> {
    core: Vec<u8>,
    /// The record list, which every call is lent.
    list: Vec<u32>,
    /// The packets that are not in a batch yet; none if there are no more, or if the core is refused.
    capture: Option<I>,
    batch: Batch,
    /// The index in the capture of the batch's first packet.
    first: usize,
    /// Answers to be given, the next one in the lowest bit, and how many they are.
    passed: u64,
    ready: usize,
    /// What is to be given behind them.
    refusal: Option<Refusal>,
}

impl<P: AsRef<[u8]>, I: Iterator<Item = P>> Runs<I> {
    fn fill(&mut self) {
        while self.batch.lengths.len() < MAX_PACKETS {
            match self.capture.as_mut().and_then(Iterator::next) {
                Some(packet) => self.batch.push(packet.as_ref()),
                None => return self.capture = None,
            }
        }
    }

    /// Runs the first packets of the batch.
    fn run(&mut self, count: usize) -> Result<u64, Refusal> {
        ffi::run_packets(&self.core, &mut self.list, &self.batch.bytes, &self.batch.lengths[..count])
    }

    /// Runs the next packets, if there are any.
    fn run_batch(&mut self) {
        self.fill();
        let count = self.batch.lengths.len();
        if count == 0 {
            return;
        }
        match self.run(count) {
            Ok(passed) => self.done(passed, count, 0),
            Err(short) if short.kind() == RefusalKind::PacketTooShort => {
                // Those before it are long enough.
                let before = short.place as usize;
                let passed = if before > 0 { self.run(before).expect("packets that are long enough") } else { 0 };
                self.refusal = Some(refusal(short.number, self.first + before));
                self.done(passed, before, 1);
            }
            Err(of_core) => {
                self.refusal = Some(of_core);
                self.capture = None;
                self.batch.drop_front(count);
            }
        }
    }

    /// So many packets have their answer, and so many behind them are refused.
    fn done(&mut self, passed: u64, count: usize, refused: usize) {
        (self.passed, self.ready) = (passed, count);
        self.first += count + refused;
        self.batch.drop_front(count + refused);
    }
}

impl<P: AsRef<[u8]>, I: Iterator<Item = P>> Iterator for Runs<I> {
    type Item = Result<bool, Refusal>;

    fn next(&mut self) -> Option<Self::Item> {
        if self.ready == 0 && self.refusal.is_none() {
            self.run_batch();
        }
        if self.ready == 0 {
            return self.refusal.take().map(Err);
        }
        let passes = self.passed & 1 == 1;
        self.passed >>= 1;
        self.ready -= 1;
        Some(Ok(passes))
    }
}
