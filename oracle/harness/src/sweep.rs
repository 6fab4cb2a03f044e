//! Sweeps: a block of 128 bytes that asks one reader or decoder many words, and has a digest of the Rust's answers to them. `replay` asks the words
//! anew, so that 2^32 of them cost neither side more than asking and folding.
use crate::inputs::Rng;
use crate::{Record, op, oracle};
use std::ops::RangeInclusive;

/// The operation of a block, known to `replay` alone.
pub const SWEEP: u64 = 2000;

/// A block varies this many bits of r0 side by side: it has 65,536 words.
const INNER: u32 = 16;

/// In words 14 and 15 of every question, which every answer must write.
const SPOILED: u64 = 0xa5a5_5a5a_c3c3_3c3c;

/// Each step is one-to-one for a given word, so one wrong word always shows; two could only hide each other by chance.
#[derive(Default)]
pub struct Digest(pub u64);

impl Digest {
    #[inline]
    pub fn take(&mut self, word: u64) {
        let mut d = self.0.wrapping_add(word);
        d ^= d << 13;
        d ^= d >> 7;
        d ^= d << 17;
        self.0 = d;
    }
}

/// Words of r0: `INNER` bits from `shift` up take every choice within a block, and from block to block each mask of `turned` is turned or not.
/// No two masks share a bit, so all words of a group are different. Bits outside are 0, or drawn for each block.
pub struct Group {
    shift: u32,
    turned: Vec<u64>,
    drawn_high: bool,
}

fn each(bits: RangeInclusive<u32>) -> Vec<u64> {
    bits.map(|bit| 1 << bit).collect()
}

fn together(bits: RangeInclusive<u32>) -> Vec<u64> {
    vec![bits.map(|bit| 1u64 << bit).sum()]
}

/// The bits of a mask, or of bits that vary alone: `a to b`.
fn span(first: u32, last: u32) -> String {
    if first == last { format!("{first}") } else { format!("{first} to {last}") }
}

impl Group {
    fn new(shift: u32, turned: &[Vec<u64>]) -> Group {
        Group { shift, turned: turned.concat(), drawn_high: false }
    }

    /// How many words, as a power of two.
    pub fn size(&self) -> u32 {
        INNER + self.turned.len() as u32
    }

    /// What each bit of a word's number turns.
    pub fn masks(&self) -> Vec<u64> {
        [each(self.shift..=self.shift + INNER - 1), self.turned.clone()].concat()
    }

    /// Which bits vary, read off the masks.
    pub fn bits(&self) -> String {
        let (mut alone, mut joint): (Vec<u64>, Vec<u64>) = self.masks().into_iter().partition(|m| m.is_power_of_two());
        alone.sort();
        joint.sort();
        let mut runs: Vec<(u32, u32)> = Vec::new();
        for bit in alone.iter().map(|m| m.trailing_zeros()) {
            match runs.last_mut() {
                Some((_, last)) if *last + 1 == bit => *last = bit,
                _ => runs.push((bit, bit)),
            }
        }
        let runs: Vec<String> = runs.into_iter().map(|(first, last)| span(first, last)).collect();
        let mut out = vec![format!("{} each", runs.join(", "))];
        out.extend(joint.iter().map(|m| format!("{} together", span(m.trailing_zeros(), 63 - m.leading_zeros()))));
        if self.drawn_high {
            out.push("the high half drawn for each block".into());
        }
        format!("bits {}", out.join(", "))
    }

    fn block(&self, op: u64, number: u64, count: u64) -> Block {
        let mut draw = Rng(number);
        let mut word = if self.drawn_high { draw.word() << 32 } else { 0 };
        for (bit, mask) in self.turned.iter().enumerate() {
            word ^= mask * (number >> bit & 1);
        }
        // a decoder takes fields from the other registers, and these are legal for most; Change 2's gets an r1 that tells whether its low half is
        // taken for memory protect and in no 64-bit call; Change 1's an r2 that is another power state in each format; a reader must leave them as
        // they are
        let rest = match op {
            op::DECODE => [1; 3],
            op::DECODE_SMCCC => [1 << 32, 1, 1],
            op::DECODE_ORIGINAL => [1, 1 << 16 | 1, 1],
            _ => [draw.word(), draw.word(), draw.word()],
        };
        Block { op, shift: self.shift, count, regs: [word, rest[0], rest[1], rest[2]] }
    }

    /// The group's blocks. Below 32 bits only one in 2^(32 - bits) of them, or as small a part of one block: the masks left out are turned
    /// with the first one that is not, so that numbers of all ones, as the error codes have them, come among the rest.
    fn blocks(&self, op: u64, bits: u32) -> Vec<Block> {
        let cut = 32 - bits;
        let count = 1 << INNER.min(self.size() - cut);
        let blocks = (1u64 << self.turned.len() >> cut).max(1);
        (0..blocks).map(|n| self.block(op, n << cut | (n & 1) * ((1 << cut) - 1), count)).collect()
    }
}

/// The groups of an operation, 2^32 words in all. A reader of 32 bits, and a decoder, gets each word of 32 bits, under high halves that it
/// must ignore. The three readers of 64 bits get a choice of words in which every bit varies:
///
/// 20, error codes: half of the words that fit 32 bits, of both signs; then small numbers in the low half, under every choice of bit 31 and
/// of either half of the high half. What fits is where bits 31 to 63 are alike.
///
/// 24 and 25, MPIDR and its register: half of the words whose reserved bits are clear, with affinities 1, 2 and 3 whole; then every choice of
/// the reserved bits 24 to 31 with affinities 2 and 3 whole; then every choice of the reserved bits 40 to 63.
///
/// 34, original power states, gets each word of 32 bits too; thinned to 24, with the bits of type and level and their neighbours each for itself.
pub fn groups(op: u64) -> Vec<Group> {
    match op {
        op::READ_ERROR_CODE_64 => vec![
            Group::new(0, &[together(16..=17), each(18..=30), together(31..=63)]),
            Group::new(32, &[each(0..=10), together(11..=30), each(31..=31), together(48..=63)]),
            Group::new(48, &[each(0..=10), together(11..=30), each(31..=31), together(32..=47)]),
        ],
        op::READ_MPIDR_64 | op::READ_MPIDR_REGISTER => vec![
            Group::new(8, &[each(0..=5), together(6..=7), each(32..=39)]),
            Group::new(16, &[
                together(0..=7), together(8..=15), each(32..=39), together(40..=47), together(48..=55), together(56..=62), each(63..=63),
            ]),
            Group::new(48, &[
                together(0..=7), together(8..=15), together(16..=23), each(24..=24), together(25..=31), together(32..=39), each(40..=47),
            ]),
        ],
        op::READ_POWER_STATE_ORIGINAL => {
            let turned = [each(18..=22), each(27..=29), each(23..=26), each(30..=31), each(16..=17)];
            vec![Group { drawn_high: true, ..Group::new(0, &turned) }]
        }
        _ => vec![Group { drawn_high: true, ..Group::new(0, &[each(16..=31)]) }],
    }
}

/// One question of a sweep: `op` on `count` words, which are r0 of `regs` with their numbers, from `shift` up, turned in.
pub struct Block {
    op: u64,
    shift: u32,
    pub count: u64,
    regs: [u64; 4],
}

impl Block {
    /// The Rust's answers, one by one.
    #[inline]
    fn answers(&self, each: &mut impl FnMut(&Record)) {
        for i in 0..self.count {
            let [r0, r1, r2, r3] = self.regs;
            let regs = [r0 ^ i << self.shift, r1, r2, r3];
            each(&oracle(&Record { op: self.op, call: [0; 9], regs, refusal: SPOILED, carried: SPOILED }));
        }
    }

    /// The block as a record, its last word the digest of the answers, each of which is also handed to `seen`.
    pub fn answered(&self, seen: &mut impl FnMut(&Record)) -> Record {
        let mut digest = Digest::default();
        self.answers(&mut |a| {
            a.words().into_iter().for_each(|w| digest.take(w));
            seen(a);
        });
        let call = [self.op, self.shift.into(), self.count, 0, 0, 0, 0, 0, 0];
        Record { op: SWEEP, call, regs: self.regs, refusal: 0, carried: digest.0 }
    }
}

/// The decoders and readers that are swept.
pub fn operations() -> impl Iterator<Item = u64> {
    let readers = (op::READ_FUNCTION_ID..=op::READ_SUSPEND_MODE).chain([op::READ_POWER_STATE_ORIGINAL]);
    [op::DECODE, op::DECODE_SMCCC, op::DECODE_ORIGINAL].into_iter().chain(readers)
}

/// The blocks of an operation; `bits` below 32 thins them to 2^bits words.
pub fn blocks(op: u64, bits: u32) -> Vec<Block> {
    assert!(operations().any(|swept| swept == op), "no reader or decoder {op}");
    assert!((2..=32).contains(&bits), "2 to 32 bits");
    groups(op).iter().flat_map(|g| g.blocks(op, bits)).collect()
}

/// Which words `blocks` asks.
pub fn described(op: u64, bits: u32) -> String {
    let all: Vec<String> = groups(op).iter().map(|g| format!("2^{} words: {}", g.size(), g.bits())).collect();
    let thinned = if bits < 32 { format!("one in 2^{} of ", 32 - bits) } else { String::new() };
    format!("{thinned}{}", all.join("; "))
}
