//! That a sweep asks what it says, and that its digest is what a program makes that knows the block's bytes alone.
use harness::sweep::{Digest, SWEEP, blocks, groups, operations};
use harness::{Record, inputs, op, oracle, quiet_panics};

const WIDE: [u64; 3] = [op::READ_ERROR_CODE_64, op::READ_MPIDR_64, op::READ_MPIDR_REGISTER];

/// The fold of 1, 2 and 2^64 - 1, computed apart from it.
#[test]
fn fold() {
    let mut digest = Digest::default();
    for word in [1, 2, u64::MAX] {
        digest.take(word);
    }
    assert_eq!(digest.0, 0xbb1e_0623_3604_2eeb);
}

#[test]
fn all_words_differ_and_are_2_to_the_32() {
    for op in operations() {
        let mut words = 0u64;
        for group in groups(op) {
            let masks = group.masks();
            let (all, bits) = masks.iter().fold((0, 0), |(all, bits), m| (all | m, bits + m.count_ones()));
            assert_eq!(u64::count_ones(all), bits, "{op}: two masks share a bit");
            assert!(masks.iter().all(|m| *m != 0));
            words += 1 << group.size();
        }
        assert_eq!(words, 1 << 32, "{op}");
        assert_eq!(blocks(op, 32).iter().map(|b| b.count).sum::<u64>(), 1 << 32, "{op}");
        assert_eq!(blocks(op, 20).iter().map(|b| b.count).sum::<u64>(), 1 << 20, "{op}");
    }
}

#[test]
fn every_bit_of_a_wide_reader_varies() {
    for op in WIDE {
        let varied = groups(op).iter().flat_map(|g| g.masks()).fold(0, |all, mask| all | mask);
        assert_eq!(varied, u64::MAX, "{op}");
    }
}

/// What a program that reads the block's sixteen words makes of them.
fn asked_anew(w: &[u64]) -> u64 {
    let mut d = 0u64;
    for i in 0..w[3] {
        let regs = [w[10] ^ (i << w[2]), w[11], w[12], w[13]];
        let wrong = 0xa5a5_5a5a_c3c3_3c3c;
        for x in oracle(&Record { op: w[1], call: [0; 9], regs, refusal: wrong, carried: wrong }).words() {
            d = d.wrapping_add(x);
            d ^= d << 13;
            d ^= d >> 7;
            d ^= d << 17;
        }
    }
    d
}

#[test]
fn digests() {
    for op in operations() {
        for block in blocks(op, 19) {
            let bytes = block.answered(&mut |_| {}).bytes();
            let w: Vec<u64> = bytes.chunks(8).map(|c| u64::from_be_bytes(c.try_into().unwrap())).collect();
            assert_eq!((w[0], w[1], w[14]), (SWEEP, op, 0));
            assert!(w[2] < 64 && w[3] <= 65_536);
            assert_eq!(w[15], asked_anew(&w), "{op}");
        }
    }
}

/// A block whose first byte is from 0x20 to 0x7e is a label to `replay`.
#[test]
fn no_record_is_a_label() {
    quiet_panics();
    for name in ["decode-bounds", "smccc-bounds", "original-bounds", "encode-bounds", "original-encode-bounds", "words-bounds", "malformed"] {
        inputs::plan(name, 0, 0, &mut |q| assert!(!(0x20..=0x7e).contains(&q.bytes()[0]), "{name}: {q:x?}"));
    }
}
