//! Change 7: the oracle's leftovers by hand, against the Rust asked without a record, and what `replay` is sent of them.
use arm_psci::Function;
use harness::leftovers::sent;
use harness::{Record, UNKNOWN_TAG, WRONG_PART, inputs, low_half_for_protect, op, oracle, quiet_panics};
use std::collections::BTreeMap;

const DECODERS: [u64; 3] = [op::DECODE_WITH_LEFTOVERS, op::DECODE_SMCCC_WITH_LEFTOVERS, op::DECODE_ORIGINAL_WITH_LEFTOVERS];

/// Nine words that a decoder must write, or leave.
const SPOILED: [u64; 9] = [0xa5a5; 9];

fn decoded(op: u64, regs: [u64; 4]) -> Record {
    oracle(&Record { op, call: SPOILED, regs, refusal: 9, carried: 9 })
}

fn encoded(op: u64, call: [u64; 9], leftovers: [u64; 4]) -> Record {
    quiet_panics();
    oracle(&Record { op, call, regs: leftovers, refusal: 9, carried: 9 })
}

/// A set's tag and leftovers by these decoders; writing with the leftovers gives the set again.
fn keeps(decoders: &[u64], regs: [u64; 4], tag: u64, leftovers: [u64; 4]) {
    for &op in decoders {
        let got = decoded(op, regs);
        assert_eq!((got.refusal, got.carried, got.call[0], got.regs), (0, 0, tag, leftovers), "{op}: {regs:x?}");
        let again = encoded(op::writing(op).unwrap(), got.call, got.regs);
        assert_eq!((again.refusal, again.carried, again.call, again.regs), (0, 0, got.call, regs), "{op}: {regs:x?}");
    }
}

fn refuses(decoders: &[u64], regs: [u64; 4], no: (u64, u64)) {
    for &op in decoders {
        assert_eq!(decoded(op, regs), Record { op, call: SPOILED, regs, refusal: no.0, carried: no.1 });
    }
}

/// Document 01's cases, with what they leave over put down by hand.
#[test]
fn by_hand() {
    let [by_01, smccc, original] = DECODERS;
    keeps(&DECODERS, [0x8400_0000, 5, 6, 7], 0, [0, 5, 6, 7]);
    keeps(&DECODERS, [0xffff_ffff_8400_0002, 7, 0, 0], 2, [0xffff_ffff_0000_0000, 7, 0, 0]);
    keeps(&DECODERS, [0xc400_0003, 0x1_0002_0304, 0x8_0000, 9], 3, [0; 4]);
    keeps(&DECODERS, [0xdead_beef_8400_0003, 0xdead_beef_0003_0201, 1 << 63, 9], 3, [0xdead_beef_0000_0000, 0xdead_beef_0000_0000, 1 << 63, 0]);
    // memory protect: by document 01 enabled and written as 1, by Change 2 disabled
    keeps(&[by_01, original], [0x8400_0013, 0x1_0000_0000, 6, 7], 12, [0, 0x1_0000_0001, 6, 7]);
    keeps(&[smccc], [0x8400_0013, 0x1_0000_0000, 6, 7], 12, [0, 0x1_0000_0000, 6, 7]);
    keeps(&DECODERS, [0x8400_0013, 6, 0, 0], 12, [0, 7, 0, 0]);
    keeps(&DECODERS, [0x8400_0013, 1, 0, 0], 12, [0; 4]);
    // the same word is a power state in either format
    keeps(&DECODERS, [0xdead_beef_8400_0001, 0xdead_beef_0301_ffff, 5, 6], 1, [0xdead_beef_0000_0000, 0xdead_beef_0000_0000, 0, 0]);
    keeps(&DECODERS, [0xc400_0010, 0x4_0003_0201, 0x1_0000_0007, 6], 20, [0, 0, 0x1_0000_0000, 6]);
    refuses(&DECODERS, [0x8400_0016, 5, 6, 7], (1, 0x8400_0016));
    refuses(&DECODERS, [0x8400_0004, 0xff00_0000, 3, 0], (5, 3));
    refuses(&[by_01, smccc], [0x8400_0001, 0x1000_0000, 5, 6], (2, 0x1000_0000));
    refuses(&[original], [0x8400_0001, 0x4000_0000, 5, 6], (26, 0x4000_0000));
}

/// Any call with any leftovers; refused as encode refuses, with the leftovers as they were.
#[test]
fn writing_by_hand() {
    let both = [op::ENCODE_WITH_LEFTOVERS, op::ENCODE_ORIGINAL_WITH_LEFTOVERS];
    let ones = [u64::MAX; 4];
    let written = |op, call| (encoded(op, call, ones).refusal, encoded(op, call, ones).carried, encoded(op, call, ones).regs);
    for op in both {
        assert_eq!(written(op, [2, 0, 0, 0, 0, 0, 0, 0, 0]), (0, 0, [0xffff_ffff_7bff_fffd, u64::MAX, u64::MAX, u64::MAX]));
        assert_eq!(written(op, [3, 0, 0, 3, 2, 1, 1, 5, 6]), (14, 0, ones));
        assert_eq!(written(op, [11, 1, 0x8000_0001, 0, 6, 0, 0, 0, 0]), (31, 0x8000_0001, ones));
        assert_eq!(written(op, [22, 0, 0, 0, 0, 0, 0, 0, 0]), (UNKNOWN_TAG, 22, ones));
        assert_eq!(written(op, [2, 1, 0, 0, 0, 0, 0, 0, 0]), (WRONG_PART, 0, ones));
    }
    assert_eq!(written(both[0], [1, 1, 0x1000_0000, 0, 5, 6, 0, 0, 0]), (15, 0x1000_0000, ones));
    assert_eq!(written(both[1], [1, 1, 0xffff, 4, 0, 5, 6, 0, 0]), (27, 4, ones));
}

/// The registers exclusive-or what `copy_to_array` writes for what `try_from` gives, with no record between.
#[test]
fn by_the_rust_alone() {
    let mut seen = [0; 2];
    inputs::plan("decode", 2, 200_000, &mut |q| {
        for (op, asked) in [(op::DECODE_WITH_LEFTOVERS, q.regs), (op::DECODE_SMCCC_WITH_LEFTOVERS, low_half_for_protect(&q.regs))] {
            let got = decoded(op, q.regs);
            let mut want = q.regs;
            if let Ok(call) = Function::try_from(&asked) {
                let mut words = [0; 4];
                call.copy_to_array(&mut words);
                want.iter_mut().zip(words).for_each(|(register, word)| *register ^= word);
                seen[0] += 1;
                seen[1] += (want == [0; 4]) as u64;
            }
            assert_eq!(got.regs, want, "{op}: {:x?}", q.regs);
        }
    });
    assert!(seen[0] > 200_000 && seen[1] > 1_000, "{seen:?}");
}

/// Of each operation the plans have accepted and refused questions; what a decoder accepts is asked to be written at once, and becomes the registers.
#[test]
fn plans() {
    quiet_panics();
    for name in ["leftovers-bounds", "leftovers"] {
        let (mut seen, mut last) = (BTreeMap::new(), None);
        let mut differing = 0;
        inputs::plan(name, 3, 20_000, &mut |q| {
            let a = oracle(&q);
            let times: &mut [u64; 2] = seen.entry(q.op).or_default();
            times[(a.refusal != 0) as usize] += 1;
            if let Some((op, regs)) = last.take() {
                assert_eq!((q.op, a.refusal, a.regs), (op, 0, regs), "{q:x?}");
            }
            if let (Some(op), 0) = (op::writing(q.op), a.refusal) {
                last = Some((op, q.regs));
            }
            let by_01 = oracle(&Record { op: op::DECODE_WITH_LEFTOVERS, ..q });
            differing += (q.op == op::DECODE_SMCCC_WITH_LEFTOVERS && by_01.regs != a.regs) as u64;
        });
        assert!(seen.keys().copied().eq(op::DECODE_WITH_LEFTOVERS..=op::ENCODE_ORIGINAL_WITH_LEFTOVERS), "{name}: {seen:?}");
        assert!(seen.values().all(|[accepted, refused]| *accepted > 5_000 && *refused > 50), "{name}: {seen:?}");
        assert!(differing > 0, "{name}: no set that the two decoders leave over differently");
    }
}

/// The fold of 0, 1, 2, 3 and 4, computed apart from it.
const DIGEST: u64 = 0x9368_3940_b269_2a6c;

/// It is the digest of an accepted answer with the words 1 to 4; a turned bit of one of them changes it,
/// and the block has the words that were asked.
#[test]
fn what_is_sent() {
    for (_, op) in op::WITH_LEFTOVERS {
        let q = Record { op, call: SPOILED, regs: [5, 6, 7, 8], ..Record::default() };
        let answer = Record { regs: [1, 2, 3, 4], ..q };
        let block = sent(&q, &answer);
        assert_eq!(block, Record { carried: DIGEST, ..q });
        for at in 0..4 {
            for bit in 0..64 {
                let mut wrong = answer;
                wrong.regs[at] ^= 1 << bit;
                assert_ne!(sent(&q, &wrong).carried, DIGEST);
                assert_ne!(sent(&q, &Record { carried: 1 << bit, ..answer }).carried, DIGEST);
            }
        }
    }
    let plain = Record { op: op::DECODE, regs: [1, 2, 3, 4], ..Record::default() };
    assert_eq!(sent(&Record { regs: [5, 6, 7, 8], ..plain }, &plain), plain);
}
