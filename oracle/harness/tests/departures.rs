//! What the Rust does where document 02 departs from it: docs/DIFFERENCES.md. And what of Change 1's format is the Rust's, what linux/psci.h's.
use arm_psci::{Cookie, Error, Function, PowerState, ResetType};
use harness::nine_words::{NineWords, call};
use harness::original::{self, ACCEPTED, REFUSED};
use harness::{Record, WRONG_PART, inputs, low_half_for_protect, op, oracle, quiet_panics, refusal};

fn written(vendor_type: u32) -> [u64; 4] {
    let mut words = [!0; 4];
    Function::SystemReset2 { reset_type: ResetType::VendorSpecific(vendor_type), cookie: Cookie::Cookie32(6) }.copy_to_array(&mut words);
    words
}

/// Change 5: a vendor type above 0x7fffffff is written as the type without bit 31.
#[test]
fn bit_31_of_a_vendor_type_is_merged() {
    for above in [0x8000_0000, 0x8000_0001, 0xffff_ffff] {
        assert_eq!(u32::from(ResetType::VendorSpecific(above)), above);
        assert_eq!(ResetType::try_from(above), Ok(ResetType::VendorSpecific(above - 0x8000_0000)));
        assert_eq!(written(above), written(above - 0x8000_0000));
    }
}

/// Change 2: the Rust looks at all of r1. What is asked of it for the other decoder is memory protect with r1's low half, and every other set as it
/// is.
#[test]
fn memory_protect_looks_at_all_of_r1() {
    let protect = |enabled| Ok(Function::MemProtect { enabled });
    for (r1, whole, low) in [(0, false, false), (1, true, true), (1 << 32, true, false), (u64::MAX << 32, true, false), (1 << 32 | 1, true, true)] {
        assert_eq!(Function::try_from(&[0x8400_0013, r1, 6, 7]), protect(whole));
        for r0 in [0x8400_0013, 0xffff_ffff_8400_0013] {
            let asked = low_half_for_protect(&[r0, r1, 6, 7]);
            assert_eq!((asked, Function::try_from(&asked)), ([r0, r1 % (1 << 32), 6, 7], protect(low)));
        }
    }
    for r0 in inputs::bounds().into_iter().filter(|r0| *r0 != 0x8400_0013) {
        let regs = [r0, u64::MAX, u64::MAX, u64::MAX];
        assert_eq!(low_half_for_protect(&regs), regs);
    }
}

/// Change 1: the Rust has the extended format alone, and takes words of the original one for that. In the place of a power state it is asked one of
/// two words, which it accepts and refuses.
#[test]
fn the_original_power_state_is_not_the_rusts() {
    for word in [0, 0xffff, 0x1_0000, 0x301_ffff, 0x2_0000, 0x400_0000, ACCEPTED] {
        assert_eq!(PowerState::try_from(word), Ok(PowerState::StandbyOrRetention(word)));
    }
    assert_eq!(u32::from(PowerState::StandbyOrRetention(ACCEPTED)), ACCEPTED);
    assert_eq!(PowerState::try_from(REFUSED), Err(Error::InvalidPowerState(REFUSED)));
}

fn decoded(regs: [u64; 4]) -> Result<NineWords, (u64, u64)> {
    let got = oracle(&Record { op: op::DECODE_ORIGINAL, regs, ..Record::default() });
    if got.refusal == 0 { Ok(got.call) } else { Err((got.refusal, got.carried)) }
}

fn encoded(call: NineWords) -> Result<[u64; 4], (u64, u64)> {
    quiet_panics();
    let got = oracle(&Record { op: op::ENCODE_ORIGINAL, call, ..Record::default() });
    if got.refusal == 0 { Ok(got.regs) } else { Err((got.refusal, got.carried)) }
}

/// Some answers by hand: document 02.
#[test]
fn calls_with_an_original_power_state() {
    assert_eq!(decoded([0x8400_0001, 0x9999_9999_0301_ffff, 5, 6]), Ok([1, 1, 0xffff, 3, 0, 5, 6, 0, 0]));
    assert_eq!(decoded([0xc400_0010, 0x4_0003_0201, 0x200_0007, 6]), Ok([20, 1, 4, 3, 2, 1, 0, 7, 2]));
    assert_eq!(decoded([0x8400_0011, 0x3_0201, 0x1_0000, 6]), Ok([21, 0, 0, 3, 2, 1, 1, 0, 0]));
    assert_eq!(decoded([0xc400_0001, 0x4000_0000, 5, 6]), Err((26, 0x4000_0000)));
    assert_eq!(decoded([0x8400_0010, 0, 0x9999_9999_0002_0000, 6]), Err((26, 0x2_0000)));
    assert_eq!(decoded([0x8400_0010, 1 << 24, 0x2_0000, 6]), Err((3, 1 << 24)));
    assert_eq!(decoded([0xc400_0011, 1 << 40, 0x2_0000, 6]), Err((4, 1 << 40)));
    assert_eq!(encoded([1, 1, 0xffff, 3, 0, 5, 6, 0, 0]), Ok([0x8400_0001, 0x301_ffff, 5, 6]));
    assert_eq!(encoded([20, 1, 4, 3, 2, 1, 0, 7, 2]), Ok([0xc400_0010, 0x4_0003_0201, 0x200_0007, 0]));
    assert_eq!(encoded([21, 0, 0, 3, 2, 1, 1, 0, 4]), Err((27, 4)));
    assert_eq!(encoded([21, 0, 0, 3, 2, 1, 1, 0x1_0000, 4]), Err((WRONG_PART, 0)));
    assert_eq!(encoded([3, 0, 0, 3, 2, 1, 1, 5, 6]), Err((14, 0)));
}

/// Whether a question of the original format is of a call with a power state, or of the word itself: document 02, by hand.
fn has_state(q: &Record) -> bool {
    match q.op {
        op::DECODE_ORIGINAL => [0x8400_0001, 0xc400_0001, 0x8400_0010, 0xc400_0010, 0x8400_0011, 0xc400_0011].contains(&(q.regs[0] as u32)),
        op::ENCODE_ORIGINAL | op::FUNCTION_ID_ORIGINAL => [1, 20, 21].contains(&q.call[0]),
        _ => true,
    }
}

/// Without a power state a question of the original format has the Rust's answer to the same question of document 01's.
#[test]
fn without_a_power_state_all_is_the_rusts() {
    quiet_panics();
    let mut seen = 0;
    for name in ["original-bounds", "original-encode-bounds"] {
        inputs::plan(name, 0, 0, &mut |q| {
            assert_eq!(original::has_state(&q), has_state(&q));
            if !has_state(&q) {
                let by_01 = [op::DECODE, op::ENCODE, op::FUNCTION_ID][(q.op - op::DECODE_ORIGINAL) as usize];
                assert_eq!(oracle(&q), Record { op: q.op, ..oracle(&Record { op: by_01, ..q }) });
                seen += 1;
            }
        });
    }
    assert!(seen > 2_000_000);
}

/// The words of a call but for the parts of its power state.
fn besides(words: &NineWords, parts: usize) -> Vec<u64> {
    let at = original::state_at(words[0]).unwrap();
    [&words[..at], &words[at + parts..6 + parts]].concat()
}

/// With a power state the number, the MPIDR, the entry and their refusals are what the Rust reads of the set with 0 for the power state; a refused word
/// comes after them.
#[test]
fn with_a_power_state_the_rest_is_the_rusts() {
    let mut seen = [0; 3];
    inputs::plan("original-bounds", 0, 0, &mut |q| {
        let Some(at) = original::register(q.regs[0]).filter(|_| q.op == op::DECODE_ORIGINAL) else { return };
        let mut regs = q.regs;
        regs[at] = 0;
        let kind = match (Function::try_from(&regs), decoded(q.regs)) {
            (Ok(f), Ok(words)) => {
                assert_eq!(besides(&words, 3), besides(&call(f), 2));
                0
            }
            (Ok(_), Err(no)) => {
                assert_eq!(no, (26, q.regs[at] & 0xffff_ffff));
                1
            }
            (Err(e), got) => {
                assert_eq!(got, Err(refusal(e)));
                2
            }
        };
        seen[kind] += 1;
    });
    assert!(seen.iter().all(|times| *times > 10_000), "{seen:?}");
}
