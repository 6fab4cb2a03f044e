//! Document 01's cases as a caller in Rust writes them; the letter and number of a case is that paper's.
use rampcomfrey::*;

const FILLED: [u64; 4] = [1, 2, 3, 4];

/// What a call is written as.
fn written(call: Function) -> [u64; 4] {
    let mut words = FILLED;
    call.copy_to_array(&mut words).unwrap();
    words
}

fn refused(regs: [u64; 4]) -> Error {
    Function::try_from(&regs).unwrap_err()
}

/// The error, which must leave the words as they were.
fn not_written(call: Function) -> Error {
    let mut words = FILLED;
    let error = call.copy_to_array(&mut words).unwrap_err();
    assert_eq!(words, FILLED);
    error
}

const ENTRY_32: EntryPoint = EntryPoint::Entry32 { entry_point_address: 0x80000, context_id: 9 };
const ENTRY_64: EntryPoint = EntryPoint::Entry64 { entry_point_address: 0x80000, context_id: 9 };

#[test]
fn m1_version() {
    assert_eq!(Function::try_from(&[0x84000000, 5, 6, 7]), Ok(Function::Version));
    assert_eq!(written(Function::Version), [0x84000000, 0, 0, 0]);
}

#[test]
fn m2_the_high_half_of_r0_is_ignored() {
    assert_eq!(Function::try_from([0xffffffff84000002, 0, 0, 0]), Ok(Function::CpuOff));
}

#[test]
fn m3_cpu_on() {
    let regs = [0xc4000003, 0x100020304, 0x80000, 9];
    let call = Function::CpuOn { target_cpu: Mpidr::from_aff3210(1, 2, 3, 4), entry: ENTRY_64 };
    assert_eq!(Function::try_from(&regs), Ok(call));
    assert_eq!(written(call), regs);
    assert_eq!(call.function_id(), Ok(FunctionId::CpuOn64));
}

#[test]
fn m4_m5_mpidr() {
    assert_eq!(refused([0x84000003, 0x01000000, 0, 0]), Error::InvalidMpidr32(0x01000000));
    assert_eq!(refused([0xc4000003, 0x01000000, 0, 0]), Error::InvalidMpidr64(0x01000000));
}

#[test]
fn m6_the_level_comes_before_the_mpidr() {
    assert_eq!(refused([0x84000004, 0xff000000, 3, 0]), Error::InvalidLowerAffinityLevel(3));
    let info = Function::AffinityInfo { mpidr: Mpidr::from_aff3210(0, 0, 0, 0), lowest_affinity_level: 3 };
    assert_eq!(Function::try_from(&[0xc4000004, 0, 3, 0]), Ok(info));
    assert_eq!(refused([0xc4000004, 0, 4, 0]), Error::InvalidLowerAffinityLevel(4));
}

#[test]
fn m7_power_state() {
    assert_eq!(PowerState::try_from(0x4fffffff), Ok(PowerState::PowerDown(0x0fffffff)));
    assert_eq!(PowerState::try_from(0x50000000), Err(Error::InvalidPowerState(0x50000000)));
    assert_eq!(u32::try_from(PowerState::PowerDown(0x0fffffff)), Ok(0x4fffffff));
    assert_eq!(u32::try_from(PowerState::PowerDown(0x10000000)), Err(Error::InvalidStateId(0x10000000)));
}

#[test]
fn m8_reset_type() {
    assert_eq!(ResetType::try_from(0), Ok(ResetType::Architectural(ArchitecturalResetType::SystemWarmReset)));
    assert_eq!(ResetType::try_from(1), Err(Error::UnrecognisedSystemReset2Type(1)));
    assert_eq!(ResetType::try_from(0x80000001), Ok(ResetType::VendorSpecific(1)));
    assert_eq!(u32::try_from(ResetType::VendorSpecific(1)), Ok(0x80000001));
    assert_eq!(ArchitecturalResetType::try_from(0x80000001), Err(Error::UnrecognisedSystemReset2Type(0x80000001)));
}

#[test]
fn m9_memory_protect() {
    let enabled = Function::MemProtect { enabled: true };
    assert_eq!(Function::try_from(&[0x84000013, 0x100000000, 0, 0]), Ok(enabled));
    assert_eq!(written(enabled), [0x84000013, 1, 0, 0]);
}

/// Document 02, Change 2: memory protect by the low half of r1; every other call is `try_from`'s.
#[test]
fn memory_protect_by_the_low_half() {
    for (r1, enabled) in [(0, false), (1, true), (0x80000000, true), (0x100000000, false), (0xffffffff00000000, false), (0x100000001, true)] {
        let regs = [0x84000013, r1, 6, 7];
        assert_eq!(Function::try_from_smccc(&regs), Ok(Function::MemProtect { enabled }));
        let mut words = FILLED;
        assert_eq!(recode_smccc(&regs, &mut words), Ok(()));
        assert_eq!(words, [0x84000013, enabled.into(), 0, 0]);
    }
    let m9 = [0x84000013, 0x100000000, 0, 0];
    let mut words = FILLED;
    assert_eq!((recode(&m9, &mut words), words[1]), (Ok(()), 1));
    assert_eq!((recode_smccc(&m9, &mut words), words[1]), (Ok(()), 0));
    let migrate = [0xc4000005, 0x100000000, 0, 0];
    assert_eq!(Function::try_from_smccc(&migrate), Function::try_from(&migrate));
    let mut words = FILLED;
    assert_eq!(recode_smccc(&[0x84000016, 0, 0, 0], &mut words), Err(Error::UnrecognisedFunctionId(0x84000016)));
    assert_eq!(words, FILLED);
}

/// A decoder with leftovers.
type Keeper = fn(&[u64; 4]) -> Result<(Function, [u64; 4]), Error>;

const KEEPERS: [Keeper; 2] = [Function::try_from_with_leftovers, Function::try_from_smccc_with_leftovers];

/// What a call is written as with leftovers.
fn written_with(call: Function, leftovers: [u64; 4]) -> [u64; 4] {
    let mut words = FILLED;
    call.copy_to_array_with_leftovers(&leftovers, &mut words).unwrap();
    words
}

/// Document 02, Change 7, of M1, M2, M3 and M9: call and leftovers, by both decoders; both together are written as the registers. M4 is refused.
#[test]
fn leftovers() {
    let on = Function::CpuOn { target_cpu: Mpidr::from_aff3210(1, 2, 3, 4), entry: ENTRY_64 };
    let protect = |enabled| Function::MemProtect { enabled };
    for (regs, whole, low) in [
        ([0x84000000, 5, 6, 7], (Function::Version, [0, 5, 6, 7]), (Function::Version, [0, 5, 6, 7])),
        ([0xffffffff84000002, 0, 0, 0], (Function::CpuOff, [0xffffffff00000000, 0, 0, 0]), (Function::CpuOff, [0xffffffff00000000, 0, 0, 0])),
        ([0xc4000003, 0x100020304, 0x80000, 9], (on, [0; 4]), (on, [0; 4])),
        ([0x84000013, 0x100000000, 0, 0], (protect(true), [0, 0x100000001, 0, 0]), (protect(false), [0, 0x100000000, 0, 0])),
    ] {
        for (keeper, expected) in KEEPERS.into_iter().zip([whole, low]) {
            assert_eq!(keeper(&regs), Ok(expected));
            assert_eq!(written_with(expected.0, expected.1), regs);
        }
    }
    for keeper in KEEPERS {
        assert_eq!(keeper(&[0x84000003, 0x01000000, 0, 0]), Err(Error::InvalidMpidr32(0x01000000)));
    }
}

/// Change 7: of 256 sets that differ from one in a bit, those that are accepted have another call or other leftovers, and are written as they were.
#[test]
fn leftovers_tell_every_bit() {
    for regs in [[0x84000000, 5, 6, 7], [0xc4000003, 0x100020304, 0x80000, 9], [0x84000013, 0, 0, 0], [0x84000012, 0x80000005, 7, 0]] {
        for keeper in KEEPERS {
            let own = keeper(&regs).unwrap();
            let turned = (0..256).map(|bit| core::array::from_fn(|i| regs[i] ^ if i == bit / 64 { 1 << (bit % 64) } else { 0 }));
            let accepted: Vec<([u64; 4], _)> = turned.filter_map(|other| keeper(&other).ok().map(|kept| (other, kept))).collect();
            assert!(accepted.len() > 150);
            for (other, kept) in accepted {
                assert_ne!(kept, own);
                assert_eq!(written_with(kept.0, kept.1), other);
            }
        }
    }
}

/// Change 7: any leftovers go with any call, and what can't be written is refused as without them.
#[test]
fn any_leftovers() {
    assert_eq!(written_with(Function::CpuOff, [u64::MAX; 4]), [0xffffffff7bfffffd, u64::MAX, u64::MAX, u64::MAX]);
    let mixed = Function::CpuOn { target_cpu: Mpidr::from_aff210(3, 2, 1), entry: ENTRY_64 };
    let suspend = Function::CpuSuspend { state: PowerState::PowerDown(0x10000000), entry: ENTRY_32 };
    let reset = Function::SystemReset2 { reset_type: ResetType::VendorSpecific(0x80000000), cookie: Cookie::Cookie32(6) };
    for (call, error) in [(mixed, Error::MixedCallForms), (suspend, Error::InvalidStateId(0x10000000)), (reset, Error::InvalidVendorType(0x80000000))]
    {
        let mut words = FILLED;
        assert_eq!(call.copy_to_array_with_leftovers(&[5, 6, 7, 8], &mut words), Err(error));
        assert_eq!(words, FILLED);
    }
}

#[test]
fn m10_m11_error_codes() {
    assert_eq!(ErrorCode::try_from(0xfffffff7u32), Ok(ErrorCode::InvalidAddress));
    assert_eq!(ErrorCode::try_from(0xfffffff7u64), Err(Error::OverflowingErrorCode(4294967287)));
    assert_eq!(u64::from(ErrorCode::InvalidAddress), 0xfffffffffffffff7);
    assert_eq!(ErrorCode::from(Error::UnrecognisedFunctionId(0)), ErrorCode::NotSupported);
    assert_eq!(ErrorCode::from(Error::MixedCallForms), ErrorCode::InvalidParameters);
}

#[test]
fn m12_version() {
    assert_eq!(Version::try_from(0x7fffffff), Ok(Version { major: 32767, minor: 65535 }));
    assert_eq!(Version::try_from(0x80000000), Err(Error::InvalidVersion(0x80000000)));
    assert_eq!(u32::try_from(Version { major: 0x8000, minor: 0 }), Err(Error::InvalidMajorVersion(0x8000)));
}

#[test]
fn features() {
    assert_eq!(refused([0x8400000a, 0x84000016, 0, 0]), Error::UnrecognisedFunctionId(0x84000016));
    assert_eq!(PsciFeature::try_from(0x80000000), Ok(PsciFeature::SmcccVersion));
    assert_eq!(FunctionId::try_from(0x80000000), Err(Error::UnrecognisedFunctionId(0x80000000)));
}

#[test]
fn a_mixed_cpu_on_is_refused_and_nothing_written() {
    for (target_cpu, entry) in [(Mpidr::from_aff210(3, 2, 1), ENTRY_64), (Mpidr::from_aff3210(0, 3, 2, 1), ENTRY_32)] {
        let mixed = Function::CpuOn { target_cpu, entry };
        assert_eq!(not_written(mixed), Error::MixedCallForms);
        assert_eq!(mixed.function_id(), Err(Error::MixedCallForms));
    }
}

#[test]
fn a_state_id_is_refused_and_the_function_id_does_not_ask_for_it() {
    let suspend = Function::CpuSuspend { state: PowerState::StandbyOrRetention(0x10000000), entry: ENTRY_32 };
    assert_eq!(not_written(suspend), Error::InvalidStateId(0x10000000));
    assert_eq!(suspend.function_id(), Ok(FunctionId::CpuSuspend32));
    let count = Function::StatCount { target_cpu: Mpidr::from_aff3210(0, 0, 0, 0), power_state: PowerState::PowerDown(u32::MAX) };
    assert_eq!(not_written(count), Error::InvalidStateId(u32::MAX));
    assert_eq!(count.function_id(), Ok(FunctionId::PsciStatCount64));
}

/// Document 02, Change 5.
#[test]
fn a_vendor_type_is_refused_and_the_function_id_does_not_ask_for_it() {
    assert_eq!(u32::try_from(ResetType::VendorSpecific(0x7fffffff)), Ok(0xffffffff));
    for (cookie, id) in [(Cookie::Cookie32(6), FunctionId::SystemReset232), (Cookie::Cookie64(6), FunctionId::SystemReset264)] {
        let reset = |vendor| Function::SystemReset2 { reset_type: ResetType::VendorSpecific(vendor), cookie };
        assert_eq!(written(reset(0x7fffffff)), [u32::from(id).into(), 0xffffffff, 6, 0]);
        for vendor in [0x80000000, 0x80000001, 0xffffffff] {
            assert_eq!(u32::try_from(ResetType::VendorSpecific(vendor)), Err(Error::InvalidVendorType(vendor)));
            assert_eq!(not_written(reset(vendor)), Error::InvalidVendorType(vendor));
            assert_eq!(reset(vendor).function_id(), Ok(id));
        }
    }
    assert_eq!(ErrorCode::from(Error::InvalidVendorType(0x80000000)), ErrorCode::InvalidParameters);
}

/// Document 02, Change 1: the word of the original power state.
#[test]
fn original_power_state() {
    for (word, state_id, power_down, level) in [(0, 0, false, 0), (0xffff, 0xffff, false, 0), (0x10000, 0, true, 0), (0x0301ffff, 0xffff, true, 3)] {
        let state = OriginalPowerState { state_id, power_down, level };
        assert_eq!(OriginalPowerState::try_from(word), Ok(state));
        assert_eq!(u32::try_from(state), Ok(word));
    }
    for bit in 0..32 {
        let word = 1 << bit;
        let is_field = bit <= 16 || bit == 24 || bit == 25;
        assert_eq!(OriginalPowerState::try_from(word).err(), (!is_field).then_some(Error::InvalidOriginalPowerState(word)));
    }
    for level in 4..=255 {
        let state = OriginalPowerState { state_id: 0xffff, power_down: true, level };
        assert_eq!(u32::try_from(state), Err(Error::InvalidPowerLevel(level)));
    }
}

const ORIGINAL: OriginalPowerState = OriginalPowerState { state_id: 0x1234, power_down: true, level: 2 };

/// Every call with that power state; its registers with `ORIGINAL` there; its function ID.
fn calls_with(state: OriginalPowerState) -> [(OriginalFunction, [u64; 4], FunctionId); 6] {
    use {FunctionId as Id, OriginalFunction as F};
    let (cpu_32, cpu_64) = (Mpidr::from_aff210(3, 2, 1), Mpidr::from_aff3210(4, 3, 2, 1));
    [
        (F::CpuSuspend { state, entry: ENTRY_32 }, [0x84000001, 0x02011234, 0x80000, 9], Id::CpuSuspend32),
        (F::CpuSuspend { state, entry: ENTRY_64 }, [0xc4000001, 0x02011234, 0x80000, 9], Id::CpuSuspend64),
        (F::StatResidency { target_cpu: cpu_32, power_state: state }, [0x84000010, 0x030201, 0x02011234, 0], Id::PsciStatResidency32),
        (F::StatResidency { target_cpu: cpu_64, power_state: state }, [0xc4000010, 0x400030201, 0x02011234, 0], Id::PsciStatResidency64),
        (F::StatCount { target_cpu: cpu_32, power_state: state }, [0x84000011, 0x030201, 0x02011234, 0], Id::PsciStatCount32),
        (F::StatCount { target_cpu: cpu_64, power_state: state }, [0xc4000011, 0x400030201, 0x02011234, 0], Id::PsciStatCount64),
    ]
}

/// The error of a call of the original format, which must leave the words as they were.
fn original_not_written(call: OriginalFunction) -> Error {
    let mut words = FILLED;
    let error = call.copy_to_array(&mut words).unwrap_err();
    assert_eq!(words, FILLED);
    error
}

/// Document 02, Change 1: the calls that have a power state; their function ID does not ask for the level.
#[test]
fn calls_of_the_original_format() {
    for (call, regs, id) in calls_with(ORIGINAL) {
        assert_eq!(OriginalFunction::try_from(&regs), Ok(call));
        assert_eq!(OriginalFunction::try_from(regs), Ok(call));
        assert_eq!(call.function_id(), Ok(id));
        let mut words = FILLED;
        assert_eq!((call.copy_to_array(&mut words), words), (Ok(()), regs));
        words = FILLED;
        let [r0, r1, r2, r3] = regs;
        assert_eq!((recode_original(&[r0 | 0xffffffff00000000, r1, r2, r3], &mut words), words), (Ok(()), regs));
    }
    for (call, _, id) in calls_with(OriginalPowerState { level: 4, ..ORIGINAL }) {
        assert_eq!(original_not_written(call), Error::InvalidPowerLevel(4));
        assert_eq!(call.function_id(), Ok(id));
    }
}

/// Document 02, Change 1: refusal 26 in the place of 2, so that a refused MPIDR comes first.
#[test]
fn refusals_of_the_original_format() {
    for (regs, error) in [
        ([0x84000001, 0xffffffff40000002, 0, 0], Error::InvalidOriginalPowerState(0x40000002)),
        ([0x84000010, 0x01000000, 0x40000002, 0], Error::InvalidMpidr32(0x01000000)),
        ([0xc4000011, 0x01000000, 0x40000002, 0], Error::InvalidMpidr64(0x01000000)),
        ([0xc4000011, 0, 0x00020000, 0], Error::InvalidOriginalPowerState(0x00020000)),
        ([0x84000016, 0, 0, 0], Error::UnrecognisedFunctionId(0x84000016)),
    ] {
        let mut words = FILLED;
        assert_eq!(recode_original(&regs, &mut words).as_ref(), Err(&error));
        assert_eq!(words, FILLED);
        assert_eq!(OriginalFunction::try_from(regs), Err(error));
    }
    assert_eq!(Error::InvalidOriginalPowerState(7).to_string(), "invalid original power state value 7");
    assert_eq!(Error::InvalidPowerLevel(7).to_string(), "invalid power level 7");
    assert_eq!(ErrorCode::from(Error::InvalidOriginalPowerState(7)), ErrorCode::InvalidParameters);
    assert_eq!(ErrorCode::from(Error::InvalidPowerLevel(7)), ErrorCode::InvalidParameters);
}

/// Document 02, Change 1: every call that has no power state is the same in both formats; memory protect looks at all of r1.
#[test]
fn calls_without_a_power_state() {
    for regs in [
        [0x84000000, 0, 0, 0],
        [0x84000002, 0, 0, 0],
        [0xc4000003, 0x400030201, 0x80000, 9],
        [0x84000004, 0x030201, 2, 0],
        [0xc4000005, 0x400030201, 0, 0],
        [0x84000006, 0, 0, 0],
        [0xc4000007, 0, 0, 0],
        [0x84000008, 0, 0, 0],
        [0x84000015, 1, 7, 0],
        [0x84000009, 0, 0, 0],
        [0xc4000012, 0x80000005, 7, 0],
        [0x84000013, 1, 0, 0],
        [0x84000014, 0x1000, 0x2000, 0],
        [0x8400000a, 0xc4000011, 0, 0],
        [0x8400000b, 0, 0, 0],
        [0x8400000c, 0x80000, 9, 0],
        [0xc400000d, 0x400030201, 7, 0],
        [0xc400000e, 0x80000, 9, 0],
        [0x8400000f, 1, 0, 0],
    ] {
        let Ok(OriginalFunction::Other(call)) = OriginalFunction::try_from(&regs) else { panic!("{regs:x?}") };
        assert_eq!(Ok(Function::from(call)), Function::try_from(&regs));
        assert_eq!(written(call.into()), regs);
        let mut words = FILLED;
        assert_eq!((OriginalFunction::Other(call).copy_to_array(&mut words), words), (Ok(()), regs));
        assert_eq!(OriginalFunction::Other(call).function_id().map(u32::from), Ok(regs[0] as u32));
    }
    let enabled = OriginalFunction::Other(StatelessFunction::MemProtect { enabled: true });
    assert_eq!(OriginalFunction::try_from([0x84000013, 0x100000000, 0, 0]), Ok(enabled));
    let mixed = OriginalFunction::Other(StatelessFunction::CpuOn { target_cpu: Mpidr::from_aff210(3, 2, 1), entry: ENTRY_64 });
    assert_eq!((original_not_written(mixed), mixed.function_id()), (Error::MixedCallForms, Err(Error::MixedCallForms)));
    let (reset_type, cookie) = (ResetType::VendorSpecific(0x80000001), Cookie::Cookie32(7));
    let reset = OriginalFunction::Other(StatelessFunction::SystemReset2 { reset_type, cookie });
    assert_eq!((original_not_written(reset), reset.function_id()), (Error::InvalidVendorType(0x80000001), Ok(FunctionId::SystemReset232)));
}

#[test]
fn an_mpidr_of_32_bits() {
    assert_eq!(u32::try_from(Mpidr::from_aff3210(0, 2, 3, 4)), Ok(0x020304));
    assert_eq!(u32::try_from(Mpidr::from_aff3210(1, 2, 3, 4)), Err(Error::IgnoredNonZeroAff3(1)));
    assert_eq!(Mpidr::from_register_value(0xffffff0180020304), Mpidr::from_aff3210(1, 2, 3, 4));
}

#[test]
fn recoded() {
    let mut words = FILLED;
    assert_eq!(recode(&[0x84000002, 7, 0, 0], &mut words), Ok(()));
    assert_eq!(words, [0x84000002, 0, 0, 0]);
    words = FILLED;
    assert_eq!(recode(&[0x84000016, 0, 0, 0], &mut words), Err(Error::UnrecognisedFunctionId(0x84000016)));
    assert_eq!(words, FILLED);
}

/// Document 01's example, its second record.
#[test]
fn lines() {
    let mut out = [0xaa; 80];
    assert_eq!(line(1, &[0x84000016, 0, 0, 0], &mut out), Ok(24));
    assert_eq!(&out[..24], b"1 no 1 0000000084000016\n");
    assert!(out[24..].iter().all(|byte| *byte == 0xaa));
    out = [0xaa; 80];
    assert_eq!(line(1900, &[0x84000002, 0, 0, 0], &mut out), Err(BadNumber(1900)));
    assert_eq!(out, [0xaa; 80]);
}
