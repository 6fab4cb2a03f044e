//! The answers of embed/rust to the operations of Change 1, which arm-psci lacks. Nine words that stand for no call have the record's own refusals.
use super::answers::{No, refusal};
use super::nine_words::{NineWords, call, entry, mpidr, nine_words, tag, to_call, to_entry};
use crate::{Record, UNKNOWN_TAG, WRONG_PART, op};
use rampcomfrey::{Function, OriginalFunction, OriginalPowerState, StatelessFunction};

/// Power down, state ID, level.
fn parts(state: OriginalPowerState) -> [u64; 3] {
    [state.power_down.into(), state.state_id.into(), state.level.into()]
}

/// Cut to their slots.
fn to_state(p: &[u64]) -> OriginalPowerState {
    OriginalPowerState { power_down: p[0] != 0, state_id: p[1] as u16, level: p[2] as u8 }
}

fn words(f: OriginalFunction) -> NineWords {
    match f {
        OriginalFunction::CpuSuspend { state, entry: e } => nine_words(tag::CPU_SUSPEND, &[parts(state), entry(e)].concat()),
        OriginalFunction::StatResidency { target_cpu, power_state } => {
            nine_words(tag::STAT_RESIDENCY, &[&mpidr(target_cpu)[..], &parts(power_state)].concat())
        }
        OriginalFunction::StatCount { target_cpu, power_state } => {
            nine_words(tag::STAT_COUNT, &[&mpidr(target_cpu)[..], &parts(power_state)].concat())
        }
        OriginalFunction::Other(other) => call(other.into()),
    }
}

/// The calls that are the same in both formats, by name.
macro_rules! same_call {
    ($f:expr, $($name:ident { $($field:ident),* })*) => {
        match $f {
            $(Function::$name { $($field),* } => OriginalFunction::Other(StatelessFunction::$name { $($field),* }),)*
            other => unreachable!("{other:?} has a power state"),
        }
    };
}

fn to_original(w: &NineWords) -> OriginalFunction {
    let p = &w[1..];
    match to_call(w) {
        Function::CpuSuspend { .. } => OriginalFunction::CpuSuspend { state: to_state(p), entry: to_entry(&p[3..]) },
        Function::StatResidency { target_cpu, .. } => OriginalFunction::StatResidency { target_cpu, power_state: to_state(&p[5..]) },
        Function::StatCount { target_cpu, .. } => OriginalFunction::StatCount { target_cpu, power_state: to_state(&p[5..]) },
        other => same_call! {
            other,
            Version {} CpuOff {} CpuOn { target_cpu, entry } AffinityInfo { mpidr, lowest_affinity_level } Migrate { target_affinity }
            MigrateInfoType {} MigrateInfoUpCpu { is_32bit } SystemOff {} SystemOff2 { off_type, cookie } SystemReset {}
            SystemReset2 { reset_type, cookie } MemProtect { enabled } MemProtectCheckRange { range } Features { psci_func_id } CpuFreeze {}
            CpuDefaultSuspend { entry } NodeHwState { target_cpu, power_level } SystemSuspend { entry } SetSuspendMode { mode }
        },
    }
}

/// The call that a record asks with, or the record's own refusal of its words.
fn asked(w: &NineWords) -> Result<OriginalFunction, No> {
    if w[0] > tag::LAST {
        return Err((UNKNOWN_TAG, w[0]));
    }
    let f = to_original(w);
    if words(f) == *w { Ok(f) } else { Err((WRONG_PART, 0)) }
}

/// The word of the power state that a record asks with.
fn written(w: &NineWords) -> Result<u32, No> {
    let state = to_state(&w[1..]);
    if nine_words(0, &parts(state)) != *w {
        return Err((WRONG_PART, 0));
    }
    u32::try_from(state).map_err(refusal)
}

/// `q`, whose operation is one of `op::ORIGINAL`, with its answer. A refusal leaves the words that it would have written as they were.
pub fn answer(q: &Record) -> Record {
    let mut a = Record { refusal: 0, carried: 0, ..*q };
    let refused = match q.op {
        op::DECODE_ORIGINAL => OriginalFunction::try_from(&q.regs).map(|f| a.call = words(f)).map_err(refusal),
        op::ENCODE_ORIGINAL => asked(&q.call).and_then(|f| f.copy_to_array(&mut a.regs).map_err(refusal)),
        op::FUNCTION_ID_ORIGINAL => {
            asked(&q.call).and_then(|f| f.function_id().map_err(refusal)).map(|id| a.regs[0] = u32::from(id).into())
        }
        op::READ_POWER_STATE_ORIGINAL => {
            OriginalPowerState::try_from(q.regs[0] as u32).map(|state| a.call = nine_words(0, &parts(state))).map_err(refusal)
        }
        _ => written(&q.call).map(|word| a.regs[0] = word.into()),
    };
    if let Err(no) = refused {
        (a.refusal, a.carried) = no;
    }
    a
}
