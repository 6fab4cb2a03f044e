//! The published crate, unchanged.
pub use arm_psci as psci;

#[path = "answers.rs"]
pub mod answers;
#[path = "nine_words.rs"]
pub mod nine_words;

/// Where the Rust panics, document 01 refuses: 14 carries nothing, 15 the state ID, 16 the major. Before a panic the Rust has cleared the four
/// words; a refusal leaves them. Where the Rust merges bit 31 of a vendor type, document 02 (Change 5) refuses: 31 carries the type. Change 2's
/// decoder, which the Rust lacks, is the Rust's of the set with r1's upper half cleared for memory protect. Change 1's format and Change 7's
/// leftovers, which it lacks too, are in original.rs and leftovers.rs.
pub mod departures {
    use super::answers::No;
    pub use crate::leftovers::answer as with_leftovers;
    pub use crate::original::answer as original;
    use arm_psci::*;
    use std::cell::Cell;
    use std::panic::{UnwindSafe, catch_unwind, set_hook};

    thread_local!(static PANIC: Cell<u64> = const { Cell::new(0) });

    /// Notes which of the Rust's three panics was raised, and prints nothing. Any other is printed.
    pub fn quiet_panics() {
        set_hook(Box::new(|info| {
            let text = info.payload_as_str().unwrap_or("");
            let file = info.location().map_or("", |l| l.file());
            let number = match text {
                _ if !file.ends_with("source/src/lib.rs") => 0,
                "Mixed 32 bit and 64 bit CpuOn arguments" => 14,
                _ if text.starts_with("assertion `left == right` failed") => 15,
                "assertion failed: (value.major & MAJOR_MBZ_BITS) == 0" => 16,
                _ => 0,
            };
            if number == 0 {
                eprintln!("{info}");
            }
            PANIC.set(number);
        }));
    }

    /// What `f` gives, or the number of the panic that it raised.
    fn guarded<T>(f: impl FnOnce() -> T + UnwindSafe) -> Result<T, u64> {
        catch_unwind(f).map_err(|_| match PANIC.get() {
            0 => panic!("a panic of the Rust that document 01 does not name"),
            n => n,
        })
    }

    /// The function number of memory protect.
    pub const MEM_PROTECT: u32 = 0x8400_0013;

    /// The set with r1's upper half cleared, if its function number is memory protect's; any other as it is.
    pub fn low_half_for_protect(&[r0, r1, r2, r3]: &[u64; 4]) -> [u64; 4] {
        [r0, if r0 as u32 == MEM_PROTECT { r1 & 0xffff_ffff } else { r1 }, r2, r3]
    }

    pub fn decode_smccc(regs: &[u64; 4]) -> Result<Function, Error> {
        Function::try_from(&low_half_for_protect(regs))
    }

    pub fn refusal(error: Error) -> No {
        unreachable!("{error:?} is not in document 01")
    }

    fn state_id(state: PowerState) -> u64 {
        match state {
            PowerState::StandbyOrRetention(id) | PowerState::PowerDown(id) => id.into(),
        }
    }

    /// What the refusal in place of a panic on a call carries.
    fn carried(number: u64, call: Function) -> No {
        match call {
            Function::CpuSuspend { state, .. } if number == 15 => (15, state_id(state)),
            Function::StatResidency { power_state, .. } | Function::StatCount { power_state, .. } if number == 15 => (15, state_id(power_state)),
            _ => (number, 0),
        }
    }

    pub fn function_id(call: Function) -> Result<FunctionId, No> {
        guarded(move || call.function_id()).map_err(|number| carried(number, call))
    }

    pub fn copy_to_array(call: Function, out: &mut [u64; 4]) -> Result<(), No> {
        if let Function::SystemReset2 { reset_type, .. } = call {
            reset_type_word(reset_type)?;
        }
        let mut words = *out;
        *out = guarded(move || {
            call.copy_to_array(&mut words);
            words
        })
        .map_err(|number| carried(number, call))?;
        Ok(())
    }

    pub fn power_state_word(state: PowerState) -> Result<u32, No> {
        guarded(move || u32::from(state)).map_err(|number| (number, state_id(state)))
    }

    pub fn reset_type_word(reset_type: ResetType) -> Result<u32, No> {
        match reset_type {
            ResetType::VendorSpecific(merged @ 0x8000_0000..) => Err((31, merged.into())), // and nothing else: see tests/departures.rs
            written => Ok(u32::from(written)),
        }
    }

    pub fn version_word(version: Version) -> Result<u32, No> {
        guarded(move || u32::from(version)).map_err(|number| (number, version.major.into()))
    }
}
