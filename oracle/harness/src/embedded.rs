//! The crate in embed/rust, over the proved archives. That answers.rs and nine_words.rs build over it as over arm-psci shows that the types, variants
//! and methods which they use have the same names, but for the departures.
pub use rampcomfrey as psci;

#[path = "answers.rs"]
pub mod answers;
#[path = "embedded_leftovers.rs"]
mod leftovers;
#[path = "nine_words.rs"]
pub mod nine_words;
#[path = "embedded_original.rs"]
mod original;

pub use leftovers::has;

/// What firmware has to change: four methods and conversions give an error where arm-psci panics, and two, `copy_to_array` among them, where it
/// merges bit 31 of a vendor type; `Error` has a case for each panic, and one for that. And what arm-psci lacks: Change 2's decoder, Change 7's
/// leftovers, and Change 1's format, with an error for a word and for a level.
pub mod departures {
    use super::answers::{self, No};
    pub use super::leftovers::answer as with_leftovers;
    pub use super::original::answer as original;
    use rampcomfrey::*;

    pub fn decode_smccc(regs: &[u64; 4]) -> Result<Function, Error> {
        Function::try_from_smccc(regs)
    }

    pub fn refusal(error: Error) -> No {
        match error {
            Error::MixedCallForms => (14, 0),
            Error::InvalidStateId(id) => (15, id.into()),
            Error::InvalidMajorVersion(major) => (16, major.into()),
            Error::InvalidOriginalPowerState(word) => (26, word.into()),
            Error::InvalidPowerLevel(level) => (27, level.into()),
            Error::InvalidVendorType(vendor_type) => (31, vendor_type.into()),
            other => unreachable!("{other:?} is in neither paper"),
        }
    }

    pub fn function_id(call: Function) -> Result<FunctionId, No> {
        call.function_id().map_err(answers::refusal)
    }

    pub fn copy_to_array(call: Function, out: &mut [u64; 4]) -> Result<(), No> {
        call.copy_to_array(out).map_err(answers::refusal)
    }

    pub fn power_state_word(state: PowerState) -> Result<u32, No> {
        u32::try_from(state).map_err(answers::refusal)
    }

    pub fn reset_type_word(reset_type: ResetType) -> Result<u32, No> {
        u32::try_from(reset_type).map_err(answers::refusal)
    }

    pub fn version_word(version: Version) -> Result<u32, No> {
        u32::try_from(version).map_err(answers::refusal)
    }
}
