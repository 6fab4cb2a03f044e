//! The Rust codec, unchanged, as the judge. A `Record` is a question with its answer: an operation, a call or a single value as
//! nine words, four registers, a refusal and what it carries. `oracle` answers it from the Rust, a power state of the original format from
//! linux/psci.h (original.rs), leftovers by exclusive-or (leftovers.rs); the program `replay` answers the same, and so does
//! `embedded::answers::answer` from the crate in embed/rust.
#![allow(clippy::duplicate_mod)] // answers.rs and nine_words.rs are read over two crates

#[cfg(feature = "rattle")]
pub mod embedded;
pub mod inputs;
pub mod leftovers;
pub mod line;
pub mod original;
pub mod published;
#[cfg(feature = "rattle")]
pub mod rattle;
pub mod sheet;
pub mod sweep;
pub mod tally;

pub use published::answers::{answer as oracle, refusal};
pub use published::departures::{MEM_PROTECT, low_half_for_protect, quiet_panics};
pub use published::nine_words;

use nine_words::NineWords;

#[derive(Clone, Copy, Debug, Default, Eq, PartialEq)]
pub struct Record {
    pub op: u64,
    pub call: NineWords,
    pub regs: [u64; 4],
    pub refusal: u64,
    pub carried: u64,
}

pub const WORDS: usize = 16;

impl Record {
    pub fn words(&self) -> [u64; WORDS] {
        let mut out = [0; WORDS];
        out[0] = self.op;
        out[1..10].copy_from_slice(&self.call);
        out[10..14].copy_from_slice(&self.regs);
        out[14] = self.refusal;
        out[15] = self.carried;
        out
    }

    /// The record as 128 bytes, each word big-endian.
    pub fn bytes(&self) -> [u8; 8 * WORDS] {
        let mut out = [0; 8 * WORDS];
        for (bytes, word) in out.chunks_exact_mut(8).zip(self.words()) {
            bytes.copy_from_slice(&word.to_be_bytes());
        }
        out
    }
}

/// The operations. The decoders and the readers take registers and give nine words; the others take nine words and write registers. With leftovers
/// (Change 7) a decoder gives these too, in the place of the registers, and encode takes them there.
pub mod op {
    pub const DECODE: u64 = 0;
    pub const ENCODE: u64 = 1;
    pub const FUNCTION_ID: u64 = 2;
    pub const DECODE_SMCCC: u64 = 3; // Change 2: memory protect has the low half of r1
    pub const DECODE_ORIGINAL: u64 = 4; // Change 1, as the next two: power states in the original format
    pub const ENCODE_ORIGINAL: u64 = 5;
    pub const FUNCTION_ID_ORIGINAL: u64 = 6;
    pub const DECODE_WITH_LEFTOVERS: u64 = 7;
    pub const DECODE_SMCCC_WITH_LEFTOVERS: u64 = 8;
    pub const DECODE_ORIGINAL_WITH_LEFTOVERS: u64 = 9;
    pub const ENCODE_WITH_LEFTOVERS: u64 = 10;
    pub const ENCODE_ORIGINAL_WITH_LEFTOVERS: u64 = 11;
    pub const READ_FUNCTION_ID: u64 = 16;
    pub const READ_RETURN_CODE: u64 = 17; // i32, as every 32-bit reader the low half of r0
    pub const READ_ERROR_CODE: u64 = 18; // i32
    pub const READ_ERROR_CODE_32: u64 = 19;
    pub const READ_ERROR_CODE_64: u64 = 20;
    pub const READ_VERSION: u64 = 21;
    pub const READ_POWER_STATE: u64 = 22;
    pub const READ_MPIDR_32: u64 = 23;
    pub const READ_MPIDR_64: u64 = 24;
    pub const READ_MPIDR_REGISTER: u64 = 25;
    pub const READ_OFF_TYPE: u64 = 26;
    pub const READ_ARCHITECTURAL: u64 = 27;
    pub const READ_RESET_TYPE: u64 = 28;
    pub const READ_FEATURE: u64 = 29;
    pub const READ_HW_STATE: u64 = 30;
    pub const READ_SUSPEND_MODE: u64 = 31;
    pub const FROM_AFF3210: u64 = 32; // the low bytes of r0 to r3
    pub const FROM_AFF210: u64 = 33; // of r0 to r2
    pub const READ_POWER_STATE_ORIGINAL: u64 = 34;
    pub const WRITE_FUNCTION_ID: u64 = 48;
    pub const WRITE_RETURN_CODE: u64 = 49; // i32, as a word of 32 bits
    pub const WRITE_ERROR_CODE: u64 = 50; // i32
    pub const WRITE_ERROR_CODE_32: u64 = 51;
    pub const WRITE_ERROR_CODE_64: u64 = 52;
    pub const WRITE_VERSION: u64 = 53;
    pub const WRITE_POWER_STATE: u64 = 54;
    pub const WRITE_MPIDR_32: u64 = 55;
    pub const WRITE_MPIDR_64: u64 = 56;
    pub const WRITE_OFF_TYPE: u64 = 57;
    pub const WRITE_ARCHITECTURAL: u64 = 58;
    pub const WRITE_RESET_TYPE: u64 = 59;
    pub const WRITE_FEATURE: u64 = 60;
    pub const WRITE_HW_STATE: u64 = 61;
    pub const WRITE_SUSPEND_MODE: u64 = 62;
    pub const ERROR_TO_CODE: u64 = 63; // number and value of a refusal to the index of a code
    pub const ENTRY_ADDRESS: u64 = 64;
    pub const ENTRY_CONTEXT: u64 = 65;
    pub const WRITE_POWER_STATE_ORIGINAL: u64 = 66;

    /// Those of Change 1.
    pub const ORIGINAL: [u64; 5] =
        [DECODE_ORIGINAL, ENCODE_ORIGINAL, FUNCTION_ID_ORIGINAL, READ_POWER_STATE_ORIGINAL, WRITE_POWER_STATE_ORIGINAL];

    /// Those of Change 7, each behind what it is without leftovers.
    pub const WITH_LEFTOVERS: [(u64, u64); 5] = [
        (DECODE, DECODE_WITH_LEFTOVERS), (DECODE_SMCCC, DECODE_SMCCC_WITH_LEFTOVERS), (DECODE_ORIGINAL, DECODE_ORIGINAL_WITH_LEFTOVERS),
        (ENCODE, ENCODE_WITH_LEFTOVERS), (ENCODE_ORIGINAL, ENCODE_ORIGINAL_WITH_LEFTOVERS),
    ];

    /// What writes the calls that this one reads, if it is a decoder.
    pub fn writing(decoder: u64) -> Option<u64> {
        match decoder {
            DECODE | DECODE_SMCCC => Some(ENCODE),
            DECODE_ORIGINAL => Some(ENCODE_ORIGINAL),
            DECODE_WITH_LEFTOVERS | DECODE_SMCCC_WITH_LEFTOVERS => Some(ENCODE_WITH_LEFTOVERS),
            DECODE_ORIGINAL_WITH_LEFTOVERS => Some(ENCODE_ORIGINAL_WITH_LEFTOVERS),
            _ => None,
        }
    }
}

/// A record's own refusals, beside the papers': no such operation, no such tag, a part that has no room in its slot.
pub const UNKNOWN_OPERATION: u64 = 1001;
pub const UNKNOWN_TAG: u64 = 1002;
pub const WRONG_PART: u64 = 1003;
