//! What is turned back.
use core::fmt;

/// Why a word, a register set or a call is turned back, with the value that it carries. The first fourteen are arm-psci's.
#[derive(Debug, PartialEq, Eq)]
#[allow(missing_docs)]
pub enum Error {
    UnrecognisedFunctionId(u32),
    UnrecognisedErrorCode(i32),
    OverflowingErrorCode(i64),
    InvalidVersion(u32),
    InvalidPowerState(u32),
    InvalidMpidr32(u32),
    InvalidMpidr64(u64),
    UnrecognisedSystemOff2Type(u32),
    UnrecognisedSystemReset2Type(u32),
    UnrecognisedPsciFeaturesFlags(u32),
    UnrecognisedHwState(u32),
    UnrecognisedSuspendMode(u32),
    InvalidLowerAffinityLevel(u32),
    IgnoredNonZeroAff3(u8),
    /// Refusal 14: a CPU on whose MPIDR and entry point differ in form. arm-psci panics.
    MixedCallForms,
    /// Refusal 15: a power state's ID above 0x0fff_ffff. arm-psci panics.
    InvalidStateId(u32),
    /// Refusal 16: a major version above 0x7fff. arm-psci panics.
    InvalidMajorVersion(u16),
    /// Refusal 26: a power state of the original format with a bit set outside its fields; the word. In the place of `InvalidPowerState`.
    InvalidOriginalPowerState(u32),
    /// Refusal 27: a level above 3 in a power state of the original format. In the place of `InvalidStateId`.
    InvalidPowerLevel(u8),
    /// Refusal 31: a vendor's reset type above 0x7fff_ffff. arm-psci writes it as the type without bit 31.
    InvalidVendorType(u32),
    /// A refusal of the archives that this crate has no name for, with its value. None of the archives of this repository gives one.
    Unnamed {
        number: u64,
        value: u64,
    },
}

impl Error {
    /// The refusals that decoding and encoding give, by their numbers.
    pub(crate) fn from_refusal(number: u64, value: u64) -> Self {
        let low = value as u32;
        match number {
            1 => Self::UnrecognisedFunctionId(low),
            2 => Self::InvalidPowerState(low),
            3 => Self::InvalidMpidr32(low),
            4 => Self::InvalidMpidr64(value),
            5 => Self::InvalidLowerAffinityLevel(low),
            6 => Self::UnrecognisedSystemOff2Type(low),
            7 => Self::UnrecognisedSystemReset2Type(low),
            8 => Self::UnrecognisedSuspendMode(low),
            14 => Self::MixedCallForms,
            15 => Self::InvalidStateId(low),
            26 => Self::InvalidOriginalPowerState(low),
            27 => Self::InvalidPowerLevel(value as u8),
            31 => Self::InvalidVendorType(low),
            _ => Self::Unnamed { number, value },
        }
    }
}

impl fmt::Display for Error {
    fn fmt(&self, f: &mut fmt::Formatter<'_>) -> fmt::Result {
        match self {
            Self::UnrecognisedFunctionId(value) => write!(f, "unrecognised PSCI function ID {value}"),
            Self::UnrecognisedErrorCode(value) => write!(f, "unrecognised PSCI error code {value}"),
            Self::OverflowingErrorCode(value) => write!(f, "overflowing PSCI error code {value}"),
            Self::InvalidVersion(value) => write!(f, "invalid PSCI version {value}"),
            Self::InvalidPowerState(value) => write!(f, "invalid power state value {value}"),
            Self::InvalidMpidr32(value) => write!(f, "invalid 32 bit CPU MPIDR value {value}"),
            Self::InvalidMpidr64(value) => write!(f, "invalid 64 bit CPU MPIDR value {value}"),
            Self::UnrecognisedSystemOff2Type(value) => write!(f, "unrecognised SYSTEM_OFF2 type {value}"),
            Self::UnrecognisedSystemReset2Type(value) => write!(f, "unrecognised SYSTEM_RESET2 type {value}"),
            Self::UnrecognisedPsciFeaturesFlags(value) => write!(f, "unrecognised PSCI_FEATURES flags {value}"),
            Self::UnrecognisedHwState(value) => write!(f, "unrecognised NODE_HW_STATE {value}"),
            Self::UnrecognisedSuspendMode(value) => write!(f, "unrecognised PSCI_SET_SUSPEND_MODE mode {value}"),
            Self::InvalidLowerAffinityLevel(value) => write!(f, "invalid lower affinity level {value}"),
            Self::IgnoredNonZeroAff3(value) => write!(f, "ignored non-zero aff3 when converting to u32 {value}"),
            Self::MixedCallForms => write!(f, "mixed 32 bit and 64 bit CPU_ON arguments"),
            Self::InvalidStateId(value) => write!(f, "invalid power state ID {value}"),
            Self::InvalidMajorVersion(value) => write!(f, "invalid PSCI major version {value}"),
            Self::InvalidOriginalPowerState(value) => write!(f, "invalid original power state value {value}"),
            Self::InvalidPowerLevel(value) => write!(f, "invalid power level {value}"),
            Self::InvalidVendorType(value) => write!(f, "invalid SYSTEM_RESET2 vendor type {value}"),
            Self::Unnamed { number, value } => write!(f, "refusal {number} with value {value}"),
        }
    }
}

impl core::error::Error for Error {}
