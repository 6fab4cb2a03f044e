//! What firmware answers a call with: error codes, version, states, feature flags. No call carries these words, so the archives have no
//! function for them: this module is plain Rust, with arm-psci's rules, and nothing in it is proved.
use crate::Error;
use core::fmt;
use core::ops::BitOr;

/// Success, or an error code. See Table 5 Return error codes.
#[derive(Clone, Copy, Debug, Eq, PartialEq)]
#[allow(missing_docs)]
pub enum ReturnCode {
    Success,
    Error(ErrorCode),
}

impl TryFrom<i32> for ReturnCode {
    type Error = Error;

    fn try_from(value: i32) -> Result<Self, Error> {
        match value {
            0 => Ok(Self::Success),
            code => Ok(Self::Error(ErrorCode::try_from(code)?)),
        }
    }
}

impl From<ReturnCode> for i32 {
    fn from(value: ReturnCode) -> Self {
        match value {
            ReturnCode::Success => 0,
            ReturnCode::Error(code) => code.into(),
        }
    }
}

/// Error codes. See Table 5 Return error codes.
#[derive(Clone, Copy, Debug, Eq, PartialEq)]
#[repr(i32)]
#[allow(missing_docs)]
pub enum ErrorCode {
    NotSupported = -1,
    InvalidParameters = -2,
    Denied = -3,
    AlreadyOn = -4,
    OnPending = -5,
    InternalFailure = -6,
    NotPresent = -7,
    Disabled = -8,
    InvalidAddress = -9,
}

/// What firmware answers a call that it turns back.
impl From<Error> for ErrorCode {
    fn from(value: Error) -> Self {
        match value {
            Error::UnrecognisedFunctionId(_) => Self::NotSupported,
            _ => Self::InvalidParameters,
        }
    }
}

impl TryFrom<i32> for ErrorCode {
    type Error = Error;

    fn try_from(value: i32) -> Result<Self, Error> {
        match value {
            -1 => Ok(Self::NotSupported),
            -2 => Ok(Self::InvalidParameters),
            -3 => Ok(Self::Denied),
            -4 => Ok(Self::AlreadyOn),
            -5 => Ok(Self::OnPending),
            -6 => Ok(Self::InternalFailure),
            -7 => Ok(Self::NotPresent),
            -8 => Ok(Self::Disabled),
            -9 => Ok(Self::InvalidAddress),
            other => Err(Error::UnrecognisedErrorCode(other)),
        }
    }
}

impl TryFrom<u32> for ErrorCode {
    type Error = Error;

    fn try_from(value: u32) -> Result<Self, Error> {
        Self::try_from(value as i32)
    }
}

impl TryFrom<u64> for ErrorCode {
    type Error = Error;

    fn try_from(value: u64) -> Result<Self, Error> {
        let signed = value as i64;
        Self::try_from(i32::try_from(signed).map_err(|_| Error::OverflowingErrorCode(signed))?)
    }
}

impl From<ErrorCode> for i32 {
    fn from(value: ErrorCode) -> Self {
        value as i32
    }
}

/// For a 32-bit register.
impl From<ErrorCode> for u32 {
    fn from(value: ErrorCode) -> Self {
        i32::from(value) as u32
    }
}

/// For a 64-bit register, sign-extended.
impl From<ErrorCode> for u64 {
    fn from(value: ErrorCode) -> Self {
        i32::from(value) as u64
    }
}

impl fmt::Display for ErrorCode {
    fn fmt(&self, f: &mut fmt::Formatter<'_>) -> fmt::Result {
        f.write_str(match self {
            Self::NotSupported => "Not supported",
            Self::InvalidParameters => "Invalid parameters",
            Self::Denied => "Denied",
            Self::AlreadyOn => "Already on",
            Self::OnPending => "On pending",
            Self::InternalFailure => "Internal failure",
            Self::NotPresent => "Not present",
            Self::Disabled => "Disabled",
            Self::InvalidAddress => "Invalid address",
        })
    }
}

impl core::error::Error for ErrorCode {}

/// PSCI major and minor version.
#[derive(Debug, Eq, PartialEq, Clone, Copy)]
#[allow(missing_docs)]
pub struct Version {
    pub major: u16,
    pub minor: u16,
}

impl TryFrom<u32> for Version {
    type Error = Error;

    fn try_from(value: u32) -> Result<Self, Error> {
        if value >> 31 != 0 {
            return Err(Error::InvalidVersion(value));
        }
        Ok(Self { major: (value >> 16) as u16, minor: value as u16 })
    }
}

/// Refused with [`Error::InvalidMajorVersion`] where arm-psci, which has `From` here, panics.
impl TryFrom<Version> for u32 {
    type Error = Error;

    fn try_from(value: Version) -> Result<Self, Error> {
        if value.major > 0x7fff {
            return Err(Error::InvalidMajorVersion(value.major));
        }
        Ok((value.major as u32) << 16 | value.minor as u32)
    }
}

/// 5.1.5 AFFINITY_INFO return value
#[derive(Clone, Copy, Debug, Eq, PartialEq)]
#[repr(u32)]
#[allow(missing_docs)]
pub enum AffinityInfo {
    On = 0,
    Off = 1,
    OnPending = 2,
}

impl From<AffinityInfo> for u32 {
    fn from(value: AffinityInfo) -> Self {
        value as u32
    }
}

/// 5.1.8 MIGRATE_INFO_UP_CPU return value
#[derive(Clone, Copy, Debug, Eq, PartialEq)]
#[repr(u32)]
#[allow(missing_docs)]
pub enum MigrateInfoType {
    MigrateCapable = 0,
    NotMigrateCapable = 1,
    MigrationNotRequired = 2,
}

impl From<MigrateInfoType> for u32 {
    fn from(value: MigrateInfoType) -> Self {
        value as u32
    }
}

/// 5.1.18 NODE_HW_STATE return value
#[derive(Clone, Copy, Debug, Eq, PartialEq)]
#[repr(u32)]
#[allow(missing_docs)]
pub enum HwState {
    On = 0,
    Off = 1,
    Standby = 2,
}

impl TryFrom<u32> for HwState {
    type Error = Error;

    fn try_from(value: u32) -> Result<Self, Error> {
        match value {
            0 => Ok(Self::On),
            1 => Ok(Self::Off),
            2 => Ok(Self::Standby),
            other => Err(Error::UnrecognisedHwState(other)),
        }
    }
}

impl From<HwState> for u32 {
    fn from(value: HwState) -> Self {
        value as u32
    }
}

/// A set of named bits, with what firmware uses of the crate bitflags.
macro_rules! flags {
    ($(#[$text:meta])* $name:ident { $($flag:ident = $bit:expr,)* }) => {
        $(#[$text])*
        #[derive(Debug, Eq, PartialEq, Clone, Copy)]
        #[repr(transparent)]
        pub struct $name(u32);

        #[allow(missing_docs)]
        impl $name {
            $(pub const $flag: Self = Self($bit);)*

            pub const fn empty() -> Self {
                Self(0)
            }

            pub const fn all() -> Self {
                Self(0 $(| $bit)*)
            }

            /// All bits, if every one of them is a named flag's.
            pub const fn from_bits(bits: u32) -> Option<Self> {
                if bits & !Self::all().0 == 0 { Some(Self(bits)) } else { None }
            }

            pub const fn bits(&self) -> u32 {
                self.0
            }

            pub const fn contains(&self, other: Self) -> bool {
                self.0 & other.0 == other.0
            }
        }

        impl BitOr for $name {
            type Output = Self;

            fn bitor(self, other: Self) -> Self {
                Self(self.0 | other.0)
            }
        }

        impl TryFrom<u32> for $name {
            type Error = Error;

            fn try_from(value: u32) -> Result<Self, Error> {
                Self::from_bits(value).ok_or(Error::UnrecognisedPsciFeaturesFlags(value))
            }
        }

        impl From<$name> for u32 {
            fn from(value: $name) -> Self {
                value.bits()
            }
        }
    };
}

flags! {
    /// Table 11 Return values if a function is implemented / CPU_SUSPEND
    FeatureFlagsCpuSuspend {
        EXTENDED_POWER_STATE = 0x0000_0002,
        OS_INITIATED_MODE = 0x0000_0001,
    }
}

flags! {
    /// Table 11 Return values if a function is implemented / SYSTEM_OFF2
    FeatureFlagsSystemOff2 {
        HIBERNATE_OFF = 0x0000_0001,
    }
}
