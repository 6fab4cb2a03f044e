//! The 35 function numbers.
use crate::{Error, PsciFeature};

/// The functions with their numbers: the enum of them, and the function of a number.
macro_rules! function_ids {
    ($($function:ident = $number:literal,)*) => {
        /// 5.1 Function prototypes
        #[derive(Clone, Copy, Debug, Eq, PartialEq)]
        #[repr(u32)]
        #[allow(missing_docs)]
        pub enum FunctionId {
            $($function = $number,)*
        }

        impl FunctionId {
            /// Nothing for a number that no function has.
            pub(crate) fn of(number: u32) -> Option<Self> {
                match number {
                    $($number => Some(Self::$function),)*
                    _ => None,
                }
            }
        }
    };
}

function_ids! {
    PsciVersion = 0x84000000,
    CpuSuspend32 = 0x84000001,
    CpuSuspend64 = 0xc4000001,
    CpuOff = 0x84000002,
    CpuOn32 = 0x84000003,
    CpuOn64 = 0xc4000003,
    AffinityInfo32 = 0x84000004,
    AffinityInfo64 = 0xc4000004,
    Migrate32 = 0x84000005,
    Migrate64 = 0xc4000005,
    MigrateInfoType = 0x84000006,
    MigrateInfoUpCpu32 = 0x84000007,
    MigrateInfoUpCpu64 = 0xc4000007,
    SystemOff = 0x84000008,
    SystemOff232 = 0x84000015,
    SystemOff264 = 0xc4000015,
    SystemReset = 0x84000009,
    SystemReset232 = 0x84000012,
    SystemReset264 = 0xc4000012,
    MemProtect = 0x84000013,
    MemProtectCheckRange32 = 0x84000014,
    MemProtectCheckRange64 = 0xc4000014,
    PsciFeatures = 0x8400000a,
    CpuFreeze = 0x8400000b,
    CpuDefaultSuspend32 = 0x8400000c,
    CpuDefaultSuspend64 = 0xc400000c,
    NodeHwState32 = 0x8400000d,
    NodeHwState64 = 0xc400000d,
    SystemSuspend32 = 0x8400000e,
    SystemSuspend64 = 0xc400000e,
    PsciSetSuspendMode = 0x8400000f,
    PsciStatResidency32 = 0x84000010,
    PsciStatResidency64 = 0xc4000010,
    PsciStatCount32 = 0x84000011,
    PsciStatCount64 = 0xc4000011,
}

/// A function number is a feature that can be asked about; only the SMCCC version is such a feature and no function.
impl TryFrom<u32> for FunctionId {
    type Error = Error;

    fn try_from(value: u32) -> Result<Self, Error> {
        match PsciFeature::try_from(value)? {
            PsciFeature::PsciFunction(id) => Ok(id),
            PsciFeature::SmcccVersion => Err(Error::UnrecognisedFunctionId(value)),
        }
    }
}

impl From<FunctionId> for u32 {
    fn from(value: FunctionId) -> Self {
        value as u32
    }
}
