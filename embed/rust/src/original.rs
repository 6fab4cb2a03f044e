//! Boards that are set to the original power state: its word, the typed call, and both ways through the archive. arm-psci lacks this format.
use crate::archive::{self, NineWords};
use crate::function::{from_nine_words, nine_words, tagged};
use crate::parts;
use crate::{Cookie, EntryPoint, Error, Function, FunctionId, MemProtectRange, Mpidr, PsciFeature, ResetType, SuspendMode, SystemOff2Type};

/// power_state parameter bit fields in original format: the state ID is bits 0 to 15, power down bit 16, the level bits 24 and 25. A level above 3
/// can stand here, and is refused when it is written.
#[derive(Debug, Eq, PartialEq, Clone, Copy)]
#[allow(missing_docs)]
pub struct OriginalPowerState {
    pub state_id: u16,
    pub power_down: bool,
    pub level: u8,
}

/// Read as that of a CPU suspend. A bit set elsewhere is refused with [`Error::InvalidOriginalPowerState`].
impl TryFrom<u32> for OriginalPowerState {
    type Error = Error;

    fn try_from(value: u32) -> Result<Self, Error> {
        let call = archive::decode_original(&[u32::from(FunctionId::CpuSuspend32).into(), value.into(), 0, 0])?;
        Ok(parts::original_power_state(&call[1..]))
    }
}

/// Written as that of a CPU suspend. A level above 3 is refused with [`Error::InvalidPowerLevel`].
impl TryFrom<OriginalPowerState> for u32 {
    type Error = Error;

    fn try_from(state: OriginalPowerState) -> Result<Self, Error> {
        let mut words = [0; 4];
        OriginalFunction::CpuSuspend { state, entry: EntryPoint::Entry32 { entry_point_address: 0, context_id: 0 } }.copy_to_array(&mut words)?;
        Ok(words[1] as u32)
    }
}

/// The calls that have no power state, each with its fields: the enum of them, and how they go to and from `Function`, whose names they have.
macro_rules! stateless {
    ($($call:ident $({ $($field:ident: $kind:ty),* })?,)*) => {
        /// The requests that have no power state and so are the same in both formats.
        #[derive(Debug, Eq, PartialEq, Clone, Copy)]
        #[allow(missing_docs)]
        pub enum StatelessFunction {
            $($call $({ $($field: $kind),* })?,)*
        }

        impl From<StatelessFunction> for Function {
            fn from(call: StatelessFunction) -> Self {
                match call {
                    $(StatelessFunction::$call $({ $($field),* })? => Self::$call $({ $($field),* })?,)*
                }
            }
        }

        impl StatelessFunction {
            /// Nothing for a call that has a power state.
            fn of(call: Function) -> Option<Self> {
                match call {
                    $(Function::$call $({ $($field),* })? => Some(Self::$call $({ $($field),* })?),)*
                    Function::CpuSuspend { .. } | Function::StatResidency { .. } | Function::StatCount { .. } => None,
                }
            }
        }
    };
}

stateless! {
    Version,
    CpuOff,
    CpuOn { target_cpu: Mpidr, entry: EntryPoint },
    AffinityInfo { mpidr: Mpidr, lowest_affinity_level: u32 },
    Migrate { target_affinity: Mpidr },
    MigrateInfoType,
    MigrateInfoUpCpu { is_32bit: bool },
    SystemOff,
    SystemOff2 { off_type: SystemOff2Type, cookie: Cookie },
    SystemReset,
    SystemReset2 { reset_type: ResetType, cookie: Cookie },
    MemProtect { enabled: bool },
    MemProtectCheckRange { range: MemProtectRange },
    Features { psci_func_id: PsciFeature },
    CpuFreeze,
    CpuDefaultSuspend { entry: EntryPoint },
    NodeHwState { target_cpu: Mpidr, power_level: u32 },
    SystemSuspend { entry: EntryPoint },
    SetSuspendMode { mode: SuspendMode },
}

/// PSCI requests and their arguments, the power states in the original format. No call with a power state of the extended format is one of them.
#[derive(Debug, Eq, PartialEq, Clone, Copy)]
#[allow(missing_docs)]
pub enum OriginalFunction {
    CpuSuspend { state: OriginalPowerState, entry: EntryPoint },
    StatResidency { target_cpu: Mpidr, power_state: OriginalPowerState },
    StatCount { target_cpu: Mpidr, power_state: OriginalPowerState },
    Other(StatelessFunction),
}

impl TryFrom<&[u64; 4]> for OriginalFunction {
    type Error = Error;

    /// The call that four registers make. Memory protect looks at all of r1, as by `Function::try_from`.
    fn try_from(regs: &[u64; 4]) -> Result<Self, Error> {
        Self::from_nine_words(&archive::decode_original(regs)?)
    }
}

impl TryFrom<[u64; 4]> for OriginalFunction {
    type Error = Error;

    fn try_from(regs: [u64; 4]) -> Result<Self, Error> {
        Self::try_from(&regs)
    }
}

impl OriginalFunction {
    /// The function ID for the call. A CPU on whose MPIDR and entry point differ in form is refused.
    pub fn function_id(&self) -> Result<FunctionId, Error> {
        let mut words = [0; 4];
        self.with_sure_fields().copy_to_array(&mut words)?;
        FunctionId::try_from(words[0] as u32)
    }

    /// Writes the call's four words: the function ID, the arguments in their registers, zero elsewhere. A CPU on whose MPIDR and entry point
    /// differ in form, a level above 3 and a vendor's reset type above 0x7fff_ffff are refused, and `a` stays as it was.
    pub fn copy_to_array(&self, a: &mut [u64; 4]) -> Result<(), Error> {
        archive::encode_original(&self.nine_words(), a)
    }

    /// The call with a power state or a reset type that can be written: the function ID does not depend on them.
    fn with_sure_fields(mut self) -> Self {
        match &mut self {
            Self::CpuSuspend { state, .. } | Self::StatResidency { power_state: state, .. } | Self::StatCount { power_state: state, .. } => {
                state.level = 0;
            }
            Self::Other(StatelessFunction::SystemReset2 { reset_type, .. }) => *reset_type = ResetType::VendorSpecific(0),
            Self::Other(_) => {}
        }
        self
    }

    /// The nine words of the call.
    fn nine_words(&self) -> NineWords {
        match *self {
            Self::CpuSuspend { state, entry } => tagged(1, parts::of_original_power_state(state), parts::of_entry(entry)),
            Self::StatResidency { target_cpu, power_state } => tagged(20, parts::of_mpidr(target_cpu), parts::of_original_power_state(power_state)),
            Self::StatCount { target_cpu, power_state } => tagged(21, parts::of_mpidr(target_cpu), parts::of_original_power_state(power_state)),
            Self::Other(call) => nine_words(&call.into()),
        }
    }

    /// The call of nine words. A tag above 21 is refused; the archives give none.
    fn from_nine_words(words: &NineWords) -> Result<Self, Error> {
        let p = &words[1..];
        Ok(match words[0] {
            1 => Self::CpuSuspend { state: parts::original_power_state(p), entry: parts::entry(&p[3..]) },
            20 => Self::StatResidency { target_cpu: parts::mpidr(p), power_state: parts::original_power_state(&p[5..]) },
            21 => Self::StatCount { target_cpu: parts::mpidr(p), power_state: parts::original_power_state(&p[5..]) },
            tag => match StatelessFunction::of(from_nine_words(words)?) {
                Some(call) => Self::Other(call),
                None => return Err(Error::Unnamed { number: parts::UNKNOWN_TAG, value: tag }),
            },
        })
    }
}

/// Decodes four registers by [`OriginalFunction`]'s `try_from` and encodes the call: what is left are the function ID and its arguments. Refused
/// as `try_from` refuses; a refusal leaves `out` as it was.
pub fn recode_original(regs: &[u64; 4], out: &mut [u64; 4]) -> Result<(), Error> {
    archive::recode_original(regs, out)
}
