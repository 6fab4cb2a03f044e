//! The typed call.
use crate::archive::{self, NineWords};
use crate::parts;
use crate::{Cookie, EntryPoint, Error, FunctionId, MemProtectRange, Mpidr, PowerState, PsciFeature, ResetType, SuspendMode, SystemOff2Type};

/// PSCI requests and their arguments, the power states in the extended format. [`crate::OriginalFunction`] has those of the original format.
#[derive(Debug, Eq, PartialEq, Clone, Copy)]
#[allow(missing_docs)]
pub enum Function {
    Version,
    CpuSuspend { state: PowerState, entry: EntryPoint },
    CpuOff,
    CpuOn { target_cpu: Mpidr, entry: EntryPoint },
    AffinityInfo { mpidr: Mpidr, lowest_affinity_level: u32 },
    Migrate { target_affinity: Mpidr },
    MigrateInfoType,
    MigrateInfoUpCpu { is_32bit: bool },
    SystemOff,
    SystemOff2 { off_type: SystemOff2Type, cookie: Cookie },
    SystemReset,
    SystemReset2 { reset_type: ResetType, cookie: Cookie },
    MemProtect { enabled: bool },
    MemProtectCheckRange { range: MemProtectRange },
    Features { psci_func_id: PsciFeature },
    CpuFreeze,
    CpuDefaultSuspend { entry: EntryPoint },
    NodeHwState { target_cpu: Mpidr, power_level: u32 },
    SystemSuspend { entry: EntryPoint },
    SetSuspendMode { mode: SuspendMode },
    StatResidency { target_cpu: Mpidr, power_state: PowerState },
    StatCount { target_cpu: Mpidr, power_state: PowerState },
}

impl TryFrom<&[u64; 4]> for Function {
    type Error = Error;

    /// The call that four registers make.
    fn try_from(regs: &[u64; 4]) -> Result<Self, Error> {
        from_nine_words(&archive::decode(regs)?)
    }
}

impl TryFrom<[u64; 4]> for Function {
    type Error = Error;

    fn try_from(regs: [u64; 4]) -> Result<Self, Error> {
        Self::try_from(&regs)
    }
}

impl Function {
    /// The call that four registers make, by the SMC Calling Convention: memory protect is enabled by the low half of r1, where `try_from` and
    /// arm-psci look at all of it. Every other call, and every refusal, is `try_from`'s. A sheet's lines are written by this.
    pub fn try_from_smccc(regs: &[u64; 4]) -> Result<Self, Error> {
        from_nine_words(&archive::decode_smccc(regs)?)
    }

    /// The call that four registers make, as by `try_from`, and what is ignored of them: four leftovers, each the register exclusive-or the word that
    /// [`Function::copy_to_array`] writes. They are all zero exactly where the registers are the call's own four words, and two accepted register sets
    /// are equal exactly where their calls and their leftovers are. Refused as `try_from` refuses. arm-psci has no such function.
    pub fn try_from_with_leftovers(regs: &[u64; 4]) -> Result<(Self, [u64; 4]), Error> {
        with_leftovers(archive::decode_with_leftovers(regs)?)
    }

    /// The same by [`Function::try_from_smccc`]. What the one gives is not to be compared with what the other gives: of memory protect with r1
    /// 0x1_0000_0000 the leftover is 0x1_0000_0000 here and 0x1_0000_0001 there.
    pub fn try_from_smccc_with_leftovers(regs: &[u64; 4]) -> Result<(Self, [u64; 4]), Error> {
        with_leftovers(archive::decode_smccc_with_leftovers(regs)?)
    }

    /// The function ID for the call. A CPU on whose MPIDR and entry point differ in form is refused; arm-psci panics.
    pub fn function_id(&self) -> Result<FunctionId, Error> {
        let mut words = [0; 4];
        archive::encode(&nine_words(&self.with_sure_fields()), &mut words)?;
        FunctionId::try_from(words[0] as u32)
    }

    /// Writes the call's four words: the function ID, the arguments in their registers, zero elsewhere. A CPU on whose MPIDR and entry point
    /// differ in form, and a state ID above 0x0fff_ffff, are refused, and `a` stays as it was; arm-psci clears it and panics. So is a vendor's reset
    /// type above 0x7fff_ffff; arm-psci writes it as the type without bit 31.
    pub fn copy_to_array(&self, a: &mut [u64; 4]) -> Result<(), Error> {
        archive::encode(&nine_words(self), a)
    }

    /// Writes the call's four words, each exclusive-or its leftover; those may be any four words. A call and leftovers that either decoder with
    /// leftovers gave are written as the registers that it was given. Refused as [`Function::copy_to_array`] refuses, and `a` stays as it was.
    pub fn copy_to_array_with_leftovers(&self, leftovers: &[u64; 4], a: &mut [u64; 4]) -> Result<(), Error> {
        archive::encode_with_leftovers(&nine_words(self), leftovers, a)
    }

    /// The call with a power state or a reset type that can be written: the function ID does not depend on them.
    fn with_sure_fields(mut self) -> Self {
        match &mut self {
            Self::CpuSuspend { state, .. } | Self::StatResidency { power_state: state, .. } | Self::StatCount { power_state: state, .. } => {
                *state = PowerState::StandbyOrRetention(0);
            }
            Self::SystemReset2 { reset_type, .. } => *reset_type = ResetType::VendorSpecific(0),
            _ => {}
        }
        self
    }
}

/// The call of nine words, and the leftovers beside it.
fn with_leftovers((words, leftovers): (NineWords, [u64; 4])) -> Result<(Function, [u64; 4]), Error> {
    Ok((from_nine_words(&words)?, leftovers))
}

/// Decodes four registers and encodes the call: what is left are the function ID and its arguments. A refusal leaves `out` as it was. arm-psci
/// has no such function; it is `Function::try_from` and then `copy_to_array`, in one call of the archive.
pub fn recode(regs: &[u64; 4], out: &mut [u64; 4]) -> Result<(), Error> {
    archive::recode(regs, out)
}

/// Decodes four registers by [`Function::try_from_smccc`] and encodes the call: memory protect is written by the low half of r1, every other call as
/// by [`recode`]. Refused as `try_from` refuses; a refusal leaves `out` as it was.
pub fn recode_smccc(regs: &[u64; 4], out: &mut [u64; 4]) -> Result<(), Error> {
    archive::recode_smccc(regs, out)
}

/// A tag and the parts of two fields, then zeros.
pub(crate) fn tagged<const N: usize, const M: usize>(tag: u64, first: [u64; N], second: [u64; M]) -> NineWords {
    let mut words = [0; 9];
    let parts = [tag].into_iter().chain(first).chain(second);
    words.iter_mut().zip(parts).for_each(|(word, part)| *word = part);
    words
}

/// The nine words of a call.
pub(crate) fn nine_words(call: &Function) -> NineWords {
    use Function as F;
    match *call {
        F::Version => tagged(0, [], []),
        F::CpuSuspend { state, entry } => tagged(1, parts::of_power_state(state), parts::of_entry(entry)),
        F::CpuOff => tagged(2, [], []),
        F::CpuOn { target_cpu, entry } => tagged(3, parts::of_mpidr(target_cpu), parts::of_entry(entry)),
        F::AffinityInfo { mpidr, lowest_affinity_level } => tagged(4, parts::of_mpidr(mpidr), [lowest_affinity_level.into()]),
        F::Migrate { target_affinity } => tagged(5, parts::of_mpidr(target_affinity), []),
        F::MigrateInfoType => tagged(6, [], []),
        F::MigrateInfoUpCpu { is_32bit } => tagged(7, [is_32bit.into()], []),
        F::SystemOff => tagged(8, [], []),
        F::SystemOff2 { off_type: SystemOff2Type::HibernateOff, cookie } => tagged(9, [0], parts::of_cookie(cookie)),
        F::SystemReset => tagged(10, [], []),
        F::SystemReset2 { reset_type, cookie } => tagged(11, parts::of_reset_type(reset_type), parts::of_cookie(cookie)),
        F::MemProtect { enabled } => tagged(12, [enabled.into()], []),
        F::MemProtectCheckRange { range } => tagged(13, parts::of_range(range), []),
        F::Features { psci_func_id } => tagged(14, parts::of_feature(psci_func_id), []),
        F::CpuFreeze => tagged(15, [], []),
        F::CpuDefaultSuspend { entry } => tagged(16, parts::of_entry(entry), []),
        F::NodeHwState { target_cpu, power_level } => tagged(17, parts::of_mpidr(target_cpu), [power_level.into()]),
        F::SystemSuspend { entry } => tagged(18, parts::of_entry(entry), []),
        F::SetSuspendMode { mode } => tagged(19, [u32::from(mode).into()], []),
        F::StatResidency { target_cpu, power_state } => tagged(20, parts::of_mpidr(target_cpu), parts::of_power_state(power_state)),
        F::StatCount { target_cpu, power_state } => tagged(21, parts::of_mpidr(target_cpu), parts::of_power_state(power_state)),
    }
}

/// The call of nine words. A tag above 21 is refused; the archives give none.
pub(crate) fn from_nine_words(words: &NineWords) -> Result<Function, Error> {
    use Function as F;
    let p = &words[1..];
    Ok(match words[0] {
        0 => F::Version,
        1 => F::CpuSuspend { state: parts::power_state(p), entry: parts::entry(&p[2..]) },
        2 => F::CpuOff,
        3 => F::CpuOn { target_cpu: parts::mpidr(p), entry: parts::entry(&p[5..]) },
        4 => F::AffinityInfo { mpidr: parts::mpidr(p), lowest_affinity_level: p[5] as u32 },
        5 => F::Migrate { target_affinity: parts::mpidr(p) },
        6 => F::MigrateInfoType,
        7 => F::MigrateInfoUpCpu { is_32bit: p[0] != 0 },
        8 => F::SystemOff,
        9 => F::SystemOff2 { off_type: SystemOff2Type::HibernateOff, cookie: parts::cookie(&p[1..]) },
        10 => F::SystemReset,
        11 => F::SystemReset2 { reset_type: parts::reset_type(p), cookie: parts::cookie(&p[2..]) },
        12 => F::MemProtect { enabled: p[0] != 0 },
        13 => F::MemProtectCheckRange { range: parts::range(p) },
        14 => F::Features { psci_func_id: parts::feature(p)? },
        15 => F::CpuFreeze,
        16 => F::CpuDefaultSuspend { entry: parts::entry(p) },
        17 => F::NodeHwState { target_cpu: parts::mpidr(p), power_level: p[5] as u32 },
        18 => F::SystemSuspend { entry: parts::entry(p) },
        19 => F::SetSuspendMode { mode: parts::suspend_mode(p[0]) },
        20 => F::StatResidency { target_cpu: parts::mpidr(p), power_state: parts::power_state(&p[5..]) },
        21 => F::StatCount { target_cpu: parts::mpidr(p), power_state: parts::power_state(&p[5..]) },
        tag => return Err(Error::Unnamed { number: parts::UNKNOWN_TAG, value: tag }),
    })
}
