//! The fields of a call. A field is read from a word as that of a call which has it in r1, and written as that call's second word, so that both
//! go through the archives; only an enum without data is written as the number that it has in Rust.
use crate::archive::{self, NineWords};
use crate::parts;
use crate::{Error, Function, FunctionId};

/// The nine words of the call of that number with `word` in r1 and 0 in the other registers.
fn call_with(id: FunctionId, word: u64) -> Result<NineWords, Error> {
    archive::decode(&[u32::from(id).into(), word, 0, 0])
}

/// The second of a call's four words.
fn first_field(call: Function) -> Result<u64, Error> {
    let mut words = [0; 4];
    call.copy_to_array(&mut words)?;
    Ok(words[1])
}

/// The second of the four words of a call that is not refused: it is no CPU on and has neither a power state nor a reset type.
fn sure_field(call: Function) -> u64 {
    first_field(call).unwrap_or(0)
}

/// Table 8 power_state parameter bit fields in Extended StateID format. [`crate::OriginalPowerState`] has the original format.
#[derive(Debug, Eq, PartialEq, Clone, Copy)]
#[allow(missing_docs)]
pub enum PowerState {
    StandbyOrRetention(u32),
    PowerDown(u32),
}

impl TryFrom<u32> for PowerState {
    type Error = Error;

    fn try_from(value: u32) -> Result<Self, Error> {
        let call = call_with(FunctionId::CpuSuspend32, value.into())?;
        Ok(parts::power_state(&call[1..]))
    }
}

/// Refused with [`Error::InvalidStateId`] where arm-psci, which has `From` here, panics.
impl TryFrom<PowerState> for u32 {
    type Error = Error;

    fn try_from(state: PowerState) -> Result<Self, Error> {
        let entry = EntryPoint::Entry32 { entry_point_address: 0, context_id: 0 };
        Ok(first_field(Function::CpuSuspend { state, entry })? as u32)
    }
}

/// Entry point descriptor
#[derive(Debug, Eq, PartialEq, Clone, Copy)]
#[allow(missing_docs)]
pub enum EntryPoint {
    Entry32 { entry_point_address: u32, context_id: u32 },
    Entry64 { entry_point_address: u64, context_id: u64 },
}

impl EntryPoint {
    /// Returns the entry point address.
    pub fn entry_point_address(&self) -> u64 {
        parts::of_entry(*self)[1]
    }

    /// Returns the context ID.
    pub fn context_id(&self) -> u64 {
        parts::of_entry(*self)[2]
    }
}

/// The affinity fields of the MPIDR register: affinities 0 to 2, and affinity 3 in a 64-bit call.
#[derive(Debug, Eq, PartialEq, Clone, Copy)]
#[allow(missing_docs)]
pub struct Mpidr {
    pub aff0: u8,
    pub aff1: u8,
    pub aff2: u8,
    pub aff3: Option<u8>,
}

impl Mpidr {
    /// Create Mpidr instance from aff3-0 values
    pub const fn from_aff3210(aff3: u8, aff2: u8, aff1: u8, aff0: u8) -> Self {
        Self { aff0, aff1, aff2, aff3: Some(aff3) }
    }

    /// Create Mpidr instance from aff2-0 values
    pub const fn from_aff210(aff2: u8, aff1: u8, aff0: u8) -> Self {
        Self { aff0, aff1, aff2, aff3: None }
    }

    /// The affinities of the `MPIDR_EL1` register of a core; its other bits are ignored. Not for an argument of a call, in which they must be
    /// zero: `TryFrom` refuses them. No call carries this word: plain Rust, as in arm-psci.
    pub fn from_register_value(mpidr_el1: u64) -> Self {
        let [aff0, aff1, aff2, _, aff3, ..] = mpidr_el1.to_le_bytes();
        Self::from_aff3210(aff3, aff2, aff1, aff0)
    }
}

impl TryFrom<u32> for Mpidr {
    type Error = Error;

    fn try_from(value: u32) -> Result<Self, Error> {
        let call = call_with(FunctionId::Migrate32, value.into())?;
        Ok(parts::mpidr(&call[1..]))
    }
}

impl TryFrom<u64> for Mpidr {
    type Error = Error;

    fn try_from(value: u64) -> Result<Self, Error> {
        let call = call_with(FunctionId::Migrate64, value)?;
        Ok(parts::mpidr(&call[1..]))
    }
}

/// No call carries an MPIDR of 64 bits in 32: that an affinity 3 other than 0 is refused is plain Rust, as in arm-psci.
impl TryFrom<Mpidr> for u32 {
    type Error = Error;

    fn try_from(value: Mpidr) -> Result<Self, Error> {
        match value.aff3 {
            Some(0) | None => Ok(u64::from(Mpidr { aff3: None, ..value }) as u32),
            Some(aff3) => Err(Error::IgnoredNonZeroAff3(aff3)),
        }
    }
}

impl From<Mpidr> for u64 {
    fn from(value: Mpidr) -> Self {
        sure_field(Function::Migrate { target_affinity: value })
    }
}

/// 5.1.10 SYSTEM_OFF2 type field
#[derive(Clone, Copy, Debug, Eq, PartialEq)]
#[repr(u32)]
#[allow(missing_docs)]
pub enum SystemOff2Type {
    HibernateOff = 0x00000001,
}

impl TryFrom<u32> for SystemOff2Type {
    type Error = Error;

    fn try_from(value: u32) -> Result<Self, Error> {
        call_with(FunctionId::SystemOff232, value.into())?;
        Ok(Self::HibernateOff)
    }
}

impl From<SystemOff2Type> for u32 {
    fn from(value: SystemOff2Type) -> Self {
        value as u32
    }
}

/// Additional off/reset parameter
#[derive(Clone, Copy, Debug, Eq, PartialEq)]
#[allow(missing_docs)]
pub enum Cookie {
    Cookie32(u32),
    Cookie64(u64),
}

/// 5.1.12 SYSTEM_RESET2 architectural reset type
#[derive(Clone, Copy, Debug, Eq, PartialEq)]
#[repr(u32)]
#[allow(missing_docs)]
pub enum ArchitecturalResetType {
    SystemWarmReset = 0x00000000,
}

/// As a reset type, of which a vendor's is none of these.
impl TryFrom<u32> for ArchitecturalResetType {
    type Error = Error;

    fn try_from(value: u32) -> Result<Self, Error> {
        match ResetType::try_from(value)? {
            ResetType::Architectural(architectural) => Ok(architectural),
            ResetType::VendorSpecific(_) => Err(Error::UnrecognisedSystemReset2Type(value)),
        }
    }
}

impl From<ArchitecturalResetType> for u32 {
    fn from(value: ArchitecturalResetType) -> Self {
        value as u32
    }
}

/// 5.1.12 SYSTEM_RESET2 reset type
#[derive(Clone, Copy, Debug, Eq, PartialEq)]
#[allow(missing_docs)]
pub enum ResetType {
    Architectural(ArchitecturalResetType),
    VendorSpecific(u32),
}

impl TryFrom<u32> for ResetType {
    type Error = Error;

    fn try_from(value: u32) -> Result<Self, Error> {
        let call = call_with(FunctionId::SystemReset232, value.into())?;
        Ok(parts::reset_type(&call[1..]))
    }
}

/// Refused with [`Error::InvalidVendorType`] where arm-psci, which has `From` here, merges bit 31 of a vendor type.
impl TryFrom<ResetType> for u32 {
    type Error = Error;

    fn try_from(reset_type: ResetType) -> Result<Self, Error> {
        Ok(first_field(Function::SystemReset2 { reset_type, cookie: Cookie::Cookie32(0) })? as u32)
    }
}

/// 5.1.14 MEM_PROTECT_CHECK_RANGE memory range descriptor
#[derive(Debug, Eq, PartialEq, Clone, Copy)]
#[allow(missing_docs)]
pub enum MemProtectRange {
    Range32 { base: u32, length: u32 },
    Range64 { base: u64, length: u64 },
}

/// 5.1.15 PSCI_FEATURES psci_func_id field
#[derive(Debug, Eq, PartialEq, Clone, Copy)]
#[allow(missing_docs)]
pub enum PsciFeature {
    PsciFunction(FunctionId),
    SmcccVersion,
}

impl TryFrom<u32> for PsciFeature {
    type Error = Error;

    fn try_from(value: u32) -> Result<Self, Error> {
        let call = call_with(FunctionId::PsciFeatures, value.into())?;
        parts::feature(&call[1..])
    }
}

impl From<PsciFeature> for u32 {
    fn from(psci_func_id: PsciFeature) -> Self {
        sure_field(Function::Features { psci_func_id }) as u32
    }
}

/// 5.1.20 PSCI_SET_SUSPEND_MODE mode field
#[derive(Clone, Copy, Debug, Eq, PartialEq)]
#[repr(u32)]
#[allow(missing_docs)]
pub enum SuspendMode {
    PlatformCoordinated = 0,
    OsInitiated = 1,
}

impl TryFrom<u32> for SuspendMode {
    type Error = Error;

    fn try_from(value: u32) -> Result<Self, Error> {
        let call = call_with(FunctionId::PsciSetSuspendMode, value.into())?;
        Ok(parts::suspend_mode(call[1]))
    }
}

impl From<SuspendMode> for u32 {
    fn from(value: SuspendMode) -> Self {
        value as u32
    }
}
