//! The parts in which the archives hand over the fields of a call, embed/include/psci.h's enum psci_part. Nothing is decided here: a part goes
//! to its slot and back, cut to the bits that its slot has: `of_mpidr` gives the parts of an MPIDR, `mpidr` the MPIDR of its parts, and so on.
//! A reader takes at least as many parts as the field has. All of it is inlined, so that the compiler sees the parts to be there and leaves
//! no path to a panic.
use crate::{ArchitecturalResetType, Cookie, EntryPoint, Error, FunctionId, MemProtectRange, Mpidr, OriginalPowerState, PowerState, PsciFeature};
use crate::{ResetType, SuspendMode};

/// The exports' own refusals: a tag that no call has, a part that has no room in its slot.
pub const UNKNOWN_TAG: u64 = 1002;
const WRONG_PART: u64 = 1003;

/// Whether affinity 3 is there, then affinities 3 to 0.
#[inline(always)]
pub fn of_mpidr(mpidr: Mpidr) -> [u64; 5] {
    let Mpidr { aff0, aff1, aff2, aff3 } = mpidr;
    [aff3.is_some().into(), aff3.unwrap_or(0).into(), aff2.into(), aff1.into(), aff0.into()]
}

#[inline(always)]
pub fn mpidr(p: &[u64]) -> Mpidr {
    let aff3 = if p[0] == 0 { None } else { Some(p[1] as u8) };
    Mpidr { aff0: p[4] as u8, aff1: p[3] as u8, aff2: p[2] as u8, aff3 }
}

/// 1 for power down; the state ID.
#[inline(always)]
pub fn of_power_state(state: PowerState) -> [u64; 2] {
    match state {
        PowerState::StandbyOrRetention(id) => [0, id.into()],
        PowerState::PowerDown(id) => [1, id.into()],
    }
}

#[inline(always)]
pub fn power_state(p: &[u64]) -> PowerState {
    let id = p[1] as u32;
    if p[0] == 0 {
        PowerState::StandbyOrRetention(id)
    } else {
        PowerState::PowerDown(id)
    }
}

/// 1 for power down; the state ID; the level.
#[inline(always)]
pub fn of_original_power_state(state: OriginalPowerState) -> [u64; 3] {
    let OriginalPowerState { state_id, power_down, level } = state;
    [power_down.into(), state_id.into(), level.into()]
}

#[inline(always)]
pub fn original_power_state(p: &[u64]) -> OriginalPowerState {
    OriginalPowerState { state_id: p[1] as u16, power_down: p[0] != 0, level: p[2] as u8 }
}

/// The form, the address, the context.
#[inline(always)]
pub fn of_entry(entry: EntryPoint) -> [u64; 3] {
    match entry {
        EntryPoint::Entry32 { entry_point_address, context_id } => [0, entry_point_address.into(), context_id.into()],
        EntryPoint::Entry64 { entry_point_address, context_id } => [1, entry_point_address, context_id],
    }
}

#[inline(always)]
pub fn entry(p: &[u64]) -> EntryPoint {
    if p[0] == 0 {
        EntryPoint::Entry32 { entry_point_address: p[1] as u32, context_id: p[2] as u32 }
    } else {
        EntryPoint::Entry64 { entry_point_address: p[1], context_id: p[2] }
    }
}

/// The form, the cookie.
#[inline(always)]
pub fn of_cookie(cookie: Cookie) -> [u64; 2] {
    match cookie {
        Cookie::Cookie32(word) => [0, word.into()],
        Cookie::Cookie64(word) => [1, word],
    }
}

#[inline(always)]
pub fn cookie(p: &[u64]) -> Cookie {
    if p[0] == 0 {
        Cookie::Cookie32(p[1] as u32)
    } else {
        Cookie::Cookie64(p[1])
    }
}

/// The form, the base, the length.
#[inline(always)]
pub fn of_range(range: MemProtectRange) -> [u64; 3] {
    match range {
        MemProtectRange::Range32 { base, length } => [0, base.into(), length.into()],
        MemProtectRange::Range64 { base, length } => [1, base, length],
    }
}

#[inline(always)]
pub fn range(p: &[u64]) -> MemProtectRange {
    if p[0] == 0 {
        MemProtectRange::Range32 { base: p[1] as u32, length: p[2] as u32 }
    } else {
        MemProtectRange::Range64 { base: p[1], length: p[2] }
    }
}

/// 1 for a vendor's; its type.
#[inline(always)]
pub fn of_reset_type(reset_type: ResetType) -> [u64; 2] {
    match reset_type {
        ResetType::Architectural(ArchitecturalResetType::SystemWarmReset) => [0, 0],
        ResetType::VendorSpecific(vendor) => [1, vendor.into()],
    }
}

#[inline(always)]
pub fn reset_type(p: &[u64]) -> ResetType {
    if p[0] == 0 {
        ResetType::Architectural(ArchitecturalResetType::SystemWarmReset)
    } else {
        ResetType::VendorSpecific(p[1] as u32)
    }
}

/// The one feature that is no function.
const SMCCC_VERSION: u32 = 0x8000_0000;

/// The feature's number.
#[inline(always)]
pub fn of_feature(feature: PsciFeature) -> [u64; 1] {
    match feature {
        PsciFeature::PsciFunction(id) => [u32::from(id).into()],
        PsciFeature::SmcccVersion => [SMCCC_VERSION.into()],
    }
}

/// A number that no feature has is refused; the archives give none.
#[inline(always)]
pub fn feature(p: &[u64]) -> Result<PsciFeature, Error> {
    let number = p[0] as u32;
    if number == SMCCC_VERSION {
        return Ok(PsciFeature::SmcccVersion);
    }
    match FunctionId::of(number) {
        Some(id) => Ok(PsciFeature::PsciFunction(id)),
        None => Err(Error::Unnamed { number: WRONG_PART, value: p[0] }),
    }
}

/// The mode's number.
#[inline(always)]
pub fn suspend_mode(part: u64) -> SuspendMode {
    if part == 0 {
        SuspendMode::PlatformCoordinated
    } else {
        SuspendMode::OsInitiated
    }
}
