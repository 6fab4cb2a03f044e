//! A typed call as nine words, `[tag, part, ..]`, and back. A tag is the case's index in the declaration of `Function`. Parts: MPIDR
//! `present aff3 aff2 aff1 aff0`; power state `down id`; entry, cookie, range `is64 value..`; reset type `vendor value`; a feature and a mode are
//! their numbers. Of what no call has, a function is its number, an error code and a hardware state its index in the list below. The parts are
//! cut to their slots here; `answers.rs` holds the words that come back against those that were asked.
use super::psci::*;

pub type NineWords = [u64; 9];

/// The tags that are named outside of `call` and `to_call`.
pub mod tag {
    pub const CPU_SUSPEND: u64 = 1;
    pub const CPU_ON: u64 = 3;
    pub const STAT_RESIDENCY: u64 = 20;
    pub const STAT_COUNT: u64 = 21;
    pub const LAST: u64 = STAT_COUNT;
}

pub const CODES: [ErrorCode; 9] = {
    use ErrorCode::*;
    [
        NotSupported, InvalidParameters, Denied, AlreadyOn, OnPending, InternalFailure, NotPresent,
        Disabled, InvalidAddress,
    ]
};

pub const HW: [HwState; 3] = [HwState::On, HwState::Off, HwState::Standby];

/// The index of a case in its list.
pub fn index<T: PartialEq>(cases: &[T], x: T) -> u64 {
    cases.iter().position(|c| *c == x).unwrap() as u64
}

/// `tag` and the parts, the rest zero.
pub fn nine_words(tag: u64, parts: &[u64]) -> NineWords {
    let mut out = [0; 9];
    out[0] = tag;
    out[1..1 + parts.len()].copy_from_slice(parts);
    out
}

pub fn mpidr(m: Mpidr) -> [u64; 5] {
    [
        m.aff3.is_some() as u64,
        m.aff3.unwrap_or(0).into(),
        m.aff2.into(),
        m.aff1.into(),
        m.aff0.into(),
    ]
}

pub fn to_mpidr(p: &[u64]) -> Mpidr {
    Mpidr {
        aff0: p[4] as u8,
        aff1: p[3] as u8,
        aff2: p[2] as u8,
        aff3: if p[0] == 0 { None } else { Some(p[1] as u8) },
    }
}

pub fn power(s: PowerState) -> [u64; 2] {
    match s {
        PowerState::StandbyOrRetention(id) => [0, id.into()],
        PowerState::PowerDown(id) => [1, id.into()],
    }
}

pub fn to_power(p: &[u64]) -> PowerState {
    if p[0] == 0 { PowerState::StandbyOrRetention(p[1] as u32) } else { PowerState::PowerDown(p[1] as u32) }
}

pub fn entry(e: EntryPoint) -> [u64; 3] {
    match e {
        EntryPoint::Entry32 { entry_point_address: a, context_id: c } => [0, a.into(), c.into()],
        EntryPoint::Entry64 { entry_point_address: a, context_id: c } => [1, a, c],
    }
}

pub fn to_entry(p: &[u64]) -> EntryPoint {
    if p[0] == 0 {
        EntryPoint::Entry32 { entry_point_address: p[1] as u32, context_id: p[2] as u32 }
    } else {
        EntryPoint::Entry64 { entry_point_address: p[1], context_id: p[2] }
    }
}

pub fn cookie(c: Cookie) -> [u64; 2] {
    match c {
        Cookie::Cookie32(v) => [0, v.into()],
        Cookie::Cookie64(v) => [1, v],
    }
}

pub fn to_cookie(p: &[u64]) -> Cookie {
    if p[0] == 0 { Cookie::Cookie32(p[1] as u32) } else { Cookie::Cookie64(p[1]) }
}

pub fn reset(r: ResetType) -> [u64; 2] {
    match r {
        ResetType::Architectural(ArchitecturalResetType::SystemWarmReset) => [0, 0],
        ResetType::VendorSpecific(v) => [1, v.into()],
    }
}

pub fn to_reset(p: &[u64]) -> ResetType {
    if p[0] == 0 {
        ResetType::Architectural(ArchitecturalResetType::SystemWarmReset)
    } else {
        ResetType::VendorSpecific(p[1] as u32)
    }
}

pub fn feature(f: PsciFeature) -> [u64; 1] {
    [u32::from(f).into()]
}

/// For a number that no feature has one whose number is another.
pub fn to_feature(p: &[u64]) -> PsciFeature {
    PsciFeature::try_from(p[0] as u32).unwrap_or(PsciFeature::SmcccVersion)
}

pub fn mode(m: SuspendMode) -> [u64; 1] {
    [u32::from(m).into()]
}

pub fn to_mode(p: &[u64]) -> SuspendMode {
    if p[0] == 0 { SuspendMode::PlatformCoordinated } else { SuspendMode::OsInitiated }
}

pub fn id(id: FunctionId) -> [u64; 1] {
    [u32::from(id).into()]
}

/// For a number that no function has one whose number is another.
pub fn to_id(p: &[u64]) -> FunctionId {
    FunctionId::try_from(p[0] as u32).unwrap_or(FunctionId::PsciVersion)
}

fn range(r: MemProtectRange) -> [u64; 3] {
    match r {
        MemProtectRange::Range32 { base, length } => [0, base.into(), length.into()],
        MemProtectRange::Range64 { base, length } => [1, base, length],
    }
}

fn to_range(p: &[u64]) -> MemProtectRange {
    if p[0] == 0 {
        MemProtectRange::Range32 { base: p[1] as u32, length: p[2] as u32 }
    } else {
        MemProtectRange::Range64 { base: p[1], length: p[2] }
    }
}

fn join(a: &[u64], b: &[u64]) -> Vec8 {
    let mut out = [0; 8];
    out[..a.len()].copy_from_slice(a);
    out[a.len()..a.len() + b.len()].copy_from_slice(b);
    out
}
type Vec8 = [u64; 8];

pub fn call(f: Function) -> NineWords {
    use Function as F;
    match f {
        F::Version => nine_words(0, &[]),
        F::CpuSuspend { state, entry: e } => nine_words(tag::CPU_SUSPEND, &join(&power(state), &entry(e))),
        F::CpuOff => nine_words(2, &[]),
        F::CpuOn { target_cpu, entry: e } => nine_words(tag::CPU_ON, &join(&mpidr(target_cpu), &entry(e))),
        F::AffinityInfo { mpidr: m, lowest_affinity_level: l } => nine_words(4, &join(&mpidr(m), &[l.into()])),
        F::Migrate { target_affinity } => nine_words(5, &mpidr(target_affinity)),
        F::MigrateInfoType => nine_words(6, &[]),
        F::MigrateInfoUpCpu { is_32bit } => nine_words(7, &[is_32bit as u64]),
        F::SystemOff => nine_words(8, &[]),
        F::SystemOff2 { off_type: SystemOff2Type::HibernateOff, cookie: c } => nine_words(9, &join(&[0], &cookie(c))),
        F::SystemReset => nine_words(10, &[]),
        F::SystemReset2 { reset_type, cookie: c } => nine_words(11, &join(&reset(reset_type), &cookie(c))),
        F::MemProtect { enabled } => nine_words(12, &[enabled as u64]),
        F::MemProtectCheckRange { range: r } => nine_words(13, &range(r)),
        F::Features { psci_func_id } => nine_words(14, &feature(psci_func_id)),
        F::CpuFreeze => nine_words(15, &[]),
        F::CpuDefaultSuspend { entry: e } => nine_words(16, &entry(e)),
        F::NodeHwState { target_cpu, power_level } => nine_words(17, &join(&mpidr(target_cpu), &[power_level.into()])),
        F::SystemSuspend { entry: e } => nine_words(18, &entry(e)),
        F::SetSuspendMode { mode: m } => nine_words(19, &mode(m)),
        F::StatResidency { target_cpu, power_state } => nine_words(tag::STAT_RESIDENCY, &join(&mpidr(target_cpu), &power(power_state))),
        F::StatCount { target_cpu, power_state } => nine_words(tag::STAT_COUNT, &join(&mpidr(target_cpu), &power(power_state))),
    }
}

pub fn to_call(w: &NineWords) -> Function {
    use Function as F;
    let p = &w[1..];
    match w[0] {
        0 => F::Version,
        tag::CPU_SUSPEND => F::CpuSuspend { state: to_power(p), entry: to_entry(&p[2..]) },
        2 => F::CpuOff,
        tag::CPU_ON => F::CpuOn { target_cpu: to_mpidr(p), entry: to_entry(&p[5..]) },
        4 => F::AffinityInfo { mpidr: to_mpidr(p), lowest_affinity_level: p[5] as u32 },
        5 => F::Migrate { target_affinity: to_mpidr(p) },
        6 => F::MigrateInfoType,
        7 => F::MigrateInfoUpCpu { is_32bit: p[0] != 0 },
        8 => F::SystemOff,
        9 => F::SystemOff2 { off_type: SystemOff2Type::HibernateOff, cookie: to_cookie(&p[1..]) },
        10 => F::SystemReset,
        11 => F::SystemReset2 { reset_type: to_reset(p), cookie: to_cookie(&p[2..]) },
        12 => F::MemProtect { enabled: p[0] != 0 },
        13 => F::MemProtectCheckRange { range: to_range(p) },
        14 => F::Features { psci_func_id: to_feature(p) },
        15 => F::CpuFreeze,
        16 => F::CpuDefaultSuspend { entry: to_entry(p) },
        17 => F::NodeHwState { target_cpu: to_mpidr(p), power_level: p[5] as u32 },
        18 => F::SystemSuspend { entry: to_entry(p) },
        19 => F::SetSuspendMode { mode: to_mode(p) },
        tag::STAT_RESIDENCY => F::StatResidency { target_cpu: to_mpidr(p), power_state: to_power(&p[5..]) },
        tag::STAT_COUNT => F::StatCount { target_cpu: to_mpidr(p), power_state: to_power(&p[5..]) },
        other => unreachable!("tag {other}"),
    }
}
