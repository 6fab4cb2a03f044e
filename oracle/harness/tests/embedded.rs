//! What embed/rust has of arm-psci that no operation of a record asks: error texts, feature flags, and the numbers of two answers.
#![cfg(feature = "rattle")]
use harness::inputs::{bounds, sparse};
use rampcomfrey::{Error, ErrorCode};

const SOURCE: &str = include_str!("../../target/source/src/lib.rs");

/// The text above the first case of that name in the source, `#[error("..")]`.
fn text_of(case: &str) -> String {
    let lines: Vec<&str> = SOURCE.lines().map(str::trim).collect();
    let names = |line: &&str| line.strip_prefix(case).is_some_and(|rest| rest.starts_with(['(', ' ']));
    let at = lines.iter().position(names).unwrap_or_else(|| panic!("no {case}"));
    lines[at - 1].strip_prefix("#[error(\"").and_then(|l| l.strip_suffix("\")]")).unwrap_or_else(|| panic!("no text of {case}")).into()
}

/// An error's text has its value where the source has `{0}`.
#[test]
fn error_texts() {
    let errors = [
        Error::UnrecognisedFunctionId(7),
        Error::UnrecognisedErrorCode(-7),
        Error::OverflowingErrorCode(-7),
        Error::InvalidVersion(7),
        Error::InvalidPowerState(7),
        Error::InvalidMpidr32(7),
        Error::InvalidMpidr64(7),
        Error::UnrecognisedSystemOff2Type(7),
        Error::UnrecognisedSystemReset2Type(7),
        Error::UnrecognisedPsciFeaturesFlags(7),
        Error::UnrecognisedHwState(7),
        Error::UnrecognisedSuspendMode(7),
        Error::InvalidLowerAffinityLevel(7),
        Error::IgnoredNonZeroAff3(7),
    ];
    for error in errors {
        let shown = format!("{error:?}");
        let (case, value) = shown.strip_suffix(')').unwrap().split_once('(').unwrap();
        assert_eq!(error.to_string(), text_of(case).replace("{0}", value), "{case}");
    }
}

#[test]
fn error_code_texts() {
    for code in -9..=-1 {
        let code = ErrorCode::try_from(code).unwrap();
        assert_eq!(code.to_string(), text_of(&format!("{code:?}")));
    }
}

/// The error of a flags word, or its bits.
macro_rules! flags {
    ($psci:ident, $name:ident, $word:expr) => {
        $psci::$name::try_from($word).map(|flags| (flags.bits(), u32::from(flags))).map_err(|e| format!("{e:?}"))
    };
}

#[test]
fn feature_flags() {
    use rampcomfrey::{FeatureFlagsCpuSuspend as Suspend, FeatureFlagsSystemOff2 as Off2};
    for word in bounds().into_iter().chain(sparse()).chain(0..=0xffff) {
        let word = word as u32;
        assert_eq!(flags!(rampcomfrey, FeatureFlagsCpuSuspend, word), flags!(arm_psci, FeatureFlagsCpuSuspend, word));
        assert_eq!(flags!(rampcomfrey, FeatureFlagsSystemOff2, word), flags!(arm_psci, FeatureFlagsSystemOff2, word));
    }
    assert_eq!(Suspend::EXTENDED_POWER_STATE.bits(), arm_psci::FeatureFlagsCpuSuspend::EXTENDED_POWER_STATE.bits());
    assert_eq!(Suspend::OS_INITIATED_MODE.bits(), arm_psci::FeatureFlagsCpuSuspend::OS_INITIATED_MODE.bits());
    assert_eq!(Off2::HIBERNATE_OFF.bits(), arm_psci::FeatureFlagsSystemOff2::HIBERNATE_OFF.bits());
    // of bitflags only what its documentation says: the stand-in has neither union nor subset
    assert_eq!((Suspend::EXTENDED_POWER_STATE | Suspend::OS_INITIATED_MODE).bits(), 3);
    assert_eq!((Suspend::empty().bits(), Suspend::all().bits(), Off2::all().bits()), (0, 3, 1));
    assert!(Suspend::all().contains(Suspend::OS_INITIATED_MODE) && !Suspend::OS_INITIATED_MODE.contains(Suspend::all()));
}

#[test]
fn answers_without_a_reader() {
    macro_rules! same {
        ($($name:ident::$case:ident)*) => {$(
            assert_eq!(u32::from(rampcomfrey::$name::$case), u32::from(arm_psci::$name::$case));
        )*};
    }
    same! {
        AffinityInfo::On AffinityInfo::Off AffinityInfo::OnPending
        MigrateInfoType::MigrateCapable MigrateInfoType::NotMigrateCapable MigrateInfoType::MigrationNotRequired
    }
}
