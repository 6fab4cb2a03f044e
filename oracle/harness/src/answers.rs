//! The answers to all operations from a crate with arm-psci's names and types, `super::psci`: the published one in published.rs, that of
//! embed/rust in embedded.rs. The text is the same for both; what they differ in stands in the module `departures` of each.
use super::departures;
use super::nine_words::*;
use super::psci::*;
use crate::{Record, UNKNOWN_OPERATION, UNKNOWN_TAG, WRONG_PART, op};

/// A refusal's number and the value that it carries.
pub type No = (u64, u64);

/// The papers' number of an error and the value that it carries, signed ones as 64 bits.
pub fn refusal(e: Error) -> No {
    match e {
        Error::UnrecognisedFunctionId(v) => (1, v.into()),
        Error::InvalidPowerState(v) => (2, v.into()),
        Error::InvalidMpidr32(v) => (3, v.into()),
        Error::InvalidMpidr64(v) => (4, v),
        Error::InvalidLowerAffinityLevel(v) => (5, v.into()),
        Error::UnrecognisedSystemOff2Type(v) => (6, v.into()),
        Error::UnrecognisedSystemReset2Type(v) => (7, v.into()),
        Error::UnrecognisedSuspendMode(v) => (8, v.into()),
        Error::UnrecognisedErrorCode(v) => (9, v as i64 as u64),
        Error::OverflowingErrorCode(v) => (10, v as u64),
        Error::InvalidVersion(v) => (11, v.into()),
        Error::UnrecognisedHwState(v) => (12, v.into()),
        Error::IgnoredNonZeroAff3(v) => (13, v.into()),
        Error::UnrecognisedPsciFeaturesFlags(_) => unreachable!("left out by document 01"),
        #[allow(unreachable_patterns)]
        other => departures::refusal(other),
    }
}

/// The error of a number, with a value of its width.
fn to_error(number: u64, value: u64) -> Error {
    let low = value as u32;
    match number {
        1 => Error::UnrecognisedFunctionId(low),
        2 => Error::InvalidPowerState(low),
        3 => Error::InvalidMpidr32(low),
        4 => Error::InvalidMpidr64(value),
        5 => Error::InvalidLowerAffinityLevel(low),
        6 => Error::UnrecognisedSystemOff2Type(low),
        7 => Error::UnrecognisedSystemReset2Type(low),
        8 => Error::UnrecognisedSuspendMode(low),
        9 => Error::UnrecognisedErrorCode(low as i32),
        10 => Error::OverflowingErrorCode(value as i64),
        11 => Error::InvalidVersion(low),
        12 => Error::UnrecognisedHwState(low),
        _ => Error::IgnoredNonZeroAff3(value as u8),
    }
}

/// The value that a reader gives, as nine words.
fn read(op: u64, regs: [u64; 4]) -> Result<NineWords, Error> {
    let word = regs[0];
    let (low, signed) = (word as u32, word as i32);
    let one = |x: u64| nine_words(0, &[x]);
    Ok(match op {
        op::READ_FUNCTION_ID => nine_words(0, &id(FunctionId::try_from(low)?)),
        op::READ_RETURN_CODE => match ReturnCode::try_from(signed)? {
            ReturnCode::Success => nine_words(0, &[0, 0]),
            ReturnCode::Error(c) => nine_words(0, &[1, index(&CODES, c)]),
        },
        op::READ_ERROR_CODE => one(index(&CODES, ErrorCode::try_from(signed)?)),
        op::READ_ERROR_CODE_32 => one(index(&CODES, ErrorCode::try_from(low)?)),
        op::READ_ERROR_CODE_64 => one(index(&CODES, ErrorCode::try_from(word)?)),
        op::READ_VERSION => {
            let v = Version::try_from(low)?;
            nine_words(0, &[v.major.into(), v.minor.into()])
        }
        op::READ_POWER_STATE => nine_words(0, &power(PowerState::try_from(low)?)),
        op::READ_MPIDR_32 => nine_words(0, &mpidr(Mpidr::try_from(low)?)),
        op::READ_MPIDR_64 => nine_words(0, &mpidr(Mpidr::try_from(word)?)),
        op::READ_MPIDR_REGISTER => nine_words(0, &mpidr(Mpidr::from_register_value(word))),
        op::READ_OFF_TYPE => SystemOff2Type::try_from(low).map(|SystemOff2Type::HibernateOff| one(0))?,
        op::READ_ARCHITECTURAL => {
            ArchitecturalResetType::try_from(low).map(|ArchitecturalResetType::SystemWarmReset| one(0))?
        }
        op::READ_RESET_TYPE => nine_words(0, &reset(ResetType::try_from(low)?)),
        op::READ_FEATURE => nine_words(0, &feature(PsciFeature::try_from(low)?)),
        op::READ_HW_STATE => one(index(&HW, HwState::try_from(low)?)),
        op::READ_SUSPEND_MODE => nine_words(0, &mode(SuspendMode::try_from(low)?)),
        op::FROM_AFF3210 => {
            let [a, b, c, d] = regs.map(|r| r as u8);
            nine_words(0, &mpidr(Mpidr::from_aff3210(a, b, c, d)))
        }
        _ => {
            let [a, b, c, _] = regs.map(|r| r as u8);
            nine_words(0, &mpidr(Mpidr::from_aff210(a, b, c)))
        }
    })
}

/// The value's own nine words and the word that it is written as.
fn write(op: u64, p: &[u64]) -> (NineWords, Result<u64, No>) {
    let at = |n: usize| p[0] as usize % n;
    let some = |f: NineWords, word: u64| (f, Ok(word));
    let one = |x: u64| nine_words(0, &[x]);
    match op {
        op::WRITE_FUNCTION_ID => some(nine_words(0, &id(to_id(p))), u32::from(to_id(p)).into()),
        op::WRITE_RETURN_CODE => {
            let at = p[1] as usize % 9;
            match p[0] {
                0 => some(nine_words(0, &[0, 0]), i32::from(ReturnCode::Success) as u32 as u64),
                _ => some(nine_words(0, &[1, at as u64]), i32::from(ReturnCode::Error(CODES[at])) as u32 as u64),
            }
        }
        op::WRITE_ERROR_CODE => some(one(at(9) as u64), i32::from(CODES[at(9)]) as u32 as u64),
        op::WRITE_ERROR_CODE_32 => some(one(at(9) as u64), u32::from(CODES[at(9)]).into()),
        op::WRITE_ERROR_CODE_64 => some(one(at(9) as u64), u64::from(CODES[at(9)])),
        op::WRITE_VERSION => {
            let (major, minor) = (p[0] as u16, p[1] as u16);
            (nine_words(0, &[major.into(), minor.into()]), departures::version_word(Version { major, minor }).map(u64::from))
        }
        op::WRITE_POWER_STATE => {
            let state = to_power(p);
            (nine_words(0, &power(state)), departures::power_state_word(state).map(u64::from))
        }
        op::WRITE_MPIDR_32 => {
            let m = to_mpidr(p);
            (nine_words(0, &mpidr(m)), u32::try_from(m).map(u64::from).map_err(refusal))
        }
        op::WRITE_MPIDR_64 => some(nine_words(0, &mpidr(to_mpidr(p))), u64::from(to_mpidr(p))),
        op::WRITE_OFF_TYPE => some(one(0), u32::from(SystemOff2Type::HibernateOff).into()),
        op::WRITE_ARCHITECTURAL => some(one(0), u32::from(ArchitecturalResetType::SystemWarmReset).into()),
        op::WRITE_RESET_TYPE => {
            let reset_type = to_reset(p);
            (nine_words(0, &reset(reset_type)), departures::reset_type_word(reset_type).map(u64::from))
        }
        op::WRITE_FEATURE => some(nine_words(0, &feature(to_feature(p))), u32::from(to_feature(p)).into()),
        op::WRITE_HW_STATE => some(one(at(3) as u64), u32::from(HW[at(3)]).into()),
        op::WRITE_SUSPEND_MODE => some(nine_words(0, &mode(to_mode(p))), u32::from(to_mode(p)).into()),
        op::ERROR_TO_CODE => {
            let (number, carried) = refusal(to_error(p[0], p[1]));
            some(nine_words(0, &[number, carried]), index(&CODES, ErrorCode::from(to_error(p[0], p[1]))))
        }
        op::ENTRY_ADDRESS => some(nine_words(0, &entry(to_entry(p))), to_entry(p).entry_point_address()),
        _ => some(nine_words(0, &entry(to_entry(p))), to_entry(p).context_id()),
    }
}

/// The call that a record asks with, or the record's own refusal of its words.
pub fn asked(words: &NineWords) -> Result<Function, No> {
    if words[0] > tag::LAST {
        return Err((UNKNOWN_TAG, words[0]));
    }
    let f = to_call(words);
    if call(f) == *words { Ok(f) } else { Err((WRONG_PART, 0)) }
}

/// `q` with its answer. A refusal leaves the words that it would have written as they were.
#[inline]
pub fn answer(q: &Record) -> Record {
    match q.op {
        op if op::ORIGINAL.contains(&op) => return departures::original(q),
        op::DECODE_WITH_LEFTOVERS..=op::ENCODE_ORIGINAL_WITH_LEFTOVERS => return departures::with_leftovers(q),
        _ => {}
    }
    let mut a = Record { refusal: 0, carried: 0, ..*q };
    let refused = match q.op {
        op::DECODE => Function::try_from(&q.regs).map(|f| a.call = call(f)).map_err(refusal),
        op::DECODE_SMCCC => departures::decode_smccc(&q.regs).map(|f| a.call = call(f)).map_err(refusal),
        op::ENCODE => asked(&q.call).and_then(|f| departures::copy_to_array(f, &mut a.regs)),
        op::FUNCTION_ID => asked(&q.call).and_then(departures::function_id).map(|id| a.regs[0] = u32::from(id).into()),
        op::READ_FUNCTION_ID..=op::FROM_AFF210 => read(q.op, q.regs).map(|words| a.call = words).map_err(refusal),
        op::WRITE_FUNCTION_ID..=op::ENTRY_CONTEXT => match write(q.op, &q.call[1..]) {
            (own, _) if own != q.call => Err((WRONG_PART, 0)),
            (_, word) => word.map(|word| a.regs[0] = word),
        },
        _ => Err((UNKNOWN_OPERATION, q.op)),
    };
    if let Err(no) = refused {
        (a.refusal, a.carried) = no;
    }
    a
}
