//! The recorded answers to decode, encode, function number, decode by Change 2, and decode, encode and function number in the original format, asked
//! of this crate. One is planted wrong.
use rampcomfrey as psci;

#[allow(dead_code)]
#[path = "../../../oracle/harness/src/nine_words.rs"]
mod nine_words;

use psci::{Error, Function, FunctionId, OriginalFunction, OriginalPowerState, StatelessFunction};

const DECODE: u64 = 0;
const ENCODE: u64 = 1;
const FUNCTION_ID: u64 = 2;
const DECODE_SMCCC: u64 = 3;
const DECODE_ORIGINAL: u64 = 4;
const ENCODE_ORIGINAL: u64 = 5;
const FUNCTION_ID_ORIGINAL: u64 = 6;

type Record = [u64; 16];

/// The records of the list: labels begin with a printable character, and are left out with the record behind each.
fn records() -> Vec<Record> {
    let bytes = std::fs::read(concat!(env!("CARGO_MANIFEST_DIR"), "/../../crates/replay/stdin")).unwrap();
    assert_eq!(bytes.len() % 128, 0);
    let mut blocks = bytes.chunks(128);
    let mut out = Vec::new();
    while let Some(block) = blocks.next() {
        if (0x20..=0x7e).contains(&block[0]) {
            blocks.next().unwrap();
        } else {
            let words: Vec<u64> = block.chunks(8).map(|word| u64::from_be_bytes(word.try_into().unwrap())).collect();
            out.push(words.try_into().unwrap());
        }
    }
    out
}

/// The numbers of docs/REFUSALS.md.
fn refusal(error: Error) -> [u64; 2] {
    match error {
        Error::UnrecognisedFunctionId(value) => [1, value.into()],
        Error::InvalidPowerState(value) => [2, value.into()],
        Error::InvalidMpidr32(value) => [3, value.into()],
        Error::InvalidMpidr64(value) => [4, value],
        Error::InvalidLowerAffinityLevel(value) => [5, value.into()],
        Error::UnrecognisedSystemOff2Type(value) => [6, value.into()],
        Error::UnrecognisedSystemReset2Type(value) => [7, value.into()],
        Error::UnrecognisedSuspendMode(value) => [8, value.into()],
        Error::MixedCallForms => [14, 0],
        Error::InvalidStateId(value) => [15, value.into()],
        Error::InvalidOriginalPowerState(value) => [26, value.into()],
        Error::InvalidPowerLevel(value) => [27, value.into()],
        Error::InvalidVendorType(value) => [31, value.into()],
        other => panic!("{other:?} is no refusal of a call"),
    }
}

/// The nine words of a call of the original format: a power state is power down, state ID and level.
fn original_nine_words(call: OriginalFunction) -> nine_words::NineWords {
    let parts = |state: OriginalPowerState| [state.power_down.into(), state.state_id.into(), state.level.into()];
    let words = |tag, first: &[u64], second: &[u64]| nine_words::nine_words(tag, &[first, second].concat());
    match call {
        OriginalFunction::CpuSuspend { state, entry } => words(1, &parts(state), &nine_words::entry(entry)),
        OriginalFunction::StatResidency { target_cpu, power_state } => words(20, &nine_words::mpidr(target_cpu), &parts(power_state)),
        OriginalFunction::StatCount { target_cpu, power_state } => words(21, &nine_words::mpidr(target_cpu), &parts(power_state)),
        OriginalFunction::Other(call) => nine_words::call(call.into()),
    }
}

/// The call of nine words. A call without a power state is read from the registers that it is written as, but for the three that can be refused when
/// they are written, or when that is read.
fn to_original(words: &nine_words::NineWords) -> OriginalFunction {
    let p = &words[1..];
    let state = |p: &[u64]| OriginalPowerState { power_down: p[0] != 0, state_id: p[1] as u16, level: p[2] as u8 };
    match nine_words::to_call(words) {
        Function::CpuSuspend { .. } => OriginalFunction::CpuSuspend { state: state(p), entry: nine_words::to_entry(&p[3..]) },
        Function::StatResidency { target_cpu, .. } => OriginalFunction::StatResidency { target_cpu, power_state: state(&p[5..]) },
        Function::StatCount { target_cpu, .. } => OriginalFunction::StatCount { target_cpu, power_state: state(&p[5..]) },
        Function::CpuOn { target_cpu, entry } => OriginalFunction::Other(StatelessFunction::CpuOn { target_cpu, entry }),
        Function::AffinityInfo { mpidr, lowest_affinity_level } => {
            OriginalFunction::Other(StatelessFunction::AffinityInfo { mpidr, lowest_affinity_level })
        }
        Function::SystemReset2 { reset_type, cookie } => OriginalFunction::Other(StatelessFunction::SystemReset2 { reset_type, cookie }),
        other => {
            let mut regs = [0; 4];
            other.copy_to_array(&mut regs).unwrap();
            OriginalFunction::try_from(regs).unwrap()
        }
    }
}

/// Whether this crate answers as the record has it; none for the other operations. The words lent to encode have every bit wrong: accepted, all
/// of them must be written; refused, none.
fn agrees(record: &Record) -> Option<bool> {
    let call: &[u64; 9] = record[1..10].try_into().unwrap();
    let regs: [u64; 4] = record[10..14].try_into().unwrap();
    let same = |told: Result<bool, Error>| match told {
        Ok(same) => same && record[14..] == [0, 0],
        Err(error) => record[14..] == refusal(error),
    };
    let is_first = |id: FunctionId| u64::from(u32::from(id)) == regs[0];
    let written = |copy: &dyn Fn(&mut [u64; 4]) -> Result<(), Error>| {
        let wrong = regs.map(|word| !word);
        let mut lent = wrong;
        let told = copy(&mut lent);
        lent == if told.is_ok() { regs } else { wrong } && same(told.map(|()| true))
    };
    Some(match record[0] {
        DECODE => same(Function::try_from(&regs).map(|f| nine_words::call(f) == *call)),
        DECODE_SMCCC => same(Function::try_from_smccc(&regs).map(|f| nine_words::call(f) == *call)),
        DECODE_ORIGINAL => same(OriginalFunction::try_from(&regs).map(|f| original_nine_words(f) == *call)),
        ENCODE => written(&|lent| nine_words::to_call(call).copy_to_array(lent)),
        ENCODE_ORIGINAL => written(&|lent| to_original(call).copy_to_array(lent)),
        FUNCTION_ID => same(nine_words::to_call(call).function_id().map(is_first)),
        FUNCTION_ID_ORIGINAL => same(to_original(call).function_id().map(is_first)),
        _ => return None,
    })
}

#[test]
fn one_planted_answer_differs() {
    let mut compared = [0; 7];
    let mut differed = 0;
    for record in records() {
        if let Some(same) = agrees(&record) {
            compared[record[0] as usize] += 1;
            differed += !same as u64;
        }
    }
    println!("by operation: {compared:?} compared, {differed} differed");
    assert!(compared.iter().all(|count| *count > 1000), "{compared:?}");
    assert_eq!(differed, 1);
}
