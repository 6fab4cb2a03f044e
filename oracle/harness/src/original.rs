//! Document 02, Change 1: calls of boards that are set to DEN0022's original power state. The Rust lacks that word. Here it is a second program,
//! made of the masks and shifts of the kernel's public header linux/psci.h ("PSCI v0.2 power state encoding"), under the header's names; so are the
//! six function numbers that have a power state. tools/expected-replay holds document 02 to the same header.
//!
//! Everything else of a call is the Rust's. Of a call with a power state it is asked the same call with a word of its own format in that place:
//! one that it refuses where this word is refused, else one that it accepts. So which refusal comes first is the Rust's too: where it says 2 or 15,
//! the answer is 26 or 27. A call without a power state is the Rust's answer as it is.
use crate::published::answers::No;
use crate::published::nine_words::{NineWords, nine_words, tag};
use crate::{Record, WRONG_PART, op, oracle};

const PSCI_0_2_FN_CPU_SUSPEND: u32 = 0x8400_0001;
const PSCI_0_2_FN64_CPU_SUSPEND: u32 = 0xc400_0001;
const PSCI_1_0_FN_STAT_RESIDENCY: u32 = 0x8400_0010;
const PSCI_1_0_FN64_STAT_RESIDENCY: u32 = 0xc400_0010;
const PSCI_1_0_FN_STAT_COUNT: u32 = 0x8400_0011;
const PSCI_1_0_FN64_STAT_COUNT: u32 = 0xc400_0011;

const PSCI_0_2_POWER_STATE_ID_MASK: u32 = 0xffff;
const PSCI_0_2_POWER_STATE_ID_SHIFT: u32 = 0;
const PSCI_0_2_POWER_STATE_TYPE_SHIFT: u32 = 16;
const PSCI_0_2_POWER_STATE_TYPE_MASK: u32 = 0x1 << PSCI_0_2_POWER_STATE_TYPE_SHIFT;
const PSCI_0_2_POWER_STATE_AFFL_SHIFT: u32 = 24;
const PSCI_0_2_POWER_STATE_AFFL_MASK: u32 = 0x3 << PSCI_0_2_POWER_STATE_AFFL_SHIFT;

/// The bits that a power state may have.
pub const MASKS: u32 = PSCI_0_2_POWER_STATE_ID_MASK | PSCI_0_2_POWER_STATE_TYPE_MASK | PSCI_0_2_POWER_STATE_AFFL_MASK;

/// The six numbers whose calls have a power state.
pub const NUMBERS: [u32; 6] = [
    PSCI_0_2_FN_CPU_SUSPEND, PSCI_0_2_FN64_CPU_SUSPEND, PSCI_1_0_FN_STAT_RESIDENCY, PSCI_1_0_FN64_STAT_RESIDENCY, PSCI_1_0_FN_STAT_COUNT,
    PSCI_1_0_FN64_STAT_COUNT,
];

/// For the Rust, in the place of a word and of a state ID: one that it accepts and writes as it is, and one that it refuses, with 2 and with 15.
pub const ACCEPTED: u32 = 0x0fff_ffff;
pub const REFUSED: u32 = 0xffff_ffff;

fn stand_in<T>(state: &Result<T, No>) -> u64 {
    if state.is_ok() { ACCEPTED.into() } else { REFUSED.into() }
}

/// A word's parts, power down, state ID and level; or 26, which carries the word.
fn read(word: u32) -> Result<[u64; 3], No> {
    if word & !MASKS != 0 {
        return Err((26, word.into()));
    }
    let down = (word & PSCI_0_2_POWER_STATE_TYPE_MASK) >> PSCI_0_2_POWER_STATE_TYPE_SHIFT;
    let id = (word & PSCI_0_2_POWER_STATE_ID_MASK) >> PSCI_0_2_POWER_STATE_ID_SHIFT;
    let level = (word & PSCI_0_2_POWER_STATE_AFFL_MASK) >> PSCI_0_2_POWER_STATE_AFFL_SHIFT;
    Ok([down.into(), id.into(), level.into()])
}

/// The word of parts: a flag, 16 bits and 8 bits, or they have no room. A level that the header's mask has no room for is 27, which carries it.
fn write(parts: &[u64]) -> Result<u32, No> {
    let (down, id, level) = (parts[0] as u32, parts[1] as u32, parts[2] as u32);
    if parts[0] > 1 || parts[1] > 0xffff || parts[2] > 0xff {
        return Err((WRONG_PART, 0));
    }
    let high = level << PSCI_0_2_POWER_STATE_AFFL_SHIFT;
    if high & !PSCI_0_2_POWER_STATE_AFFL_MASK != 0 {
        return Err((27, level.into()));
    }
    let kind = down << PSCI_0_2_POWER_STATE_TYPE_SHIFT & PSCI_0_2_POWER_STATE_TYPE_MASK;
    Ok(high | kind | id << PSCI_0_2_POWER_STATE_ID_SHIFT & PSCI_0_2_POWER_STATE_ID_MASK)
}

/// The register that has the power state of a set with this r0: r1 of suspend, r2 of residency and of count.
pub fn register(r0: u64) -> Option<usize> {
    match r0 as u32 {
        PSCI_0_2_FN_CPU_SUSPEND | PSCI_0_2_FN64_CPU_SUSPEND => Some(1),
        PSCI_1_0_FN_STAT_RESIDENCY | PSCI_1_0_FN64_STAT_RESIDENCY | PSCI_1_0_FN_STAT_COUNT | PSCI_1_0_FN64_STAT_COUNT => Some(2),
        _ => None,
    }
}

/// Where the parts of the power state begin in the nine words of a call with this tag: of suspend, residency and count.
pub fn state_at(tag: u64) -> Option<usize> {
    match tag {
        tag::CPU_SUSPEND => Some(1),
        tag::STAT_RESIDENCY | tag::STAT_COUNT => Some(6),
        _ => None,
    }
}

/// The Rust's nine words, of two parts for its power state, with these three in their place.
fn with_three(words: &NineWords, parts: &[u64; 3]) -> NineWords {
    let at = state_at(words[0]).expect("a call with a power state");
    assert_eq!(words[at..at + 2], [0, ACCEPTED.into()], "the Rust read another word");
    let mut out = *words;
    out.copy_within(at + 2..8, at + 3);
    out[at..at + 3].copy_from_slice(parts);
    out
}

/// Nine words of three parts with two for the Rust in their place: standby, and this state ID.
fn with_two(words: &NineWords, at: usize, id: u64) -> NineWords {
    let mut out = *words;
    out[at..at + 2].copy_from_slice(&[0, id]);
    out.copy_within(at + 3.., at + 2);
    out[8] = 0;
    out
}

/// The Rust's answer to `asked`, as an answer to `q`.
fn rust(q: &Record, asked: Record) -> Record {
    Record { op: q.op, ..oracle(&asked) }
}

fn refused(q: &Record, (refusal, carried): No) -> Record {
    Record { refusal, carried, ..*q }
}

fn decode(q: &Record) -> Record {
    let asked = Record { op: op::DECODE, ..*q };
    let Some(at) = register(q.regs[0]) else { return rust(q, asked) };
    let state = read(q.regs[at] as u32);
    let mut regs = q.regs;
    regs[at] = q.regs[at] >> 32 << 32 | stand_in(&state);
    let got = rust(q, Record { regs, ..asked });
    match (got.refusal, state) {
        (0, Ok(parts)) => Record { call: with_three(&got.call, &parts), regs: q.regs, ..got },
        (2, Err(no)) => refused(q, no),
        _ => Record { regs: q.regs, ..got },
    }
}

/// Encode and the function number.
fn encode(q: &Record) -> Record {
    let asked = Record { op: if q.op == op::ENCODE_ORIGINAL { op::ENCODE } else { op::FUNCTION_ID }, ..*q };
    let Some(at) = state_at(q.call[0]) else { return rust(q, asked) };
    let word = write(&q.call[at..at + 3]);
    if let Err(no @ (WRONG_PART, _)) = word {
        return refused(q, no);
    }
    let got = rust(q, Record { call: with_two(&q.call, at, stand_in(&word)), ..asked });
    let mut regs = got.regs;
    match (got.refusal, word) {
        (0, Ok(word)) if asked.op == op::ENCODE => {
            let written = &mut regs[register(got.regs[0]).expect("a number with a power state")];
            assert_eq!(*written, ACCEPTED.into(), "the Rust wrote another word");
            *written = word.into();
        }
        (15, Err(no)) => return refused(q, no),
        _ => {}
    }
    Record { call: q.call, regs, ..got }
}

fn read_word(q: &Record) -> Record {
    match read(q.regs[0] as u32) {
        Ok(parts) => Record { call: nine_words(0, &parts), refusal: 0, carried: 0, ..*q },
        Err(no) => refused(q, no),
    }
}

fn write_word(q: &Record) -> Record {
    let [tag, down, id, level, rest @ ..] = q.call;
    if tag != 0 || rest != [0; 5] {
        return refused(q, (WRONG_PART, 0));
    }
    match write(&[down, id, level]) {
        Ok(word) => Record { regs: [word.into(), q.regs[1], q.regs[2], q.regs[3]], refusal: 0, carried: 0, ..*q },
        Err(no) => refused(q, no),
    }
}

/// Whether the record is about a power state in the original format.
pub fn has_state(q: &Record) -> bool {
    match q.op {
        op::DECODE_ORIGINAL => register(q.regs[0]).is_some(),
        op::ENCODE_ORIGINAL | op::FUNCTION_ID_ORIGINAL => state_at(q.call[0]).is_some(),
        op => op::ORIGINAL.contains(&op),
    }
}

/// `q`, whose operation is one of `op::ORIGINAL`, with its answer.
pub fn answer(q: &Record) -> Record {
    match q.op {
        op::DECODE_ORIGINAL => decode(q),
        op::ENCODE_ORIGINAL | op::FUNCTION_ID_ORIGINAL => encode(q),
        op::READ_POWER_STATE_ORIGINAL => read_word(q),
        op::WRITE_POWER_STATE_ORIGINAL => write_word(q),
        op => unreachable!("operation {op}"),
    }
}
