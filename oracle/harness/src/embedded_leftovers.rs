//! The answers of embed/rust to the operations of Change 7, which arm-psci lacks.
use super::answers::{No, asked, refusal};
use super::nine_words::call;
use crate::{Record, op};
use rampcomfrey::{Error, Function};

/// Whether embed/rust has the operation: leftovers are for boards set to the extended format alone.
pub fn has(op: u64) -> bool {
    ![op::DECODE_ORIGINAL_WITH_LEFTOVERS, op::ENCODE_ORIGINAL_WITH_LEFTOVERS].contains(&op)
}

fn decoded(q: &Record, got: Result<(Function, [u64; 4]), Error>) -> Result<Record, No> {
    got.map(|(f, leftovers)| Record { call: call(f), regs: leftovers, ..*q }).map_err(refusal)
}

/// The lent words have no bit of the leftovers; a refusal must leave them.
fn encoded(q: &Record) -> Result<Record, No> {
    let lent = q.regs.map(|word| !word);
    let mut out = lent;
    let told = asked(&q.call)?.copy_to_array_with_leftovers(&q.regs, &mut out).map_err(refusal);
    assert!(told.is_ok() || out == lent, "a refusal changed the lent words of {q:x?}");
    told.map(|()| Record { regs: out, ..*q })
}

/// `q`, whose operation is one of `op::WITH_LEFTOVERS`, with its answer.
pub fn answer(q: &Record) -> Record {
    let given = match q.op {
        op::DECODE_WITH_LEFTOVERS => decoded(q, Function::try_from_with_leftovers(&q.regs)),
        op::DECODE_SMCCC_WITH_LEFTOVERS => decoded(q, Function::try_from_smccc_with_leftovers(&q.regs)),
        op::ENCODE_WITH_LEFTOVERS => encoded(q),
        op => unreachable!("embed/rust has no operation {op}"),
    };
    match given {
        Ok(answer) => Record { refusal: 0, carried: 0, ..answer },
        Err((refusal, carried)) => Record { refusal, carried, ..*q },
    }
}
