//! Document 02, Change 7: leftovers, which the Rust lacks. Those of a set are its registers exclusive-or the four words that the Rust writes for the call
//! that it reads of them; with leftovers it writes its four words exclusive-or these. All else, refusals too, is the same without leftovers.
use crate::sweep::Digest;
use crate::{Record, op, oracle};

fn xor_each(a: [u64; 4], b: [u64; 4]) -> [u64; 4] {
    [0, 1, 2, 3].map(|i| a[i] ^ b[i])
}

/// What the operation is without leftovers, if it is one of those with them.
fn without(op: u64) -> Option<u64> {
    op::WITH_LEFTOVERS.into_iter().find(|(_, with)| *with == op).map(|(without, _)| without)
}

/// The words that the Rust writes: `got` has them if it is encode's answer, and the call to be written if it is a decoder's.
fn written(op: u64, got: &Record) -> [u64; 4] {
    let Some(encode) = op::writing(op) else { return got.regs };
    let words = oracle(&Record { op: encode, ..*got });
    assert_eq!(words.refusal, 0, "the Rust writes the calls that it reads");
    words.regs
}

/// `q`, whose operation is one of `op::WITH_LEFTOVERS`, with its answer. A refusal leaves the nine words and the registers as they were.
pub fn answer(q: &Record) -> Record {
    let op = without(q.op).expect("an operation with leftovers");
    let got = oracle(&Record { op, ..*q });
    let regs = if got.refusal == 0 { xor_each(q.regs, written(op, &got)) } else { q.regs };
    Record { op: q.op, regs, ..got }
}

/// What `replay` is sent of a question and its answer. It makes the question of the answer; with leftovers that has no room for the four words that were
/// asked. So these are sent, and as the last word a digest of what the answer carries and of its four words.
pub fn sent(q: &Record, answer: &Record) -> Record {
    if without(q.op).is_none() {
        return *answer;
    }
    let mut digest = Digest::default();
    digest.take(answer.carried);
    answer.regs.into_iter().for_each(|word| digest.take(word));
    Record { regs: q.regs, carried: digest.0, ..*answer }
}
