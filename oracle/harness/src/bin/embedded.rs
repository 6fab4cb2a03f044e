//! `embedded SEED COUNT LEFTOVERS`: the questions of all plans, COUNT sets of each random kind and LEFTOVERS of leftovers, to the published crate and to
//! that of embed/rust, but for leftovers in the original format, which it lacks. Their answers must be equal; of the decoders' questions also what
//! embed/rust has beside arm-psci: registers by value, recode and line. The first difference is printed, with status 1; so is a plan that asks nothing.
use harness::embedded::answers::{answer, refusal};
use harness::embedded::has;
use harness::{Record, inputs, line, op, oracle, quiet_panics};
use rampcomfrey::{BadNumber, Error, Function, OriginalFunction};

fn expect<T: PartialEq + std::fmt::Debug>(what: &str, q: &Record, want: T, got: T) {
    if want != got {
        println!("DIFFERENT {what}\n  asked      {q:x?}\n  arm-psci   {want:x?}\n  embed/rust {got:x?}");
        std::process::exit(1);
    }
}

type Recode = fn(&[u64; 4], &mut [u64; 4]) -> Result<(), Error>;

/// The operation that writes the decoded call is `encoding`. A refusal must leave the lent words as they were.
fn compare_recode(q: &Record, decoded: &Record, recode: Recode, encoding: u64) {
    let mut out = [!0; 4];
    let again = oracle(&Record { op: encoding, call: decoded.call, ..*q });
    let (no, words) = match decoded.refusal {
        0 => ((0, 0), again.regs),
        number => ((number, decoded.carried), [!0; 4]),
    };
    let told = recode(&q.regs, &mut out).map_or_else(refusal, |()| (0, 0));
    expect("recode", q, (no, words), (told, out));
}

fn compare_line(q: &Record) {
    let (mut text, number) = ([0xaa; 80], q.regs[1] as usize % (line::MAX_NUMBER + 10));
    let (written, bytes) = line::judged(number, &q.regs, text);
    let size = if written.number == 0 { Ok(written.value as usize) } else { Err(BadNumber(written.value)) };
    let told = rampcomfrey::line(number, &q.regs, &mut text);
    expect("line", q, (size, bytes), (told, text));
}

fn compare(q: &Record) {
    let want = oracle(q);
    expect("answer", q, want, answer(q));
    match q.op {
        op::DECODE => {
            expect("registers by value", q, Function::try_from(&q.regs), Function::try_from(q.regs));
            compare_recode(q, &want, rampcomfrey::recode, op::ENCODE);
        }
        op::DECODE_SMCCC => {
            compare_recode(q, &want, rampcomfrey::recode_smccc, op::ENCODE);
            compare_line(q);
        }
        op::DECODE_ORIGINAL => {
            expect("registers by value", q, OriginalFunction::try_from(&q.regs), OriginalFunction::try_from(q.regs));
            compare_recode(q, &want, rampcomfrey::recode_original, op::ENCODE_ORIGINAL);
        }
        _ => {}
    }
}

fn main() {
    quiet_panics();
    let mut args = std::env::args().skip(1).map(|a| a.parse().expect("a number"));
    let (seed, count, leftovers): (u64, u64, u64) = (args.next().expect("SEED"), args.next().expect("COUNT"), args.next().expect("LEFTOVERS"));
    for name in [
        "decode-bounds", "smccc-bounds", "original-bounds", "encode-bounds", "original-encode-bounds", "words-bounds", "leftovers-bounds", "malformed",
        "decode", "smccc", "original", "encode", "original-encode", "words", "leftovers",
    ] {
        let mut asked = 0u64;
        inputs::plan(name, seed, if name == "leftovers" { leftovers } else { count }, &mut |q| {
            if has(q.op) {
                compare(&q);
                asked += 1;
            }
        });
        assert!(asked > 0, "{name}: nothing was asked");
        println!("{name:22} {asked:>11} equal");
    }
}
