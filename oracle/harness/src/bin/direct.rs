//! `direct SEED COUNT`: the boundary questions and COUNT random ones to decode, encode, one after the other, both with leftovers, and a record's line,
//! each called through C with lent words; what decodes, by the three decoders, what encodes, in both formats of a power state, but for leftovers, which
//! are exported in the extended one alone. The first difference is printed, with status 1; so is a plan that asks nothing.
use harness::rattle::{self, Refusal};
use harness::{Record, inputs, line, op, oracle, quiet_panics};

fn expect<T: PartialEq + std::fmt::Debug>(what: &str, q: &Record, want: T, got: T) {
    if want != got {
        println!("DIFFERENT {what}\n  asked  {q:x?}\n  Rust   {want:x?}\n  Rattle {got:x?}");
        std::process::exit(1);
    }
}

/// A decoder, what encodes its calls, and one after the other.
struct Codec {
    decode: extern "C" fn(&[u64; 4], &mut [u64; 9]) -> Refusal,
    encode: extern "C" fn(&[u64; 9], &mut [u64; 4]) -> Refusal,
    recode: extern "C" fn(&[u64; 4], &mut [u64; 4]) -> Refusal,
    encoding: u64,
}

const BY_01: Codec =
    Codec { decode: rattle::psci_decode, encode: rattle::psci_encode, recode: rattle::psci_recode, encoding: op::ENCODE };
const SMCCC: Codec = Codec { decode: rattle::psci_decode_smccc, recode: rattle::psci_recode_smccc, ..BY_01 };
const ORIGINAL: Codec = Codec {
    decode: rattle::psci_decode_original,
    encode: rattle::psci_encode_original,
    recode: rattle::psci_recode_original,
    encoding: op::ENCODE_ORIGINAL,
};

/// What a decoder gives, and its recode. A refusal must leave the lent words as they were.
fn compare_decoding(q: &Record, refusal: Refusal, want: &Record, codec: &Codec) {
    let mut call = q.call;
    let got = (codec.decode)(&q.regs, &mut call);
    expect("decode", q, (refusal, want.call), (got, call));
    let again = oracle(&Record { op: codec.encoding, call: want.call, ..*q });
    let (mut out, words) = ([!0; 4], if want.refusal == 0 { again.regs } else { [!0; 4] });
    let got = (codec.recode)(&q.regs, &mut out);
    expect("decode then encode", q, (refusal, words), (got, out));
    if want.refusal == 0 {
        // nine words that decode gave are a call
        let mut out = [!0; 4];
        let got = (codec.encode)(&call, &mut out);
        expect("encode of what decode gave", q, (refusal, words), (got, out));
    }
}

fn compare_encoding(q: &Record, refusal: Refusal, want: &Record, codec: &Codec) {
    let mut out = q.regs;
    let got = (codec.encode)(&q.call, &mut out);
    expect("encode", q, (refusal, want.regs), (got, out));
}

type DecodeWithLeftovers = extern "C" fn(&[u64; 4], &mut [u64; 9], &mut [u64; 4]) -> Refusal;

/// Four lent words, each with no bit of the question's, and what must be in them afterwards.
fn lent(q: &Record, want: &Record) -> ([u64; 4], [u64; 4]) {
    let before = q.regs.map(|word| !word);
    (before, if want.refusal == 0 { want.regs } else { before })
}

fn compare_leftovers(q: &Record, refusal: Refusal, want: &Record, decode: DecodeWithLeftovers) {
    let ((mut out, words), mut call) = (lent(q, want), q.call);
    let got = decode(&q.regs, &mut call, &mut out);
    expect("decode with leftovers", q, (refusal, want.call, words), (got, call, out));
}

fn compare_encoding_with_leftovers(q: &Record, refusal: Refusal, want: &Record) {
    let (mut out, words) = lent(q, want);
    let got = rattle::psci_encode_with_leftovers(&q.call, &q.regs, &mut out);
    expect("encode with leftovers", q, (refusal, words), (got, out));
}

fn compare_line(q: &Record) {
    let (mut text, number) = ([0xaa; 80], q.regs[1] as usize % (line::MAX_NUMBER + 10));
    let got = rattle::psci_line(number, &q.regs, &mut text);
    expect("line", q, line::judged(number, &q.regs, [0xaa; 80]), (got, text));
}

/// Whether the question is one of these functions'; a difference stops the program.
fn compare(q: &Record) -> bool {
    let want = oracle(q);
    let refusal = Refusal { number: want.refusal, carried: want.carried };
    match q.op {
        op::DECODE => compare_decoding(q, refusal, &want, &BY_01),
        op::DECODE_SMCCC => {
            compare_decoding(q, refusal, &want, &SMCCC);
            compare_line(q);
        }
        op::DECODE_ORIGINAL => compare_decoding(q, refusal, &want, &ORIGINAL),
        op::ENCODE => compare_encoding(q, refusal, &want, &BY_01),
        op::ENCODE_ORIGINAL => compare_encoding(q, refusal, &want, &ORIGINAL),
        op::DECODE_WITH_LEFTOVERS => compare_leftovers(q, refusal, &want, rattle::psci_decode_with_leftovers),
        op::DECODE_SMCCC_WITH_LEFTOVERS => compare_leftovers(q, refusal, &want, rattle::psci_decode_smccc_with_leftovers),
        op::ENCODE_WITH_LEFTOVERS => compare_encoding_with_leftovers(q, refusal, &want),
        _ => return false,
    }
    true
}

fn main() {
    quiet_panics();
    let mut args = std::env::args().skip(1).map(|a| a.parse().expect("a number"));
    let (seed, count): (u64, u64) = (args.next().expect("SEED"), args.next().expect("COUNT"));
    for name in [
        "decode-bounds", "smccc-bounds", "original-bounds", "encode-bounds", "original-encode-bounds", "leftovers-bounds", "malformed", "decode",
        "smccc", "original", "encode", "original-encode", "leftovers",
    ] {
        let mut asked = 0u64;
        inputs::plan(name, seed, count, &mut |q| asked += compare(&q) as u64);
        assert!(asked > 0, "{name}: nothing was asked");
        println!("{name:22} {asked:>11} equal");
    }
}
