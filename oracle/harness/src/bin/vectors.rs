//! `vectors SEED COUNT > FILE`: the recorded list. COUNT records, a sixth each of decode, of Change 2's decoder, of Change 1's (and its reader), of
//! encode and function number, of Change 1's (and its writer), and of words; half of each sixth from the boundary plan, thinned evenly, half
//! random; then two of each refusal if fewer came. One more record, in the middle, is planted wrong: a program that says of the list that no
//! record differs has not compared it.
use harness::tally::Tally;
use harness::{Record, inputs, op, oracle, quiet_panics};
use std::io::Write;

/// `count` of what a plan asks, evenly spread.
fn thinned(count: u64, name: &str) -> Vec<Record> {
    let mut total = 0u64;
    inputs::plan(name, 0, 0, &mut |_| total += 1);
    let (mut out, mut at) = (Vec::new(), 0u64);
    inputs::plan(name, 0, 0, &mut |q| {
        if (at + 1) * count / total > at * count / total {
            out.push(q);
        }
        at += 1;
    });
    out
}

/// Puts the first encoded call past the middle a second time, with the highest bit of its last register turned; says where.
fn plant(answers: &mut Vec<Record>) -> usize {
    let middle = answers.len() / 2;
    let is_encoded = |a: &Record| a.op == op::ENCODE && a.refusal == 0;
    let at = middle + 1 + answers[middle..].iter().position(is_encoded).expect("an encoded call");
    let mut wrong = answers[at - 1];
    wrong.regs[3] ^= 1 << 63;
    answers.insert(at, wrong);
    at
}

fn main() {
    let mut args = std::env::args().skip(1).map(|a| a.parse().expect("a number"));
    let (seed, count): (u64, u64) = (args.next().expect("SEED"), args.next().expect("COUNT"));
    quiet_panics();
    let part = count / 12;
    let mut list = Vec::new();
    for name in ["decode", "smccc", "original", "encode", "original-encode", "words"] {
        list.extend(thinned(part, &format!("{name}-bounds")));
        let mut drawn = Vec::new();
        inputs::plan(name, seed, part, &mut |q| drawn.push(q));
        list.extend(drawn.into_iter().take(part as usize)); // a plan of the original format asks more than it draws
    }
    let mut tally = Tally::default();
    let mut answers: Vec<Record> = list.iter().map(oracle).collect();
    answers.iter().for_each(|a| tally.note(a));
    for name in ["decode-bounds", "original-bounds", "encode-bounds", "original-encode-bounds", "words-bounds"] {
        inputs::plan(name, 0, 0, &mut |q| {
            let a = oracle(&q);
            if tally.times(&a) < 2 {
                tally.note(&a);
                answers.push(a);
            }
        });
    }
    let planted = plant(&mut answers);
    let mut out = std::io::BufWriter::new(std::io::stdout().lock());
    answers.iter().for_each(|a| out.write_all(&a.bytes()).unwrap());
    eprintln!("{} records, that at {planted} planted wrong; of the others {tally}", answers.len());
}
