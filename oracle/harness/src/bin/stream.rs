//! `stream PLAN [SEED COUNT] | replay`: the Rust's answers to a plan's questions, as records of 128 bytes on standard output.
//! `stream sweep numbers|OPERATION [BITS] | replay`: 2^BITS words, by default 2^32, to decode as function numbers, or to the reader or decoder
//! with that operation, as blocks with a digest. The number of records or blocks and the tally of refusals go to standard error. A plan that
//! asks nothing is an error, and so is one of the original format, or of leftovers, that lacks calls of some kind.
use harness::tally::Tally;
use harness::{inputs, leftovers, op, oracle, quiet_panics, sweep};
use std::io::Write;

fn plan(name: &str, seed: u64, count: u64, tally: &mut Tally, out: &mut impl Write) -> String {
    let mut records = 0u64;
    inputs::plan(name, seed, count, &mut |q| {
        let a = oracle(&q);
        records += 1;
        tally.note(&a);
        out.write_all(&leftovers::sent(&q, &a).bytes()).unwrap();
    });
    let has_all = match name {
        _ if name.starts_with("original") => tally.has_original(),
        _ if name.starts_with("leftovers") => tally.has_leftovers(),
        _ => records > 0,
    };
    assert!(has_all, "{name}: nothing of some kind: {tally}");
    format!("{records} records")
}

fn swept(what: &str, bits: u32, tally: &mut Tally, out: &mut impl Write) -> String {
    let op = if what == "numbers" { op::DECODE } else { what.parse().expect("numbers or an operation") };
    let blocks = sweep::blocks(op, bits);
    for block in &blocks {
        out.write_all(&block.answered(&mut |a| tally.note(a)).bytes()).unwrap();
    }
    format!("{} blocks of at most {} words, {}", blocks.len(), blocks[0].count, sweep::described(op, bits))
}

fn main() {
    let args: Vec<String> = std::env::args().skip(1).collect();
    let number = |i: usize, other: u64| args.get(i).map_or(other, |a| a.parse().expect("a number"));
    quiet_panics();
    let mut out = std::io::BufWriter::with_capacity(1 << 16, std::io::stdout().lock());
    let mut tally = Tally::default();
    let told = match args[0].as_str() {
        "sweep" => swept(&args[1], number(2, 32) as u32, &mut tally, &mut out),
        name => plan(name, number(1, 0), number(2, 0), &mut tally, &mut out),
    };
    out.flush().unwrap();
    eprintln!("{told}; {tally}");
}
