//! `bench [ROUNDS]`: times two sides on the same lists in one run, in turn, and keeps the least time of each. Both are called through a C pointer
//! that the compiler can't see through; nothing is cleared on either side. The two are the Rust and the Rattle; the Rattle in the extended and in
//! the original format; and, of the readers of a 64-bit MPIDR, that of the whole register and that of its halves. `bench count LIST SIDE` makes the
//! calls of one list once, for callgrind: SIDE is first, second or none, a call that does nothing. `bench lists` has a line for each list: its two
//! sides and its name; `bench calls LIST` counts one. `bench judge` times nothing: it holds lines and readers to the Rust.
use arm_psci::{Function, Mpidr};
use harness::inputs::{AFFINITIES, Rng};
use harness::line::{self, Written};
use harness::rattle::{self, Refusal};
use harness::nine_words::{self, tag};
use harness::{UNKNOWN_TAG, WRONG_PART, inputs, low_half_for_protect, original, refusal};
use std::hint::black_box;
use std::time::Instant;

const ACCEPTED: Refusal = Refusal { number: 0, carried: 0 };

fn refused(e: arm_psci::Error) -> Refusal {
    let (number, carried) = refusal(e);
    Refusal { number, carried }
}

#[inline(always)]
fn decoded(regs: &[u64; 4], out: &mut [u64; 9]) -> Refusal {
    match Function::try_from(regs) {
        Ok(f) => {
            *out = nine_words::call(f);
            ACCEPTED
        }
        Err(e) => refused(e),
    }
}

#[inline(never)]
extern "C" fn rust_decode(regs: &[u64; 4], out: &mut [u64; 9]) -> Refusal {
    decoded(regs, out)
}

#[inline(never)]
extern "C" fn rust_decode_smccc(regs: &[u64; 4], out: &mut [u64; 9]) -> Refusal {
    decoded(&low_half_for_protect(regs), out)
}

#[inline(never)]
extern "C" fn rust_encode(call: &[u64; 9], out: &mut [u64; 4]) -> Refusal {
    if call[0] > tag::LAST {
        return Refusal { number: UNKNOWN_TAG, carried: call[0] };
    }
    let f = nine_words::to_call(call);
    if nine_words::call(f) != *call {
        return Refusal { number: WRONG_PART, carried: 0 };
    }
    f.copy_to_array(out);
    ACCEPTED
}

#[inline(always)]
fn recoded(regs: &[u64; 4], out: &mut [u64; 4]) -> Refusal {
    match Function::try_from(regs) {
        Ok(f) => {
            f.copy_to_array(out);
            ACCEPTED
        }
        Err(e) => refused(e),
    }
}

#[inline(never)]
extern "C" fn rust_recode(regs: &[u64; 4], out: &mut [u64; 4]) -> Refusal {
    recoded(regs, out)
}

#[inline(never)]
extern "C" fn rust_recode_smccc(regs: &[u64; 4], out: &mut [u64; 4]) -> Refusal {
    recoded(&low_half_for_protect(regs), out)
}

#[inline(never)]
extern "C" fn rust_line(number: usize, regs: &[u64; 4], out: &mut [u8; 80]) -> Written {
    line::line(number, regs, out)
}

extern "C" fn nothing<const I: usize, const O: usize>(_: &[u64; I], _: &mut [u64; O]) -> Refusal {
    ACCEPTED
}

extern "C" fn no_line(_: usize, _: &[u64; 4], _: &mut [u8; 80]) -> Written {
    Written { number: 0, value: 0 }
}

/// A C pointer: what it is asked, and what is lent to it.
trait Call: Copy {
    type Asked;
    type Lent;
    const LENT: Self::Lent;
    /// Makes the call and gives a word of its answer and of the lent words.
    fn make(self, asked: &Self::Asked, lent: &mut Self::Lent) -> u64;
}

type Words<const I: usize, const O: usize> = extern "C" fn(&[u64; I], &mut [u64; O]) -> Refusal;

impl<const I: usize, const O: usize> Call for Words<I, O> {
    type Asked = [u64; I];
    type Lent = [u64; O];
    const LENT: [u64; O] = [0; O];
    fn make(self, asked: &[u64; I], lent: &mut [u64; O]) -> u64 {
        let r = self(asked, lent);
        r.number ^ r.carried ^ black_box(&*lent)[1]
    }
}

type Line = extern "C" fn(usize, &[u64; 4], &mut [u8; 80]) -> Written;

impl Call for Line {
    type Asked = (usize, [u64; 4]);
    type Lent = [u8; 80];
    const LENT: [u8; 80] = [0; 80];
    fn make(self, (number, regs): &(usize, [u64; 4]), lent: &mut [u8; 80]) -> u64 {
        let r = self(*number, regs, lent);
        let digits = black_box(&*lent)[16..24].try_into().unwrap();
        r.number ^ r.value ^ u64::from_le_bytes(digits)
    }
}

/// Nanoseconds a call, and a sum of the answers.
#[inline(never)]
fn time<C: Call>(list: &[C::Asked], f: C) -> (f64, u64) {
    let f = black_box(f);
    let mut lent = C::LENT;
    let mut sum = 0u64;
    let start = Instant::now();
    for asked in list {
        sum = sum.rotate_left(1) ^ f.make(asked, &mut lent);
    }
    (start.elapsed().as_secs_f64() * 1e9 / list.len() as f64, sum)
}

/// A list, the two sides that answer it, and a call that does nothing.
struct Pair<C: Call> {
    name: &'static str,
    list: Vec<C::Asked>,
    first: C,
    second: C,
    none: C,
}

/// A pair of any kind of call.
trait Timed {
    fn name(&self) -> &'static str;
    fn calls(&self) -> usize;
    fn run(&self, rounds: usize);
    fn count(&self, side: &str);
}

impl<C: Call> Timed for Pair<C> {
    fn name(&self) -> &'static str {
        self.name
    }

    fn calls(&self) -> usize {
        self.list.len()
    }

    fn run(&self, rounds: usize) {
        let (mut a, mut b) = (f64::MAX, f64::MAX);
        for _ in 0..rounds {
            let (x, s) = time(&self.list, self.first);
            let (y, t) = time(&self.list, self.second);
            assert_eq!(s, t, "{}: different answers", self.name);
            (a, b) = (a.min(x), b.min(y));
        }
        println!("| {} | {a:.2} | {b:.2} | {:.2} |", plain(self.name), b / a);
    }

    fn count(&self, side: &str) {
        let f = match side {
            "first" => self.first,
            "second" => self.second,
            _ => self.none,
        };
        black_box(time(&self.list, f));
    }
}

/// A name as it is printed.
fn plain(name: &str) -> String {
    name.replace('_', " ").replace(':', ",")
}

/// Pairs of the same two sides.
struct Table {
    first: &'static str,
    second: &'static str,
    pairs: Vec<Box<dyn Timed>>,
}

impl Table {
    fn name_lists(&self) {
        self.pairs.iter().for_each(|p| println!("{} {} {}", self.first, self.second, p.name()));
    }

    fn run(&self, rounds: usize) {
        println!("\n| operation and list | {}, ns | {}, ns | ratio |\n|---|---:|---:|---:|", plain(self.first), plain(self.second));
        self.pairs.iter().for_each(|p| p.run(rounds));
    }
}

fn words<const I: usize, const O: usize>(name: &'static str, list: &[[u64; I]], first: Words<I, O>, second: Words<I, O>) -> Box<dyn Timed> {
    Box::new(Pair { name, list: list.to_vec(), first, second, none: nothing as Words<I, O> })
}

/// Each set with the number of a record.
fn numbered(sets: &[[u64; 4]]) -> Vec<(usize, [u64; 4])> {
    sets.iter().enumerate().map(|(i, regs)| (i % (line::MAX_NUMBER + 1), *regs)).collect()
}

fn lines(name: &'static str, sets: &[[u64; 4]]) -> Box<dyn Timed> {
    Box::new(Pair { name, list: numbered(sets), first: rust_line as Line, second: rattle::psci_line, none: no_line })
}

/// Both sides must write what the judge writes: the sum of a timed list sees only a part of each line.
fn judge_lines(sets: &[[u64; 4]]) {
    for (number, regs) in numbered(sets) {
        for side in [rust_line as Line, rattle::psci_line] {
            let mut out = [0; 80];
            assert_eq!((side(number, &regs, &mut out), out), line::judged(number, &regs, [0; 80]), "not the judge's line");
        }
    }
}

type Reader = Words<1, 4>;

fn readers(name: &'static str, registers: &[[u64; 1]]) -> Box<dyn Timed> {
    words(name, registers, rattle::bench_mpidr_whole as Reader, rattle::bench_mpidr_halves)
}

/// Legal words of a 64-bit MPIDR, the same with one of the other bits set, and random words, as many of each; and a list with, at
/// each index, one of the three, drawn.
fn registers(seed: u64, count: usize) -> [Vec<[u64; 1]>; 4] {
    let reserved: Vec<u64> = (0..64).map(|bit| 1 << bit).filter(|bit| bit & AFFINITIES == 0).collect();
    let mut rng = Rng(seed);
    let legal: Vec<[u64; 1]> = (0..count).map(|_| [rng.word() & AFFINITIES]).collect();
    let one_bit: Vec<[u64; 1]> = legal.iter().map(|[word]| [word | reserved[rng.below(reserved.len() as u64) as usize]]).collect();
    let random: Vec<[u64; 1]> = (0..count).map(|_| [rng.word()]).collect();
    let drawn = (0..count).map(|i| [&legal, &one_bit, &random][rng.below(3) as usize][i]).collect();
    [legal, one_bit, random, drawn]
}

/// Both readers must give what the Rust gives, and leave the lent words as they were where it refuses.
fn judge_readers(registers: impl Iterator<Item = u64>) -> usize {
    const LENT: [u64; 4] = [!0; 4];
    registers
        .map(|register| {
            let judged = match Mpidr::try_from(register) {
                Ok(m) => (ACCEPTED, [m.aff0, m.aff1, m.aff2, m.aff3.unwrap()].map(u64::from)),
                Err(e) => (refused(e), LENT),
            };
            for side in [rattle::bench_mpidr_whole as Reader, rattle::bench_mpidr_halves] {
                let mut out = LENT;
                assert_eq!((side(&[register], &mut out), out), judged, "register {register:#x}");
            }
        })
        .count()
}

fn main() {
    let args: Vec<String> = std::env::args().skip(1).collect();
    let word = |i: usize| args.get(i).map_or("", |a| a.as_str());
    let mut mixed = Vec::new();
    inputs::decode_random(1, 1 << 14, &mut |q| mixed.push(q.regs));
    let legal: Vec<[u64; 4]> = mixed.iter().copied().filter(|r| Function::try_from(r).is_ok()).collect();
    let calls: Vec<[u64; 9]> = legal.iter().map(|r| nine_words::call(Function::try_from(r).unwrap())).collect();
    let recode = |name, list: &[[u64; 4]]| words(name, list, rust_recode, rattle::psci_recode);
    let recode_smccc = |name, list: &[[u64; 4]]| words(name, list, rust_recode_smccc, rattle::psci_recode_smccc);
    let decode = |name, list: &[[u64; 4]]| words(name, list, rust_decode, rattle::psci_decode);
    let decode_smccc = |name, list: &[[u64; 4]]| words(name, list, rust_decode_smccc, rattle::psci_decode_smccc);
    let only = |regs: [u64; 4]| vec![regs; 1 << 14];
    let codec = vec![
        recode("decode_then_encode:_mixed", &mixed),
        recode("decode_then_encode:_legal", &legal),
        recode("decode_then_encode:_64-bit_CPU_on", &only([0xc400_0003, 0x1_0002_0304, 0x8_0000, 9])),
        recode("decode_then_encode:_32-bit_CPU_suspend", &only([0x8400_0001, 0x4000_0007, 0x8_0000, 9])),
        recode("decode_then_encode:_CPU_off", &only([0x8400_0002, 0, 0, 0])),
        recode("decode_then_encode:_memory_protect", &only([0x8400_0013, 1 << 32, 0, 0])),
        recode_smccc("decode_then_encode_by_Change_2:_mixed", &mixed),
        recode_smccc("decode_then_encode_by_Change_2:_legal", &legal),
        recode_smccc("decode_then_encode_by_Change_2:_64-bit_CPU_on", &only([0xc400_0003, 0x1_0002_0304, 0x8_0000, 9])),
        recode_smccc("decode_then_encode_by_Change_2:_32-bit_CPU_suspend", &only([0x8400_0001, 0x4000_0007, 0x8_0000, 9])),
        recode_smccc("decode_then_encode_by_Change_2:_CPU_off", &only([0x8400_0002, 0, 0, 0])),
        recode_smccc("decode_then_encode_by_Change_2:_memory_protect", &only([0x8400_0013, 1 << 32, 0, 0])),
        decode("decode:_mixed", &mixed),
        decode("decode:_legal", &legal),
        decode_smccc("decode_by_Change_2:_mixed", &mixed),
        decode_smccc("decode_by_Change_2:_legal", &legal),
        words("encode:_legal", &calls, rust_encode, rattle::psci_encode),
        lines("line:_mixed", &mixed),
        lines("line:_legal", &legal),
    ];
    // legal in both formats of a power state, and so written alike
    let both: Vec<[u64; 4]> = legal.iter().copied().filter(|r| original::register(r[0]).is_none_or(|at| r[at] as u32 & !original::MASKS == 0)).collect();
    let formats = |name, list: &[[u64; 4]]| words(name, list, rattle::psci_recode as Words<4, 4>, rattle::psci_recode_original);
    let format_pairs = vec![
        formats("decode_then_encode:_legal_in_both_formats", &both),
        formats("decode_then_encode_in_both_formats:_64-bit_CPU_on", &only([0xc400_0003, 0x1_0002_0304, 0x8_0000, 9])),
        formats("decode_then_encode_in_both_formats:_32-bit_CPU_suspend", &only([0x8400_0001, 0x0301_0007, 0x8_0000, 9])),
        formats("decode_then_encode_in_both_formats:_CPU_off", &only([0x8400_0002, 0, 0, 0])),
    ];
    let [legal_words, one_bit, random, drawn] = registers(1, 1 << 14);
    let mpidr = vec![
        readers("64-bit_MPIDR:_legal_words", &legal_words),
        readers("64-bit_MPIDR:_one_reserved_bit_set", &one_bit),
        readers("64-bit_MPIDR:_random_words", &random),
        readers("64-bit_MPIDR:_one_of_the_three_drawn", &drawn),
    ];
    let tables = [
        Table { first: "Rust", second: "Rattle", pairs: codec },
        Table { first: "extended", second: "original", pairs: format_pairs },
        Table { first: "whole_register", second: "halves", pairs: mpidr },
    ];
    let named = |name: &str| tables.iter().flat_map(|t| &t.pairs).find(|p| p.name() == name).expect("the name of a list");
    match word(0) {
        "lists" => tables.iter().for_each(Table::name_lists),
        "calls" => println!("{}", named(word(1)).calls()),
        "count" => named(word(1)).count(word(2)),
        "judge" => {
            judge_lines(&mixed);
            let timed = [legal_words, one_bit, random].concat();
            let count = judge_readers(inputs::bounds().into_iter().chain(inputs::sparse()).chain(timed.into_iter().map(|[word]| word)));
            println!("{} lines and {count} registers, no difference", mixed.len());
        }
        rounds => {
            judge_lines(&mixed);
            judge_readers([&legal_words, &one_bit, &random].into_iter().flatten().map(|[word]| *word));
            let rounds = rounds.parse().unwrap_or(300);
            let empty = (0..rounds).map(|_| time(&mixed, nothing as Words<4, 4>).0).fold(f64::MAX, f64::min);
            println!("{} mixed sets, {} of them legal; an empty call takes {empty:.2} ns", mixed.len(), legal.len());
            tables.iter().for_each(|t| t.run(rounds));
        }
    }
}
