//! `sheets LISTING PROGRAM SEED COUNT`: runs PROGRAM on the logs of `FIXED` and on COUNT drawn ones, good and damaged, and compares what it writes
//! with the judge's listing, `sheet` or `leftovers`; nothing may come on standard error, and the status is 0. The first log that is answered
//! differently is kept in the working directory, in different.log.
//! `sheets LISTING PROGRAM unreadable`: runs it where standard input can't be read. `sheets LISTING judge`: the judge's listing of standard input.
use harness::inputs;
use harness::sheet::Listing;
use std::fs::File;
use std::io::{Read, Write};
use std::process::{Command, Output, Stdio, exit};

/// A log's damage, or none.
#[derive(Clone, Copy)]
enum Damage { None, Cut, TurnedBit, MoreBytes, LengthField, Front, Empty }

const DAMAGES: [Damage; 9] = [
    Damage::None, Damage::None, Damage::None, Damage::Cut, Damage::TurnedBit, Damage::MoreBytes, Damage::LengthField, Damage::Front,
    Damage::Empty,
];

/// The log of `count` drawn records.
fn records(seed: u64, count: u64) -> Vec<u8> {
    let mut out = vec![1];
    inputs::decode_random(seed, count, &mut |q| {
        out.extend([0, 32]);
        q.regs.iter().for_each(|r| out.extend(r.to_be_bytes()));
    });
    out
}

/// Some records, the greatest number and one more among them, then most often some damage.
fn log(rng: &mut inputs::Rng) -> (bool, Vec<u8>) {
    let count = if rng.below(50) == 0 { 1896 + rng.below(6) } else { rng.below(8) };
    let mut out = records(rng.word(), count);
    let damage = DAMAGES[rng.below(9) as usize];
    match damage {
        Damage::None => {}
        Damage::Cut => out.truncate(rng.below(out.len() as u64 + 1) as usize),
        Damage::TurnedBit => {
            let at = rng.below(out.len() as u64) as usize;
            out[at] ^= 1 << rng.below(8);
        }
        Damage::MoreBytes => out.extend((0..rng.below(40)).map(|_| rng.word() as u8)),
        Damage::LengthField => {
            let at = 1 + 34 * rng.below(count + 1) as usize;
            if at + 2 <= out.len() {
                out[at..at + 2].copy_from_slice(&[(rng.below(2) * rng.below(256)) as u8, (30 + rng.below(5)) as u8]);
            }
        }
        Damage::Front => out[0] = rng.word() as u8,
        Damage::Empty if rng.below(4) == 0 => out.clear(),
        Damage::Empty => out.truncate(1),
    }
    (matches!(damage, Damage::None), out)
}

/// Logs at the limits: whole records, the log's length, its version byte, the length field of the last record; and the last line of the listing,
/// put down by hand. The last line of either listing is the same. 64,601 bytes are 1,900 records; 65,536 are what a program reads at a time.
const FIXED: &[(u64, usize, u8, u8, &str)] = &[
    (1900, 64_601, 1, 32, "end 1900 0"),
    (1900, 64_602, 1, 32, "end 0 20"),
    (1900, 65_535, 1, 32, "end 0 20"),
    (1900, 65_536, 1, 32, "end 0 20"),
    (1900, 65_537, 1, 32, "end 0 20"),
    (1900, 70_000, 1, 32, "end 0 20"),
    (1901, 64_635, 1, 32, "end 0 20"),
    (4000, 136_001, 1, 32, "end 0 20"),
    (1900, 64_602, 2, 32, "end 0 20"), // 20 comes before 19
    (1900, 70_000, 0, 32, "end 0 20"),
    (1900, 64_601, 2, 32, "end 0 19"),
    (1900, 64_600, 1, 32, "end 1899 22"),
    (1900, 64_569, 1, 32, "end 1899 22"), // the length field alone
    (1900, 64_568, 1, 32, "end 1899 22"), // half of it
    (1900, 64_567, 1, 32, "end 1899 0"),
    (1900, 64_600, 1, 31, "end 1899 23"), // 23 comes before a short record's 22
    (1900, 64_569, 1, 33, "end 1899 23"),
    (1900, 64_601, 1, 0, "end 1899 23"),
    (3, 102, 1, 31, "end 2 23"),
    (3, 102, 1, 32, "end 2 22"),
];

/// A log of `FIXED`: cut or filled up to its length with zeros.
fn fixed(count: u64, length: usize, version: u8, field: u8) -> Vec<u8> {
    let mut out = records(count, count);
    let last = 34 * (count as usize - 1) + 2;
    out[0] = version;
    out[last] = field;
    out.resize(length, 0);
    out
}

fn output(program: &str, log: &[u8]) -> Output {
    let piped = Stdio::piped;
    let mut child = Command::new(program).stdin(piped()).stdout(piped()).stderr(piped()).spawn().expect("the program");
    let mut stdin = child.stdin.take().unwrap();
    let sent = log.to_vec();
    // a program that has read enough may close the pipe
    let writer = std::thread::spawn(move || drop(stdin.write_all(&sent)));
    let got = child.wait_with_output().unwrap();
    writer.join().unwrap();
    got
}

/// Stops unless the program writes the judge's listing of the log, which it gives.
fn compare(listing: Listing, program: &str, name: &str, log: &[u8]) -> String {
    let want = listing.of(log);
    let got = output(program, log);
    let wrong = if got.stdout != want.as_bytes() {
        "is answered differently"
    } else if !got.stderr.is_empty() {
        "leaves words on standard error"
    } else if got.status.code() != Some(0) {
        "ends with another status than 0"
    } else {
        return want;
    };
    std::fs::write("different.log", log).unwrap();
    println!("{name} of {} bytes {wrong}: see different.log", log.len());
    exit(1);
}

fn compare_all(listing: Listing, program: &str, seed: u64, count: u64) {
    for (records, length, version, field, last) in FIXED {
        let log = fixed(*records, *length, *version, *field);
        let text = compare(listing, program, &format!("the log that ends with '{last}'"), &log);
        assert_eq!(text.lines().last(), Some(*last), "the judge's last line");
    }
    let mut rng = inputs::Rng(seed);
    let (mut good, mut records) = (0, 0);
    for n in 0..count {
        let (whole, log) = log(&mut rng);
        records += compare(listing, program, &format!("log {n}"), &log).lines().count() - 2;
        good += whole as u64;
    }
    println!("{} fixed logs equal; {count} drawn logs equal, {good} of them undamaged, {records} records", FIXED.len());
}

/// A directory as standard input, and none: no listing, one line on standard error.
fn refuse_unreadable(listing: Listing, program: &str) {
    let unreadable = format!("{}: standard input could not be read\n", listing.name());
    let directory = Command::new(program).stdin(Stdio::from(File::open("/").unwrap())).output().expect("the program");
    let closed = Command::new("sh").args(["-c", "exec \"$0\" <&-", program]).output().expect("a shell");
    for (name, got) in [("a directory", directory), ("no standard input", closed)] {
        if !got.stdout.is_empty() || got.stderr != unreadable.as_bytes() {
            let (out, err) = (String::from_utf8_lossy(&got.stdout), String::from_utf8_lossy(&got.stderr));
            println!("{name}: standard output has {out:?}, standard error {err:?}");
            exit(1);
        }
    }
    println!("a directory and no standard input are told on standard error, with nothing on standard output");
}

fn judge(listing: Listing) {
    let mut log = Vec::new();
    std::io::stdin().read_to_end(&mut log).unwrap();
    print!("{}", listing.of(&log));
}

fn main() {
    let args: Vec<String> = std::env::args().skip(1).collect();
    let args: Vec<&str> = args.iter().map(String::as_str).collect();
    let listing = args.first().and_then(|name| Listing::named(name)).expect("sheet or leftovers");
    match args[1..] {
        ["judge"] => judge(listing),
        [program, "unreadable"] => refuse_unreadable(listing, program),
        [program, seed, count] => compare_all(listing, program, seed.parse().expect("SEED"), count.parse().expect("COUNT")),
        _ => panic!("PROGRAM SEED COUNT, PROGRAM unreadable or judge"),
    }
}
