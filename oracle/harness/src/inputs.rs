//! Questions: boundary values in full, then seeded random ones. What an answer must leave as it is holds odd words.
use crate::nine_words::*;
use crate::{Record, op, oracle, original};
use arm_psci::FunctionId;

/// splitmix64.
pub struct Rng(pub u64);

impl Rng {
    pub fn word(&mut self) -> u64 {
        self.0 = self.0.wrapping_add(0x9e37_79b9_7f4a_7c15);
        let mut z = self.0;
        z = (z ^ (z >> 30)).wrapping_mul(0xbf58_476d_1ce4_e5b9);
        z = (z ^ (z >> 27)).wrapping_mul(0x94d0_49bb_1331_11eb);
        z ^ (z >> 31)
    }
    pub fn below(&mut self, n: u64) -> u64 {
        ((self.word() >> 32) * n) >> 32
    }
    fn of(&mut self, list: &[u64]) -> u64 {
        list[self.below(list.len() as u64) as usize]
    }
}

pub const SET: &[u64] = &[
    0, 1, 2, 3, 4, 0x00ff_ffff, 0x0100_0000, 0x0fff_ffff, 0x1000_0000, 0x4fff_ffff, 0x5000_0000,
    0x7fff_ffff, 0x8000_0000, 0x8000_0001, 0xc000_0000, 0xff00_0000, 0xffff_fff6, 0xffff_fff7,
    0xffff_ffff, 0x1_0000_0000, 0x1_0002_0304, 0xff_00ff_ffff, 0xff_01ff_ffff, 0x100_0000_0000,
    0x8400_0000_0000_0000, 0x7fff_ffff_ffff_ffff, 0x8000_0000_0000_0000, 0xffff_ffff_7fff_ffff,
    0xffff_ffff_8000_0000, 0xffff_ffff_ffff_fff6, 0xffff_ffff_ffff_fff7, 0xffff_ffff_ffff_ffff,
];

/// The bits of a 64-bit MPIDR that hold an affinity: document 01, "The typed call".
pub const AFFINITIES: u64 = 0xff_00ff_ffff;

/// In the order of document 01's table.
const IDS: [FunctionId; 35] = {
    use FunctionId::*;
    [
        PsciVersion, CpuSuspend32, CpuSuspend64, CpuOff, CpuOn32, CpuOn64, AffinityInfo32,
        AffinityInfo64, Migrate32, Migrate64, MigrateInfoType, MigrateInfoUpCpu32,
        MigrateInfoUpCpu64, SystemOff, SystemReset, PsciFeatures, CpuFreeze,
        CpuDefaultSuspend32, CpuDefaultSuspend64, NodeHwState32, NodeHwState64,
        SystemSuspend32, SystemSuspend64, PsciSetSuspendMode, PsciStatResidency32,
        PsciStatResidency64, PsciStatCount32, PsciStatCount64, SystemReset232, SystemReset264,
        MemProtect, MemProtectCheckRange32, MemProtectCheckRange64, SystemOff232, SystemOff264,
    ]
};

pub fn numbers() -> Vec<u64> {
    IDS.iter().map(|id| u32::from(*id) as u64).collect()
}

/// The one feature that is no function's number.
const SMCCC_VERSION: u64 = 0x8000_0000;

/// `SET`, each power of two, one less, its complement, and each function number and its neighbours.
pub fn bounds() -> Vec<u64> {
    let mut out = SET.to_vec();
    for k in 0..64 {
        out.extend([1 << k, (1u64 << k).wrapping_sub(1), !(1 << k)]);
    }
    for n in numbers() {
        out.extend([n - 1, n, n + 1]);
    }
    out.sort();
    out.dedup();
    out
}

/// Words with one or two bits set.
pub fn sparse() -> impl Iterator<Item = u64> {
    (0..64).flat_map(|i| (i..64).map(move |j| (1u64 << i) | (1 << j)))
}

/// Nine words that no value has.
fn odd(salt: u64) -> NineWords {
    [1, 2, 3, 4, 5, 6, 7, 8, 9].map(|i| (salt ^ i).wrapping_mul(0x9e37_79b9_7f4a_7c15) | 1 << 63)
}

pub fn decode(regs: [u64; 4]) -> Record {
    Record { op: op::DECODE, call: odd(regs[0]), regs, ..Record::default() }
}

pub fn read(op: u64, word: u64) -> Record {
    Record { op, call: odd(word), regs: [word, !word, word.rotate_left(9), word ^ 0x5555_5555_5555_5555], ..Record::default() }
}

/// Decode: every number near the two ranges, one and two turned bits of each known number, one and two bits in each
/// register, and all pairs of bounds in r1 and r2.
pub fn decode_bounds(ask: &mut dyn FnMut(Record)) {
    let rest = [[0; 3], [1; 3], [1, 0, 0], [u64::MAX; 3]];
    for base in [0x8000_0000u64, 0x8400_0000, 0xc000_0000, 0xc400_0000] {
        for n in 0..0x400 {
            for high in [0, 1, 0x8400_0002, 0xffff_ffff] {
                for [r1, r2, r3] in rest {
                    ask(decode([high << 32 | (base + n - 0x200), r1, r2, r3]));
                }
            }
        }
    }
    let bounds = bounds();
    for n in numbers() {
        for turned in sparse() {
            for [r1, r2, r3] in rest {
                ask(decode([n ^ turned, r1, r2, r3]));
            }
            ask(decode([n, turned, 0, 0]));
            ask(decode([n, 0, turned, 0]));
            ask(decode([n, 1, turned, 1]));
            ask(decode([n, 0, 0, turned]));
        }
        for &r1 in &bounds {
            for &r2 in &bounds {
                ask(decode([n, r1, r2, r2 ^ r1]));
            }
        }
    }
}

fn some_register(rng: &mut Rng, bounds: &[u64], numbers: &[u64]) -> u64 {
    let word = rng.word();
    let plain = match rng.below(10) {
        0 => word,
        1 => word & AFFINITIES,
        2 => word & 0x00ff_ffff,
        3 => word & 0x4fff_ffff,
        4 => word & 0x0fff_ffff,
        5 => word & 7,
        6 => word & AFFINITIES | 1 << rng.below(64),
        7 => word & 0x4fff_ffff | 1 << rng.below(64),
        8 => rng.of(numbers),
        _ => rng.of(bounds),
    };
    if rng.below(4) == 0 { plain ^ rng.word() << 32 } else { plain }
}

pub fn decode_random(seed: u64, count: u64, ask: &mut dyn FnMut(Record)) {
    let (mut rng, bounds, numbers) = (Rng(seed), bounds(), numbers());
    for _ in 0..count {
        let mut r0 = rng.of(&numbers);
        match rng.below(16) {
            0 => r0 = rng.word(),
            1 => r0 ^= 1 << rng.below(64),
            2..8 => r0 |= rng.word() << 32,
            _ => {}
        }
        let mut reg = || some_register(&mut rng, &bounds, &numbers);
        ask(decode([r0, reg(), reg(), reg()]));
    }
}

/// A question of decode, asked of the decoder for the original format.
pub fn in_original(q: Record) -> Record {
    Record { op: op::DECODE_ORIGINAL, ..q }
}

/// Words at the limits of the original power state: those of the bounds, one or two bits set, and one bit turned in each choice of full fields.
fn original_words() -> Vec<u64> {
    let mut out: Vec<u64> = bounds().into_iter().chain(sparse()).filter(|w| *w < 1 << 32).collect();
    for id in [0, 0xffff] {
        for down in [0, 1 << 16] {
            for level in [0u64, 1, 2, 3] {
                let full = level << 24 | down | id;
                out.push(full);
                out.extend((0..32).map(|bit| full ^ 1 << bit));
            }
        }
    }
    out.sort();
    out.dedup();
    out
}

/// Every question of decode; then words at the limits under each of the six numbers that have a power state, with entries, and with MPIDRs that are
/// accepted and refused, under high halves to be ignored; and the same words to their reader.
pub fn original_bounds(ask: &mut dyn FnMut(Record)) {
    decode_bounds(&mut |q| ask(in_original(q)));
    let fields = [0, 0x03_0201, 0x4_0003_0201, 0xff_00ff_ffff, 0x100_0000, 0xff00_0000, 1 << 40, 1 << 63, u64::MAX];
    for word in original_words() {
        for high in [0, 1, 0xdead_beef, 0xffff_ffff] {
            let state = high << 32 | word;
            for n in original::NUMBERS.map(u64::from) {
                for field in fields {
                    let mut regs = [high << 32 | n, field, field, !field];
                    regs[original::register(n).expect("a number with a power state")] = state;
                    ask(in_original(decode(regs)));
                }
            }
            ask(read(op::READ_POWER_STATE_ORIGINAL, state));
        }
    }
}

/// A word of the original format, mostly legal.
fn some_original(rng: &mut Rng) -> u64 {
    let (word, legal) = (rng.word(), u64::from(original::MASKS));
    match rng.below(8) {
        0 => word,
        1 => word & legal | 1 << rng.below(32),
        2 => legal ^ 1 << rng.below(32),
        3 => word & legal | word >> 32 << 32,
        _ => word & legal,
    }
}

/// Every question of decode; of a set that has a power state also one more set, with a drawn word, and that word to its reader.
pub fn original_random(seed: u64, count: u64, ask: &mut dyn FnMut(Record)) {
    let mut rng = Rng(!seed);
    decode_random(seed, count, &mut |q| {
        ask(in_original(q));
        if let Some(at) = original::register(q.regs[0]) {
            let (word, mut regs) = (some_original(&mut rng), q.regs);
            regs[at] = word;
            ask(in_original(decode(regs)));
            ask(read(op::READ_POWER_STATE_ORIGINAL, word));
        }
    });
}

#[derive(Clone, Copy)]
pub enum Part { Mpidr, Power, Original, Entry, Cookie, Range, Reset, Feature, Word, Bool, Unit, Version, Return, Code, Hw, Id, Refusal }

/// The parts of each case of `Function`.
pub const PARTS: [&[Part]; 22] = {
    use Part::*;
    [
        &[], &[Power, Entry], &[], &[Mpidr, Entry], &[Mpidr, Word], &[Mpidr], &[], &[Bool], &[],
        &[Unit, Cookie], &[], &[Reset, Cookie], &[Bool], &[Range], &[Feature], &[], &[Entry],
        &[Mpidr, Word], &[Entry], &[Bool], &[Mpidr, Power], &[Mpidr, Power],
    ]
};

/// The same where a power state is in the original format.
pub const PARTS_ORIGINAL: [&[Part]; 22] = {
    let mut parts = PARTS;
    parts[1] = &[Part::Original, Part::Entry];
    parts[20] = &[Part::Mpidr, Part::Original];
    parts[21] = parts[20];
    parts
};

fn words32() -> Vec<u64> {
    let mut out: Vec<u64> = bounds().into_iter().filter(|w| *w < 1 << 32).collect();
    out.retain(|w| w & (w.wrapping_sub(1)) == 0 || w & (w + 1) == 0 || SET.contains(w));
    out
}

fn pairs(form: u64, list: &[u64]) -> impl Iterator<Item = Vec<u64>> + '_ {
    list.iter().flat_map(move |a| list.iter().map(move |b| vec![form, *a, *b]))
}

/// A value of the width that the refusal of this number carries.
fn carried(number: u64, word: u64) -> u64 {
    match number {
        4 | 10 => word,
        9 => word as i32 as i64 as u64,
        13 => word as u8 as u64,
        _ => word as u32 as u64,
    }
}

/// The boundary values of a part.
fn domain(part: Part) -> Vec<Vec<u64>> {
    let (few, wide) = ([0, 1, 0x7fff_ffff, 0x8000_0000, 0xffff_ffff], [0, 1, 0xffff_ffff, 1 << 32, 1 << 63, u64::MAX]);
    let bytes = [0u64, 1, 0x7f, 0x80, 0xff];
    let formed = || few.iter().map(|v| vec![0, *v]).chain(wide.iter().map(|v| vec![1, *v]));
    match part {
        Part::Mpidr => {
            let mut out = Vec::new();
            for i in 0..125 {
                let (a, b, c) = (bytes[i / 25], bytes[i / 5 % 5], bytes[i % 5]);
                out.push(vec![0, 0, a, b, c]);
                out.extend(bytes.iter().map(|d| vec![1, *d, a, b, c]));
            }
            out
        }
        Part::Power => words32().into_iter().flat_map(|id| [vec![0, id], vec![1, id]]).collect(),
        Part::Original => {
            let (ids, levels) = ([0, 1, 0x7fff, 0x8000, 0xffff], [0, 1, 2, 3, 4, 0x7f, 0x80, 0xff]);
            (0..80).map(|i| vec![i % 2, ids[i as usize / 2 % 5], levels[i as usize / 10]]).collect()
        }
        Part::Entry | Part::Range => pairs(0, &few).chain(pairs(1, &wide)).collect(),
        Part::Cookie => formed().collect(),
        Part::Reset => std::iter::once(vec![0, 0]).chain(words32().into_iter().map(|v| vec![1, v])).collect(),
        Part::Feature => numbers().into_iter().chain([SMCCC_VERSION]).map(|n| vec![n]).collect(),
        Part::Word => words32().into_iter().map(|w| vec![w]).collect(),
        Part::Bool => vec![vec![0], vec![1]],
        Part::Unit => vec![vec![0]],
        Part::Version => {
            let halves: Vec<u64> = words32().into_iter().filter(|w| *w < 1 << 16).collect();
            halves.iter().flat_map(|a| halves.iter().map(move |b| vec![*a, *b])).collect()
        }
        Part::Return => [vec![0, 0]].into_iter().chain((0..9).map(|i| vec![1, i])).collect(),
        Part::Code => (0..9).map(|i| vec![i]).collect(),
        Part::Hw => (0..3).map(|i| vec![i]).collect(),
        Part::Id => numbers().into_iter().map(|n| vec![n]).collect(),
        Part::Refusal => (1..14).flat_map(|n| bounds().into_iter().map(move |v| vec![n, carried(n, v)])).collect(),
    }
}

fn some_number(rng: &mut Rng) -> u64 {
    u32::from(IDS[rng.below(35) as usize]).into()
}

fn some_part(part: Part, rng: &mut Rng, out: &mut Vec<u64>) {
    let word = rng.word();
    let form = rng.below(2);
    let wide = |w: u64| if form == 0 { w as u32 as u64 } else { w };
    match part {
        Part::Mpidr => {
            let aff3 = if form == 1 && word >> 63 == 1 { word >> 32 & 0xff } else { 0 };
            out.extend([form, aff3, word >> 16 & 0xff, word >> 8 & 0xff, word & 0xff]);
        }
        Part::Power => {
            let id = if rng.below(16) == 0 { word as u32 } else { word as u32 & 0x0fff_ffff };
            out.extend([form, id.into()]);
        }
        Part::Original => {
            let level = if rng.below(8) == 0 { word >> 16 & 0xff } else { word >> 16 & 3 };
            out.extend([form, word & 0xffff, level]);
        }
        Part::Entry | Part::Range => out.extend([form, wide(word), wide(rng.word())]),
        Part::Cookie => out.extend([form, wide(word)]),
        Part::Reset => out.extend([form, if form == 0 { 0 } else { word as u32 as u64 }]),
        Part::Feature => out.push(if form == 0 { some_number(rng) } else { SMCCC_VERSION }),
        Part::Word => out.push(if form == 0 { word & 7 } else { word as u32 as u64 }),
        Part::Bool => out.push(form),
        Part::Unit => out.push(0),
        Part::Version => out.extend([word & if form == 0 { 0xffff } else { 0x7fff }, word >> 16 & 0xffff]),
        Part::Return => out.extend([form, if form == 0 { 0 } else { rng.below(9) }]),
        Part::Code => out.push(rng.below(9)),
        Part::Hw => out.push(rng.below(3)),
        Part::Id => out.push(some_number(rng)),
        Part::Refusal => {
            let number = 1 + rng.below(13);
            out.extend([number, carried(number, word)]);
        }
    }
}

/// `op` over `tag` with the parts, onto registers that a refusal must leave.
fn ask_call(op: u64, tag: u64, parts: &[u64], salt: u64, ask: &mut dyn FnMut(Record)) {
    let regs = [salt, !salt, salt.rotate_left(17), salt ^ 0x5555_5555_5555_5555];
    ask(Record { op, call: nine_words(tag, parts), regs, ..Record::default() });
}

/// All combinations of the boundary values of each call's parts, with its tag.
fn each_call(calls: &[&[Part]; 22], ask: &mut dyn FnMut(u64, &[u64])) {
    for (tag, parts) in calls.iter().enumerate() {
        let mut all = vec![vec![]];
        for part in *parts {
            let next = domain(*part);
            all = all.iter().flat_map(|a: &Vec<u64>| next.iter().map(move |b| [a.clone(), b.clone()].concat())).collect();
        }
        all.iter().for_each(|parts| ask(tag as u64, parts));
    }
}

/// Encode and function number, by their operations: all combinations of the parts' boundary values.
fn encode_all(calls: &[&[Part]; 22], ops: [u64; 2], ask: &mut dyn FnMut(Record)) {
    let mut salt = Rng(0);
    each_call(calls, &mut |tag, parts| {
        for op in ops {
            ask_call(op, tag, parts, salt.word(), ask);
        }
    });
}

pub fn encode_bounds(ask: &mut dyn FnMut(Record)) {
    encode_all(&PARTS, [op::ENCODE, op::FUNCTION_ID], ask);
}

/// Also power states to their writer.
pub fn encode_original_bounds(ask: &mut dyn FnMut(Record)) {
    encode_all(&PARTS_ORIGINAL, [op::ENCODE_ORIGINAL, op::FUNCTION_ID_ORIGINAL], ask);
    for parts in domain(Part::Original) {
        ask_call(op::WRITE_POWER_STATE_ORIGINAL, 0, &parts, parts[1], ask);
    }
}

fn encode_some(calls: &[&[Part]; 22], ops: [u64; 2], seed: u64, count: u64, ask: &mut dyn FnMut(Record)) {
    let mut rng = Rng(seed);
    let mut parts = Vec::with_capacity(8);
    for _ in 0..count {
        let tag = rng.below(22);
        parts.clear();
        for part in calls[tag as usize] {
            some_part(*part, &mut rng, &mut parts);
        }
        if tag == tag::CPU_ON && rng.below(8) != 0 {
            // mostly one form
            parts[5] = parts[0];
            if parts[0] == 0 {
                parts[6] &= 0xffff_ffff;
                parts[7] &= 0xffff_ffff;
            }
        }
        let op = ops[(rng.below(8) == 0) as usize];
        ask_call(op, tag, &parts, rng.word(), ask);
    }
}

pub fn encode_random(seed: u64, count: u64, ask: &mut dyn FnMut(Record)) {
    encode_some(&PARTS, [op::ENCODE, op::FUNCTION_ID], seed, count, ask);
}

/// Of a call that has a power state also that state to its writer.
pub fn encode_original_random(seed: u64, count: u64, ask: &mut dyn FnMut(Record)) {
    encode_some(&PARTS_ORIGINAL, [op::ENCODE_ORIGINAL, op::FUNCTION_ID_ORIGINAL], seed, count, &mut |q| {
        ask(q);
        if let Some(at) = original::state_at(q.call[0]) {
            ask_call(op::WRITE_POWER_STATE_ORIGINAL, 0, &q.call[at..at + 3], q.regs[0], ask);
        }
    });
}

/// The operations that take parts and give one word, and the part that each takes.
pub const WRITERS: [(u64, Part); 18] = [
    (op::WRITE_FUNCTION_ID, Part::Id), (op::WRITE_RETURN_CODE, Part::Return), (op::WRITE_ERROR_CODE, Part::Code),
    (op::WRITE_ERROR_CODE_32, Part::Code), (op::WRITE_ERROR_CODE_64, Part::Code), (op::WRITE_VERSION, Part::Version),
    (op::WRITE_POWER_STATE, Part::Power), (op::WRITE_MPIDR_32, Part::Mpidr), (op::WRITE_MPIDR_64, Part::Mpidr),
    (op::WRITE_OFF_TYPE, Part::Unit), (op::WRITE_ARCHITECTURAL, Part::Unit), (op::WRITE_RESET_TYPE, Part::Reset),
    (op::WRITE_FEATURE, Part::Feature), (op::WRITE_HW_STATE, Part::Hw), (op::WRITE_SUSPEND_MODE, Part::Bool),
    (op::ERROR_TO_CODE, Part::Refusal), (op::ENTRY_ADDRESS, Part::Entry), (op::ENTRY_CONTEXT, Part::Entry),
];

pub fn words_bounds(ask: &mut dyn FnMut(Record)) {
    for op in op::READ_FUNCTION_ID..=op::FROM_AFF210 {
        for word in bounds().into_iter().chain(sparse()) {
            ask(read(op, word));
        }
        for near in 0..0x400u64 {
            for base in [0u64, 0x8000_0000, 0x8400_0000, 0xc400_0000, 1 << 32, 0xffff_ffff_8000_0000, 1 << 63] {
                ask(read(op, base.wrapping_add(near).wrapping_sub(0x200)));
            }
        }
    }
    for (op, part) in WRITERS {
        for parts in domain(part) {
            ask_call(op, 0, &parts, op, ask);
        }
    }
}

pub fn words_random(seed: u64, count: u64, ask: &mut dyn FnMut(Record)) {
    let (mut rng, bounds, numbers) = (Rng(seed), bounds(), numbers());
    let mut parts = Vec::with_capacity(8);
    for _ in 0..count {
        if rng.below(2) == 0 {
            let op = op::READ_FUNCTION_ID + rng.below(18);
            let word = some_register(&mut rng, &bounds, &numbers);
            ask(read(op, if rng.below(4) == 0 { word & 15 ^ rng.below(2).wrapping_neg() } else { word }));
        } else {
            let (op, part) = WRITERS[rng.below(18) as usize];
            parts.clear();
            some_part(part, &mut rng, &mut parts);
            ask_call(op, 0, &parts, rng.word(), ask);
        }
    }
}

/// Parts of an original power state on both sides of what has room, in each call that has one, and to its writer.
fn original_parts(ask: &mut dyn FnMut(Record)) {
    let mut salt = Rng(5);
    for down in [0, 1, 2, 1 << 32, u64::MAX] {
        for id in [0, 0xffff, 0x1_0000, 0x1_0001, 0x1_ffff, 1 << 32, u64::MAX] {
            for level in [0, 3, 4, 0xff, 0x100, 0x101, 0x1ff, 1 << 32, u64::MAX] {
                for op in [op::ENCODE_ORIGINAL, op::FUNCTION_ID_ORIGINAL] {
                    ask_call(op, tag::CPU_SUSPEND, &[down, id, level, 1, 2, 3], salt.word(), ask);
                    ask_call(op, tag::STAT_RESIDENCY, &[0, 0, 3, 2, 1, down, id, level], salt.word(), ask);
                    ask_call(op, tag::STAT_COUNT, &[1, 4, 3, 2, 1, down, id, level], salt.word(), ask);
                }
                ask_call(op::WRITE_POWER_STATE_ORIGINAL, 0, &[down, id, level], salt.word(), ask);
            }
        }
    }
}

/// Records that ask for nothing: operations and tags that there aren't, parts of an original power state that have no room, and each word of a
/// value's turned in one bit. An operation's first byte is not from 0x20 to 0x7e, which makes a label of the record; its neighbours do not.
pub fn malformed(ask: &mut dyn FnMut(Record)) {
    let none = [12, 15, 35, 47, 67, 1 << 32, 0x1fff_ffff_ffff_ffff, 0x7f00_0000_0000_0000, u64::MAX];
    for op in none {
        ask(Record { op, call: odd(op), regs: [op; 4], ..Record::default() });
    }
    original_parts(ask);
    let mut salt = Rng(3);
    for tag in [22, 23, 255, 1 << 32, u64::MAX] {
        for op in [op::ENCODE, op::FUNCTION_ID, op::ENCODE_ORIGINAL, op::FUNCTION_ID_ORIGINAL] {
            ask_call(op, tag, &[0; 8], salt.word(), ask);
        }
    }
    let calls = (0..22).flat_map(|tag| [(op::ENCODE, tag, PARTS[tag as usize]), (op::ENCODE_ORIGINAL, tag, PARTS_ORIGINAL[tag as usize])]);
    let writers = WRITERS.iter().chain(&[(op::WRITE_POWER_STATE_ORIGINAL, Part::Original)]);
    let all: Vec<(u64, u64, &[Part])> = calls.chain(writers.map(|(op, part)| (*op, 0, std::slice::from_ref(part)))).collect();
    for _ in 0..20 {
        let seed = salt.word();
        for (op, tag, parts) in all.iter().copied() {
            let mut words = Vec::new();
            parts.iter().for_each(|part| some_part(*part, &mut Rng(seed), &mut words));
            for part in 1..9 {
                for bit in [0, 8, 16, 31, 32, 63] {
                    let mut call = nine_words(tag, &words);
                    call[part] ^= 1 << bit;
                    ask(Record { op, call, regs: [seed, !seed, 1, 2], ..Record::default() });
                }
            }
        }
    }
}

/// A question of decode, asked of Change 2's decoder.
pub fn smccc(q: Record) -> Record {
    Record { op: op::DECODE_SMCCC, ..q }
}

/// A question of a decoder or of encode asked with leftovers, those of encode being the words that it was to write onto; any other is left out. What a
/// decoder accepts is also written with the leftovers that it gave.
fn with_leftovers(q: Record, ask: &mut dyn FnMut(Record)) {
    let Some((_, op)) = op::WITH_LEFTOVERS.into_iter().find(|(without, _)| *without == q.op) else { return };
    let asked = Record { op, ..q };
    ask(asked);
    if let Some(op) = op::writing(op) {
        let got = oracle(&asked);
        if got.refusal == 0 {
            ask(Record { op, ..got });
        }
    }
}

/// The kinds that have questions for `with_leftovers`.
const KINDS_WITH_LEFTOVERS: [&str; 5] = ["decode", "smccc", "original", "encode", "original-encode"];

/// The plans by name; the random ones take a seed and a count.
pub fn plan(name: &str, seed: u64, count: u64, ask: &mut dyn FnMut(Record)) {
    match name {
        "decode-bounds" => decode_bounds(ask),
        "encode-bounds" => encode_bounds(ask),
        "words-bounds" => words_bounds(ask),
        "smccc-bounds" => decode_bounds(&mut |q| ask(smccc(q))),
        "original-bounds" => original_bounds(ask),
        "original-encode-bounds" => encode_original_bounds(ask),
        "leftovers-bounds" => {
            KINDS_WITH_LEFTOVERS.into_iter().for_each(|kind| plan(&format!("{kind}-bounds"), seed, count, &mut |q| with_leftovers(q, ask)))
        }
        "malformed" => malformed(&mut |q| {
            ask(q);
            with_leftovers(q, ask);
        }),
        "decode" => decode_random(seed, count, ask),
        "encode" => encode_random(seed, count, ask),
        "words" => words_random(seed, count, ask),
        "smccc" => decode_random(seed, count, &mut |q| ask(smccc(q))),
        "original" => original_random(seed, count, ask),
        "original-encode" => encode_original_random(seed, count, ask),
        "leftovers" => KINDS_WITH_LEFTOVERS.into_iter().for_each(|kind| plan(kind, seed, count, &mut |q| with_leftovers(q, ask))),
        _ => panic!("no plan {name}"),
    }
}
