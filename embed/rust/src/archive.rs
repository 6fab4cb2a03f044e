//! The functions of the archives, as embed/include/psci.h declares them for C.
use crate::Error;
use core::mem::{align_of, offset_of, size_of};

/// The nine words of a call: its tag, then the parts of its fields in order, then zeros.
pub type NineWords = [u64; 9];

/// 0 and 0, or a refusal's number and what it carries.
#[repr(C)]
struct Refusal {
    number: u64,
    carried: u64,
}

/// 0 and the line's length, or a refusal's number and what it carries.
#[repr(C)]
struct Written {
    number: u64,
    value: u64,
}

// As the header asserts for C.
const _: () = assert!(size_of::<usize>() == 8 && align_of::<u64>() == 8);
const _: () = assert!(size_of::<Refusal>() == 16 && align_of::<Refusal>() == 8);
const _: () = assert!(offset_of!(Refusal, number) == 0 && offset_of!(Refusal, carried) == 8);
const _: () = assert!(size_of::<Written>() == 16 && align_of::<Written>() == 8);
const _: () = assert!(offset_of!(Written, number) == 0 && offset_of!(Written, value) == 8);

// `&[T; n]` and `&mut [T; n]` are thin pointers.
extern "C" {
    fn psci_decode(regs: &[u64; 4], call: &mut NineWords) -> Refusal;
    fn psci_decode_smccc(regs: &[u64; 4], call: &mut NineWords) -> Refusal;
    fn psci_encode(call: &NineWords, out: &mut [u64; 4]) -> Refusal;
    fn psci_recode(regs: &[u64; 4], out: &mut [u64; 4]) -> Refusal;
    fn psci_recode_smccc(regs: &[u64; 4], out: &mut [u64; 4]) -> Refusal;
    fn psci_decode_with_leftovers(regs: &[u64; 4], call: &mut NineWords, leftovers: &mut [u64; 4]) -> Refusal;
    fn psci_decode_smccc_with_leftovers(regs: &[u64; 4], call: &mut NineWords, leftovers: &mut [u64; 4]) -> Refusal;
    fn psci_encode_with_leftovers(call: &NineWords, leftovers: &[u64; 4], out: &mut [u64; 4]) -> Refusal;
    fn psci_decode_original(regs: &[u64; 4], call: &mut NineWords) -> Refusal;
    fn psci_encode_original(call: &NineWords, out: &mut [u64; 4]) -> Refusal;
    fn psci_recode_original(regs: &[u64; 4], out: &mut [u64; 4]) -> Refusal;
    fn psci_line(number: usize, regs: &[u64; 4], out: &mut [u8; 80]) -> Written;
}

fn told(refusal: Refusal) -> Result<(), Error> {
    match refusal.number {
        0 => Ok(()),
        number => Err(Error::from_refusal(number, refusal.carried)),
    }
}

/// The nine words of the call that four registers make.
pub fn decode(regs: &[u64; 4]) -> Result<NineWords, Error> {
    let mut call = [0; 9];
    // SAFETY: the function asks nothing of the words, and references have the length, the alignment and the aliasing that it needs.
    told(unsafe { psci_decode(regs, &mut call) })?;
    Ok(call)
}

/// The same, with the low half of r1 for memory protect.
pub fn decode_smccc(regs: &[u64; 4]) -> Result<NineWords, Error> {
    let mut call = [0; 9];
    // SAFETY: as in `decode`.
    told(unsafe { psci_decode_smccc(regs, &mut call) })?;
    Ok(call)
}

/// Writes the four words of a call; a refusal leaves `out` as it was.
pub fn encode(call: &NineWords, out: &mut [u64; 4]) -> Result<(), Error> {
    // SAFETY: as in `decode`.
    told(unsafe { psci_encode(call, out) })
}

/// Writes the four words of the call that four registers make; a refusal leaves `out` as it was.
pub fn recode(regs: &[u64; 4], out: &mut [u64; 4]) -> Result<(), Error> {
    // SAFETY: as in `decode`.
    told(unsafe { psci_recode(regs, out) })
}

/// The same, with the low half of r1 for memory protect.
pub fn recode_smccc(regs: &[u64; 4], out: &mut [u64; 4]) -> Result<(), Error> {
    // SAFETY: as in `decode`.
    told(unsafe { psci_recode_smccc(regs, out) })
}

/// The nine words of the call that four registers make, and its leftovers.
pub fn decode_with_leftovers(regs: &[u64; 4]) -> Result<(NineWords, [u64; 4]), Error> {
    let (mut call, mut leftovers) = ([0; 9], [0; 4]);
    // SAFETY: as in `decode`.
    told(unsafe { psci_decode_with_leftovers(regs, &mut call, &mut leftovers) })?;
    Ok((call, leftovers))
}

/// The same, with the low half of r1 for memory protect.
pub fn decode_smccc_with_leftovers(regs: &[u64; 4]) -> Result<(NineWords, [u64; 4]), Error> {
    let (mut call, mut leftovers) = ([0; 9], [0; 4]);
    // SAFETY: as in `decode`.
    told(unsafe { psci_decode_smccc_with_leftovers(regs, &mut call, &mut leftovers) })?;
    Ok((call, leftovers))
}

/// Writes the four words of a call, each exclusive-or its leftover; a refusal leaves `out` as it was.
pub fn encode_with_leftovers(call: &NineWords, leftovers: &[u64; 4], out: &mut [u64; 4]) -> Result<(), Error> {
    // SAFETY: as in `decode`.
    told(unsafe { psci_encode_with_leftovers(call, leftovers, out) })
}

/// The nine words of the call that four registers make in the original format.
pub fn decode_original(regs: &[u64; 4]) -> Result<NineWords, Error> {
    let mut call = [0; 9];
    // SAFETY: as in `decode`.
    told(unsafe { psci_decode_original(regs, &mut call) })?;
    Ok(call)
}

/// Writes the four words of a call of the original format; a refusal leaves `out` as it was.
pub fn encode_original(call: &NineWords, out: &mut [u64; 4]) -> Result<(), Error> {
    // SAFETY: as in `decode`.
    told(unsafe { psci_encode_original(call, out) })
}

/// Writes the four words of the call that four registers make in the original format; a refusal leaves `out` as it was.
pub fn recode_original(regs: &[u64; 4], out: &mut [u64; 4]) -> Result<(), Error> {
    // SAFETY: as in `decode`.
    told(unsafe { psci_recode_original(regs, out) })
}

/// Writes a record's line and gives its length, or what the refusal carries; a refusal leaves `out` as it was.
pub fn line(number: usize, regs: &[u64; 4], out: &mut [u8; 80]) -> Result<usize, u64> {
    // SAFETY: as in `decode`.
    match unsafe { psci_line(number, regs, out) } {
        Written { number: 0, value } => Ok(value as usize),
        refused => Err(refused.value),
    }
}
