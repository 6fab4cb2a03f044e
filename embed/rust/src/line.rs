//! The line of a record.
use crate::archive;

/// A record number above 1,899: refusal 24, with that number.
#[derive(Clone, Copy, Debug, Eq, PartialEq)]
pub struct BadNumber(pub u64);

/// Writes the line of the record of that number with those registers, as a sheet has it, at the front of `out`, and gives its length. The bytes
/// behind it stay; a refusal leaves all of them as they were. Memory protect is written by the low half of r1, as by `recode_smccc`. arm-psci has no
/// such function.
pub fn line(number: usize, regs: &[u64; 4], out: &mut [u8; 80]) -> Result<usize, BadNumber> {
    archive::line(number, regs, out).map_err(BadNumber)
}
