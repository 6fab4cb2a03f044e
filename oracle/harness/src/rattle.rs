//! The functions of the archives `call_exports`, `original_exports` and `line_exports`; of `leftover_exports`, which the program `direct` alone links;
//! and of `mpidr_bench`, which `bench` alone links.
//! Nothing checks these declarations against the Rattle source but the comparison itself.
use crate::line::Written;

/// A refusal's number and what it carries, or twice 0.
#[repr(C)]
#[derive(Clone, Copy, Debug, Eq, PartialEq)]
pub struct Refusal {
    pub number: u64,
    pub carried: u64,
}

unsafe extern "C" {
    // `&[T; n]` and `&mut [T; n]` are thin pointers.
    pub safe fn psci_decode(regs: &[u64; 4], out: &mut [u64; 9]) -> Refusal;
    pub safe fn psci_decode_smccc(regs: &[u64; 4], out: &mut [u64; 9]) -> Refusal;
    pub safe fn psci_encode(call: &[u64; 9], out: &mut [u64; 4]) -> Refusal;
    pub safe fn psci_recode(regs: &[u64; 4], out: &mut [u64; 4]) -> Refusal;
    pub safe fn psci_recode_smccc(regs: &[u64; 4], out: &mut [u64; 4]) -> Refusal;
    pub safe fn psci_decode_original(regs: &[u64; 4], out: &mut [u64; 9]) -> Refusal;
    pub safe fn psci_encode_original(call: &[u64; 9], out: &mut [u64; 4]) -> Refusal;
    pub safe fn psci_recode_original(regs: &[u64; 4], out: &mut [u64; 4]) -> Refusal;
    pub safe fn psci_decode_with_leftovers(regs: &[u64; 4], call: &mut [u64; 9], leftovers: &mut [u64; 4]) -> Refusal;
    pub safe fn psci_decode_smccc_with_leftovers(regs: &[u64; 4], call: &mut [u64; 9], leftovers: &mut [u64; 4]) -> Refusal;
    pub safe fn psci_encode_with_leftovers(call: &[u64; 9], leftovers: &[u64; 4], out: &mut [u64; 4]) -> Refusal;
    pub safe fn psci_line(number: usize, regs: &[u64; 4], out: &mut [u8; 80]) -> Written;
    pub safe fn bench_mpidr_halves(register: &[u64; 1], out: &mut [u64; 4]) -> Refusal;
    pub safe fn bench_mpidr_whole(register: &[u64; 1], out: &mut [u64; 4]) -> Refusal;
}
