//! How often each refusal came; memory protect of Change 2's decoder; what of Change 1's format was the Rust's and what linux/psci.h's; and what was
//! left over.
use crate::{MEM_PROTECT, Record, low_half_for_protect, op, original};
use std::fmt;

/// Accepted answers at 0, refused ones at the papers' numbers; a record's own refusals, which are above 1000, together. Of Change 2's decoder the
/// sets of memory protect: those without a high half in r1, which the Rust is asked as they are; those with one, which it is asked cleared; and
/// how many of these have no low half, so that the two decoders differ. Of the operations with an original power state: the answers without one,
/// which are the Rust's as they are; and with one those that were accepted, refused with 26 or 27, and refused otherwise, which is the Rust's
/// again, or the record's own. With leftovers: the accepted sets of which none was left over, those with a bit left over, and the calls written.
pub struct Tally {
    seen: [u64; 64],
    own: u64,
    plain: u64,
    cleared: u64,
    differing: u64,
    stateless: u64,
    states: [u64; 3],
    leftovers: [u64; 3],
}

impl Default for Tally {
    fn default() -> Self {
        Tally { seen: [0; 64], own: 0, plain: 0, cleared: 0, differing: 0, stateless: 0, states: [0; 3], leftovers: [0; 3] }
    }
}

impl Tally {
    #[inline]
    pub fn note(&mut self, answer: &Record) {
        *self.seen.get_mut(answer.refusal as usize).unwrap_or(&mut self.own) += 1;
        if answer.op == op::DECODE_SMCCC && answer.regs[0] as u32 == MEM_PROTECT {
            let r1 = low_half_for_protect(&answer.regs)[1];
            self.plain += (r1 == answer.regs[1]) as u64;
            self.cleared += (r1 != answer.regs[1]) as u64;
            self.differing += (r1 == 0 && answer.regs[1] != 0) as u64;
        }
        if op::ORIGINAL.contains(&answer.op) {
            match answer.refusal {
                _ if !original::has_state(answer) => self.stateless += 1,
                0 => self.states[0] += 1,
                26 | 27 => self.states[1] += 1,
                _ => self.states[2] += 1,
            }
        }
        if answer.refusal == 0 && op::WITH_LEFTOVERS.iter().any(|(_, with)| *with == answer.op) {
            let kind = if op::writing(answer.op).is_none() { 2 } else { (answer.regs != [0; 4]) as usize };
            self.leftovers[kind] += 1;
        }
    }

    /// Whether there were calls of the original format without a power state, and with one that was accepted and one that was refused.
    pub fn has_original(&self) -> bool {
        self.stateless > 0 && self.states[0] > 0 && self.states[1] > 0
    }

    /// Whether there were accepted sets without leftovers and with them, and calls written with them.
    pub fn has_leftovers(&self) -> bool {
        self.leftovers.iter().all(|times| *times > 0)
    }

    /// How often an answer with this one's refusal was noted.
    pub fn times(&self, answer: &Record) -> u64 {
        *self.seen.get(answer.refusal as usize).unwrap_or(&self.own)
    }
}

impl fmt::Display for Tally {
    fn fmt(&self, f: &mut fmt::Formatter<'_>) -> fmt::Result {
        write!(f, "accepted {}, refused", self.seen[0])?;
        for (number, times) in self.seen.iter().enumerate().skip(1).filter(|(_, times)| **times > 0) {
            write!(f, " {number}: {times},")?;
        }
        write!(f, " a record's own {}", self.own)?;
        if self.plain + self.cleared > 0 {
            let Tally { plain, cleared, differing, .. } = self;
            write!(f, "; memory protect {plain} as it is, {cleared} with r1's high half cleared for the Rust, {differing} of these with no low half")?;
        }
        if self.stateless + self.states.iter().sum::<u64>() > 0 {
            let Tally { stateless, states: [accepted, masked, otherwise], .. } = self;
            write!(f, "; in the original format {stateless} without a power state, as the Rust has them; with one {accepted} accepted, ")?;
            write!(f, "{masked} refused by linux/psci.h's masks, {otherwise} otherwise")?;
        }
        if self.leftovers != [0; 3] {
            let [none, some, written] = self.leftovers;
            write!(f, "; of {none} accepted sets nothing left over, of {some} some bit; {written} calls written with leftovers")?;
        }
        Ok(())
    }
}
