//! PSCI power calls, decoded and encoded by proved code, with the type, variant and method names of the crate arm-psci.
//!
//! A register set becomes a [`Function`] by `Function::try_from(&regs)`, and a `Function` becomes four words by
//! [`Function::copy_to_array`]. Each goes through the archives that Rattle proves: this crate moves a call's parts to and from the nine words in
//! which the archives hand it over, and decides nothing. So do the words that stand in a call: a power state is read as that of a CPU
//! suspend, an MPIDR as that of a migrate. What no call carries (codes, versions, states, flags, and what [`Mpidr`] has besides), the numbers of
//! enums without data, and [`EntryPoint`]'s accessors are plain Rust as in arm-psci.
//!
//! ```
//! use rampcomfrey::{Function, FunctionId};
//!
//! let call = Function::try_from(&[0xffff_ffff_8400_0002, 7, 0, 0])?;
//! assert_eq!(call, Function::CpuOff);
//! assert_eq!(call.function_id()?, FunctionId::CpuOff);
//!
//! let mut words = [0; 4];
//! call.copy_to_array(&mut words)?;
//! assert_eq!(words, [0x8400_0002, 0, 0, 0]);
//! # Ok::<(), rampcomfrey::Error>(())
//! ```
//!
//! Where arm-psci panics, or merges bit 31 of a vendor's reset type, this crate gives an [`Error`]; docs/EMBEDDING.md lists what firmware has to
//! change for that. Beside arm-psci's reading of registers there is that of the SMC Calling Convention, [`Function::try_from_smccc`]. What decoding
//! ignores is kept by [`Function::try_from_with_leftovers`]. There is no state: all cores may call at once.
//!
//! A board is set to one of two formats of a power state. `Function` is for boards set to the extended format, [`OriginalFunction`] for those set to
//! the original one; registers of one format must not be read as the other.
#![no_std]
#![deny(missing_docs)]
#![deny(unsafe_op_in_unsafe_fn)]

mod answers;
mod archive;
mod error;
mod fields;
mod function;
mod function_id;
mod line;
mod original;
mod parts;

pub use answers::{AffinityInfo, ErrorCode, FeatureFlagsCpuSuspend, FeatureFlagsSystemOff2, HwState, MigrateInfoType, ReturnCode, Version};
pub use error::Error;
pub use fields::{
    ArchitecturalResetType, Cookie, EntryPoint, MemProtectRange, Mpidr, PowerState, PsciFeature, ResetType, SuspendMode, SystemOff2Type,
};
pub use function::{recode, recode_smccc, Function};
pub use function_id::FunctionId;
pub use line::{line, BadNumber};
pub use original::{recode_original, OriginalFunction, OriginalPowerState, StatelessFunction};
