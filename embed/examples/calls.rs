//! `calls R0 R1 R2 R3`: what firmware does with a power call, in small. Four registers in hexadecimal; out come the call or its refusal, and the
//! record's line as a sheet has it; both by the low half of r1 for memory protect. The example in C, calls.c, prints the same. Firmware that used
//! arm-psci has these names in its code, but for `try_from_smccc`: it has `Function::try_from(&regs)`, which looks at all of r1.
use rampcomfrey as arm_psci;

use arm_psci::{EntryPoint, Error, ErrorCode, Function, Mpidr, PowerState};

/// The core, affinity 3 first if the call has it.
fn core_name(mpidr: Mpidr) -> String {
    let Mpidr { aff0, aff1, aff2, aff3 } = mpidr;
    let first = aff3.map_or(String::new(), |aff3| format!("{aff3}."));
    format!("core {first}{aff2}.{aff1}.{aff0}")
}

fn start(entry: EntryPoint) -> String {
    format!("start at {:#x} with context {:#x}", entry.entry_point_address(), entry.context_id())
}

fn state_name(state: PowerState) -> String {
    match state {
        PowerState::StandbyOrRetention(id) => format!("standby, state {id:#x}"),
        PowerState::PowerDown(id) => format!("power down, state {id:#x}"),
    }
}

/// Four calls in their own words; of any other its function number.
fn told(call: Function) -> Result<String, Error> {
    Ok(match call {
        Function::CpuSuspend { state, entry } => {
            format!("suspend this core: {}; then {}", state_name(state), start(entry))
        }
        Function::CpuOff => "turn off this core".into(),
        Function::CpuOn { target_cpu, entry } => {
            format!("turn on {}: {}", core_name(target_cpu), start(entry))
        }
        Function::MemProtect { enabled } => format!("{} memory protection", if enabled { "enable" } else { "disable" }),
        other => format!("another call, number {:#x}", u32::from(other.function_id()?)),
    })
}

/// 1 to 16 hexadecimal digits, perhaps behind 0x.
fn register(text: String) -> Option<u64> {
    let digits = text.strip_prefix("0x").unwrap_or(&text);
    let good = (1..=16).contains(&digits.len()) && digits.bytes().all(|b| b.is_ascii_hexdigit());
    good.then(|| u64::from_str_radix(digits, 16).unwrap())
}

fn main() {
    let words: Option<Vec<u64>> = std::env::args().skip(1).map(register).collect();
    let Some(Ok(regs)) = words.map(<[u64; 4]>::try_from) else {
        eprintln!("calls: four registers are expected, each of 1 to 16 hexadecimal digits");
        std::process::exit(2);
    };
    match Function::try_from_smccc(&regs).and_then(told) {
        Ok(text) => println!("{text}"),
        // the number and the value of the refusal are in the record's line
        Err(error) => println!("refused: answer {}", i32::from(ErrorCode::from(error))),
    }
    let mut line = [0; 80];
    let size = arm_psci::line(0, &regs, &mut line).expect("record 0 has a line");
    print!("{}", String::from_utf8_lossy(&line[..size]));
}
