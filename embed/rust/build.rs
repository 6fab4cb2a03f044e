//! Links the proved archives: those of PSCI_LIB_DIR, or those that the repository builds for the target.
use std::path::Path;

fn stop(text: String) -> ! {
    eprintln!("rampcomfrey: {text}");
    std::process::exit(1)
}

const ARCHIVES: [&str; 4] = ["call_exports", "leftover_exports", "line_exports", "original_exports"];

/// Where the repository has the archives for a target, and what builds them. Targets without an operating system are compiled for strict alignment.
fn of_the_repository(processor: &str, system: &str) -> (&'static str, String) {
    match (processor, system) {
        ("x86_64", _) => ("../../target/staticlib", format!("tools/build {}", ARCHIVES.join(" "))),
        ("aarch64", "none") => ("../../target/aarch64/strict-align", "embed/aarch64".into()),
        ("aarch64", _) => ("../../target/aarch64", "embed/aarch64".into()),
        (other, _) => stop(format!("there are no archives for {other}: set PSCI_LIB_DIR")),
    }
}

fn main() {
    println!("cargo:rerun-if-env-changed=PSCI_LIB_DIR");
    let here = std::env::var("CARGO_MANIFEST_DIR").unwrap();
    let (dir, hint) = match std::env::var("PSCI_LIB_DIR") {
        Ok(dir) => (dir, "PSCI_LIB_DIR names its folder".into()),
        Err(_) => {
            let target = |part: &str| std::env::var(format!("CARGO_CFG_TARGET_{part}")).unwrap();
            let (dir, built_by) = of_the_repository(&target("ARCH"), &target("OS"));
            (format!("{here}/{dir}"), format!("it is built by {built_by}"))
        }
    };
    println!("cargo:rustc-link-search=native={dir}");
    for archive in ARCHIVES {
        let file = format!("{dir}/lib{archive}.a");
        if !Path::new(&file).exists() {
            stop(format!("{file} is missing: {hint}"));
        }
        println!("cargo:rerun-if-changed={file}");
        println!("cargo:rustc-link-lib=static={archive}");
    }
}
