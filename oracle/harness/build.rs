//! Hands the programs `direct` and `bench` the archives that they call: those of PSCI_LIB_DIR, or of the folder that `tools/build` writes
//! them to.
fn main() {
    println!("cargo:rerun-if-env-changed=PSCI_LIB_DIR");
    if std::env::var_os("CARGO_FEATURE_RATTLE").is_none() {
        return;
    }
    let here = std::env::var("CARGO_MANIFEST_DIR").unwrap();
    let dir = std::env::var("PSCI_LIB_DIR").unwrap_or(format!("{here}/../../target/staticlib"));
    for (bin, archive) in [
        ("direct", "call_exports"),
        ("direct", "original_exports"),
        ("direct", "line_exports"),
        ("direct", "leftover_exports"),
        ("bench", "call_exports"),
        ("bench", "original_exports"),
        ("bench", "line_exports"),
        ("bench", "mpidr_bench"),
    ] {
        println!("cargo:rerun-if-changed={dir}/lib{archive}.a");
        println!("cargo:rustc-link-arg-bin={bin}={dir}/lib{archive}.a");
    }
}
