//! Links the static library of `crates/dwarf_compare`, which `tools/compare` has built and whose folder it names, and
//! says which gimli is there.

use std::env;
use std::fs;

/// The version of gimli by the lock file, which cargo has written before it runs this.
fn gimli_version() -> Option<String> {
    let folder = env::var("CARGO_MANIFEST_DIR").ok()?;
    let lock = fs::read_to_string(format!("{folder}/Cargo.lock")).ok()?;
    let after = lock.split("name = \"gimli\"\nversion = \"").nth(1)?;
    Some(after.split('"').next()?.to_string())
}

fn main() {
    println!("cargo:rerun-if-changed=build.rs");
    println!("cargo:rerun-if-changed=Cargo.lock");
    println!("cargo:rerun-if-env-changed=COMPARE_LIB");
    let version = gimli_version().unwrap_or_else(|| "unknown".into());
    println!("cargo:rustc-env=GIMLI_VERSION={version}");
    let minor = version.split('.').nth(1).and_then(|it| it.parse::<u32>().ok()).unwrap_or(0);
    // The version whose sets of addresses the program knows.
    println!("cargo:rustc-check-cfg=cfg(gimli_0_34)");
    if minor >= 34 {
        println!("cargo:rustc-cfg=gimli_0_34");
    }
    let folder = env::var("COMPARE_LIB").expect("COMPARE_LIB names the folder of the static library");
    println!("cargo:rustc-link-search=native={folder}");
    println!("cargo:rerun-if-changed={folder}/libdwarf_compare.a");
    println!("cargo:rustc-link-lib=static=dwarf_compare");
}
