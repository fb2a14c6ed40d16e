// Links the proved library: libarcs.a in ARCS_LIB_DIR, or where tools/native-lib writes it.
use std::{env, path::PathBuf};

fn main() {
    let dir = env::var_os("ARCS_LIB_DIR").map_or_else(|| PathBuf::from(env!("CARGO_MANIFEST_DIR")).join("../target/native"), PathBuf::from);
    let archive = dir.join("libarcs.a");
    println!("cargo:rerun-if-env-changed=ARCS_LIB_DIR");
    println!("cargo:rerun-if-changed={}", archive.display());
    if !archive.exists() {
        panic!("{} is missing: run `tools/native-lib`, or set ARCS_LIB_DIR to the folder that has it", archive.display());
    }
    println!("cargo:rustc-link-search=native={}", dir.display());
    println!("cargo:rustc-link-lib=static=arcs");
}
