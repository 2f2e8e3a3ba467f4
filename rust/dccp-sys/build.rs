//! Links the library for C from the folder DCCP_PREFIX, in which `tools/library FOLDER` of this repository has installed it.

use std::env;
use std::fs;
use std::path::Path;

/// The ABI number for which this crate is written: that of `include/dccp.h`.
const ABI: &str = "5";

/// The ABI number of the library in a folder, by its header.
fn abi_of(prefix: &Path) -> Option<String> {
    let header = fs::read_to_string(prefix.join("include/dccp.h")).ok()?;
    let line = header
        .lines()
        .find_map(|it| it.strip_prefix("#define DCCP_ABI "))?;
    line.split_whitespace().next().map(str::to_owned)
}

fn main() {
    println!("cargo::rerun-if-env-changed=DCCP_PREFIX");
    if env::var_os("DOCS_RS").is_some() {
        // The documentation is built without the library.
        return;
    }
    let Ok(prefix) = env::var("DCCP_PREFIX") else {
        println!(
            "cargo::error=set DCCP_PREFIX to the folder into which tools/library has installed the library"
        );
        return;
    };
    let prefix = Path::new(&prefix);
    if let Some(found) = abi_of(prefix).filter(|it| it != ABI) {
        println!(
            "cargo::error=the library in DCCP_PREFIX has ABI number {found}, and this crate needs {ABI}"
        );
        return;
    }
    let libraries = prefix.join("lib");
    for read in [
        libraries.join("libdccp.a"),
        libraries.join("libdccp_heap.a"),
        prefix.join("include/dccp.h"),
    ] {
        println!("cargo::rerun-if-changed={}", read.display());
    }
    println!("cargo::rustc-link-search=native={}", libraries.display());
    println!("cargo::rustc-link-lib=static=dccp");
    println!("cargo::rustc-link-lib=static=dccp_heap");
}
