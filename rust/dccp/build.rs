//! Says whether the sockets may use what Linux has for many datagrams at once, as `src/net/linux.rs` declares it.

use std::env;

fn main() {
    let is = |name, value: &str| env::var(name).is_ok_and(|it| it == value);
    let has_batches = env::var_os("CARGO_FEATURE_BATCHES").is_some()
        && is("CARGO_CFG_TARGET_OS", "linux")
        && is("CARGO_CFG_TARGET_POINTER_WIDTH", "64");
    println!("cargo::rerun-if-changed=build.rs");
    println!("cargo::rustc-check-cfg=cfg(has_batches)");
    if has_batches {
        println!("cargo::rustc-cfg=has_batches");
    }
}
