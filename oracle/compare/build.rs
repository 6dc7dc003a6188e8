//! Links librosmarel.a from the folder that ROSMAREL_LIB_DIR names. `oracle/run` sets it.

use std::{env, fs};

fn main() {
    println!("cargo::rerun-if-changed=build.rs");
    println!("cargo::rerun-if-env-changed=ROSMAREL_LIB_DIR");
    match env::var("ROSMAREL_LIB_DIR") {
        Ok(dir) => link(&dir),
        Err(_) => println!("cargo::error=ROSMAREL_LIB_DIR isn't set: build with oracle/run"),
    }
}

/// The program says which archive it was linked with: its place, length and hash.
fn link(dir: &str) {
    let archive = format!("{dir}/librosmarel.a");
    println!("cargo::rerun-if-changed={archive}");
    println!("cargo::rustc-link-search=native={dir}");
    println!("cargo::rustc-link-lib=static=rosmarel");
    match fs::read(&archive) {
        Ok(bytes) => {
            let (len, hash) = (bytes.len(), fnv(&bytes));
            println!(
                "cargo::rustc-env=ROSMAREL_ARCHIVE={archive}, {len} bytes, FNV-1a {hash:016x}"
            );
        }
        Err(why) => println!("cargo::error={archive}: {why}"),
    }
}

/// The 64-bit FNV-1a hash.
fn fnv(bytes: &[u8]) -> u64 {
    bytes
        .iter()
        .fold(0xcbf2_9ce4_8422_2325, |hash: u64, &byte| {
            (hash ^ u64::from(byte)).wrapping_mul(0x0000_0100_0000_01b3)
        })
}
