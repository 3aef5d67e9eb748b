//! Links the static library of crates/benched, and the kit's C code of the heap, of which RATTLE_C names the folder.

use std::env;

fn main() {
    let top = concat!(env!("CARGO_MANIFEST_DIR"), "/..");
    println!("cargo::rerun-if-changed={top}/crates/benched/out/libbenched.a");
    println!("cargo::rerun-if-env-changed=RATTLE_C");
    println!("cargo::rustc-link-search=native={top}/crates/benched/out");
    println!("cargo::rustc-link-search=native={}", env::var("RATTLE_C").expect("make bench sets RATTLE_C"));
    println!("cargo::rustc-link-lib=static=benched");
    println!("cargo::rustc-link-lib=static=libc_c");
}
