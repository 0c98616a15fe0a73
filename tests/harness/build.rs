//! Links the archive that `rt lib --cpu x86-64` writes in crates/c_api.

use std::path::Path;

fn main() {
    let out = Path::new(env!("CARGO_MANIFEST_DIR")).join("../../crates/c_api/out");
    println!("cargo:rerun-if-changed={}", out.join("libc_api.a").display());
    println!("cargo:rustc-link-search=native={}", out.display());
    println!("cargo:rustc-link-lib=static=c_api");
}
