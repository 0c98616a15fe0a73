//! Links the archive of the proved library, and writes the table that the factory calls written by hand copy.

use evaluator::calls::factory_shape;
use evaluator::net::Net;
use std::{env, fs};

fn main() {
    let bench = env::var("CARGO_MANIFEST_DIR").expect("cargo sets it");
    println!("cargo::rustc-link-search=native={bench}/../crates/c_api/out");
    println!("cargo::rustc-link-lib=static=c_api");
    println!("cargo::rerun-if-changed={bench}/../crates/c_api/out/libc_api.a");
    let table = format!("{}/factory.rs", env::var("OUT_DIR").expect("cargo sets it"));
    fs::write(table, format!("{:?}\n", Net::of(factory_shape()).numbers)).expect("the table is written");
}
