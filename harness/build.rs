//! Links the proved entries, which `rt lib` writes in crates/reefsplice.

use std::env;

fn main() {
    let home = env::var("CARGO_MANIFEST_DIR").unwrap();
    let library = format!("{home}/../crates/reefsplice/out");
    println!("cargo:rerun-if-changed={library}/libreefsplice.a");
    println!("cargo:rustc-link-search=native={library}");
    println!("cargo:rustc-link-lib=static=reefsplice");
}
