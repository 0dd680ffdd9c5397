//! Links the proved code, which `rt lib` writes in crates/reefsplice and in crates/probe.

use std::env;

fn main() {
    let home = env::var("CARGO_MANIFEST_DIR").unwrap();
    for name in ["reefsplice", "probe"] {
        let folder = format!("{home}/../crates/{name}/out");
        println!("cargo:rerun-if-changed={folder}/lib{name}.a");
        println!("cargo:rustc-link-search=native={folder}");
        println!("cargo:rustc-link-lib=static={name}");
    }
}
