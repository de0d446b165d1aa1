//! Says where the libraries lie: the script `run` names their folder.

use std::env;

fn main() {
    let folder = env::var("FELLUNQA_LIB_DIR").expect("run this package with bench/run");
    println!("cargo::rustc-link-search=native={folder}");
    println!("cargo::rerun-if-changed={folder}");
    println!("cargo::rerun-if-env-changed=FELLUNQA_LIB_DIR");
}
