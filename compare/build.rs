//! Says where the static library of the proved entry point lies: in the folder
//! FELLUNQA_LIB_DIR, seen from this package, or where `make lib` puts it.
//! Only the program `entry` links it.

use std::env;
use std::path::Path;

fn main() {
    let package = env::var("CARGO_MANIFEST_DIR").expect("cargo names the package's folder");
    let named = env::var("FELLUNQA_LIB_DIR").ok().filter(|folder| !folder.is_empty());
    let folder = Path::new(&package).join(named.unwrap_or("../target/staticlib".to_string()));
    println!("cargo::rustc-link-search=native={}", folder.display());
    println!("cargo::rerun-if-changed={}", folder.join("libfellunqa.a").display());
    println!("cargo::rerun-if-env-changed=FELLUNQA_LIB_DIR");
}
