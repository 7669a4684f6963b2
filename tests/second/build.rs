//! Links the proved library, libctext.a, if any of its functions is compared.

use std::env;
use std::path::Path;

const FEATURES: [&str; 11] = [
    "CHECK", "READ", "RUN", "NEXT", "RUNS", "LISTED", "WRITE", "RESOURCE", "SETS", "ARCHIVE", "R5",
];

fn main() {
    println!("cargo:rerun-if-changed=build.rs");
    println!("cargo:rerun-if-env-changed=CTEXT_LIB_DIR");
    if !FEATURES.iter().any(|name| is_on(name)) {
        return;
    }
    let folder = archive_folder();
    println!("cargo:rerun-if-changed={folder}/libctext.a");
    println!("cargo:rustc-link-search=native={folder}");
    println!("cargo:rustc-link-lib=static=ctext");
}

fn is_on(feature: &str) -> bool {
    env::var_os(format!("CARGO_FEATURE_{feature}")).is_some()
}

fn archive_folder() -> String {
    if let Ok(folder) = env::var("CTEXT_LIB_DIR") {
        return folder;
    }
    let package = env::var("CARGO_MANIFEST_DIR").expect("cargo names the package's folder");
    Path::new(&package)
        .join("../../crates/ctext/out")
        .display()
        .to_string()
}
