//! Says where the proved library's archive is: in the repository's target
//! folder, or where KHUYUREK_LIB_DIR says.

use std::env;
use std::path::{Path, PathBuf};

const OVERRIDE: &str = "KHUYUREK_LIB_DIR";
const DEFAULT: &str = "../../../target/staticlib";

fn main() {
    let manifest = env::var("CARGO_MANIFEST_DIR").expect("cargo sets the manifest's folder");
    let folder = match env::var(OVERRIDE) {
        Ok(folder) => PathBuf::from(folder),
        Err(_) => Path::new(&manifest).join(DEFAULT),
    };
    println!("cargo:rerun-if-env-changed={OVERRIDE}");
    println!(
        "cargo:rerun-if-changed={}",
        folder.join("libkhuyurek.a").display()
    );
    println!("cargo:rerun-if-changed=build.rs");
    println!("cargo:rustc-link-search=native={}", folder.display());
    println!("cargo:rustc-link-lib=static=khuyurek");
}
