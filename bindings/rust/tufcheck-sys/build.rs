//! Tells the linker where libtufcheck is: in the folder `TUFCHECK_LIB_DIR`, or else in that which
//! `pkg-config` names, or else where it looks for libraries. By the feature `static` the library
//! becomes part of the program.

use std::env;
use std::process::Command;

fn folder() -> Option<String> {
    env::var("TUFCHECK_LIB_DIR").ok().or_else(|| {
        let tool = env::var_os("PKG_CONFIG").unwrap_or_else(|| "pkg-config".into());
        let said = Command::new(tool).args(["--variable=libdir", "tufcheck"]).output().ok()?;
        let named = String::from_utf8(said.stdout).ok()?;
        said.status.success().then(|| named.trim().to_string())
    })
}

fn main() {
    for name in ["TUFCHECK_LIB_DIR", "PKG_CONFIG", "PKG_CONFIG_PATH"] {
        println!("cargo:rerun-if-env-changed={name}");
    }
    if let Some(folder) = folder() {
        println!("cargo:rustc-link-search=native={folder}");
    }
    let is_static = env::var_os("CARGO_FEATURE_STATIC").is_some();
    println!("cargo:rustc-link-lib={}=tufcheck", if is_static { "static" } else { "dylib" });
}
