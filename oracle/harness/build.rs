//! Says where the port's library lies. `MEHKURA_LIBRARY_DIR` names another place than the usual one; a relative path
//! counts from this package.

use std::path::PathBuf;
use std::{env, fs};

/// Where `host/build` puts it.
const USUAL_DIR: &str = "../../target/mehkura/lib";
const VARIABLE: &str = "MEHKURA_LIBRARY_DIR";

fn main() {
    let package = PathBuf::from(env::var_os("CARGO_MANIFEST_DIR").expect("set by cargo"));
    let dir = package.join(env::var_os(VARIABLE).unwrap_or_else(|| USUAL_DIR.into()));
    println!("cargo:rerun-if-env-changed={VARIABLE}");
    println!("cargo:rerun-if-changed=build.rs");
    println!("cargo:rustc-link-search=native={}", dir.display());
    let library = dir.join("libmehkura.a");
    println!("cargo:rerun-if-changed={}", library.display());
    println!("cargo:rustc-link-lib=static=mehkura");
    // Only a warning, so that `cargo check` works without the library.
    if fs::metadata(&library).is_err() {
        println!("cargo:warning=there is no {}: run host/build first, or set {VARIABLE}", library.display());
    }
}
