//! Links libwispuddera.a, which `bindings/build` builds: from the folder WISPUDDERA_LIB, or else
//! from bindings/out.
use std::env;
use std::path::PathBuf;

fn main() {
    println!("cargo:rerun-if-env-changed=WISPUDDERA_LIB");
    let here = PathBuf::from(env::var_os("CARGO_MANIFEST_DIR").expect("Cargo sets it"));
    let folder = env::var_os("WISPUDDERA_LIB").map_or_else(|| here.join("../out"), PathBuf::from);
    let library = folder.join("libwispuddera.a");
    // Only a warning: `cargo doc` and `cargo check` need no library.
    if !library.is_file() {
        println!("cargo:warning=there is no {}: run bindings/build, or set WISPUDDERA_LIB to its folder", library.display());
    }
    println!("cargo:rerun-if-changed={}", library.display());
    println!("cargo:rustc-link-search=native={}", folder.display());
    println!("cargo:rustc-link-lib=static=wispuddera");
}
