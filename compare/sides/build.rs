//! Links the static library RINGLINDEN_LIB. Where it isn't there, what needs no call of ours can still be built.

use std::{env, path::PathBuf};

fn main() {
    println!("cargo:rerun-if-env-changed=RINGLINDEN_LIB");
    println!("cargo:rerun-if-changed=build.rs");
    let workspace = PathBuf::from(env::var("CARGO_MANIFEST_DIR").unwrap()).parent().unwrap().to_path_buf();
    let lib = workspace.join(env::var("RINGLINDEN_LIB").unwrap_or_else(|_| "../target/staticlib/libringlinden.a".into()));
    println!("cargo:rerun-if-changed={}", lib.display());
    match lib.canonicalize() {
        Ok(lib) => {
            println!("cargo:rustc-link-search=native={}", lib.parent().unwrap().display());
            println!("cargo:rustc-link-lib=static={}", lib.file_stem().unwrap().to_str().unwrap().trim_start_matches("lib"));
        }
        Err(e) => println!("cargo:warning={}: {e}; say by RINGLINDEN_LIB where the static library is", lib.display()),
    }
}
