//! Links the static library that `bindings/build` makes, and tests that it has all functions that this crate calls.
use std::collections::HashSet;
use std::path::PathBuf;
use std::{env, fs, process};

/// The file that declares the functions.
const DECLARATIONS: &str = include_str!("src/raw.rs");

/// The functions that the crate declares and the library lacks. The library has a zero before and after each name.
fn missing(library: &[u8]) -> Vec<&'static str> {
    let names: HashSet<&[u8]> = library.split(|byte| *byte == 0).collect();
    let declared = DECLARATIONS.split("fn ").filter_map(|rest| rest.split('(').next());
    declared.filter(|name| name.starts_with("ipnet_") && !names.contains(name.as_bytes())).collect()
}

fn main() {
    println!("cargo:rerun-if-env-changed=IPNET_LIB");
    let folder = match env::var_os("IPNET_LIB") {
        Some(folder) => PathBuf::from(folder),
        None => PathBuf::from(env::var_os("CARGO_MANIFEST_DIR").unwrap()).join("../out"),
    };
    let path = folder.join("libipnet.a");
    match fs::read(&path) {
        // `cargo check` and editors need no library. If it is missing, only the linker fails, after this line.
        Err(_) => println!(
            "cargo:warning={} is missing: run ./install --user at the top of the repository, which needs seconds, and \
             set IPNET_LIB to $HOME/.local/lib; or prove and build it here by bindings/build",
            path.display()
        ),
        Ok(library) => {
            let missing = missing(&library);
            if !missing.is_empty() {
                eprintln!(
                    "{} has no function {}: this crate is newer than the library. Take the crate of the library's \
                     commit, which releases/*/MADE-OF names: ipnet-proved = {{ git = \"..\", rev = \"..\" }}. Or prove \
                     and build the library of this commit: ./install --prove, or bindings/build",
                    path.display(),
                    missing.join(", ")
                );
                process::exit(1);
            }
        }
    }
    println!("cargo:rerun-if-changed={}", path.display());
    println!("cargo:rustc-link-search=native={}", folder.display());
    println!("cargo:rustc-link-lib=static=ipnet");
}
