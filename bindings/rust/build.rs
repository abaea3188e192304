//! Links `liblictor.a` from the folder that `LICTOR_LIB` names, or from target/native/PROCESSOR, where tools/native-archive puts it.
//! Where there is none, says which file is missing and how it is made.

use std::{env, path::PathBuf, process};

fn main() {
    println!("cargo:rerun-if-env-changed=LICTOR_LIB");
    println!("cargo:rerun-if-changed=build.rs");
    let processor = env::var("CARGO_CFG_TARGET_ARCH").expect("cargo sets it");
    let here = PathBuf::from(env::var("CARGO_MANIFEST_DIR").expect("cargo sets it"));
    let above = here.join("../..");
    let root = above.canonicalize().unwrap_or(above);
    let (folder, first) = match env::var_os("LICTOR_LIB") {
        Some(named) => (here.join(named), "let LICTOR_LIB name a folder that has it, or unset it and make the archive"),
        None => (root.join("target/native").join(&processor), "let LICTOR_LIB name a folder that has it, or make it"),
    };
    let archive = folder.join("liblictor.a");
    println!("cargo:rerun-if-changed={}", archive.display());
    if !archive.is_file() {
        eprintln!("lictor: there is no archive at {}", archive.display());
        eprintln!(
            "lictor: {first} by {}/tools/native-archive, which takes a TARGET for another processor",
            root.display()
        );
        process::exit(1);
    }
    println!("cargo:rustc-link-search=native={}", folder.display());
    println!("cargo:rustc-link-lib=static=lictor");
}
