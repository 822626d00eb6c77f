//! Finds libslipseal.a: in the folder that `SLIPSEAL_LIB_DIR` names, else where `bindings/build` puts it.

use std::path::PathBuf;
use std::{env, process};

const FILE: &str = "libslipseal.a";

fn folders() -> Vec<PathBuf> {
    if let Some(folder) = env::var_os("SLIPSEAL_LIB_DIR") {
        return vec![PathBuf::from(folder)];
    }
    let here = env::var_os("CARGO_MANIFEST_DIR").expect("cargo names the crate's folder");
    vec![PathBuf::from(here).join("../../target/lib")]
}

fn main() {
    println!("cargo:rerun-if-env-changed=SLIPSEAL_LIB_DIR");
    let folders = folders();
    for folder in &folders {
        println!("cargo:rerun-if-changed={}", folder.join(FILE).display());
    }
    let Some(folder) = folders.iter().find(|folder| folder.join(FILE).is_file()) else {
        let looked: Vec<String> = folders.iter().map(|folder| folder.display().to_string()).collect();
        eprintln!("slipseal: no {FILE} in {}", looked.join(" or "));
        eprintln!("slipseal: run bindings/build, or set SLIPSEAL_LIB_DIR to the folder that has it");
        process::exit(1);
    };
    println!("cargo:rustc-link-search=native={}", folder.display());
    println!("cargo:rustc-link-lib=static=slipseal");
}
