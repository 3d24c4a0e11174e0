//! Links the port's archives, which LEAVES_ARCHIVE and ENGINE_ARCHIVE name. They are copied into one folder, so that no other of the same name
//! is found first.

use std::path::Path;
use std::{env, fs};

fn main() {
    let out = env::var("OUT_DIR").expect("OUT_DIR");
    println!("cargo:rustc-link-search=native={out}");
    for name in ["leaves", "engine"] {
        let variable = format!("{}_ARCHIVE", name.to_uppercase());
        println!("cargo:rerun-if-env-changed={variable}");
        let file = format!("lib{name}.a");
        let archive = env::var(&variable).unwrap_or_else(|_| panic!("{variable} must name {file}"));
        println!("cargo:rerun-if-changed={archive}");
        assert!(Path::new(&archive).ends_with(&file), "{archive} is no {file}");
        fs::copy(&archive, Path::new(&out).join(&file))
            .unwrap_or_else(|e| panic!("{archive}: {e}"));
        println!("cargo:rustc-link-lib=static={name}");
    }
}
