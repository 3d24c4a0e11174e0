//! Links the engine's archive: the one that ENGINE_ARCHIVE names, or that of `host/staticlib.sh engine`.

use std::path::{Path, PathBuf};

fn main() {
    println!("cargo:rerun-if-env-changed=ENGINE_ARCHIVE");
    let built = Path::new(env!("CARGO_MANIFEST_DIR")).join("../target/staticlib/libengine.a");
    let archive = std::env::var_os("ENGINE_ARCHIVE").map(PathBuf::from).unwrap_or(built);
    assert!(
        archive.ends_with("libengine.a") && archive.is_file(),
        "{} is missing: run `host/staticlib.sh engine`, or name libengine.a with ENGINE_ARCHIVE",
        archive.display()
    );
    println!("cargo:rerun-if-changed={}", archive.display());
    let folder = archive.parent().expect("a folder");
    println!("cargo:rustc-link-search=native={}", folder.display());
    println!("cargo:rustc-link-lib=static=engine");
}
