//! Links the proved library: the archive that MRC_C names, or the one that `tools/archive` writes.

use std::path::{Path, PathBuf};
use std::{env, fs, process};

fn main() {
    let archive = archive();
    println!("cargo:rerun-if-env-changed=MRC_C");
    println!("cargo:rerun-if-changed={}", archive.display());
    if !archive.is_file() {
        eprintln!(
            "the archive of the proved library is missing: {}\n\
             make it with `tools/archive` in the project's root, or name another one in MRC_C",
            archive.display()
        );
        process::exit(1);
    }
    let folder = variable("OUT_DIR");
    fs::copy(&archive, Path::new(&folder).join("libmrc_c.a")).expect("a copy of the archive");
    println!("cargo:rustc-link-search=native={folder}");
    println!("cargo:rustc-link-lib=static=mrc_c");
    println!("cargo:rustc-env=MRC_C_ARCHIVE={folder}/libmrc_c.a");
}

fn archive() -> PathBuf {
    let here = PathBuf::from(variable("CARGO_MANIFEST_DIR"));
    let root = here.ancestors().nth(2).expect("rust/mrc below the root");
    let usual = root.join("target/staticlib/libmrc_c.a");
    env::var_os("MRC_C").map_or(usual, PathBuf::from)
}

fn variable(name: &str) -> String {
    env::var(name).unwrap_or_else(|_| panic!("cargo sets {name}"))
}
