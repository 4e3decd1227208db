//! Links the static library of the proved code, which `host/library` leaves in the root's target folder, or the
//! one in the folder that GANTRYSNIP_LIBRARY names (host/bench).
use std::path::{Path, PathBuf};
use std::{env, process};

fn main() {
    let made = Path::new(&env::var("CARGO_MANIFEST_DIR").unwrap_or_default()).join("../../target/staticlib");
    let folder = env::var("GANTRYSNIP_LIBRARY").map_or(made, PathBuf::from);
    let library = folder.join("libexports.a");
    println!("cargo:rerun-if-changed=build.rs");
    println!("cargo:rerun-if-env-changed=GANTRYSNIP_LIBRARY");
    println!("cargo:rerun-if-changed={}", library.display());
    if !library.exists() {
        eprintln!("gantrysnip: {} is absent; run `host/library`", library.display());
        process::exit(1);
    }
    println!("cargo:rustc-link-search=native={}", folder.display());
    println!("cargo:rustc-link-lib=static=exports");
}
