//! Lays the originals, read from the folder that ORACLE_SRC names or from ../shared/docs/src, and the
//! stand-ins side by side in OUT_DIR/tree, so that the originals' own `mod` and `use` lines resolve.
//! Without that folder the crate is built as a stub that says so.
use std::path::{Path, PathBuf};
use std::{env, fs};

#[path = "build/sha256.rs"]
mod sha256;

/// The whole patch: (file, text appended at its end). Nothing is cut or replaced.
const PATCHES: &[(&str, &str)] = &[("op_set2/change/batch.rs", "\ninclude!(\"hook.rs\");\n")];

fn stop(sentence: &str) -> ! {
    eprintln!("{sentence}");
    std::process::exit(1)
}

/// An empty ORACLE_SRC says that there are no originals.
fn folder_of_originals(here: &Path) -> Option<PathBuf> {
    match env::var("ORACLE_SRC") {
        Ok(name) if name.is_empty() => None,
        Ok(name) => {
            if !Path::new(&name).is_dir() {
                stop(&format!("ORACLE_SRC names {name}, which is no folder."));
            }
            Some(name.into())
        }
        Err(_) => {
            let beside = here.join("../../../shared/docs/src");
            // so that they are noticed when they come
            println!("cargo:rerun-if-changed={}", beside.display());
            Some(beside).filter(|beside| beside.is_dir())
        }
    }
}

fn copy_folder(from: &Path, to: &Path) {
    fs::create_dir_all(to).unwrap();
    for entry in fs::read_dir(from).unwrap().map(Result::unwrap) {
        let (source, copy) = (entry.path(), to.join(entry.file_name()));
        if source.is_dir() {
            copy_folder(&source, &copy);
        } else {
            fs::copy(source, copy).unwrap();
        }
    }
}

fn lay_out(original: &Path, file: &str, checksum: &str, tree: &Path) {
    println!("cargo:rerun-if-changed={}", original.display());
    let mut text =
        fs::read_to_string(original).unwrap_or_else(|e| stop(&format!("The original {file} cannot be read: {e}.")));
    let changed = sha256::hex(text.as_bytes()) != checksum;
    // the mutation check alone edits originals on purpose
    if changed && env::var_os("ORACLE_MUTANT").is_none() {
        stop(&format!("The original {file} is not the one whose checksum is pinned in host/oracle/originals.sha256."));
    }
    for (_, tail) in PATCHES.iter().filter(|(patched, _)| *patched == file) {
        text.push_str(tail);
    }
    let copy = tree.join(file);
    assert!(!copy.exists(), "A stand-in hides the original {file}.");
    fs::create_dir_all(copy.parent().unwrap()).unwrap();
    fs::write(copy, text).unwrap();
}

fn main() {
    println!("cargo:rerun-if-env-changed=ORACLE_SRC");
    println!("cargo:rerun-if-env-changed=ORACLE_MUTANT");
    for ours in ["build.rs", "build", "originals.sha256", "standins"] {
        println!("cargo:rerun-if-changed={ours}");
    }
    println!("cargo:rustc-check-cfg=cfg(originals)");
    let here = PathBuf::from(env::var("CARGO_MANIFEST_DIR").unwrap());
    let Some(originals) = folder_of_originals(&here) else { return };
    let tree = Path::new(&env::var("OUT_DIR").unwrap()).join("tree");
    if tree.exists() {
        fs::remove_dir_all(&tree).unwrap();
    }
    copy_folder(&here.join("standins"), &tree);
    for line in fs::read_to_string(here.join("originals.sha256")).unwrap().lines() {
        let (checksum, file) = line.split_once("  ").expect("originals.sha256: a checksum, two blanks, a file");
        lay_out(&originals.join(file), file, checksum, &tree);
    }
    println!("cargo:rustc-cfg=originals");
    println!("cargo:present=1");
}
