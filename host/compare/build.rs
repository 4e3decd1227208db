//! Sets the cfg `originals` here too, so that tests that need them are shown as ignored where they are absent.
fn main() {
    println!("cargo:rerun-if-changed=build.rs");
    println!("cargo:rustc-check-cfg=cfg(originals)");
    if std::env::var_os("DEP_ORIGINALS_PRESENT").is_some() {
        println!("cargo:rustc-cfg=originals");
    }
}
