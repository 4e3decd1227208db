//! The calls from C: tests/c/use.c compiled against include/gantrysnip.h and the static library, and run.
use std::path::Path;
use std::process::Command;
use std::{env, fs};

fn compiler() -> Option<String> {
    let named = env::var("CC").ok();
    let candidates = named.into_iter().chain(["cc", "clang", "gcc"].map(String::from));
    let runs = |name: &String| Command::new(name).arg("--version").output().is_ok_and(|out| out.status.success());
    candidates.into_iter().find(runs)
}

#[test]
fn a_c_program_uses_the_calls() {
    let Some(compiler) = compiler() else {
        println!("there is no C compiler (cc, clang, gcc): tests/header.rs alone looks at the header");
        return;
    };
    let here = Path::new(env!("CARGO_MANIFEST_DIR"));
    let library = here.join("../../target/staticlib/libexports.a");
    let folder = Path::new(env!("CARGO_TARGET_TMPDIR"));
    let program = folder.join("use");
    let mut command = Command::new(&compiler);
    command.args(["-std=c99", "-Wall", "-Wextra", "-Werror", "-I"]).arg(here.join("../include"));
    let built = command.arg(here.join("tests/c/use.c")).arg(library).arg("-o").arg(&program).output().unwrap();
    assert!(built.status.success(), "{compiler}: {}", String::from_utf8_lossy(&built.stderr));
    let run = Command::new(&program).output().unwrap();
    assert!(run.status.success(), "{}", String::from_utf8_lossy(&run.stderr));
    assert_eq!(run.stdout, b"the calls answer C as documented\n");
    fs::remove_file(program).unwrap();
}
