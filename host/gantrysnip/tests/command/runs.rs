//! Runs of the command.
use std::io::Write;
use std::path::Path;
use std::process::{Command, Stdio};

pub struct Run {
    pub status: i32,
    pub output: String,
    pub complaint: String,
}

pub fn run(arguments: &[&str]) -> Run {
    run_with(arguments, b"")
}

/// With this standard input.
pub fn run_with(arguments: &[&str], input: &[u8]) -> Run {
    let mut command = Command::new(env!("CARGO_BIN_EXE_gantrysnip"));
    command.args(arguments).stdin(Stdio::piped()).stdout(Stdio::piped()).stderr(Stdio::piped());
    let mut running = command.spawn().unwrap();
    // a command that complains of its arguments reads nothing
    let _ = running.stdin.take().unwrap().write_all(input);
    let done = running.wait_with_output().unwrap();
    let text = |bytes: Vec<u8>| String::from_utf8(bytes).unwrap();
    // a crash has no code
    Run { status: done.status.code().unwrap_or(-1), output: text(done.stdout), complaint: text(done.stderr) }
}

/// The paths of the built-in example's files.
#[allow(dead_code)]
pub fn example(names: &[&str]) -> Vec<&'static str> {
    let path = |name: &&str| match *name {
        "common" => concat!(env!("CARGO_MANIFEST_DIR"), "/example/common.txt"),
        "ship" => concat!(env!("CARGO_MANIFEST_DIR"), "/example/ship.txt"),
        _ => concat!(env!("CARGO_MANIFEST_DIR"), "/example/shore.txt"),
    };
    names.iter().map(path).collect()
}

/// The path of a file with this text, named apart from those of other tests.
pub fn temporary(name: &str, text: impl AsRef<[u8]>) -> String {
    let path = Path::new(env!("CARGO_TARGET_TMPDIR")).join(format!("{name}-{}.txt", std::process::id()));
    std::fs::write(&path, text).unwrap();
    path.to_str().unwrap().to_string()
}
