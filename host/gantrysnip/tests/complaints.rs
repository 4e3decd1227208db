//! Bad input gets file, line and a reason, wrong use a line that helps; nothing crashes.
#[path = "command/runs.rs"]
mod runs;

use compare::random::Random;
use runs::{run, run_with, temporary};

const GROUND: &str = "1@0 make list in root at \"r\"\n2@0 set null in 1@0 after head\n3@0 make map in root at \"m\"\n";

#[test]
fn a_bad_line_is_named() {
    let file = temporary("bad-line", format!("{GROUND}\n4@0 set unsigned ten in root at \"k\"\n"));
    for command in ["merge", "picture"] {
        let bad = run(&[command, &file]);
        assert_eq!((bad.status, bad.output.as_str()), (2, ""));
        assert!(bad.complaint.contains(&format!("{file}:5: \"ten\" is no whole number")), "{}", bad.complaint);
    }
    let no_text = run_with(&["merge", "-"], b"1@0 make map in root at \"k\"\n\xff\n");
    assert_eq!(no_text.status, 2);
    assert!(no_text.complaint.contains("-:2: this is no UTF-8 text"));
}

#[test]
fn a_refusal_has_its_line_and_its_reason() {
    let cases = [
        ("4@0 delete in root at \"m\"", 4, "A delete is over at least one operation."),
        ("4@0 delete in 1@0 after 2@0", 4, "A delete is no insert: on names the element."),
        ("4@0 increment 1 in root at \"m\"", 4, "An increment is over at least one operation."),
        ("4@0 set null in 1@0 after 2@0 over 2@0", 4, "An insert is over nothing."),
        ("2@0 set true in 1@0 after head", 5, "-:2: 2@0 set null in 1@0 after head"),
        ("4@0 set null in 9@9 at \"k\"", 6, "No operation of the input has the id 9@9."),
        ("4@0 set null in 2@0 at \"k\"", 6, "2@0 makes neither a map nor a list."),
        ("4@0 set null in 1@0 at \"k\"", 6, "1@0 is a list: it has elements and no keys."),
        ("4@0 set null in 3@0 after head", 6, "3@0 is a map: it has keys and no elements."),
        ("4@0 set null in root after head", 6, "Root is a map: it has keys and no elements."),
        ("2@1 set null in 3@0 at \"k\"", 6, "3@0 is not smaller than 2@1."),
        ("4@0 set null in 1@0 on 9@9", 7, "No operation of the input has the id 9@9."),
        ("4@0 set null in 1@0 after 3@0", 7, "3@0 is no insert, so no element has its name."),
        ("4@0 set null in root at \"m\" over 1@0", 8, "1@0 stands at another key or element."),
        ("4@0 set null in root at \"m\" over 9@9", 8, "No operation of the input has the id 9@9."),
    ];
    for (line, number, reason) in cases {
        let refused = run_with(&["merge", "-"], format!("{GROUND}# one more\n{line}\n").as_bytes());
        assert_eq!((refused.status, refused.output.as_str()), (1, ""), "{line}");
        assert!(refused.complaint.contains(&format!("-:5: refused with {number}: ")), "{}", refused.complaint);
        assert!(refused.complaint.contains(reason), "{}", refused.complaint);
    }
}

#[test]
fn wrong_use_is_answered_with_the_usage() {
    let cases: &[&[&str]] = &[
        &[],
        &["grow"],
        &["merge"],
        &["merge", "--fast", "-"],
        &["picture", "--clock"],
        &["picture", "--clock", "x", "-"],
        &["picture", "--clock", "1@64", "-"],
        &["picture", "--svg", "--svg", "-"],
        &["picture", "--svg=1", "-"],
        &["spot", "-"],
        &["spot", "--list", "1@0", "-"],
        &["spot", "--list", "1", "--target", "0", "-"],
        &["spot", "--list", "1@0", "--target", "-1", "-"],
        &["compare", "-"],
        &["compare", "a", "b", "c"],
        &["explain"],
        &["explain", "x"],
        &["example", "a"],
        &["help", "grow"],
    ];
    for arguments in cases {
        let misused = run(arguments);
        assert_eq!((misused.status, misused.output.as_str()), (2, ""), "{arguments:?}");
        assert!(misused.complaint.contains("usage: gantrysnip"), "{arguments:?}: {}", misused.complaint);
    }
}

#[test]
fn a_file_that_is_not_there_is_named() {
    let missing = run(&["picture", "no such file"]);
    assert_eq!(missing.status, 2);
    assert!(missing.complaint.contains("no such file: "));
    assert_eq!(run(&["picture", env!("CARGO_TARGET_TMPDIR")]).status, 2);
}

#[test]
fn each_command_has_help() {
    assert!(run(&["--help"]).output.contains("gantrysnip explain NUMBER"));
    for command in ["merge", "picture", "spot", "compare", "explain", "example"] {
        let help = run(&[command, "--help"]);
        assert!(help.status == 0 && help.output.starts_with(&format!("usage: gantrysnip {command}")));
        assert_eq!(run(&["help", command]).output, help.output);
    }
    assert!(run(&["--version"]).output.starts_with("gantrysnip "));
}

#[test]
fn garbage_never_crashes_the_command() {
    let mut random = Random::new(11);
    let words = ["1@0", "2@0", "set", "null", "make", "list", "in", "root", "at", "\"k\"", "over", "delete", "after"];
    for _ in 0..150 {
        let mut text: Vec<u8> = vec![];
        for _ in 0..random.below(30) {
            text.extend(random.pick(&words).bytes());
            text.push(*random.pick(b"  \n\"\\\xff"));
        }
        let command = random.pick(&[&["merge", "-"][..], &["picture", "-"], &["picture", "--svg", "-"]]).to_vec();
        let status = run_with(&command, &text).status;
        assert!([0, 1, 2].contains(&status), "{command:?} {text:?}");
    }
}

#[cfg(unix)]
#[test]
fn odd_arguments_and_closed_pipes_do_no_harm() {
    use std::ffi::OsStr;
    use std::os::unix::ffi::OsStrExt;
    use std::process::{Command, Stdio};
    let gantrysnip = || Command::new(env!("CARGO_BIN_EXE_gantrysnip"));
    let odd = gantrysnip().arg(OsStr::from_bytes(b"\xff")).output().unwrap();
    assert_eq!(odd.status.code(), Some(2));
    let mut running = gantrysnip().arg("example").stdout(Stdio::piped()).stderr(Stdio::piped()).spawn().unwrap();
    drop(running.stdout.take());
    drop(running.stderr.take());
    assert_eq!(running.wait().unwrap().code(), Some(0));
}
