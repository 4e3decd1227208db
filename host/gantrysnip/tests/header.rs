//! The header's declarations are those of src/calls.rs, and its sizes those of the library.
use gantrysnip::sizes::*;

const HEADER: &str = include_str!("../../include/gantrysnip.h");
const CALLS: &str = include_str!("../src/calls.rs");

/// Name and parameters, as `type name`, of each declaration that begins with `before`.
fn declarations(text: &str, before: &str, parameter: fn(&str) -> String) -> Vec<(String, Vec<String>)> {
    let declared = text.split(before).skip(1).filter_map(|rest| rest.split_once(')')?.0.split_once('('));
    let calls = declared.filter(|(name, _)| name.starts_with("gantrysnip_"));
    let parts = |list: &str| list.split(',').map(str::trim).filter(|part| !part.is_empty()).map(parameter).collect();
    calls.map(|(name, parameters)| (name.to_string(), parts(parameters))).collect()
}

/// `rows: *mut u64` as C says it.
fn from_rust(parameter: &str) -> String {
    let (name, kind) = parameter.split_once(':').unwrap();
    let kind = match kind.trim() {
        "*mut u64" => "uint64_t *",
        "*const u64" => "const uint64_t *",
        "usize" => "size_t ",
        "u64" => "uint64_t ",
        other => panic!("{other} has no counterpart in the header"),
    };
    format!("{kind}{}", name.trim())
}

fn from_c(parameter: &str) -> String {
    parameter.split_whitespace().collect::<Vec<_>>().join(" ")
}

#[test]
fn the_header_declares_what_the_crate_calls() {
    let in_rust = declarations(CALLS, "pub fn ", from_rust);
    let in_c = declarations(HEADER, "\nuint64_t ", from_c);
    assert_eq!(in_rust.len(), 4);
    assert_eq!(in_c, in_rust);
}

#[test]
fn the_header_has_the_sizes() {
    let sizes = [
        ("ROWS", MAX_ROWS),
        ("SUCCESSORS", MAX_SUCCESSORS),
        ("BATCH", MAX_BATCH),
        ("ROW_WORDS", ROW_WORDS),
        ("SUCCESSOR_WORDS", SUCCESSOR_WORDS),
        ("OPERATION_WORDS", OPERATION_WORDS),
        ("ENTRY_WORDS", ENTRY_WORDS),
        ("ROOM_LENGTH", ROOM_WORDS),
        ("CLOCK_LENGTH", ACTORS),
        ("ANSWER_LENGTH", 3),
    ];
    for (name, size) in sizes {
        assert!(HEADER.contains(&format!("#define GANTRYSNIP_{name} {size}\n")), "{name} is not {size}");
    }
}
