//! What the documents show is so: the lines of docs/TEXT.md and the commands of docs/USE.md.
#[path = "command/runs.rs"]
mod runs;

use gantrysnip::{text, Document};
use runs::{run, temporary};

const TEXT: &str = include_str!("../../../docs/TEXT.md");
const USE: &str = include_str!("../../../docs/USE.md");

/// The blocks between ```text and ```.
fn blocks(document: &str) -> Vec<&str> {
    document.split("```text\n").skip(1).filter_map(|rest| Some(rest.split_once("```")?.0)).collect()
}

#[test]
fn the_documented_lines_are_operations() {
    let blocks = blocks(TEXT);
    assert_eq!(blocks.len(), 4);
    for block in blocks {
        let lines = text::operations(block.as_bytes()).unwrap();
        let operations: Vec<_> = lines.iter().map(|line| line.operation).collect();
        assert!(!operations.is_empty());
        let refused = Document::new().merge(&operations).err().map(|refusal| refusal.number());
        let expected = block.starts_with("words").then_some(4);
        assert_eq!(refused, expected, "{block}");
    }
}

#[test]
fn the_documented_commands_and_options_are_there() {
    let documented = USE.split("`gantrysnip ").skip(1).filter_map(|rest| Some(rest.split_once('`')?.0));
    let mut count = 0;
    for line in documented {
        let mut words = line.split(' ');
        let help = run(&[words.next().unwrap(), "--help"]);
        assert_eq!(help.status, 0, "{line}");
        for option in words.filter(|word| word.starts_with("--")) {
            assert!(help.output.contains(option), "{line}");
        }
        count += 1;
    }
    assert_eq!(count, 9);
}

#[test]
fn the_documented_refusal_is_told() {
    let beginning = |with: &str| *blocks(USE).iter().find(|block| block.starts_with(with)).unwrap();
    let file = temporary("documented", beginning("1@0  make list"));
    let told = run(&["merge", &file]);
    assert_eq!(told.status, 1);
    assert!(told.complaint.replace(&file, "ship.txt").ends_with(beginning("gantrysnip: ship.txt:3")));
}
