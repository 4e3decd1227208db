//! The command as a user meets it: what it writes, what it complains of, and its exit status.
#[path = "command/runs.rs"]
mod runs;

use compare::generate;
use compare::random::Random;
use gantrysnip::{text, Operation};
use runs::{example, run, run_with, temporary};

#[test]
fn merging_writes_operations_that_merge_to_the_same_document() {
    let (both, apart) = (example(&["common", "ship", "shore"]), example(&["shore", "common", "ship"]));
    let merged = run(&[&["merge"][..], &both].concat());
    assert_eq!(merged.status, 0);
    assert!(merged.complaint.contains("merged 10 operations, batches: 1, rows: 9, successors: 5"));
    assert_eq!(run(&[&["merge"][..], &apart].concat()).output, merged.output);
    let again = run_with(&["merge", "-"], merged.output.as_bytes());
    assert_eq!((again.status, again.output), (0, merged.output));
}

#[test]
fn operations_that_stand_in_several_files_count_once() {
    let files = example(&["common", "ship", "common"]);
    let merged = run(&[&["merge"][..], &files].concat());
    assert_eq!(merged.status, 0);
    assert!(merged.complaint.contains("merged 7 operations, 4 of them more than once"), "{}", merged.complaint);
}

#[test]
fn rows_and_successors_are_listed() {
    let files = example(&["common", "ship", "shore"]);
    let listed = run(&[&["merge", "--rows"][..], &files].concat());
    assert!(listed.output.contains("6    3@0 set unsigned 815 in 1@0 after 2@0\n"));
    assert!(listed.output.contains("3          7@0 over 4@0, adding 2\n"));
}

#[test]
fn long_input_is_merged_with_progress() {
    let line = |n: usize| format!("{n}@0 set unsigned {n} in root at \"key {n}\"\n");
    // the last first: files need not be in order
    let many: String = (1..=2100).rev().map(line).collect();
    let merged = run_with(&["merge", "-"], many.as_bytes());
    assert_eq!(merged.status, 0);
    for step in ["merged 1024 of 2100 operations", "merged 2048 of", "merged 2100 of", "batches: 9, rows: 2100"] {
        assert!(merged.complaint.contains(step), "{}", merged.complaint);
    }
    assert_eq!(merged.output.lines().next(), Some("1@0 set unsigned 1 in root at \"key 1\""));
    let more: String = (2101..=4097).map(line).collect();
    let full = run_with(&["merge", "-"], (many + &more).as_bytes());
    assert_eq!((full.status, full.output.as_str()), (1, ""));
    assert!(full.complaint.contains("refused with 9"));
}

#[test]
fn histories_are_merged() {
    for seed in 0..5 {
        let mut all: Vec<Operation> =
            generate::operations(&mut Random::new(seed)).iter().map(|op| Operation::from_words(op.0)).collect();
        let merged = run_with(&["merge", "-"], text::written(&all).as_bytes());
        all.sort_by_key(Operation::id);
        assert_eq!(merged.output, text::written(&all));
    }
}

#[test]
fn a_picture_is_a_table() {
    let files = example(&["common", "ship", "shore"]);
    let shown = run(&[&["picture"][..], &files].concat());
    let expected = "\
object  key or element  shows         by   note
root    \"certificates\"  list          1@0
root    \"crew\"          counter 13    4@0
1@0     5@1             unsigned 99   5@1
1@0     3@0             unsigned 816  6@0  conflict
1@0     3@0             unsigned 820  6@1  conflict, wins
";
    assert_eq!((shown.status, shown.output.as_str()), (0, expected));
}

#[test]
fn a_picture_under_a_clock_shows_what_it_covers() {
    let files = example(&["common", "ship", "shore"]);
    let before = run(&[&["picture", "--clock=4@0"][..], &files].concat());
    assert!(before.output.contains("counter 12 ") && before.output.contains("unsigned 4711  2@0"));
    let nothing = run(&[&["picture", "--clock", "nothing"][..], &files].concat());
    assert_eq!(nothing.output.lines().count(), 1);
    let all = run(&[&["picture", "--clock", "everything"][..], &files].concat());
    assert_eq!(all.output, run(&[&["picture"][..], &files].concat()).output);
}

#[test]
fn a_counter_that_outgrows_64_bits_is_marked() {
    let text = b"1@0 set counter 9223372036854775807 in root at \"c\"\n2@0 increment 1 in root at \"c\" over 1@0";
    let shown = run_with(&["picture", "-"], text);
    assert!(shown.output.contains("counter beyond 64 bits"));
}

#[test]
fn a_drawing_has_the_tree_and_the_conflict() {
    let files = example(&["common", "ship", "shore"]);
    let drawn = run(&[&["picture", "--svg"][..], &files].concat()).output;
    assert!(drawn.starts_with("<svg xmlns=") && drawn.ends_with("</svg>\n"));
    // two elements beside each other after 2@0, which is gone; two values in conflict, one of which wins
    for (what, count) in [("class=\"branch\"", 3), ("class=\"hole\"", 1), ("class=\"clash", 2), ("clash wins", 1)] {
        assert_eq!(drawn.matches(what).count(), count, "{what}");
    }
    assert_eq!(drawn.matches('<').count(), drawn.matches('>').count());
}

#[test]
fn a_drawing_escapes_keys() {
    let drawn = run_with(&["picture", "--svg", "-"], b"1@0 make map in root at \"<&\\\"\\x01\"").output;
    assert!(drawn.contains(">&quot;&lt;&amp;\\&quot;\\x01&quot;</text>"), "{drawn}");
}

#[test]
fn a_spot_is_told() {
    let files = example(&["common", "ship", "shore"]);
    let asked = |list: &str, target: &str| run(&[&["spot", "--list", list, "--target", target][..], &files].concat());
    assert_eq!(asked("1@0", "0").output, "after head\nrow 4, counted from 0\n");
    assert_eq!(asked("1@0", "2").output, "after 3@0\nrow 9, counted from 0\n");
    for (list, target, complaint) in [("1@0", "3", "refused with 10"), ("4@0", "0", "refused with 12")] {
        let refused = asked(list, target);
        assert_eq!((refused.status, refused.output.as_str()), (1, ""));
        assert!(refused.complaint.contains(complaint));
    }
}

#[test]
fn documents_are_compared() {
    let [common, ship, shore] = ["common", "ship", "shore"].map(|name| example(&[name])[0]);
    let texts = [common, ship, shore].map(|file| std::fs::read_to_string(file).unwrap());
    let there = temporary("there", [&texts[0][..], &texts[1], &texts[2]].concat());
    let back = temporary("back", [&texts[2][..], &texts[1], &texts[0]].concat());
    let alone = temporary("alone", [&texts[0][..], &texts[1]].concat());
    let equal = run(&["compare", &there, &back]);
    assert_eq!((equal.status, equal.output.as_str()), (0, "equal: 10 operations, 9 rows, 5 successors\n"));
    let different = run(&["compare", &there, &alone]);
    let expected = format!(
        "different\n\
         the first operation that differs, by id\n  {there}: 5@0 delete in 1@0 on 2@0 over 2@0\n  {alone}: none\n\
         row 2, counted from 0\n  {there}: 7@0 increment 2 in root at \"crew\"\n  \
         {alone}: 7@1 increment -1 in root at \"crew\"\n\
         successor 0, counted from 0\n  {there}: 5@0 over 2@0\n  {alone}: 6@1 over 3@0\n"
    );
    assert_eq!((different.status, different.output), (1, expected));
}

#[test]
fn numbers_are_explained() {
    for number in 0..=12 {
        let explained = run(&["explain", &number.to_string()]);
        assert!(explained.status == 0 && explained.output.starts_with(&format!("{number}: ")));
    }
    assert_eq!(run(&["explain", "13"]).status, 2);
}

#[test]
fn the_example_ends_in_one_document() {
    let shown = run(&["example"]);
    assert_eq!(shown.status, 0);
    for sentence in ["equal, field for field", "revoked on both", "refused with 5", "Certificate 2@0 stays revoked."] {
        assert!(shown.output.contains(sentence), "{sentence}");
    }
}
