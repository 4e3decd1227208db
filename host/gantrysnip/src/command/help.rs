//! What each command is for, and what the numbers mean.
use super::{arguments::Arguments, fine, Failure, Outcome};
use gantrysnip::explanation;

pub const ALL: &str = "\
gantrysnip merges operations on documents of maps and lists: the same operations give the same document, in whatever
order and batches they come.

  gantrysnip merge FILE..                            merge the operations of files
  gantrysnip picture [--clock CLOCK] [--svg] FILE..  show what the merged document holds
  gantrysnip spot --list ID --target N FILE..        find where a new element of a list goes
  gantrysnip compare A B                             tell whether two files make the same document
  gantrysnip explain NUMBER                          tell what a number of an answer means
  gantrysnip example                                 ship and shore, built in

Each has --help. A file has an operation on each line, as in
  1@0 set counter 12 in root at \"crew\"
docs/TEXT.md has the whole form. The file - is the standard input. An operation that stands in several files, word for
word, counts once.
Exit status: 0 fine, 1 refused or different, 2 wrong use or bad input.
";

const EACH: &[(&str, &str)] = &[
    (
        "merge",
        "\
usage: gantrysnip merge [--rows] FILE..

Merges the operations of all files into the empty document, in batches of 256 by ascending id, and writes all merged
operations by ascending id: a file that can be merged again. What was done, and on long input how far it is, goes to
the error output. A refusal names file and line, and nothing is written.

  --rows   write the document's rows and successors instead, as the engine keeps them
",
    ),
    (
        "picture",
        "\
usage: gantrysnip picture [--clock CLOCK] [--svg] FILE..

Merges the files and shows all that is visible: the object, the key or element, the value and the operation that set
it. Where several stand at one key or element they are in conflict, and the one with the greatest id wins.

  --clock CLOCK   look at a part of the operations only: for each actor the last counter, as in 6@0,7@1; actors that
                  are not named are left out; or nothing, or everything, which is as without a clock
  --svg           a drawing instead: lists as trees of what was inserted after what, conflicts in red
",
    ),
    (
        "spot",
        "\
usage: gantrysnip spot --list ID --target N [--clock CLOCK] FILE..

Merges the files and tells after which element an insert goes that is to stand just after the N-th visible element of
a list (0: before all), and at which row it will be placed.

  --list ID       the id of the list's make, as in 1@0
  --target N      0 to the count of visible elements
  --clock CLOCK   as for the picture
",
    ),
    (
        "compare",
        "\
usage: gantrysnip compare A B

Merges each of the two files by itself and compares the documents field for field. Equal documents have merged the
same operations. If they differ, the first operation, row and successor that differ are told, and the exit status is 1.
",
    ),
    (
        "explain",
        "\
usage: gantrysnip explain NUMBER

Tells what a number from 0 to 12 of an answer means, and what can be done about it.
",
    ),
    (
        "example",
        "\
usage: gantrysnip example

Ship and shore edit one document apart, merge both ways, and end with the same document; a certificate that the shore
has revoked stays revoked.
",
    ),
];

/// The line that says how a command is used.
pub fn usage(command: &str) -> &'static str {
    let text = EACH.iter().find(|(name, _)| *name == command).and_then(|(_, text)| text.lines().next());
    text.unwrap_or("usage: gantrysnip merge, picture, spot, compare, explain or example; --help tells more")
}

/// `help`, `help COMMAND` and `COMMAND --help`.
pub fn asked(words: &[String]) -> Result<Outcome, Failure> {
    let Some(command) = words.first() else { return fine(ALL) };
    match EACH.iter().find(|(name, _)| name == command) {
        Some((_, text)) => fine(*text),
        None => Err(Failure::usage(format!("there is no command {command:?}"), "")),
    }
}

pub fn explain(arguments: &Arguments) -> Result<Outcome, Failure> {
    let [number] = &arguments.files[..] else {
        return Err(arguments.misused("one number is explained"));
    };
    let known = number.parse().ok().and_then(|number: u64| Some((number, explanation(number)?)));
    let (number, (sentence, advice)) =
        known.ok_or_else(|| arguments.misused(format!("the numbers go from 0 to 12, not {number:?}")))?;
    fine(format!("{number}: {sentence}\n{advice}\n"))
}
