//! Edits made up from the words of a definition, line by line: a word for another of its kind, a number for the next,
//! an operand or a step left out.
use crate::mutation::Mutation;

/// Words that can take each other's place, and the module that has them.
const EXCHANGED: [(&str, &[&str]); 14] = [
    ("Rattle.std.specs.Prelude", &["ltb", "leb"]),
    ("Rattle.std.specs.Prelude", &["true", "false"]),
    ("Rattle.std.specs.Prelude", &["take", "drop"]),
    ("Rattle.model.specs.Basic", &["any", "all"]),
    ("Rattle.model.specs.Row", &["id_of", "object_of", "named_of", "element_of"]),
    (
        "Rattle.model.specs.Row",
        &["key_kind_of", "key_length_of", "insert_of", "action_of", "value_kind_of", "value_of", "pred_count_of"],
    ),
    ("Rattle.model.specs.Row", &["owner_of", "succ_of", "carries_of", "carried_of"]),
    (
        "Rattle.model.specs.Row",
        &["is_make_map", "is_set", "is_make_sequence", "is_delete", "is_increment", "is_set_or_make"],
    ),
    ("Rattle.model.specs.Row", &["is_insert", "on_list", "is_counter"]),
    ("Rattle.model.specs.Kinds", &["map_key", "list_key"]),
    ("Rattle.model.specs.Kinds", &["make_map", "set", "make_list", "delete", "increment"]),
    (
        "Rattle.model.specs.Kinds",
        &["null_kind", "boolean_kind", "unsigned_kind", "signed_kind", "float_kind", "counter_kind", "timestamp_kind"],
    ),
    ("Rattle.model.specs.Sizes", &["max_rows", "max_succs", "max_batch", "max_preds", "max_key", "word_bytes"]),
    (
        "Rattle.model.specs.Sizes",
        &["row_words", "op_words", "succ_words", "entry_words", "room_words", "actors", "answer_width"],
    ),
];

/// The same for what a definition names itself: its variables and the fields of its records.
const OWN: [&[&str]; 15] = [
    &["&&", "||"],
    &[".rows", ".succs"],
    &[".batch", ".room", ".clock", ".out"],
    &["rows", "succs", "batch", "room", "clock", "out", "answer"],
    &["x", "y"],
    &["xs", "ys"],
    &["a", "b"],
    &["s", "t"],
    &["n", "m", "k"],
    &["o", "e"],
    &["v", "w"],
    &["before", "after"],
    &["root", "1"],
    &["head", "1"],
    &["earlier", "b"],
];

/// Tests of two things that are told apart by their order.
const ORDERED: [&str; 6] = ["ltb", "leb", "lex_before", "before", "succ_before", "one_key"];

/// Numbers that nothing is below: to be one of them is to be at most it.
const ZEROS: [&str; 5] = ["0", "root", "head", "null_kind", "make_map"];

/// Steps that leave a list a list, or a test a test, where they and their first argument are left out.
const STEPS: [&str; 7] = ["filter", "sort", "take", "drop", "up_to_last", "map", "insert"];
const BARE_STEPS: [&str; 3] = ["not", "once", "suc"];

const OPERATORS: [&str; 10] = ["&&", "||", "implies", "++", "∷", "otherwise", "+ℤ", "+", "-", "*"];
const ENDS: [&str; 8] = ["if", "then", "else", "in", "=", ";", ",", "let"];

/// A word of a line: where it starts and ends.
#[derive(Clone, Copy)]
struct Word<'a> {
    start: usize,
    end: usize,
    text: &'a str,
}

impl Word<'_> {
    /// Nothing to its left, or right, belongs to an operand on its other side.
    fn parts(&self) -> bool {
        OPERATORS.contains(&self.text) || ENDS.contains(&self.text) || self.text.ends_with('.')
    }
}

/// All edits of a file, each of a whole line, in their order and none twice.
pub fn edits(file: &str, text: &str) -> Vec<Mutation> {
    let mut all: Vec<Mutation> = vec![];
    for (start, line) in lines(text).filter(|(_, line)| defines(line)) {
        let nth = text[..start + line.len()].matches(line).count();
        for to in edited(line) {
            let edit = Mutation { file: file.into(), nth, from: line.into(), to, unnoticed: None };
            if !all.contains(&edit) {
                all.push(edit);
            }
        }
    }
    all
}

fn lines(text: &str) -> impl Iterator<Item = (usize, &str)> {
    text.split_inclusive('\n').scan(0, |start, line| {
        let here = *start;
        *start += line.len();
        Some((here, line.trim_end_matches('\n')))
    })
}

/// Is it a line of a definition's body, and no comment, import, or signature?
fn defines(line: &str) -> bool {
    let mut words = line.split_whitespace();
    let (first, second) = (words.next().unwrap_or("--"), words.next().unwrap_or_default());
    let declares = ["--", "use", "abbrev", "unfoldable", "pub", "infix", "infixl", "infixr", "module", "unfolding"];
    !declares.contains(&first) && second != ":" && !line.ends_with(" =")
}

/// The line with each edit made.
fn edited(line: &str) -> Vec<String> {
    let body = line.find(" = ").map_or(0, |at| at + 3);
    let words: Vec<Word> = words(line).into_iter().filter(|word| word.start >= body).collect();
    let mut all = vec![];
    let mut put = |start: usize, end: usize, to: &str| all.push([&line[..start], to, &line[end..]].concat());
    let mut bound = false;
    for (at, word) in words.iter().enumerate() {
        bound = word.text == "λ" || bound && !words[at - 1].text.ends_with('.');
        for other in others(word.text).iter().filter(|_| !bound) {
            put(word.start, word.end, other);
        }
        if ORDERED.contains(&word.text) {
            if let Some((first, second)) = two(&words, at) {
                let swapped = format!("{} {}", &line[second.0..second.1], &line[first.0..first.1]);
                put(first.0, second.1, &swapped);
            }
        }
        if word.text == "eqb" && two(&words, at).is_some_and(|(_, second)| !ZEROS.contains(&&line[second.0..second.1]))
        {
            put(word.start, word.end, "Rattle.std.specs.Prelude.leb");
        }
        if STEPS.contains(&word.text) {
            if let Some((first, _)) = argument(&words, at + 1) {
                put(word.start, first.1, "");
            }
        }
        if BARE_STEPS.contains(&word.text) {
            put(word.start, word.end, "");
        }
        if word.text == "if" {
            if let Some(then) = words[at..].iter().find(|other| other.text == "then") {
                put(
                    word.end,
                    then.start,
                    &format!(" Rattle.std.specs.Prelude.not ({}) ", line[word.end..then.start].trim()),
                );
            }
        }
        if OPERATORS.contains(&word.text) {
            let (left, right) = (operand_before(&words, at), operand_after(&words, at));
            if left < word.start {
                put(left, word.end, "");
            }
            if word.text != "∷" && right > word.end {
                put(word.start, right, "");
            }
        }
    }
    all
}

/// Names and numbers, brackets and separators by themselves.
fn words(line: &str) -> Vec<Word<'_>> {
    let mut all: Vec<Word> = vec![];
    let alone = |c: char| "(){};,".contains(c);
    let mut start = None;
    for (at, c) in line.char_indices().chain([(line.len(), ' ')]) {
        if c.is_whitespace() || alone(c) {
            if let Some(start) = start.take() {
                all.push(Word { start, end: at, text: &line[start..at] });
            }
            if alone(c) {
                all.push(Word { start: at, end: at + 1, text: &line[at..at + 1] });
            }
        } else if start.is_none() {
            start = Some(at);
        }
    }
    all
}

/// What can stand in a word's place.
fn others(word: &str) -> Vec<String> {
    if let Ok(number) = word.replace('_', "").parse::<u64>() {
        return [number.checked_add(1), number.checked_sub(1)].into_iter().flatten().map(|n| n.to_string()).collect();
    }
    if let Some(dot) = word.find('.').filter(|dot| *dot > 0 && dot + 1 < word.len()) {
        return others(&word[dot..]).iter().map(|field| [&word[..dot], field].concat()).collect();
    }
    let own = OWN.iter().filter(|group| group.contains(&word)).map(|group| next(group, word).into());
    let exchanged = EXCHANGED.iter().filter(|(_, group)| group.contains(&word));
    own.chain(exchanged.map(|(module, group)| format!("{module}.{}", next(group, word)))).collect()
}

/// The word behind this one in its group, the first behind the last.
fn next<'a>(group: &[&'a str], word: &str) -> &'a str {
    let at = group.iter().position(|name| *name == word).unwrap_or_default();
    group[(at + 1) % group.len()]
}

/// Where the two arguments behind a word start and end: a word or a bracket each.
fn two(words: &[Word], at: usize) -> Option<((usize, usize), (usize, usize))> {
    let (first, next) = argument(words, at + 1)?;
    let (second, _) = argument(words, next)?;
    Some((first, second))
}

fn argument(words: &[Word], at: usize) -> Option<((usize, usize), usize)> {
    let first = words.get(at).filter(|word| !word.parts() && word.text != ")")?;
    let mut depth = 0;
    for (index, word) in words.iter().enumerate().skip(at) {
        match word.text {
            "(" => depth += 1,
            ")" => depth -= 1,
            _ => {}
        }
        if depth == 0 {
            return Some(((first.start, word.end), index + 1));
        }
    }
    None
}

fn operand_before(words: &[Word], at: usize) -> usize {
    let mut depth = 0;
    let mut start = words[at].start;
    for word in words[..at].iter().rev() {
        match word.text {
            ")" | "}" => depth += 1,
            "(" | "{" if depth == 0 => break,
            "(" | "{" => depth -= 1,
            _ if depth == 0 && word.parts() => break,
            _ => {}
        }
        start = word.start;
    }
    start
}

fn operand_after(words: &[Word], at: usize) -> usize {
    let mut depth = 0;
    let mut end = words[at].end;
    for word in &words[at + 1..] {
        match word.text {
            "(" | "{" => depth += 1,
            ")" | "}" if depth == 0 => break,
            ")" | "}" => depth -= 1,
            _ if depth == 0 && word.parts() => break,
            _ => {}
        }
        end = word.end;
    }
    end
}

#[cfg(test)]
mod tests {
    use super::*;

    fn made(line: &str) -> Vec<String> {
        edits("A.antt", line).into_iter().map(|edit| edit.to).collect()
    }

    #[test]
    fn comments_imports_and_signatures_stay() {
        for line in [
            "-- not 1",
            "use Rattle.std.specs.Prelude.{ltb}",
            "abbrev pub few : ℕ",
            "few a b =",
            "  pub rows : List Row",
            "  accepted : (values : List ℕ) → Answer",
        ] {
            assert!(made(line).is_empty(), "{line}");
        }
    }

    #[test]
    fn a_number_becomes_its_neighbours() {
        assert_eq!(made("few = 3"), ["few = 4", "few = 2"]);
        assert_eq!(made("none = 0"), ["none = 1"]);
    }

    #[test]
    fn an_operand_is_left_out_whole() {
        let all = made("good x = (even x || odd x) && small x");
        for to in [
            "good x = (even x || odd x) ",
            "good x =  small x",
            "good x = ( odd x) && small x",
            "good x = (even x ) && small x",
        ] {
            assert!(all.contains(&to.to_string()), "{to}: {all:?}");
        }
    }

    #[test]
    fn arguments_change_places_and_steps_are_left_out() {
        let all = made("less p q = ltb (f p) q");
        assert!(all.contains(&"less p q = ltb q (f p)".to_string()), "{all:?}");
        let all = made("some = filter (λ z. z) zs");
        assert!(all.contains(&"some =  zs".to_string()), "{all:?}");
        let all = made("some = if f z then 7 else 9");
        assert!(all.contains(&"some = if Rattle.std.specs.Prelude.not (f z) then 7 else 9".to_string()), "{all:?}");
    }

    #[test]
    fn what_is_bound_keeps_its_name() {
        assert_eq!(made("f = g (λ x z. x)"), ["f = g (λ x z. y)"]);
    }

    #[test]
    fn a_field_becomes_another_of_the_same_value() {
        assert_eq!(made("f = d.rows"), ["f = d.succs"]);
        assert_eq!(made("f = (g z).succs"), ["f = (g z).rows"]);
    }

    #[test]
    fn equal_becomes_at_most_but_not_for_zero() {
        assert_eq!(made("f = eqb p q"), ["f = Rattle.std.specs.Prelude.leb p q"]);
        assert!(made("f = eqb p root").iter().all(|to| !to.contains("leb")));
    }

    #[test]
    fn the_place_of_a_repeated_line_is_kept() {
        let text = "p = 1\n\nq = 2\n\np = 1\n";
        let places: Vec<usize> =
            edits("A.antt", text).into_iter().filter(|edit| edit.to == "p = 2").map(|edit| edit.nth).collect();
        assert_eq!(places, [1, 2]);
    }
}
