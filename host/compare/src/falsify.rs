//! The definitions, weakened by single edits: which claim of the tables in their crate refuses each.
mod words;

use crate::mutation::{mutations, Mutation};
use std::fs;
use std::path::{Path, PathBuf};
use std::process::Command;
use std::time::Instant;

/// The crate that defines.
const HOME: &str = "model";

/// Its files of definitions; its other files are tables and what they share.
const DEFINING: [&str; 18] = [
    "Basic",
    "Sizes",
    "Kinds",
    "Row",
    "Id",
    "Key",
    "Answer",
    "Order",
    "Document",
    "Visible",
    "Malformed",
    "Refusal",
    "WellFormed",
    "Picture",
    "Spot",
    "Calls",
    "Exports",
    "Course",
];

/// What the check says to an edit.
#[derive(Clone, PartialEq, Eq, Debug)]
enum Fate {
    /// Claims turned false, and nothing else went wrong.
    Refused(String),
    /// A name or a type is wrong.
    Unfit(String),
    Survived,
}

/// Tries the edits of a list, or those of these numbers; an error if one fares otherwise than the list says.
pub fn listed(list: &str, crates: &str, scratch: &str, only: &[&str]) -> Result<(), String> {
    let edits = read_list(list)?;
    let copy = Copy::new(Path::new(crates), Path::new(scratch))?;
    let (mut refused, mut excused, mut wrong) = (0, 0, 0);
    for (number, edit) in (1..).zip(edits) {
        if !only.is_empty() && !only.contains(&number.to_string().as_str()) {
            continue;
        }
        let (tally, verdict) = match (copy.fate(&edit)?, &edit.unnoticed) {
            (Fate::Refused(claims), None) => (&mut refused, format!("refused by {claims}")),
            (Fate::Survived, Some(why)) => (&mut excused, format!("survives, as said: {why}")),
            (Fate::Refused(claims), Some(_)) => {
                (&mut wrong, format!("WRONG: refused by {claims}, though said not to be"))
            }
            (Fate::Survived, None) => (&mut wrong, "WRONG: SURVIVED".into()),
            (Fate::Unfit(error), _) => (&mut wrong, format!("WRONG: no fit edit: {error}")),
        };
        *tally += 1;
        println!("{number}. {}: `{}` -> `{}`\n   {verdict}", edit.file, edit.from, edit.to);
    }
    println!("falsifications: {refused} refused by a claim, {excused} change no meaning, {wrong} wrong");
    verdict(wrong)
}

/// Tries edits made up from the words of these definition files, or of all. Those that fit no type are passed over; an
/// `unnoticed` edit of the list with the same outcome explains a survivor.
pub fn made_up(list: &str, crates: &str, scratch: &str, files: &[&str]) -> Result<(), String> {
    let explained = read_list(list)?;
    let copy = Copy::new(Path::new(crates), Path::new(scratch))?;
    let (mut refused, mut excused, mut unfit, mut wrong) = (0, 0, 0, 0);
    for name in DEFINING.iter().filter(|name| files.is_empty() || files.contains(name)) {
        let started = Instant::now();
        let file = format!("{name}.antt");
        let text = copy.original(&file)?;
        let edits = words::edits(&file, &text);
        for edit in &edits {
            let outcome = edit.applied(&text)?;
            match copy.fate(edit)? {
                Fate::Refused(_) => refused += 1,
                Fate::Unfit(_) => unfit += 1,
                Fate::Survived if explained.iter().any(|other| explains(other, &file, &text, &outcome)) => excused += 1,
                Fate::Survived => {
                    wrong += 1;
                    println!("SURVIVED {file} (place {}): `{}` -> `{}`", edit.nth, edit.from.trim(), edit.to.trim());
                }
            }
        }
        println!("{file}: {} edits, {} s", edits.len(), started.elapsed().as_secs());
    }
    println!(
        "made up: {refused} refused by a claim, {excused} change no meaning, {wrong} SURVIVED, {unfit} fit no type"
    );
    verdict(wrong)
}

fn explains(other: &Mutation, file: &str, text: &str, outcome: &str) -> bool {
    other.unnoticed.is_some() && other.file == file && other.applied(text).is_ok_and(|same| same == outcome)
}

fn read_list(list: &str) -> Result<Vec<Mutation>, String> {
    mutations(&fs::read_to_string(list).map_err(|e| format!("{list}: {e}"))?)
}

fn verdict(wrong: usize) -> Result<(), String> {
    if wrong == 0 {
        Ok(())
    } else {
        Err("Some edits of the definitions do not fare as falsifications.txt says.".into())
    }
}

/// Where a file of definitions stands, below crates/.
fn place(file: &str) -> Result<PathBuf, String> {
    if DEFINING.iter().any(|name| file.strip_suffix(".antt") == Some(name)) {
        Ok(Path::new(HOME).join("specs").join(file))
    } else {
        Err(format!("{file}: no file of definitions"))
    }
}

/// A repository of this crate alone, made in an empty folder outside this one and checked over and over: the check
/// looks again only at what an edit touches.
struct Copy {
    crates: PathBuf,
    scratch: PathBuf,
    claims: Vec<String>,
}

impl Copy {
    fn new(crates: &Path, scratch: &Path) -> Result<Copy, String> {
        let mut copy = Copy { crates: crates.into(), scratch: scratch.into(), claims: vec![] };
        for part in ["specs", "src"].map(|part| Path::new(HOME).join(part)) {
            let to = scratch.join("crates").join(&part);
            fs::create_dir_all(&to).map_err(|e| e.to_string())?;
            for entry in fs::read_dir(crates.join(&part)).map_err(|e| format!("{}: {e}", part.display()))? {
                let entry = entry.map_err(|e| e.to_string())?;
                let text = fs::read_to_string(entry.path()).map_err(|e| e.to_string())?;
                copy.claims.extend(claims(&text));
                fs::write(to.join(entry.file_name()), text).map_err(|e| e.to_string())?;
            }
        }
        fs::write(scratch.join("crates.txt"), format!("{HOME}:\n")).map_err(|e| e.to_string())?;
        match copy.check()? {
            Fate::Survived => Ok(copy),
            fate => Err(format!("The crate {HOME} is not proved as it stands: {fate:?}")),
        }
    }

    fn original(&self, file: &str) -> Result<String, String> {
        let path = self.crates.join(place(file)?);
        fs::read_to_string(&path).map_err(|e| format!("{}: {e}", path.display()))
    }

    /// A survivor is checked a second time, from nothing.
    fn fate(&self, edit: &Mutation) -> Result<Fate, String> {
        let original = self.original(&edit.file)?;
        let path = self.scratch.join("crates").join(place(&edit.file)?);
        fs::write(&path, edit.applied(&original)?).map_err(|e| e.to_string())?;
        let mut fate = self.check()?;
        if fate == Fate::Survived {
            fs::remove_dir_all(self.scratch.join("crates").join(HOME).join("out")).map_err(|e| e.to_string())?;
            fate = self.check()?;
        }
        fs::write(&path, original).map_err(|e| e.to_string())?;
        Ok(fate)
    }

    fn check(&self) -> Result<Fate, String> {
        let said = Command::new("rt").arg("check").current_dir(self.scratch.join("crates").join(HOME)).output();
        let said = said.map_err(|e| format!("rt: {e}"))?;
        if said.status.success() {
            return Ok(Fate::Survived);
        }
        Ok(judged(
            &[said.stdout, said.stderr].map(|part| String::from_utf8_lossy(&part).into_owned()).concat(),
            &self.claims,
        ))
    }
}

/// The names of a table's claims: what is declared with neither `abbrev` nor `unfoldable`.
fn claims(text: &str) -> Vec<String> {
    let declared = text.lines().filter_map(|line| line.strip_prefix("pub ")).filter_map(|rest| rest.split_once(" :"));
    declared.map(|(name, _)| name.into()).filter(|name: &String| !name.contains(' ')).collect()
}

/// What a check says, by its errors: ``PLACE: error: `NAME`: ..``.
fn judged(said: &str, claims: &[String]) -> Fate {
    let errors: Vec<&str> = said.lines().filter_map(|line| Some(line.split_once(": error: ")?.1)).collect();
    let named = |error: &str| Some(error.strip_prefix('`')?.split_once('`')?.0.to_string());
    let mut refusing = vec![];
    for error in &errors {
        match named(error).filter(|name| claims.contains(name)) {
            Some(claim) => refusing.push(claim),
            None => return Fate::Unfit(error.chars().take(110).collect()),
        }
    }
    match refusing.is_empty() {
        true => Fate::Unfit("the check could not tell".into()),
        false => Fate::Refused(refusing.join(", ")),
    }
}

#[cfg(test)]
mod tests {
    use super::*;

    #[test]
    fn a_claim_is_what_is_declared_and_no_definition() {
        let text = "abbrev pub few : ℕ\n\npub data Kind : Type 0 where\n\npub few-right : few ≡ 3\nfew-right = refl\n";
        assert_eq!(claims(text), ["few-right"]);
    }

    #[test]
    fn an_edit_is_refused_where_claims_alone_are_false() {
        let known = ["few-right".to_string(), "more-right".to_string()];
        let says = |lines: &str| judged(lines, &known);
        let few = "a.antt:3:1: error: `few-right`: expected 3\n  found 4\n";
        let more = "a.antt:9:1: error: `more-right`: expected 5\n";
        assert_eq!(says(&[few, more].concat()), Fate::Refused("few-right, more-right".into()));
        assert_eq!(
            says(&["a.antt:1:1: error: `few`: no such name\n", few].concat()),
            Fate::Unfit("`few`: no such name".into())
        );
        assert!(matches!(says("rt: stopped\n"), Fate::Unfit(_)));
    }

    #[test]
    fn a_file_of_definitions_has_its_place() {
        assert_eq!(place("Basic.antt"), Ok("model/specs/Basic.antt".into()));
        assert!(place("Cases.antt").is_err() && place("Basic").is_err());
    }

    #[test]
    fn each_edit_of_the_list_finds_its_place() {
        let host = Path::new(env!("CARGO_MANIFEST_DIR")).join("..");
        let edits = read_list(host.join("falsifications.txt").to_str().unwrap()).unwrap();
        assert!(edits.len() >= 550, "only {}", edits.len());
        for edit in edits {
            let text = fs::read_to_string(host.join("../crates").join(place(&edit.file).unwrap())).unwrap();
            assert!(edit.applied(&text).is_ok_and(|weakened| weakened != text), "{edit:?}");
        }
    }

    #[test]
    fn an_explanation_is_found_by_the_outcome() {
        let text = "small = 1\nlarge = 1\n";
        let edit = |from: &str, to: &str, unnoticed: Option<&str>| Mutation {
            file: "A.antt".into(),
            nth: 1,
            from: from.into(),
            to: to.into(),
            unnoticed: unnoticed.map(str::to_string),
        };
        let outcome = edit("large = 1", "large = 2", None).applied(text).unwrap();
        assert!(explains(&edit("= 1\nlarge = 1", "= 1\nlarge = 2", Some("why")), "A.antt", text, &outcome));
        assert!(!explains(&edit("large = 1", "large = 2", None), "A.antt", text, &outcome));
        assert!(!explains(&edit("large = 1", "large = 2", Some("why")), "B.antt", text, &outcome));
        assert!(!explains(&edit("small = 1", "small = 2", Some("why")), "A.antt", text, &outcome));
    }
}
