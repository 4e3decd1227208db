//! The mutation check: single edits of the originals, and whether the comparison notices them.
use std::path::{Path, PathBuf};
use std::process::{Command, Stdio};
use std::time::{Duration, Instant};
use std::{env, fs, thread};

/// One edit: in `file`, the `nth` place (from 1) where `from` stands becomes `to`.
#[derive(Clone, PartialEq, Eq, Debug, Default)]
pub struct Mutation {
    pub file: String,
    pub nth: usize,
    pub from: String,
    pub to: String,
    /// Why the comparison cannot notice it, where that is so.
    pub unnoticed: Option<String>,
}

/// Lines `file`, `nth` (if not 1), `from`, `to`, `unnoticed` (if so); an empty line ends an edit.
pub fn mutations(list: &str) -> Result<Vec<Mutation>, String> {
    let mut all = vec![];
    for edit in list.split("\n\n") {
        let mut mutation = Mutation { nth: 1, ..Mutation::default() };
        for line in edit.lines().filter(|line| !line.is_empty() && !line.starts_with('#')) {
            match line.split_once(' ').unwrap_or((line, "")) {
                ("file", name) => mutation.file = name.into(),
                ("nth", n) => mutation.nth = n.parse().map_err(|_| format!("no number: {line}"))?,
                ("from", text) => mutation.from = text.into(),
                ("to", text) => mutation.to = text.into(),
                ("unnoticed", why) => mutation.unnoticed = Some(why.into()),
                _ => return Err(format!("no line of an edit: {line}")),
            }
        }
        if !mutation.file.is_empty() {
            all.push(mutation);
        }
    }
    Ok(all)
}

impl Mutation {
    /// The text with the edit made.
    pub fn applied(&self, text: &str) -> Result<String, String> {
        let place = text.match_indices(&self.from).nth(self.nth - 1);
        let (at, _) = place.ok_or_else(|| format!("{} has no place {} with {}", self.file, self.nth, self.from))?;
        Ok([&text[..at], &self.to, &text[at + self.from.len()..]].concat())
    }
}

/// Where an edit's fate was decided.
enum Fate {
    Unbuilt,
    Noticed(String),
    Unnoticed,
}

/// Tries the edits of these numbers, or all; an error if one is unnoticed that should not be, or the other way round.
pub fn check(list: &str, originals: &str, only: &[&str]) -> Result<(), String> {
    let list = fs::read_to_string(list).map_err(|e| format!("{list}: {e}"))?;
    let mutants = PathBuf::from(env::var("CARGO_TARGET_DIR").map_err(|e| e.to_string())?);
    let (mut noticed, mut excused, mut wrong) = (0, 0, 0);
    for (number, mutation) in (1..).zip(mutations(&list)?) {
        if !only.is_empty() && !only.contains(&number.to_string().as_str()) {
            continue;
        }
        let started = Instant::now();
        let fate = fate(&mutation, Path::new(originals), &mutants)?;
        let (tally, verdict, why) = match (fate, mutation.unnoticed) {
            (Fate::Noticed(how), None) => (&mut noticed, "noticed", how),
            (Fate::Unnoticed, Some(why)) => (&mut excused, "not noticed, as said", why),
            (Fate::Noticed(how), Some(_)) => (&mut wrong, "WRONG: noticed, though said not to be", how),
            (Fate::Unnoticed, None) => (&mut wrong, "WRONG: not noticed", String::new()),
            (Fate::Unbuilt, _) => (&mut wrong, "WRONG: does not compile", String::new()),
        };
        *tally += 1;
        println!("{number}. {}: `{}` -> `{}`", mutation.file, mutation.from, mutation.to);
        println!("   {verdict} ({} s) {why}", started.elapsed().as_secs());
    }
    println!("mutations: {noticed} noticed, {excused} not noticed for a reason, {wrong} wrong");
    if wrong == 0 {
        Ok(())
    } else {
        Err("The comparison does not fare with these edits as mutations.txt says.".into())
    }
}

/// Builds the comparison on the edited originals and runs some histories.
fn fate(mutation: &Mutation, originals: &Path, mutants: &Path) -> Result<Fate, String> {
    let copy = mutants.join("originals");
    fs::create_dir_all(&copy).map_err(|e| e.to_string())?;
    let copied = Command::new("cp").arg("-rT").arg(originals).arg(&copy).status().map_err(|e| e.to_string())?;
    if !copied.success() {
        return Err(format!("{} cannot be copied", originals.display()));
    }
    let file = copy.join(&mutation.file);
    let text = fs::read_to_string(&file).map_err(|e| format!("{}: {e}", mutation.file))?;
    fs::write(&file, mutation.applied(&text)?).map_err(|e| e.to_string())?;
    let mut build = Command::new("cargo");
    build.args(["build", "--profile", "mutant", "--quiet", "--package", "compare"]);
    build.env("ORACLE_SRC", &copy).env("ORACLE_MUTANT", "1").stdout(Stdio::null()).stderr(Stdio::null());
    if !build.status().map_err(|e| e.to_string())?.success() {
        return Ok(Fate::Unbuilt);
    }
    run(&mutants.join("mutant/compare"), mutants)
}

/// A run that does not end in time has been noticed too.
fn run(program: &Path, mutants: &Path) -> Result<Fate, String> {
    let said = mutants.join("said");
    let output = fs::File::create(&said).map_err(|e| e.to_string())?;
    let mut child = Command::new(program)
        .args(["long", "1", "300"])
        .stdout(Stdio::null())
        .stderr(output)
        .spawn()
        .map_err(|e| e.to_string())?;
    let deadline = Instant::now() + Duration::from_secs(90);
    loop {
        match child.try_wait().map_err(|e| e.to_string())? {
            Some(status) if status.success() => return Ok(Fate::Unnoticed),
            Some(_) => break,
            None if Instant::now() < deadline => thread::sleep(Duration::from_millis(50)),
            None => {
                child.kill().and_then(|()| child.wait()).map_err(|e| e.to_string())?;
                return Ok(Fate::Noticed("by a run without end".into()));
            }
        }
    }
    let said = fs::read_to_string(said).unwrap_or_default();
    let first = said.lines().find(|line| !line.is_empty()).unwrap_or_default();
    Ok(Fate::Noticed(first.chars().take(110).collect()))
}

#[cfg(test)]
mod tests {
    use super::*;

    #[test]
    fn an_edit_is_made_in_its_place_alone() {
        let list =
            "# why\n\nfile a.rs\nnth 2\nfrom x + 1\nto x + 2\n\nfile b.rs\nfrom y\nto z\nunnoticed for a reason\n";
        let edits = mutations(list).unwrap();
        assert_eq!(edits.len(), 2);
        assert_eq!(edits[0].applied("x + 1; x + 1; x + 1").unwrap(), "x + 1; x + 2; x + 1");
        assert!(edits[0].applied("x + 1").is_err());
        assert_eq!(edits[1].unnoticed.as_deref(), Some("for a reason"));
    }
}
