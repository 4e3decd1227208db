//! `example`: ship and shore edit apart, merge both ways, and end with one document.
use super::picture::shown;
use super::{arguments::Arguments, Failure, Outcome, FINE, REFUSED};
use gantrysnip::{text, Clock, Document, Id, Operation, Picture, Refusal};

const COMMON: &str = include_str!("../../example/common.txt");
const SHORE: &str = include_str!("../../example/shore.txt");
const SHIP: &str = include_str!("../../example/ship.txt");

pub fn run(arguments: &Arguments) -> Result<Outcome, Failure> {
    if !arguments.files.is_empty() {
        return Err(arguments.misused("the example takes no files"));
    }
    let broken = |what: String| Failure::refused(format!("the example is broken: {what}"));
    let read = |text: &str| {
        let lines = text::operations(text.as_bytes()).map_err(|bad| broken(bad.to_string()))?;
        Ok::<Vec<Operation>, Failure>(lines.iter().map(|line| line.operation).collect())
    };
    told(&read(COMMON)?, &read(SHORE)?, &read(SHIP)?).map_err(|refusal| broken(refusal.to_string()))
}

fn told(common: &[Operation], ashore: &[Operation], aboard: &[Operation]) -> Result<Outcome, Refusal> {
    let mut text = String::new();
    for part in [COMMON, SHORE, SHIP] {
        text += &(part.to_string() + "\n");
    }
    let (mut shore, mut ship) = (Document::new(), Document::new());
    for (name, side, own, sent) in [("shore", &mut shore, ashore, aboard), ("ship", &mut ship, aboard, ashore)] {
        side.merge(common)?;
        side.merge(own)?;
        let alone = side.picture(&Clock::everything())?;
        text += &format!("What the {name} shows before they meet:\n{}\n", indented(&shown(&alone)));
        side.merge(sent)?;
    }
    let same = shore == ship;
    text += &format!(
        "They merge both ways. The two documents are {}.\n",
        pick(same, "equal, field for field", "DIFFERENT")
    );
    let picture = ship.picture(&Clock::everything())?;
    text += &format!("What both show:\n{}\n", indented(&shown(&picture)));

    // the radio certificate is the first element that both knew
    let radio = common.get(1).map_or(Id::HEAD, Operation::id);
    let gone = |picture: &Picture| picture.entries().all(|entry| entry.element() != Some(radio));
    let revoked = gone(&picture);
    text += &format!("Certificate {radio}, revoked ashore, is {}.\n", pick(revoked, "revoked on both", "STILL SHOWN"));
    let again = ship.merge(common);
    let stays = again.is_err() && ship == shore;
    let answer = again.map_or_else(|refusal| refusal.to_string(), |()| "accepted".into());
    text += &format!("An old batch comes once more: {answer}.\n");
    text += &format!("Certificate {radio} {}.\n", pick(stays, "stays revoked", "IS BACK"));
    Ok(Outcome { text, status: if same && revoked && stays { FINE } else { REFUSED } })
}

fn pick(holds: bool, yes: &'static str, no: &'static str) -> &'static str {
    if holds {
        yes
    } else {
        no
    }
}

fn indented(text: &str) -> String {
    text.lines().map(|line| format!("  {line}\n")).collect()
}
