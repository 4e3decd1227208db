//! `picture`: what the merged document shows, as a table or a drawing.
use super::{arguments::Arguments, drawing, fine, input::Input, table::Table, Failure, Outcome};
use gantrysnip::{Action, Clock, Entry, Id, Picture};

pub fn run(arguments: &Arguments) -> Result<Outcome, Failure> {
    let clock = arguments.value("--clock", Some(Clock::everything()))?;
    let document = Input::read(arguments.some_files()?)?.document()?;
    let picture = document.picture(&clock).map_err(|refusal| Failure::refused(refusal.to_string()))?;
    if arguments.has("--svg") {
        fine(drawing::drawn(&document, &picture))
    } else {
        fine(shown(&picture))
    }
}

pub fn shown(picture: &Picture) -> String {
    let mut table = Table::new(&["object", "key or element", "shows", "by", "note"]);
    for entry in picture.entries() {
        let at = entry.key().map(|key| key.to_string()).or(entry.element().map(|element| element.to_string()));
        let cells = [object(entry.object()), at.unwrap_or_default(), value(&entry), entry.id().to_string()];
        table.line(cells.into_iter().chain([note(&entry).into()]));
    }
    table.to_string()
}

pub fn object(id: Id) -> String {
    if id == Id::ROOT {
        "root".into()
    } else {
        id.to_string()
    }
}

/// A map, a list, or the value; a counter shows its total.
pub fn value(entry: &Entry) -> String {
    match entry.shows() {
        Some(Action::MakeMap) => "map".into(),
        Some(Action::MakeList) => "list".into(),
        Some(Action::Set(_)) if entry.outgrown() => "counter beyond 64 bits".into(),
        Some(Action::Set(value)) => value.to_string(),
        _ => String::new(),
    }
}

fn note(entry: &Entry) -> &'static str {
    match (entry.in_conflict(), entry.wins()) {
        (true, true) => "conflict, wins",
        (true, false) => "conflict",
        _ => "",
    }
}
