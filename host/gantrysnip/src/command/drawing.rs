//! The picture as a drawing: maps by their keys, lists as trees, conflicts in red.
use super::picture::{object, value};
use super::tree::{self, Node};
use gantrysnip::{Action, Document, Entry, Id, Picture};
use std::collections::BTreeMap;

const LINE: usize = 26;
const COLUMN: usize = 22;
/// Of a letter, about.
const LETTER: usize = 8;

const HEAD: &str = "\
<style>text{font:13px monospace;fill:#222}.title{font-weight:bold}.gone{fill:#999}.branch{stroke:#888;fill:none}\
.value{fill:#eef4fb;stroke:#7a9cc0}.clash{fill:#fdecea;stroke:#c0392b}.wins{stroke-width:2.5}\
.dot{fill:#7a9cc0}.hole{fill:#fff;stroke:#999}</style>
";

/// What is drawn so far, and how far it reaches.
#[derive(Default)]
struct Sheet {
    shapes: String,
    line: usize,
    width: usize,
}

type Shown = BTreeMap<Id, Vec<Entry>>;

/// An SVG of all objects: root first, then by id.
pub fn drawn(document: &Document, picture: &Picture) -> String {
    let mut sheet = Sheet::default();
    let mut by_object = Shown::new();
    picture.entries().for_each(|entry| by_object.entry(entry.object()).or_default().push(entry));
    sheet.map("root, a map", by_object.get(&Id::ROOT));
    let mut made: Vec<(Id, Id, Action)> =
        document.rows().filter_map(|row| Some((row.id(), row.object(), row.action()?))).collect();
    made.sort_by_key(|(id, ..)| *id);
    for (id, holder, action) in made {
        let title = |kind: &str| format!("{id}, a {kind} in {}", object(holder));
        match action {
            Action::MakeMap => sheet.map(&title("map"), by_object.get(&id)),
            Action::MakeList => sheet.list(&title("list"), &tree::nodes(document, id), by_object.get(&id)),
            _ => (),
        }
    }
    sheet.finished()
}

impl Sheet {
    fn map(&mut self, title: &str, entries: Option<&Vec<Entry>>) {
        self.title(title);
        let entries = entries.map_or(&[][..], |entries| entries);
        for rivals in entries.chunk_by(|a, b| a.key() == b.key()) {
            let key = rivals.first().and_then(Entry::key).map(|key| key.to_string()).unwrap_or_default();
            let from = self.text(COLUMN, &key, "");
            self.values(from, rivals);
            self.line += 1;
        }
        self.line += 1;
    }

    fn list(&mut self, title: &str, nodes: &[Node], entries: Option<&Vec<Entry>>) {
        self.title(title);
        let top = self.line;
        let dot = |node: &Node| (COLUMN * (node.column + 1), top + node.line);
        self.text(COLUMN + 12, "head", "gone");
        self.dot(COLUMN, "dot");
        let mut shown = Shown::new();
        for entry in entries.into_iter().flatten() {
            shown.entry(entry.element().unwrap_or(Id::HEAD)).or_default().push(*entry);
        }
        for node in nodes {
            self.line += 1;
            let (x, line) = dot(node);
            let parent = nodes.get(node.parent.wrapping_sub(1)).map_or((COLUMN, top), dot);
            self.branch(parent, (x, line));
            let rivals = shown.get(&node.element);
            self.dot(x, if rivals.is_some() { "dot" } else { "hole" });
            let from = self.text(x + 12, &node.element.to_string(), if rivals.is_some() { "" } else { "gone" });
            self.values(from, rivals.map_or(&[], |rivals| rivals));
        }
        self.line += 2;
    }

    fn title(&mut self, title: &str) {
        self.text(COLUMN / 2, title, "title");
        self.line += 1;
    }

    /// Beside one another; the one that wins has the thicker frame.
    fn values(&mut self, mut from: usize, entries: &[Entry]) {
        for entry in entries {
            let text = format!("{} by {}", value(entry), entry.id());
            let class = if entry.in_conflict() { "clash" } else { "value" };
            let wins = if entry.in_conflict() && entry.wins() { " wins" } else { "" };
            let (y, width) = (self.y() - 16, LETTER * text.chars().count() + 12);
            let frame =
                format!(r#"<rect class="{class}{wins}" x="{from}" y="{y}" width="{width}" height="22" rx="4"/>"#);
            self.shapes += &(frame + "\n");
            self.text(from + 6, &text, "");
            from += width + 8;
        }
        self.width = self.width.max(from);
    }

    /// Gives where it ends.
    fn text(&mut self, x: usize, text: &str, class: &str) -> usize {
        let plain = text.replace('&', "&amp;").replace('<', "&lt;").replace('>', "&gt;").replace('"', "&quot;");
        self.shapes += &format!("<text class=\"{class}\" x=\"{x}\" y=\"{}\">{plain}</text>\n", self.y());
        let end = x + LETTER * text.chars().count() + 10;
        self.width = self.width.max(end);
        end
    }

    fn dot(&mut self, x: usize, class: &str) {
        self.shapes += &format!("<circle class=\"{class}\" cx=\"{x}\" cy=\"{}\" r=\"5\"/>\n", self.y() - 5);
    }

    /// From a parent down its column, then across.
    fn branch(&mut self, (from_x, from_line): (usize, usize), (x, line): (usize, usize)) {
        let y = |line: usize| y_of(line) - 5;
        self.shapes += &format!("<path class=\"branch\" d=\"M{from_x} {}V{}H{x}\"/>\n", y(from_line) + 5, y(line));
    }

    fn y(&self) -> usize {
        y_of(self.line)
    }

    fn finished(self) -> String {
        let (width, height) = (self.width + COLUMN, y_of(self.line));
        let open = format!(
            "<svg xmlns=\"http://www.w3.org/2000/svg\" width=\"{width}\" height=\"{height}\" \
             viewBox=\"0 0 {width} {height}\">\n"
        );
        format!("{open}{HEAD}{}</svg>\n", self.shapes)
    }
}

fn y_of(line: usize) -> usize {
    LINE * (line + 1)
}
