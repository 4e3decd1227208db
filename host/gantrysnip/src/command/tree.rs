//! A list's elements as a tree: an insert is a child of the element that it was put after.
use gantrysnip::{Document, Id, Place};
use std::collections::BTreeMap;

/// An element, the line and column to draw it at, and the line of its parent; line 0 is head.
pub struct Node {
    pub element: Id,
    pub line: usize,
    pub column: usize,
    pub parent: usize,
}

/// In document order, which is the tree's preorder. An only child stays in its parent's column, so that a list that
/// was written from front to back is one column.
pub fn nodes(document: &Document, list: Id) -> Vec<Node> {
    let inserts = || {
        document.rows().filter_map(move |row| match row.place() {
            Place::Insert { list: own, after } if own == list => Some((row.id(), after)),
            _ => None,
        })
    };
    let mut children: BTreeMap<Id, usize> = BTreeMap::new();
    inserts().for_each(|(_, after)| *children.entry(after).or_default() += 1);
    // line and column of what has been met
    let mut met: BTreeMap<Id, (usize, usize)> = BTreeMap::from([(Id::HEAD, (0, 0))]);
    let mut nodes = vec![];
    for (line, (element, after)) in (1..).zip(inserts()) {
        let (parent, beside) = met.get(&after).copied().unwrap_or_default();
        let only = children.get(&after) == Some(&1);
        let column = if only { beside } else { beside + 1 };
        met.insert(element, (line, column));
        nodes.push(Node { element, line, column, parent });
    }
    nodes
}
