//! The order of rows in a document, as the rules tell it: objects, sorted keys, tree preorder.
use super::row::{Key, Row};
use crate::layout::HEAD;
use std::collections::{BTreeMap, BTreeSet};

/// "Objects ascend by id, ROOT first."
pub fn document_order(rows: &[Row]) -> Vec<Row> {
    let objects: BTreeSet<u64> = rows.iter().map(Row::object).collect();
    let mut ordered = vec![];
    for object in objects {
        let own: Vec<&Row> = rows.iter().filter(|row| row.object() == object).collect();
        let groups = by_key(&own);
        for key in keys_in_order(&own, &groups) {
            ordered.extend(groups[&key].iter().copied());
        }
    }
    ordered
}

/// The rows of each key or element, "ids ascending"; an element's insert row comes first.
fn by_key(rows: &[&Row]) -> BTreeMap<Key, Vec<Row>> {
    let mut groups: BTreeMap<Key, Vec<Row>> = BTreeMap::new();
    for row in rows {
        groups.entry(row.key()).or_default().push(**row);
    }
    for group in groups.values_mut() {
        group.sort_by_key(|row| (!row.is_insert(), row.id()));
    }
    groups
}

/// "In a map: keys in byte order. In a list: elements in tree preorder."
fn keys_in_order(rows: &[&Row], groups: &BTreeMap<Key, Vec<Row>>) -> Vec<Key> {
    if rows.iter().all(|row| !row.has_list_key()) {
        return groups.keys().copied().collect();
    }
    let mut children: BTreeMap<u64, Vec<u64>> = BTreeMap::new();
    for insert in rows.iter().filter(|row| row.is_insert()) {
        children.entry(insert.named()).or_default().push(insert.id());
    }
    let mut elements = vec![];
    preorder(HEAD, &mut children, &mut elements);
    elements.into_iter().map(Key::Element).collect()
}

/// "An insert is a child of the element it refers to (or of HEAD) and siblings descend by id."
fn preorder(element: u64, children: &mut BTreeMap<u64, Vec<u64>>, elements: &mut Vec<u64>) {
    let mut siblings = children.remove(&element).unwrap_or_default();
    siblings.sort_by(|a, b| b.cmp(a));
    for child in siblings {
        elements.push(child);
        preorder(child, children, elements);
    }
}
