//! Operations in any number and order: merged in batches, and read back from a document.
use crate::sizes::{MAX_BATCH, MAX_PREDECESSORS};
use crate::{Action, Document, Id, Operation, Place, Refusal, Row};
use std::collections::BTreeMap;

impl Document {
    /// Merges any number of operations in any order, all or none of them. They are cut into batches by ascending id,
    /// so that each comes after those that it refers to. A refusal's operation is a place in `operations`.
    ///
    /// `progress` is told how many are merged, after each batch.
    ///
    /// ```
    /// use gantrysnip::{Action, Document, Id, Key, Operation, Value};
    /// let set = |n| Ok(Operation::at_key(Id::new(n, 0)?, Id::ROOT, Key::new("k")?, Action::Set(Value::Unsigned(n))));
    /// let many = (1..=600).rev().map(set).collect::<Result<Vec<_>, gantrysnip::Unfit>>()?;
    /// let mut document = Document::new();
    /// let mut told = vec![];
    /// document.merge_all(&many, |done| told.push(done))?;
    /// assert_eq!((document.row_count(), told), (600, vec![256, 512, 600]));
    /// # Ok::<(), Box<dyn std::error::Error>>(())
    /// ```
    pub fn merge_all(&mut self, operations: &[Operation], mut progress: impl FnMut(usize)) -> Result<(), Refusal> {
        let mut ascending: Vec<(usize, Operation)> = operations.iter().copied().enumerate().collect();
        ascending.sort_by_key(|(_, operation)| operation.id());
        let mut merged = self.clone();
        let mut done = 0;
        for batch in ascending.chunks(MAX_BATCH) {
            let only: Vec<Operation> = batch.iter().map(|(_, operation)| *operation).collect();
            let given = |refusal: Refusal| {
                let at = refusal.operation().and_then(|place| batch.get(place));
                at.map_or(refusal, |(place, _)| refusal.with_operation(*place))
            };
            merged.merge(&only).map_err(given)?;
            done += batch.len();
            progress(done);
        }
        *self = merged;
        Ok(())
    }

    /// The operations that the document was merged from, Deletes included, ascending by id. Merged into the empty
    /// document they give this one again.
    ///
    /// ```
    /// use gantrysnip::Document;
    /// let mut document = Document::new();
    /// document.merge(&[r#"1@0 set null in root at "k""#.parse()?, r#"2@0 delete in root at "k" over 1@0"#.parse()?])?;
    /// let lines: Vec<String> = document.operations().iter().map(|operation| operation.to_string()).collect();
    /// assert_eq!(lines[1], r#"2@0 delete in root at "k" over 1@0"#);
    /// # Ok::<(), Box<dyn std::error::Error>>(())
    /// ```
    pub fn operations(&self) -> Vec<Operation> {
        let rows: BTreeMap<Id, Row> = self.rows().map(|row| (row.id(), row)).collect();
        let mut over: BTreeMap<Id, Vec<Id>> = rows.keys().map(|id| (*id, vec![])).collect();
        for successor in self.successors() {
            over.entry(successor.id()).or_default().push(successor.row());
        }
        let read_back = |(id, over): (Id, Vec<Id>)| {
            let over = over.get(..MAX_PREDECESSORS).unwrap_or(&over);
            let row = rows.get(&id).copied().or_else(|| deleting(id, *rows.get(over.first()?)?))?;
            Operation::new(id, row.place(), row.action()?).over(over).ok()
        };
        over.into_iter().filter_map(read_back).collect()
    }
}

/// The Delete with this id at the key or element of a row that it deleted.
fn deleting(id: Id, gone: Row) -> Option<Row> {
    let place = match gone.element() {
        Some(element) => Place::Element { list: gone.object(), element },
        None => gone.place(),
    };
    Some(Row::new(id, place, Action::Delete))
}
