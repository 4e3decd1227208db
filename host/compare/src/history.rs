//! A history: batches that are merged one after the other, and clocks to look under.
use crate::operation::Op;
use std::collections::BTreeSet;
use std::fmt;

#[derive(Clone)]
pub struct History {
    pub batches: Vec<Vec<Op>>,
    pub clocks: Vec<Vec<u64>>,
}

impl History {
    pub fn operations(&self) -> impl Iterator<Item = &Op> {
        self.batches.iter().flatten()
    }

    /// Without the operations that `drop` names and all that refer to them.
    pub fn without(&self, mut drop: BTreeSet<u64>) -> History {
        loop {
            let hangs = |op: &&Op| !drop.contains(&op.id()) && op.references().iter().any(|id| drop.contains(id));
            let hanging: Vec<u64> = self.operations().filter(hangs).map(Op::id).collect();
            if hanging.is_empty() {
                break;
            }
            drop.extend(hanging);
        }
        let mut kept = self.clone();
        for batch in &mut kept.batches {
            batch.retain(|op| !drop.contains(&op.id()));
        }
        kept.batches.retain(|batch| !batch.is_empty());
        kept
    }
}

impl fmt::Display for History {
    fn fmt(&self, f: &mut fmt::Formatter<'_>) -> fmt::Result {
        for (place, batch) in self.batches.iter().enumerate() {
            writeln!(f, "  batch {place}:")?;
            for op in batch {
                writeln!(f, "    {op}")?;
            }
        }
        for clock in &self.clocks {
            let counters = clock.iter().enumerate().filter(|(_, counter)| **counter > 0);
            let entries: Vec<String> = counters.map(|(actor, counter)| format!("{counter}@{actor}")).collect();
            let shown = if clock.is_empty() { "none".into() } else { entries.join(" ") + "; the rest 0" };
            writeln!(f, "  clock: {shown}")?;
        }
        Ok(())
    }
}
