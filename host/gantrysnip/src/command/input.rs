//! Files of operations, read and merged; a refusal is told by file and line.
use super::{reason, tell, Failure};
use gantrysnip::sizes::MAX_BATCH;
use gantrysnip::{explanation, text, Document, Operation, Refusal};
use std::collections::HashSet;
use std::fs::File;
use std::io::{self, Read};

/// More than any document holds, so that an endless file ends.
const MOST_BYTES: u64 = 64 << 20;

/// Progress is told after so many operations.
const STEP: usize = 4 * MAX_BATCH;

/// The operations of some files, each once, and where they stand: which file, which line.
#[derive(Default)]
pub struct Input {
    pub operations: Vec<Operation>,
    files: Vec<String>,
    origins: Vec<(usize, usize)>,
    pub repeated: usize,
}

impl Input {
    pub fn read(files: &[String]) -> Result<Input, Failure> {
        let mut input = Input { files: files.to_vec(), ..Input::default() };
        let mut known: HashSet<Operation> = HashSet::new();
        for (file, name) in files.iter().enumerate() {
            let bytes = bytes(name).map_err(|e| Failure::input(format!("{name}: {e}")))?;
            let lines = text::operations(&bytes)
                .map_err(|bad| Failure::input(format!("{name}:{}: {}", bad.number, bad.reason)))?;
            for line in lines {
                // files of both sides begin with what both knew: the very same operation counts once
                if known.insert(line.operation) {
                    input.operations.push(line.operation);
                    input.origins.push((file, line.number));
                } else {
                    input.repeated += 1;
                }
            }
        }
        Ok(input)
    }

    /// The document of all operations.
    pub fn document(&self) -> Result<Document, Failure> {
        let mut document = Document::new();
        let all = self.operations.len();
        let progress = |done: usize| {
            if all > STEP && (done % STEP == 0 || done == all) {
                tell(&format!("merged {done} of {all} operations"));
            }
        };
        document.merge_all(&self.operations, progress).map_err(|refusal| self.told(refusal))?;
        Ok(document)
    }

    /// Where the operation at this place stands, as file:line.
    fn origin(&self, place: usize) -> String {
        let found = self.origins.get(place).and_then(|(file, line)| Some((self.files.get(*file)?, line)));
        found.map_or(String::new(), |(name, line)| format!("{name}:{line}"))
    }

    fn told(&self, refusal: Refusal) -> Failure {
        let number = refusal.number();
        let head = format!("refused with {number}: {}", refusal.sentence());
        let advice = explanation(number).map_or("", |(_, advice)| advice);
        let Some((place, operation)) = refusal.operation().and_then(|at| Some((at, self.operations.get(at)?))) else {
            return Failure::refused(format!("{head}\n  {advice}"));
        };
        let mut message = format!("{}: {head}\n  {operation}", self.origin(place));
        match reason::of(refusal, operation, &self.operations) {
            Some(why) => message += &format!("\n  {why}"),
            None => message += &format!("\n  {advice}"),
        }
        if let Refusal::Used { .. } = refusal {
            let same_id = |at: usize, other: &Operation| at != place && other.id() == operation.id();
            let other = self.operations.iter().enumerate().find(|(at, other)| same_id(*at, other));
            message += &other.map_or(String::new(), |(at, other)| format!("\n  {}: {other}", self.origin(at)));
        }
        Failure::refused(message)
    }
}

fn bytes(name: &str) -> Result<Vec<u8>, String> {
    let mut bytes = vec![];
    let read = |from: &mut dyn Read, bytes: &mut Vec<u8>| from.take(MOST_BYTES + 1).read_to_end(bytes);
    let told = |e: io::Error| e.to_string();
    if name == "-" {
        read(&mut io::stdin(), &mut bytes).map_err(told)?;
    } else {
        read(&mut File::open(name).map_err(told)?, &mut bytes).map_err(told)?;
    }
    if bytes.len() as u64 > MOST_BYTES {
        return Err("over 64 MiB, which is more than any document holds".into());
    }
    Ok(bytes)
}
