//! A command's options and the files that it names.
use super::Failure;
use std::collections::BTreeMap;

pub struct Arguments {
    pub command: String,
    pub files: Vec<String>,
    options: BTreeMap<String, String>,
}

impl Arguments {
    /// `known` are the options; those that end in = take a value, after = or as the next word.
    pub fn parse(command: &str, words: Vec<String>, known: &[&str]) -> Result<Arguments, Failure> {
        let mut found = Arguments { command: command.into(), files: vec![], options: BTreeMap::new() };
        let mut words = words.into_iter();
        while let Some(word) = words.next() {
            if word == "--" {
                found.files.extend(words.by_ref());
            } else if !word.starts_with('-') || word == "-" {
                found.files.push(word);
            } else if ["--help", "-h"].contains(&word.as_str()) {
                found.options.insert("--help".into(), String::new());
            } else {
                found.option(word, &mut words, known)?;
            }
        }
        Ok(found)
    }

    fn option(&mut self, word: String, rest: &mut impl Iterator<Item = String>, known: &[&str]) -> Result<(), Failure> {
        let (name, given) = match word.split_once('=') {
            Some((name, value)) => (name.to_string(), Some(value.to_string())),
            None => (word.clone(), None),
        };
        let valued = known.contains(&format!("{name}=").as_str());
        if !valued && !known.contains(&word.as_str()) {
            return Err(self.misused(format!("there is no option {word}")));
        }
        let value = match (valued, given) {
            (false, _) => String::new(),
            (true, Some(value)) => value,
            (true, None) => rest.next().ok_or_else(|| self.misused(format!("{name} needs a value")))?,
        };
        if self.options.insert(name.clone(), value).is_some() {
            return Err(self.misused(format!("{name} is given twice")));
        }
        Ok(())
    }

    /// The files, of which there is at least one.
    pub fn some_files(&self) -> Result<&[String], Failure> {
        if self.files.is_empty() {
            return Err(self.misused("a file is missing; - is the standard input"));
        }
        Ok(&self.files)
    }

    pub fn misused(&self, message: impl Into<String>) -> Failure {
        Failure::usage(message, &self.command)
    }

    pub fn has(&self, option: &str) -> bool {
        self.options.contains_key(option)
    }

    /// The value of an option, or `otherwise`; None of both is a misuse.
    pub fn value<T: std::str::FromStr>(&self, option: &str, otherwise: Option<T>) -> Result<T, Failure>
    where
        T::Err: std::fmt::Display,
    {
        match self.options.get(option) {
            Some(text) => text.parse().map_err(|e| self.misused(format!("{option}: {e}"))),
            None => otherwise.ok_or_else(|| self.misused(format!("{option} is missing"))),
        }
    }
}
