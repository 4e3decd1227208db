//! One line read.
use super::tokens::{tokens, Token};
use crate::sizes::OPERATION_WORDS;
use crate::{Action, Clock, Id, Key, Operation, Place, Unfit, Value};
use std::str::FromStr;
use std::vec::IntoIter;

/// None for a line without words.
pub fn operation(line: &str) -> Result<Option<Operation>, String> {
    let mut rest = Rest(tokens(line)?.into_iter());
    if rest.0.as_slice().is_empty() {
        return Ok(None);
    }
    let first = rest.word("an id")?;
    let operation = if first == "words" { rest.words()? } else { rest.operation(first)? };
    rest.ended()?;
    Ok(Some(operation))
}

pub fn clock(text: &str) -> Result<Clock, Unfit> {
    match text {
        "everything" => return Ok(Clock::everything()),
        "nothing" => return Ok(Clock::nothing()),
        _ => (),
    }
    text.split(',').try_fold(Clock::nothing(), |clock, part| {
        let parted = part.trim().split_once('@');
        let numbers = parted.and_then(|(counter, actor)| Some((counter.parse().ok()?, actor.parse().ok()?)));
        let (counter, actor) = numbers.ok_or_else(|| Unfit::Clock(part.chars().take(MOST_SHOWN).collect()))?;
        clock.with(actor, counter)
    })
}

/// What is left of the line.
struct Rest<'a>(IntoIter<Token<'a>>);

impl<'a> Rest<'a> {
    /// The next word; `wanted` says in a complaint what should stand there.
    fn word(&mut self, wanted: &str) -> Result<&'a str, String> {
        match self.0.next() {
            Some(Token::Word(word)) => Ok(word),
            Some(Token::Quoted(_)) => Err(format!("{wanted} is expected, not a key in quotes")),
            None => Err(format!("the line ends where {wanted} is expected")),
        }
    }

    fn keyword(&mut self, keyword: &str) -> Result<(), String> {
        let word = self.word(keyword)?;
        (word == keyword).then_some(()).ok_or_else(|| format!("{keyword} is expected, not {}", shown(word)))
    }

    fn ended(&mut self) -> Result<(), String> {
        match self.0.next() {
            None => Ok(()),
            Some(Token::Word(word)) => Err(format!("nothing more is expected, but {} follows", shown(word))),
            Some(Token::Quoted(_)) => Err("nothing more is expected, but a key in quotes follows".into()),
        }
    }

    fn operation(&mut self, first: &str) -> Result<Operation, String> {
        let id = id(first)?;
        let action = self.action()?;
        self.keyword("in")?;
        let object = self.id_or("root", Id::ROOT)?;
        let place = self.place(object)?;
        Operation::new(id, place, action).over(&self.over()?).map_err(|unfit| unfit.to_string())
    }

    fn action(&mut self) -> Result<Action, String> {
        match self.word("what the operation does")? {
            "make" => match self.word("map or list")? {
                "map" => Ok(Action::MakeMap),
                "list" => Ok(Action::MakeList),
                other => Err(format!("map or list is expected, not {}", shown(other))),
            },
            "set" => Ok(Action::Set(self.value()?)),
            "delete" => Ok(Action::Delete),
            "increment" => Ok(Action::Increment(self.signed()?)),
            other => Err(format!("an operation is a make, set, delete or increment, not {}", shown(other))),
        }
    }

    fn value(&mut self) -> Result<Value, String> {
        Ok(match self.word("a value")? {
            "null" => Value::Null,
            "true" => Value::Boolean(true),
            "false" => Value::Boolean(false),
            "unsigned" => Value::Unsigned(self.number("whole number from 0 to 18446744073709551615")?),
            "signed" => Value::Signed(self.signed()?),
            "counter" => Value::Counter(self.signed()?),
            "timestamp" => Value::Timestamp(self.signed()?),
            "float" => Value::float(self.number("number as in -1.5e3")?),
            "bits" => {
                let word = self.word("0x and hexadecimal digits")?;
                let bits = word.strip_prefix("0x").and_then(|digits| u64::from_str_radix(digits, 16).ok());
                Value::F64(bits.ok_or_else(|| format!("{} is not 0x and at most 16 hexadecimal digits", shown(word)))?)
            }
            other => {
                return Err(format!(
                    "a value is null, true, false, or unsigned, signed, float, bits, counter or timestamp and a \
                     number, not {}",
                    shown(other)
                ))
            }
        })
    }

    fn signed(&mut self) -> Result<i64, String> {
        self.number("whole number from -9223372036854775808 to 9223372036854775807")
    }

    fn number<T: FromStr>(&mut self, what: &str) -> Result<T, String> {
        let word = self.word(&format!("a {what}"))?;
        word.parse().map_err(|_| format!("{} is no {what}", shown(word)))
    }

    fn place(&mut self, object: Id) -> Result<Place, String> {
        match self.word("at, on or after")? {
            "at" => match self.0.next() {
                Some(Token::Quoted(bytes)) => {
                    let key = Key::new(bytes).map_err(|unfit| unfit.to_string())?;
                    Ok(Place::Key { map: object, key })
                }
                _ => Err("after at comes a key in quotes".into()),
            },
            "on" => Ok(Place::Element { list: object, element: id(self.word("an element's id")?)? }),
            "after" => Ok(Place::Insert { list: object, after: self.id_or("head", Id::HEAD)? }),
            other => Err(format!(
                "at and a key, on and an element, or after and an element or head is expected, not {}",
                shown(other)
            )),
        }
    }

    fn id_or(&mut self, name: &str, named: Id) -> Result<Id, String> {
        let word = self.word(&format!("{name} or an id"))?;
        if word == name {
            Ok(named)
        } else {
            id(word)
        }
    }

    /// `over` and at least one id, or nothing.
    fn over(&mut self) -> Result<Vec<Id>, String> {
        if self.0.as_slice().is_empty() {
            return Ok(vec![]);
        }
        self.keyword("over")?;
        let mut ids = vec![id(self.word("an id")?)?];
        while !self.0.as_slice().is_empty() {
            ids.push(id(self.word("an id")?)?);
        }
        Ok(ids)
    }

    /// The 29 words of an operation that has no other form.
    fn words(&mut self) -> Result<Operation, String> {
        let mut words = [0; OPERATION_WORDS];
        for word in &mut words {
            *word = self.number("whole number from 0 to 18446744073709551615")?;
        }
        Ok(Operation::from_words(words))
    }
}

fn id(word: &str) -> Result<Id, String> {
    word.parse::<Id>().map_err(|unfit| match unfit {
        Unfit::Id(_) => format!("an id is written counter@actor, as in 12@0, not {}", shown(word)),
        other => other.to_string(),
    })
}

/// A complaint about a long word shows how it begins.
const MOST_SHOWN: usize = 40;

fn shown(word: &str) -> String {
    match word.char_indices().nth(MOST_SHOWN) {
        Some((end, _)) => format!("{:?}..", word.get(..end).unwrap_or_default()),
        None => format!("{word:?}"),
    }
}
