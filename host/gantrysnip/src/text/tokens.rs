//! A line cut into words and quoted keys.

#[derive(Clone, Debug, PartialEq, Eq)]
pub enum Token<'a> {
    Word(&'a str),
    Quoted(Vec<u8>),
}

/// Up to the end of the line or a # that begins a word.
pub fn tokens(line: &str) -> Result<Vec<Token<'_>>, String> {
    let mut found = vec![];
    let mut rest = line.trim_start();
    while !rest.is_empty() && !rest.starts_with('#') {
        let (token, after) = match rest.strip_prefix('"') {
            Some(inside) => quoted(inside)?,
            None => word(rest),
        };
        found.push(token);
        rest = after.trim_start();
    }
    Ok(found)
}

fn word(text: &str) -> (Token<'_>, &str) {
    let end = text.find(|c: char| c.is_whitespace() || c == '"').unwrap_or(text.len());
    let (word, rest) = text.split_at(end);
    (Token::Word(word), rest)
}

/// The bytes up to the closing quote, and what comes after it.
fn quoted(inside: &str) -> Result<(Token<'_>, &str), String> {
    let mut bytes = vec![];
    let mut characters = inside.chars();
    loop {
        match characters.next() {
            None => return Err("the key has no closing quote".into()),
            Some('"') => return Ok((Token::Quoted(bytes), characters.as_str())),
            Some('\\') => bytes.push(escaped(&mut characters)?),
            Some(plain) => bytes.extend(plain.encode_utf8(&mut [0; 4]).bytes()),
        }
    }
}

fn escaped(characters: &mut std::str::Chars) -> Result<u8, String> {
    match characters.next() {
        Some('"') => Ok(b'"'),
        Some('\\') => Ok(b'\\'),
        Some('n') => Ok(b'\n'),
        Some('t') => Ok(b'\t'),
        Some('x') => {
            let mut digit = || characters.next().and_then(|c| c.to_digit(16));
            let (high, low) = (digit(), digit());
            let both = high.zip(low).map(|(high, low)| (high * 16 + low) as u8);
            both.ok_or_else(|| r"\x has two hexadecimal digits after it, as in \x0a".into())
        }
        _ => Err(r#"after \ comes one of " \ n t, or x and two digits"#.into()),
    }
}
