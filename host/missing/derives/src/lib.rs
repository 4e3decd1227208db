//! Stand-ins for three derive macros. `Error`: Display shows the Debug form and `#[from]` fields give `From`.
//! `Serialize` and `Deserialize` give nothing: nothing is ever serialised.
use proc_macro::{Delimiter, TokenStream, TokenTree};

#[proc_macro_derive(Serialize, attributes(serde))]
pub fn serialize(_: TokenStream) -> TokenStream {
    TokenStream::new()
}

#[proc_macro_derive(Deserialize, attributes(serde))]
pub fn deserialize(_: TokenStream) -> TokenStream {
    TokenStream::new()
}

#[proc_macro_derive(Error, attributes(error, from, source))]
pub fn error(item: TokenStream) -> TokenStream {
    let (name, variants) = name_and_variants(item);
    let mut out = format!(
        "impl std::fmt::Display for {name} {{
            fn fmt(&self, f: &mut std::fmt::Formatter<'_>) -> std::fmt::Result {{ write!(f, \"{{:?}}\", self) }}
        }}
        impl std::error::Error for {name} {{}}"
    );
    for (variant, source) in sources(variants) {
        out += &format!("impl From<{source}> for {name} {{ fn from(v: {source}) -> Self {{ {name}::{variant}(v) }} }}");
    }
    out.parse().unwrap()
}

/// The type's name and, for an enum, what stands between its braces.
fn name_and_variants(item: TokenStream) -> (String, TokenStream) {
    let mut tokens = item.into_iter();
    let mut name = String::new();
    let mut is_enum = false;
    while let Some(token) = tokens.next() {
        match token {
            TokenTree::Ident(word) if name.is_empty() => {
                let word = word.to_string();
                if word == "enum" || word == "struct" {
                    is_enum = word == "enum";
                    name = tokens.next().unwrap().to_string();
                }
            }
            TokenTree::Group(body) if is_enum && body.delimiter() == Delimiter::Brace => return (name, body.stream()),
            _ => {}
        }
    }
    (name, TokenStream::new())
}

/// Each variant with a `#[from]` field, and that field's type.
fn sources(variants: TokenStream) -> Vec<(String, TokenStream)> {
    let mut variant = String::new();
    let mut found = vec![];
    for token in variants {
        match token {
            TokenTree::Ident(word) => variant = word.to_string(),
            TokenTree::Group(fields) if fields.delimiter() == Delimiter::Parenthesis => {
                let fields: Vec<TokenTree> = fields.stream().into_iter().collect();
                if fields.len() > 2 && fields[1].to_string() == "[from]" {
                    found.push((variant.clone(), fields[2..].iter().cloned().collect()));
                }
            }
            _ => {}
        }
    }
    found
}
