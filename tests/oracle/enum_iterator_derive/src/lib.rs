//! `#[derive(Sequence)]` for enums whose variants hold nothing.
use proc_macro::{Delimiter, TokenStream, TokenTree};

#[proc_macro_derive(Sequence)]
pub fn sequence(item: TokenStream) -> TokenStream {
    let mut name = None;
    let mut variants = vec![];
    let mut tokens = item.into_iter();
    while let Some(token) = tokens.next() {
        match token {
            TokenTree::Ident(word) if word.to_string() == "enum" => {
                name = tokens.next().map(|t| t.to_string());
            }
            TokenTree::Group(group) if group.delimiter() == Delimiter::Brace && name.is_some() => {
                // Each variant is one word, after its attributes.
                for inner in group.stream() {
                    if let TokenTree::Ident(variant) = inner {
                        variants.push(variant.to_string());
                    }
                }
            }
            _ => {}
        }
    }
    let name = name.expect("an enum");
    let list: Vec<String> = variants.iter().map(|v| format!("{name}::{v}")).collect();
    let text = format!(
        "impl enum_iterator::Sequence for {name} {{ fn variants() -> Vec<Self> {{ vec![{}] }} }}",
        list.join(", ")
    );
    text.parse().unwrap()
}
