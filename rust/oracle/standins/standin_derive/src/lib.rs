//! The derives that the source asks of `thiserror` and `inspect`, without a parser: enough for
//! types without generics. Error texts aren't reproduced, an error shows itself as Debug does.

use proc_macro::Delimiter;
use proc_macro::TokenStream;
use proc_macro::TokenTree;

/// Display (as Debug), Error, and From for each `#[from]` field of a tuple variant.
#[proc_macro_derive(Error, attributes(error, from, source, backtrace))]
pub fn derive_error(item: TokenStream) -> TokenStream {
    let (name, body) = name_and_body(item);
    let mut code = format!(
        "impl ::std::fmt::Display for {name} {{
            fn fmt(&self, f: &mut ::std::fmt::Formatter<'_>) -> ::std::fmt::Result {{
                ::std::fmt::Debug::fmt(self, f)
            }}
        }}
        impl ::std::error::Error for {name} {{}}"
    );
    for (variant, from) in froms(body) {
        code.push_str(&format!(
            "impl ::std::convert::From<{from}> for {name} {{
                fn from(value: {from}) -> Self {{ Self::{variant}(value) }}
            }}"
        ));
    }
    code.parse().expect("generated code is Rust")
}

/// An inspection that tells nothing.
#[proc_macro_derive(Inspect, attributes(inspect))]
pub fn derive_inspect(item: TokenStream) -> TokenStream {
    let (name, _) = name_and_body(item);
    format!(
        "impl ::inspect::Inspect for {name} {{
            fn inspect(&self, _request: ::inspect::Request<'_>) {{}}
        }}"
    )
    .parse()
    .expect("generated code is Rust")
}

/// The type's name, and what its braces hold if it is an enum.
fn name_and_body(item: TokenStream) -> (String, TokenStream) {
    let mut tokens = item.into_iter();
    let is_enum = loop {
        match tokens.next().expect("a struct or an enum").to_string() {
            word if word == "struct" => break false,
            word if word == "enum" => break true,
            _ => {}
        }
    };
    let name = tokens.next().expect("a name").to_string();
    let body = tokens.find_map(|token| match token {
        TokenTree::Group(group) if group.delimiter() == Delimiter::Brace => Some(group.stream()),
        _ => None,
    });
    let body = body.filter(|_| is_enum).unwrap_or_default();
    (name, body)
}

/// The variants of the form `Name(#[from] Type)`, with the type.
fn froms(body: TokenStream) -> Vec<(String, String)> {
    let mut found = Vec::new();
    let mut last = String::new();
    for token in body {
        match token {
            TokenTree::Ident(name) => last = name.to_string(),
            TokenTree::Group(fields) if fields.delimiter() == Delimiter::Parenthesis => {
                found.extend(from_type(fields.stream()).map(|from| (last.clone(), from)));
            }
            _ => {}
        }
    }
    found
}

fn from_type(fields: TokenStream) -> Option<String> {
    let mut tokens = fields.into_iter();
    if tokens.next()?.to_string() != "#" || tokens.next()?.to_string() != "[from]" {
        return None;
    }
    Some(tokens.collect::<TokenStream>().to_string())
}
