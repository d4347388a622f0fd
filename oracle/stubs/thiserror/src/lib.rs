//! Stand-in for `thiserror`: the derive macro `Error` for the shapes that the
//! reference uses. These are a struct with one unnamed field, and an enum
//! whose variants have no field or one unnamed field.

use proc_macro::{Delimiter, Group, TokenStream, TokenTree};

/// A variant (or the struct itself): its name, its message literal, and the
/// type of its only field with whether it is marked `#[from]`.
struct Case {
    name: String,
    message: Option<String>,
    field: Option<(String, bool)>,
}

#[proc_macro_derive(Error, attributes(error, from))]
pub fn derive_error(input: TokenStream) -> TokenStream {
    let tokens: Vec<TokenTree> = input.into_iter().collect();
    let (message, at) = attributes(&tokens, 0);
    let at = skip_visibility(&tokens, at);
    let kind = tokens[at].to_string();
    let name = tokens[at + 1].to_string();
    let TokenTree::Group(body) = &tokens[at + 2] else {
        panic!("generic types are not supported");
    };
    let cases = match kind.as_str() {
        "enum" => variants(body),
        "struct" => vec![Case {
            name: name.clone(),
            message,
            field: Some(only_field(body)),
        }],
        other => panic!("{other} is not supported"),
    };
    let prefix = if kind == "enum" {
        format!("{name}::")
    } else {
        String::new()
    };
    render(&name, &prefix, &cases)
}

fn render(name: &str, prefix: &str, cases: &[Case]) -> TokenStream {
    let mut arms = String::new();
    let mut conversions = String::new();
    for case in cases {
        let path = format!("{prefix}{}", case.name);
        let message = case.message.as_ref().expect("every case has #[error]");
        match &case.field {
            None => arms.push_str(&format!("{path} => write!(f, {message}),")),
            Some((field, from)) => {
                arms.push_str(&format!("{path}(field) => write!(f, {message}, field),"));
                if *from {
                    conversions.push_str(&format!(
                        "impl ::core::convert::From<{field}> for {name} {{
                            fn from(source: {field}) -> Self {{ {path}(source) }}
                        }}"
                    ));
                }
            }
        }
    }
    format!(
        "impl ::core::fmt::Display for {name} {{
            fn fmt(&self, f: &mut ::core::fmt::Formatter<'_>) -> ::core::fmt::Result {{
                match self {{ {arms} }}
            }}
        }}
        impl ::std::error::Error for {name} {{}}
        {conversions}"
    )
    .parse()
    .expect("the generated text is Rust")
}

fn variants(body: &Group) -> Vec<Case> {
    let tokens: Vec<TokenTree> = body.stream().into_iter().collect();
    let mut cases = Vec::new();
    let mut at = 0;
    while at < tokens.len() {
        let (message, next) = attributes(&tokens, at);
        let name = tokens[next].to_string();
        at = next + 1;
        let mut field = None;
        if let Some(TokenTree::Group(group)) = tokens.get(at) {
            field = Some(only_field(group));
            at += 1;
        }
        if at < tokens.len() {
            assert_eq!(tokens[at].to_string(), ",");
            at += 1;
        }
        cases.push(Case {
            name,
            message,
            field,
        });
    }
    cases
}

/// The type of the only unnamed field, and whether it is marked `#[from]`.
fn only_field(group: &Group) -> (String, bool) {
    assert_eq!(group.delimiter(), Delimiter::Parenthesis);
    let tokens: Vec<TokenTree> = group.stream().into_iter().collect();
    let marked = tokens.first().is_some_and(|token| token.to_string() == "#");
    let (_, at) = attributes(&tokens, 0);
    let at = skip_visibility(&tokens, at);
    let field: TokenStream = tokens[at..].iter().cloned().collect();
    (field.to_string(), marked)
}

/// Skip the attributes from `at` on; yields the literal of `#[error(..)]`.
fn attributes(tokens: &[TokenTree], mut at: usize) -> (Option<String>, usize) {
    let mut message = None;
    while tokens.get(at).is_some_and(|token| token.to_string() == "#") {
        if let TokenTree::Group(group) = &tokens[at + 1] {
            message = error_literal(group).or(message);
        }
        at += 2;
    }
    (message, at)
}

fn error_literal(attribute: &Group) -> Option<String> {
    let inner: Vec<TokenTree> = attribute.stream().into_iter().collect();
    match inner.as_slice() {
        [TokenTree::Ident(name), TokenTree::Group(literal)] if name.to_string() == "error" => {
            Some(literal.stream().to_string())
        }
        _ => None,
    }
}

fn skip_visibility(tokens: &[TokenTree], mut at: usize) -> usize {
    if tokens[at].to_string() == "pub" {
        at += 1;
        if let TokenTree::Group(_) = &tokens[at] {
            at += 1;
        }
    }
    at
}
