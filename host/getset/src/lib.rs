//! Stand-in for crate getset. `#[derive(Getters)]` gives each field with `#[get = "VISIBILITY"]` a function of the field's name that
//! returns a reference to it. It reads structs with named fields and no type parameters: what src/tracker.rs has.

use proc_macro::{Delimiter, TokenStream, TokenTree};

#[proc_macro_derive(Getters, attributes(get))]
pub fn getters(item: TokenStream) -> TokenStream {
    let (name, fields) = struct_parts(item);
    let functions: String = fields_of(fields).iter().map(getter).collect();
    format!("impl {name} {{ {functions} }}").parse().expect("getters are Rust")
}

/// A field, and the visibility that its getter is asked to have.
struct Field {
    name: String,
    kind: String,
    getter: Option<String>,
}

fn getter(field: &Field) -> String {
    let Field { name, kind, getter } = field;
    match getter {
        Some(visibility) => format!("#[inline] {visibility} fn {name}(&self) -> &{kind} {{ &self.{name} }}"),
        None => String::new(),
    }
}

/// The struct's name, and what stands between its braces.
fn struct_parts(item: TokenStream) -> (String, TokenStream) {
    let mut tokens = item.into_iter();
    while !matches!(tokens.next().expect("a struct"), TokenTree::Ident(word) if word.to_string() == "struct") {}
    let name = tokens.next().expect("a name").to_string();
    match tokens.next() {
        Some(TokenTree::Group(group)) if group.delimiter() == Delimiter::Brace => (name, group.stream()),
        _ => panic!("{name}: only structs with named fields and no parameters are read"),
    }
}

fn fields_of(stream: TokenStream) -> Vec<Field> {
    split_at_commas(stream).into_iter().map(field_of).collect()
}

/// The fields' tokens. A comma between angle brackets, as in `HashMap<u64, bool>`, is part of a type.
fn split_at_commas(stream: TokenStream) -> Vec<Vec<TokenTree>> {
    let (mut fields, mut depth) = (vec![vec![]], 0);
    for token in stream {
        match &token {
            TokenTree::Punct(mark) if mark.as_char() == '<' => depth += 1,
            TokenTree::Punct(mark) if mark.as_char() == '>' => depth -= 1,
            TokenTree::Punct(mark) if mark.as_char() == ',' && depth == 0 => {
                fields.push(vec![]);
                continue;
            }
            _ => {}
        }
        fields.last_mut().expect("never empty").push(token);
    }
    fields.retain(|field| !field.is_empty());
    fields
}

/// Attributes, visibility, name, colon, type.
fn field_of(tokens: Vec<TokenTree>) -> Field {
    let getter = tokens.iter().find_map(asked_visibility);
    let colon = tokens
        .iter()
        .position(|token| matches!(token, TokenTree::Punct(mark) if mark.as_char() == ':'))
        .expect("a field has a type");
    let kind: TokenStream = tokens[colon + 1..].iter().cloned().collect();
    Field { name: tokens[colon - 1].to_string(), kind: kind.to_string(), getter }
}

/// Of the part `[get = "VISIBILITY"]` of an attribute its visibility, without the quotes.
fn asked_visibility(token: &TokenTree) -> Option<String> {
    let TokenTree::Group(group) = token else { return None };
    let mut words = group.stream().into_iter();
    match words.next() {
        Some(TokenTree::Ident(word)) if group.delimiter() == Delimiter::Bracket && word.to_string() == "get" => {}
        _ => return None,
    }
    words.nth(1).map(|literal| literal.to_string().trim_matches('"').to_string())
}
