//! Written here. Stands in for the macros of the crates modular_bitfield (`bitfield`, `Specifier`)
//! and derive_more (`Deref`, `DerefMut`), as far as the originals use them: named fields of one
//! 64-bit word, enums without data, and structs with one named field.

use proc_macro::{Delimiter, TokenStream, TokenTree};

/// The parts of a struct or enum that the macros need.
struct Item {
    attributes: Vec<String>,
    visibility: String,
    name: String,
    generics: String,
    body: TokenStream,
}

fn parse_item(input: TokenStream) -> Item {
    let mut tokens = input.into_iter().peekable();
    let attributes = take_attributes(&mut tokens);
    let visibility = take_visibility(&mut tokens);
    tokens.next(); // `struct` or `enum`
    let name = tokens.next().expect("a name").to_string();
    let mut generics = TokenStream::new();
    for token in tokens {
        match token {
            TokenTree::Group(g) if g.delimiter() == Delimiter::Brace => {
                return Item {
                    attributes,
                    visibility,
                    name,
                    generics: generics.to_string(),
                    body: g.stream(),
                };
            }
            other => generics.extend([other]),
        }
    }
    panic!("an item with a body in braces is wanted");
}

type Tokens = std::iter::Peekable<proc_macro::token_stream::IntoIter>;

fn next_is(tokens: &mut Tokens, text: &str) -> bool {
    tokens.peek().is_some_and(|t| t.to_string() == text)
}

fn take_attributes(tokens: &mut Tokens) -> Vec<String> {
    let mut attributes = vec![];
    while next_is(tokens, "#") {
        tokens.next();
        let group = tokens.next().expect("an attribute").to_string();
        attributes.push(format!("#{group}"));
    }
    attributes
}

fn take_visibility(tokens: &mut Tokens) -> String {
    if !next_is(tokens, "pub") {
        return String::new();
    }
    tokens.next();
    match tokens.peek() {
        Some(TokenTree::Group(g)) if g.delimiter() == Delimiter::Parenthesis => {
            let scope = g.to_string();
            tokens.next();
            format!("pub{scope}")
        }
        _ => "pub".into(),
    }
}

/// One field: visibility, name and type.
fn parse_fields(body: TokenStream) -> Vec<(String, String, String)> {
    let mut tokens = body.into_iter().peekable();
    let mut fields = vec![];
    while tokens.peek().is_some() {
        take_attributes(&mut tokens);
        let visibility = take_visibility(&mut tokens);
        let name = tokens.next().expect("a field name").to_string();
        tokens.next(); // `:`
        let mut kind = TokenStream::new();
        for token in tokens.by_ref() {
            if token.to_string() == "," {
                break;
            }
            kind.extend([token]);
        }
        fields.push((visibility, name, kind.to_string()));
    }
    fields
}

/// The accessors of one field that starts at bit `at`, a constant expression.
fn accessors((visibility, name, kind): &(String, String, String), at: &str) -> String {
    let spec = format!("<{kind} as modular_bitfield::Specifier>");
    format!(
        "{visibility} fn {name}_or_err(&self)
             -> Result<{spec}::InOut, modular_bitfield::InvalidBits> {{
             {spec}::from_bits((self.0 >> ({at})) & modular_bitfield::low_bits({spec}::BITS))
         }}
         {visibility} fn {name}(&self) -> {spec}::InOut {{
             self.{name}_or_err().expect(\"invalid bits in a field\")
         }}
         {visibility} fn set_{name}(&mut self, value: {spec}::InOut) {{
             let all = modular_bitfield::low_bits({spec}::BITS);
             let bits = {spec}::to_bits(value);
             assert!(bits <= all, \"value out of bounds for a field\");
             self.0 = self.0 & !(all << ({at})) | bits << ({at});
         }}
         {visibility} fn with_{name}(mut self, value: {spec}::InOut) -> Self {{
             self.set_{name}(value);
             self
         }}"
    )
}

/// Turns a struct of bit fields, lowest first, into a struct around one 64-bit word.
#[proc_macro_attribute]
pub fn bitfield(_arguments: TokenStream, input: TokenStream) -> TokenStream {
    let item = parse_item(input);
    let mut at = String::from("0");
    let mut methods = String::new();
    for field in parse_fields(item.body) {
        methods += &accessors(&field, &at);
        at += &format!("+ <{} as modular_bitfield::Specifier>::BITS", field.2);
    }
    // The layout attribute of the original would not fit the one field of the new struct.
    let kept: Vec<String> = (item.attributes.into_iter())
        .filter(|a| !a.replace(' ', "").starts_with("#[repr("))
        .collect();
    let (visibility, name) = (item.visibility, item.name);
    format!(
        "{} {visibility} struct {name}(u64);
         #[allow(dead_code)]
         impl {name} {{
             pub fn new() -> Self {{ Self(0) }}
             pub fn from_bytes(bytes: [u8; 8]) -> Self {{ Self(u64::from_le_bytes(bytes)) }}
             pub fn into_bytes(self) -> [u8; 8] {{ self.0.to_le_bytes() }}
             {methods}
         }}",
        kept.join("\n")
    )
    .parse()
    .expect("generated code")
}

/// The number of bits that `#[bits = N]` gives.
fn declared_bits(attributes: &[String]) -> String {
    (attributes.iter())
        .map(|a| a.replace(' ', ""))
        .find_map(|a| Some(a.strip_prefix("#[bits=")?.strip_suffix("]")?.to_string()))
        .expect("#[bits = N]")
}

fn variant_names(body: TokenStream) -> Vec<String> {
    let mut tokens = body.into_iter().peekable();
    let mut names = vec![];
    while tokens.peek().is_some() {
        take_attributes(&mut tokens);
        names.push(tokens.next().expect("a variant").to_string());
        tokens.by_ref().find(|t| t.to_string() == ",");
    }
    names
}

/// Lets an enum without data be the type of a bit field.
#[proc_macro_derive(Specifier, attributes(bits))]
pub fn derive_specifier(input: TokenStream) -> TokenStream {
    let item = parse_item(input);
    let bits = declared_bits(&item.attributes);
    let name = item.name;
    let arms: String = (variant_names(item.body).iter())
        .map(|v| format!("b if b == {name}::{v} as u64 => Ok({name}::{v}),"))
        .collect();
    format!(
        "impl modular_bitfield::Specifier for {name} {{
             const BITS: u32 = {bits};
             type InOut = {name};
             fn to_bits(value: {name}) -> u64 {{ value as u64 }}
             fn from_bits(bits: u64) -> Result<{name}, modular_bitfield::InvalidBits> {{
                 match bits {{ {arms} _ => Err(modular_bitfield::InvalidBits) }}
             }}
         }}"
    )
    .parse()
    .expect("generated code")
}

/// Reads through the one field, which is itself a reference.
#[proc_macro_derive(Deref, attributes(deref))]
pub fn derive_deref(input: TokenStream) -> TokenStream {
    let item = parse_item(input);
    let (name, generics) = (item.name, item.generics);
    let (_, field, kind) = parse_fields(item.body).remove(0);
    format!(
        "impl {generics} std::ops::Deref for {name} {generics} {{
             type Target = <{kind} as std::ops::Deref>::Target;
             fn deref(&self) -> &Self::Target {{ &self.{field} }}
         }}"
    )
    .parse()
    .expect("generated code")
}

/// Writes through the one field, which is itself a reference.
#[proc_macro_derive(DerefMut, attributes(deref_mut))]
pub fn derive_deref_mut(input: TokenStream) -> TokenStream {
    let item = parse_item(input);
    let (name, generics) = (item.name, item.generics);
    let (_, field, _) = parse_fields(item.body).remove(0);
    format!(
        "impl {generics} std::ops::DerefMut for {name} {generics} {{
             fn deref_mut(&mut self) -> &mut Self::Target {{ &mut *self.{field} }}
         }}"
    )
    .parse()
    .expect("generated code")
}
