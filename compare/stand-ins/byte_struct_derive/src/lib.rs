//! Stands in for the derive macro of the crate byte_struct, with no parser crate. It takes what
//! byte_struct_common.rs has: `pub struct NAME { pub FIELD: TYPE, .. }` with #[byte_struct_le].

use proc_macro::{Delimiter, TokenStream, TokenTree};

#[proc_macro_derive(ByteStruct, attributes(byte_struct_le))]
pub fn derive(input: TokenStream) -> TokenStream {
    let mut name = String::new();
    let mut fields = Vec::new();
    let mut tokens = input.into_iter();
    while let Some(token) = tokens.next() {
        match token {
            TokenTree::Ident(word) if word.to_string() == "struct" => {
                name = tokens.next().expect("the struct's name").to_string();
            }
            TokenTree::Group(group) if group.delimiter() == Delimiter::Brace => {
                fields = fields_of(group.stream());
            }
            _ => {}
        }
    }

    // Each field stands where the ones before it end.
    let mut at = String::from("0");
    let (mut put, mut get) = (String::new(), String::new());
    for (field, kind) in &fields {
        let len = format!("<{kind} as byte_struct::LeField>::LEN");
        let part = format!("bytes[{at}..{at} + {len}]");
        put += &format!("byte_struct::LeField::put(&self.{field}, &mut {part});");
        get += &format!("{field}: byte_struct::LeField::get(&{part}),");
        at += &format!(" + {len}");
    }
    format!(
        "impl byte_struct::ByteStructLen for {name} {{ const BYTE_LEN: usize = {at}; }}
         impl byte_struct::ByteStruct for {name} {{
             fn write_bytes(&self, bytes: &mut [u8]) {{ {put} }}
             fn read_bytes(bytes: &[u8]) -> Self {{ {name} {{ {get} }} }}
         }}"
    )
    .parse()
    .expect("the derived code is Rust")
}

/// Name and type of each `pub FIELD: TYPE,`.
fn fields_of(stream: TokenStream) -> Vec<(String, String)> {
    let mut fields = Vec::new();
    let mut tokens = stream.into_iter().map(|token| token.to_string());
    while let Some(word) = tokens.next() {
        let field = if word == "pub" { tokens.next().expect("a field") } else { word };
        assert_eq!(tokens.next().as_deref(), Some(":"));
        let kind: String = tokens.by_ref().take_while(|token| token != ",").collect();
        fields.push((field, kind));
    }
    fields
}
