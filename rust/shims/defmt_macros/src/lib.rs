// SPDX-License-Identifier: MIT OR Apache-2.0
//! The derive of the stand-in for defmt: of a type without parameters.

use proc_macro::{TokenStream, TokenTree};

#[proc_macro_derive(Format)]
pub fn format(item: TokenStream) -> TokenStream {
    let mut words = item.into_iter().filter_map(|t| match t {
        TokenTree::Ident(word) => Some(word.to_string()),
        _ => None,
    });
    let name = words.find(|w| w == "struct" || w == "enum").and_then(|_| words.next()).expect("a struct or an enum");
    let text = format!("impl defmt::Format for {name} {{ fn format(&self, _: defmt::Formatter<'_>) {{}} }}");
    text.parse().expect("an impl")
}
