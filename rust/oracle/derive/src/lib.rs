//! `#[derive(Pod, Zeroable)]`, which Debian's bytemuck lacks: an empty `unsafe impl` of the trait for the struct.
//! It checks nothing, and is for the one struct of the reference that derives them, four bytes with no padding.

use proc_macro::{TokenStream, TokenTree};

fn implemented(name: &str, item: TokenStream) -> TokenStream {
    let mut tokens = item.into_iter();
    let is_struct = |token: TokenTree| matches!(token, TokenTree::Ident(word) if word.to_string() == "struct");
    assert!(tokens.any(is_struct), "{name} is derived for structs alone");
    let declared = tokens.next().expect("a struct has a name");
    format!("unsafe impl ::bytemuck::{name} for {declared} {{}}").parse().expect("an impl is Rust")
}

/// Any bytes are a value, and a value has no padding.
#[proc_macro_derive(Pod)]
pub fn pod(item: TokenStream) -> TokenStream {
    implemented("Pod", item)
}

/// Bytes that are 0 are a value.
#[proc_macro_derive(Zeroable)]
pub fn zeroable(item: TokenStream) -> TokenStream {
    implemented("Zeroable", item)
}
