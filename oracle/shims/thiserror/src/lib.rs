//! Stand-in: #[derive(Error)]; the message is the Debug form.
use proc_macro::{TokenStream, TokenTree};
#[proc_macro_derive(Error, attributes(error))]
pub fn error(item: TokenStream) -> TokenStream {
    let mut it = item.into_iter();
    while let Some(t) = it.next() {
        if let TokenTree::Ident(i) = &t { if i.to_string() == "enum" || i.to_string() == "struct" { break } }
    }
    let n = it.next().unwrap().to_string();
    format!("impl std::fmt::Display for {n} {{ fn fmt(&self, f: &mut std::fmt::Formatter<'_>) -> std::fmt::Result {{ write!(f, \"{{:?}}\", self) }} }} impl std::error::Error for {n} {{}}").parse().unwrap()
}
