//! Stand-in for the crate rmqtt-macros, which isn't in docs/src:
//! `#[derive(Plugin)]` gives `PackageInfo`, a guess from its use.

use proc_macro::{TokenStream, TokenTree};

#[proc_macro_derive(Plugin)]
pub fn plugin(input: TokenStream) -> TokenStream {
    let mut tokens = input.into_iter();
    tokens.find(|t| t.to_string() == "struct").expect("a struct");
    let Some(TokenTree::Ident(name)) = tokens.next() else { panic!("a struct's name") };
    format!(
        "impl rmqtt::plugin::PackageInfo for {name} {{
            fn name(&self) -> &str {{ env!(\"CARGO_PKG_NAME\") }}
        }}"
    )
    .parse()
    .unwrap()
}
