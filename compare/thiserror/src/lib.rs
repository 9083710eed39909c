//! Stand-in for thiserror: the message texts are no part of the comparison, so
//! the derive accepts its attributes and produces nothing.

use proc_macro::TokenStream;

#[proc_macro_derive(Error, attributes(error, source))]
pub fn error(_: TokenStream) -> TokenStream {
    TokenStream::new()
}
