//! Stand-in for the crate `thiserror`: error texts are left out.

extern crate proc_macro;

use proc_macro::TokenStream;

/// Derives nothing; it is here so that `#[error(..)]` is an attribute the compiler knows.
#[proc_macro_derive(Error, attributes(error))]
pub fn derive_nothing(_input: TokenStream) -> TokenStream {
    TokenStream::new()
}
