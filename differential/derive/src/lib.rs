//! The derives and attributes that stand in the crate's text and that bear on
//! paging, memory accounting and error texts only. Each derive makes nothing and
//! each attribute leaves its item as it is; the traits of the same names have
//! blanket implementations in `src/outside.rs`.

use proc_macro::TokenStream;

#[proc_macro_derive(Allocative, attributes(allocative))]
pub fn allocative(_: TokenStream) -> TokenStream {
    TokenStream::new()
}

#[proc_macro_derive(Dupe)]
pub fn dupe(_: TokenStream) -> TokenStream {
    TokenStream::new()
}

#[proc_macro_derive(Pagable)]
pub fn pagable(_: TokenStream) -> TokenStream {
    TokenStream::new()
}

#[proc_macro_derive(Trace)]
pub fn trace(_: TokenStream) -> TokenStream {
    TokenStream::new()
}

#[proc_macro_derive(Error, attributes(error))]
pub fn error(_: TokenStream) -> TokenStream {
    TokenStream::new()
}

#[proc_macro_attribute]
pub fn type_matcher(_: TokenStream, item: TokenStream) -> TokenStream {
    item
}

#[proc_macro_attribute]
pub fn pagable_typetag(_: TokenStream, item: TokenStream) -> TokenStream {
    item
}

#[proc_macro_attribute]
pub fn pagable_tagged(_: TokenStream, item: TokenStream) -> TokenStream {
    item
}
