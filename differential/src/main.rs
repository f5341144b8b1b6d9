//! Runs the own text of starlark 0.14.2 over stand-ins, to tell what a port of its
//! type annotations has to answer. See README.md.

#![allow(dead_code)]

// The crate's text names these packages. Here each name means this program,
// whose `outside` holds what the text takes from them.
extern crate self as allocative;
extern crate self as display_container;
extern crate self as dupe;
extern crate self as either;
extern crate self as pagable;
extern crate self as starlark_derive;
extern crate self as starlark_syntax;
extern crate self as thiserror;

mod cli;
mod compare;
mod eval;
mod generate;
mod oracle;
mod outside;
mod pairs;
mod port;
mod rules;
mod shrink;
mod speed;
mod trees;
mod typing;
mod values;

pub use outside::*;

fn main() {
    cli::main()
}
