//! Finds the crate's source folder (environment variable STARLARK_SRC) and hands
//! its path to the `include!` lines of `src/typing.rs` and `src/values.rs`.
//! No line of the crate is copied: the compiler reads the files where they are.

use std::env;
use std::path::PathBuf;

const FILES: [&str; 8] = [
    "typing/ty.rs",
    "typing/basic.rs",
    "typing/tuple.rs",
    "typing/starlark_value.rs",
    "values/typing/type_compiled/alloc.rs",
    "values/typing/type_compiled/factory.rs",
    "values/typing/type_compiled/matcher.rs",
    "values/typing/type_compiled/matchers.rs",
];

fn main() {
    println!("cargo:rerun-if-env-changed=STARLARK_SRC");
    let Some(given) = env::var_os("STARLARK_SRC") else {
        panic!("set STARLARK_SRC to a folder with the src/ of starlark 0.14.2");
    };
    let given = PathBuf::from(given);
    let Some(root) = [given.join("src"), given.clone()]
        .into_iter()
        .find(|d| FILES.iter().all(|f| d.join(f).is_file()))
    else {
        panic!(
            "{} has not the files {FILES:?} in it nor in its src/",
            given.display()
        );
    };
    let root = root.canonicalize().expect("a path");
    for f in FILES {
        println!("cargo:rerun-if-changed={}", root.join(f).display());
    }
    println!("cargo:rustc-env=STARLARK_TEXT={}", root.display());
    if env::var_os("CARGO_FEATURE_PORT").is_some() {
        link_port();
    }
}

/// Links the archives named in PORT_LIB, by `:` between.
fn link_port() {
    println!("cargo:rerun-if-env-changed=PORT_LIB");
    let Some(archives) = env::var_os("PORT_LIB") else {
        panic!("set PORT_LIB to the archive of the port");
    };
    for archive in env::split_paths(&archives) {
        println!("cargo:rerun-if-changed={}", archive.display());
        println!("cargo:rustc-link-arg={}", archive.display());
    }
}
