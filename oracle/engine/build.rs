//! Makes the bindings from include/deckplover.h, so that they can't differ from it, and names the static
//! library that `bash tools/staticlib.sh` writes (DECKPLOVER_LIB is its folder).
//!
//! In the header a slice is a pointer and a length: `const uint64_t *x, size_t x_len` is lent for reading and
//! becomes `x: &[u64]`, `uint64_t *x, size_t x_len` may be written and becomes `x: &mut [u64]`; `uint64_t x`
//! is a number.

use std::fmt::Write;
use std::path::PathBuf;
use std::{env, fs};

fn main() {
    link();
    println!("cargo:rerun-if-env-changed=DECKPLOVER_HEADER");
    let here = PathBuf::from(env::var_os("CARGO_MANIFEST_DIR").expect("cargo names the package's folder"));
    let header = env::var_os("DECKPLOVER_HEADER")
        .map(PathBuf::from)
        .unwrap_or_else(|| here.join("../../include/deckplover.h"));
    println!("cargo:rerun-if-changed={}", header.display());
    let text = fs::read_to_string(&header).unwrap_or_else(|e| panic!("{}: {e}", header.display()));
    let out = PathBuf::from(env::var_os("OUT_DIR").expect("cargo names OUT_DIR"));
    fs::write(out.join("bindings.rs"), bindings(&text)).expect("write bindings.rs");
}

fn link() {
    println!("cargo:rerun-if-env-changed=DECKPLOVER_LIB");
    let folder = env::var("DECKPLOVER_LIB").expect("DECKPLOVER_LIB names the folder of libexports.a");
    println!("cargo:rerun-if-changed={folder}/libexports.a");
    println!("cargo:rustc-link-search=native={folder}");
    println!("cargo:rustc-link-lib=static=exports");
}

/// One parameter of a function, as Rust has it.
enum Parameter {
    Number(String),
    Lent(String),
    Written(String),
}

fn bindings(header: &str) -> String {
    let (mut raw, mut safe) = (String::new(), String::new());
    for prototype in without_comments(header).split(';') {
        let Some((_, prototype)) = prototype.split_once("uint64_t ") else { continue };
        let (name, parameters) = prototype.split_once('(').expect("a function");
        let parameters = parameters.trim().strip_suffix(')').expect("the end of a function");
        function(name.trim(), &parsed(parameters), &mut raw, &mut safe);
    }
    format!("extern \"C\" {{\n{raw}}}\n\npub mod calls {{\n{safe}}}\n")
}

/// The header's declarations: no comment, no line of the preprocessor.
fn without_comments(header: &str) -> String {
    let mut text = String::new();
    let mut rest = header;
    while let Some((before, after)) = rest.split_once("/*") {
        text += before;
        rest = after.split_once("*/").expect("the end of a comment").1;
    }
    text += rest;
    text.lines().filter(|line| !line.starts_with('#')).fold(String::new(), |all, line| all + line + " ")
}

fn parsed(parameters: &str) -> Vec<Parameter> {
    let mut found = Vec::new();
    for parameter in parameters.split(',').map(str::trim) {
        if let Some(name) = parameter.strip_prefix("const uint64_t *") {
            found.push(Parameter::Lent(name.into()));
        } else if let Some(name) = parameter.strip_prefix("uint64_t *") {
            found.push(Parameter::Written(name.into()));
        } else if let Some(name) = parameter.strip_prefix("uint64_t ") {
            found.push(Parameter::Number(name.into()));
        } else {
            // The length of the slice that was named last.
            let length = parameter.strip_prefix("size_t ").and_then(|name| name.strip_suffix("_len"));
            let Some(Parameter::Lent(slice) | Parameter::Written(slice)) = found.last() else {
                panic!("no slice before {parameter}");
            };
            assert_eq!(length, Some(slice.as_str()), "another slice before {parameter}");
        }
    }
    found
}

fn function(name: &str, parameters: &[Parameter], raw: &mut String, safe: &mut String) {
    let (mut raw_list, mut safe_list, mut call) = (String::new(), String::new(), String::new());
    for parameter in parameters {
        match parameter {
            Parameter::Number(x) => {
                write!(raw_list, "{x}: u64, ").unwrap();
                write!(safe_list, "{x}: u64, ").unwrap();
                write!(call, "{x}, ").unwrap();
            }
            Parameter::Lent(x) => {
                write!(raw_list, "{x}: *const u64, {x}_len: usize, ").unwrap();
                write!(safe_list, "{x}: &[u64], ").unwrap();
                write!(call, "{x}.as_ptr(), {x}.len(), ").unwrap();
            }
            Parameter::Written(x) => {
                write!(raw_list, "{x}: *mut u64, {x}_len: usize, ").unwrap();
                write!(safe_list, "{x}: &mut [u64], ").unwrap();
                write!(call, "{x}.as_mut_ptr(), {x}.len(), ").unwrap();
            }
        }
    }
    writeln!(raw, "    fn {name}({raw_list}) -> u64;").unwrap();
    // Each pointer and length is a slice that Rust lends for the call; what may be written is lent to nothing
    // else.
    writeln!(
        safe,
        "    pub fn {name}({safe_list}) -> u64 {{\n        unsafe {{ super::{name}({call}) }}\n    }}"
    )
    .unwrap();
}
