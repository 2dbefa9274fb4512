//! Has rust-protobuf's own generator make the Rust of conf_state.proto, in OUT_DIR, and finds the library with the entries.
//!
//! That is libcalls.a: built for x86-64 the static library, in the folder named by DIMECANDLE_LIBS, else in the repository's
//! target/staticlib. Built for another processor it is native code of the same LLVM module (scripts/native), in the folder
//! named by DIMECANDLE_NATIVE, else in target/native.

use protobuf_codegen_pure::Codegen;
use std::env;
use std::fs;
use std::path::{Path, PathBuf};

fn main() {
    let package = PathBuf::from(env::var_os("CARGO_MANIFEST_DIR").expect("cargo names the package"));
    codec(&package);
    library(&package);
}

/// The generated file has attributes of its own on top, so it is a module by its path; its style is not ours to mend.
fn codec(package: &Path) {
    let made = PathBuf::from(env::var_os("OUT_DIR").expect("cargo names it"));
    let proto = package.join("conf_state.proto");
    println!("cargo::rerun-if-changed={}", proto.display());
    Codegen::new().out_dir(&made).include(package).input(&proto).run().expect("rust-protobuf's generator takes the file");
    let module = format!("#[allow(clippy::all, warnings)]\n#[path = {:?}]\nmod conf_state;\n", made.join("conf_state.rs"));
    fs::write(made.join("codec.rs"), module).expect("OUT_DIR can be written");
}

fn library(package: &Path) {
    let (variable, usual, code) = match env::var("CARGO_CFG_TARGET_ARCH").expect("cargo names it").as_str() {
        "x86_64" => ("DIMECANDLE_LIBS", "../../target/staticlib", "x86-64 code of the static library".to_string()),
        other => {
            ("DIMECANDLE_NATIVE", "../../target/native", format!("native code of the static library's LLVM module, {other}"))
        }
    };
    println!("cargo::rerun-if-env-changed={variable}");
    let named = env::var_os(variable).map(|folder| PathBuf::from(folder).join("libcalls.a"));
    let code = named.as_ref().map_or(code, |archive| format!("the code in {}", archive.display()));
    let archive = named.unwrap_or_else(|| package.join(usual).join("libcalls.a"));
    println!("cargo::rerun-if-changed={}", archive.display());
    assert!(archive.is_file(), "there is no {}", archive.display());
    println!("cargo::rustc-link-arg-bins={}", archive.display());
    println!("cargo::rustc-env=LINKED_CODE={code}");
}
