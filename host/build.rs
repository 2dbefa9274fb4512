//! Finds the Rust text and the libraries.
//!
//! The text: the folder named by RAFT_SRC, else `../shared/docs/src/src` beside the repository. OUT_DIR gets a copy of each of its files,
//! byte for byte, in the layout that rustc looks for (a link in a checkout is refused by `rt ci`). With it, `--cfg rust_text`.
//!
//! The libraries: `libcalls.a` and `liblisting.a` in the folder named by DIMECANDLE_LIBS, else in the repository's target/staticlib.
//! With one, `--cfg libcalls` or `--cfg liblisting`; without it the model of the paper stands in its place. Their code is for x86-64,
//! and built for that they are linked: `--cfg calls_linked`, `--cfg listing_linked`. Built for another processor, each entry is put into
//! a program for the emulator, `--cfg emulated`, and what is linked is native code, `--cfg native`: libraries of the same names in the
//! folder named by DIMECANDLE_NATIVE, else in target/native. Where one of these is missing, or older than the other, none is linked.

use std::env;
use std::fs;
use std::path::{Path, PathBuf};
use std::process::Command;

/// The files of the text, and where each stands for rustc: a module that is named by `#[path]` has its own modules beside it.
const TEXT: [(&str, &str); 8] = [
    ("confchange.rs", "confchange/mod.rs"),
    ("confchange/changer.rs", "confchange/changer.rs"),
    ("confchange/restore.rs", "confchange/restore.rs"),
    ("tracker.rs", "tracker/mod.rs"),
    ("tracker/progress.rs", "tracker/progress.rs"),
    ("tracker/state.rs", "tracker/state.rs"),
    ("tracker/inflights.rs", "tracker/inflights.rs"),
    ("quorum.rs", "quorum/mod.rs"),
];

/// Files of the text that get a door behind them.
const DOORS: [(&str, &str); 2] = [("confchange/changer.rs", "changer.rs"), ("tracker/inflights.rs", "inflights.rs")];

/// Modules that the text declares and that are not at hand.
const STAND_INS: [&str; 2] = ["quorum/joint.rs", "quorum/majority.rs"];

/// Before each module of the text, which is taken as it was published: its style, and what nobody calls here, is not ours to mend. The
/// stand-ins among its modules say again that they are.
const NOT_OURS: &str = "#[allow(clippy::all, dead_code, mismatched_lifetime_syntaxes)]";

/// The libraries, and the entries of each.
const LIBRARIES: [(&str, &[&str]); 2] = [("calls", &CALLS), ("listing", &["dimecandle_replay"])];

const CALLS: [&str; 5] =
    ["dimecandle_call", "dimecandle_unplug", "dimecandle_read_conf_state", "dimecandle_write_conf_state", "dimecandle_compare"];

fn main() {
    for name in ["rust_text", "libcalls", "liblisting", "calls_linked", "listing_linked", "emulated", "native"] {
        println!("cargo::rustc-check-cfg=cfg({name})");
    }
    let package = PathBuf::from(env::var_os("CARGO_MANIFEST_DIR").expect("cargo names the package"));
    text(&package);
    libraries(&package);
}

/// The folder that a variable names, else a usual one.
fn folder(package: &Path, variable: &str, usual: &str) -> PathBuf {
    println!("cargo::rerun-if-env-changed={variable}");
    match env::var_os(variable) {
        Some(named) => PathBuf::from(named),
        None => package.join(usual),
    }
}

// ** The text

fn text(package: &Path) {
    let source = folder(package, "RAFT_SRC", "../../shared/docs/src/src");
    println!("cargo::rustc-env=RAFT_SRC_TRIED={}", source.display());
    for (file, _) in TEXT {
        println!("cargo::rerun-if-changed={}", source.join(file).display());
    }
    let Ok(source) = source.canonicalize() else { return };
    if TEXT.iter().all(|(file, _)| source.join(file).is_file()) {
        lay_out(package, &source);
        println!("cargo::rustc-cfg=rust_text");
    }
}

fn lay_out(package: &Path, source: &Path) {
    let text = PathBuf::from(env::var_os("OUT_DIR").expect("cargo names it")).join("text");
    let _ = fs::remove_dir_all(&text);
    for part in ["confchange", "tracker", "quorum"] {
        fs::create_dir_all(text.join(part)).expect("OUT_DIR can be written");
    }
    for (file, place) in TEXT {
        match DOORS.iter().find(|(with_door, _)| *with_door == file) {
            None => copy(&source.join(file), &text.join(place)),
            Some((_, door)) => {
                let door = package.join("src/raft/doors").join(door);
                let both = format!("include!({:?});\ninclude!({:?});\n", source.join(file), door);
                fs::write(text.join(place), both).expect("OUT_DIR can be written");
            }
        }
    }
    for file in STAND_INS {
        let stand_in = package.join("src/raft").join(file);
        println!("cargo::rerun-if-changed={}", stand_in.display());
        copy(&stand_in, &text.join(file));
    }
    let module = |name: &str| format!("{NOT_OURS}\n#[path = {:?}]\nmod {name};\n", text.join(name).join("mod.rs"));
    let modules: String = ["confchange", "quorum", "tracker"].map(module).concat();
    fs::write(text.join("modules.rs"), modules).expect("OUT_DIR can be written");
}

fn copy(from: &Path, to: &Path) {
    fs::copy(from, to).unwrap_or_else(|error| panic!("{} cannot be copied: {error}", from.display()));
}

// ** The libraries

/// Puts each library behind its entries' names, or says why it is not there.
fn libraries(package: &Path) {
    let mut found = vec![];
    for (name, entries) in LIBRARIES {
        let made = library(package, name, entries);
        println!("cargo::rustc-env={}_MISSING={}", name.to_uppercase(), made.as_ref().err().map_or("", String::as_str));
        if let Ok(archive) = made {
            println!("cargo::rustc-cfg=lib{name}");
            found.push((name, archive));
        }
    }
    if for_x86_64() {
        return link(&found);
    }
    let folder = folder(package, "DIMECANDLE_NATIVE", "../target/native");
    let native = found.iter().map(|library| native(&folder, library)).collect::<Option<Vec<_>>>();
    if !found.is_empty() {
        println!("cargo::rustc-cfg=emulated");
    }
    if let Some(native @ [_, ..]) = native.as_deref() {
        println!("cargo::rustc-cfg=native");
        link(native);
    }
}

fn for_x86_64() -> bool {
    env::var("CARGO_CFG_TARGET_ARCH").expect("cargo names it") == "x86_64"
}

/// A library's name, and where it is.
type Found<'a> = (&'a str, PathBuf);

/// A library's native code, if it is there and not older than the x86-64 code.
fn native<'a>(folder: &Path, (name, of): &Found<'a>) -> Option<Found<'a>> {
    let archive = folder.join(format!("lib{name}.a"));
    println!("cargo::rerun-if-changed={}", archive.display());
    let made = |file: &Path| file.metadata().and_then(|known| known.modified()).ok();
    (made(&archive)? >= made(of)?).then_some((*name, archive.canonicalize().ok()?))
}

fn link(found: &[Found]) {
    for (name, archive) in found {
        println!("cargo::rustc-cfg={name}_linked");
        println!("cargo::rustc-link-arg-bins={}", archive.display());
    }
}

/// The archive of a library whose code can be run, or why it cannot.
fn library(package: &Path, name: &str, entries: &[&str]) -> Result<PathBuf, String> {
    let file = folder(package, "DIMECANDLE_LIBS", "../target/staticlib").join(format!("lib{name}.a"));
    println!("cargo::rerun-if-changed={}", file.display());
    let file = file.canonicalize().map_err(|_| format!("lib{name}.a was not found when this was built"))?;
    if !for_x86_64() {
        let runs = entries.iter().try_for_each(|entry| in_a_program(package, entry, &file));
        runs.map_err(|words| format!("lib{name}.a could not be run when this was built ({words})"))?;
    }
    Ok(file)
}

/// Puts an entry of the library into a program of its own, emulated.c, for the emulator.
fn in_a_program(package: &Path, entry: &str, library: &Path) -> Result<(), String> {
    let [compiler, emulator] = ["x86-64-cc", "x86-64"].map(|script| package.join("../scripts").join(script));
    let source = package.join("emulated.c");
    for file in [&compiler, &emulator, &source] {
        println!("cargo::rerun-if-changed={}", file.display());
    }
    for variable in ["RATTLE_HOME", "PATH"] {
        println!("cargo::rerun-if-env-changed={variable}");
    }
    let program = PathBuf::from(env::var_os("OUT_DIR").expect("cargo names it")).join(entry);
    let name = entry.to_uppercase();
    let options = [format!("-DENTRY={entry}"), format!("-D{name}")];
    carry_out(Command::new(compiler).arg(&program).arg(source).args(options).arg(library))?;
    // without input it ends at once
    carry_out(Command::new(&emulator).arg(&program))?;
    println!("cargo::rustc-env=EMULATOR={}", emulator.display());
    println!("cargo::rustc-env={name}_PROGRAM={}", program.display());
    Ok(())
}

/// Runs a script of the repository: what it says, where that is that it cannot run here.
fn carry_out(script: &mut Command) -> Result<(), String> {
    const CANNOT_RUN: i32 = 77;
    let done = script.output().expect("the repository has the script");
    let said = String::from_utf8_lossy(&done.stderr);
    match done.status.code() {
        Some(0) => Ok(()),
        Some(CANNOT_RUN) => Err(said.lines().last().unwrap_or_default().to_string()),
        _ => panic!("{script:?} failed\n{said}"),
    }
}
