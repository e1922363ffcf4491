//! Links liboptc.a: the one in the folder that OPTC_LIBRARY names, or else the one that `rt lib` proves and builds in
//! `crates/optc`.
use std::env;
use std::fs;
use std::io::ErrorKind;
use std::path::{Path, PathBuf};
use std::process::{exit, Command, Output};

const ARCHIVE: &str = "liboptc.a";
const VARIABLE: &str = "OPTC_LIBRARY";

fn main() {
    println!("cargo:rerun-if-env-changed={VARIABLE}");
    match library() {
        Ok(folder) => {
            println!("cargo:rustc-link-search=native={}", folder.display());
            println!("cargo:rustc-link-lib=static=optc");
        }
        Err(why) => {
            eprintln!("{why}");
            exit(1);
        }
    }
}

/// The folder that holds the archive.
fn library() -> Result<PathBuf, String> {
    let cargo_says = |name| env::var(name).unwrap_or_default();
    if cargo_says("CARGO_CFG_TARGET_ARCH") != "x86_64" || cargo_says("CARGO_CFG_TARGET_OS") != "linux" {
        let target = cargo_says("TARGET");
        return Err(format!("{ARCHIVE} is built for x86-64 Linux alone, and the target is {target}."));
    }
    match env::var_os(VARIABLE) {
        Some(folder) => given(Path::new(&folder)),
        None => built(&Path::new(env!("CARGO_MANIFEST_DIR")).join("../..")),
    }
}

fn given(folder: &Path) -> Result<PathBuf, String> {
    let archive = folder.join(ARCHIVE);
    println!("cargo:rerun-if-changed={}", archive.display());
    if !archive.is_file() {
        return Err(format!(
            "{VARIABLE} is {}, and no {ARCHIVE} is there; name the folder by its whole path.",
            folder.display()
        ));
    }
    Ok(folder.to_path_buf())
}

fn built(root: &Path) -> Result<PathBuf, String> {
    for source in sources(root) {
        println!("cargo:rerun-if-changed={}", source.display());
    }
    let optc = root.join("crates/optc");
    match Command::new("rt").arg("lib").current_dir(&optc).output() {
        Ok(run) if run.status.success() => Ok(optc.join("out")),
        Ok(run) => {
            Err(format!("`rt lib` in crates/optc failed ({}). Its last lines:\n{}", run.status, last_lines(&run)))
        }
        Err(why) if why.kind() == ErrorKind::NotFound => Err(format!(
            "`rt`, the Rattle toolchain, which proves and builds {ARCHIVE}, is not on the PATH. Install it, or set \
             {VARIABLE} to a folder that holds {ARCHIVE}."
        )),
        Err(why) => Err(format!("`rt lib` could not be started: {why}.")),
    }
}

/// What the archive is made of: of each crate the folders beside `out`, in which `rt` keeps its work.
fn sources(root: &Path) -> Vec<PathBuf> {
    let mut found = vec![root.join("crates.txt")];
    for folder in fs::read_dir(root.join("crates")).into_iter().flatten().flatten() {
        found.extend(
            ["src", "specs", "proofs"].map(|part| folder.path().join(part)).into_iter().filter(|part| part.is_dir()),
        );
    }
    found
}

/// The end says why, once the lines are left out that say what was loaded and what is proved.
fn last_lines(run: &Output) -> String {
    let text = [&run.stdout[..], &run.stderr[..]].concat();
    let text = String::from_utf8_lossy(&text);
    let loaded = |line: &str| ["library ", "statements ", "axioms "].iter().any(|word| line.starts_with(word));
    let lines: Vec<&str> = text.lines().filter(|line| !loaded(line) && !line.ends_with(": proved")).collect();
    lines[lines.len().saturating_sub(20)..].join("\n")
}
