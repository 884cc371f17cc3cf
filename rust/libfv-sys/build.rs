// SPDX-License-Identifier: BSD-2-Clause-Patent
//! Finds libfv 2: in the folder that LIBFV_DIR names, otherwise where pkg-config says.

use std::env;
use std::path::{Path, PathBuf};
use std::process::{exit, Command};

/// The versions of libfv that have these declarations, for pkg-config.
const VERSIONS: [&str; 2] = ["libfv >= 2.1", "libfv < 3"];

/// Reports why the crate cannot be linked, and ends the build.
fn fail(why: &str) -> ! {
    eprintln!("libfv 2 is not found: {why}");
    eprintln!("Install it (make install-lib), or name the folder of libfv.a or libfv.so by LIBFV_DIR.");
    exit(1)
}

/// Returns whether an environment variable is set, and neither empty nor 0.
fn is_set(name: &str) -> bool {
    env::var_os(name).map_or(false, |it| !it.is_empty() && it != "0")
}

/// Returns the words of a line that pkg-config writes. A backslash precedes a space in a word.
fn words_of(line: &str) -> Vec<String> {
    let (mut words, mut word) = (Vec::new(), String::new());
    let mut letters = line.chars();
    while let Some(letter) = letters.next() {
        match letter {
            '\\' => word.extend(letters.next()),
            _ if letter.is_whitespace() => words.push(std::mem::take(&mut word)),
            _ => word.push(letter),
        }
    }
    words.push(word);
    words
}

/// Returns the folders in which pkg-config has the linker look for libfv.
fn folders_of_pkg_config(is_static: bool) -> Vec<PathBuf> {
    let tool = env::var("PKG_CONFIG").unwrap_or_else(|_| "pkg-config".to_owned());
    let mut command = Command::new(&tool);
    command.arg("--libs-only-L").args(VERSIONS);
    if is_static {
        // rustc looks for an archive only in the folders that the command line names.
        command.env("PKG_CONFIG_ALLOW_SYSTEM_LIBS", "1");
    }
    match command.output() {
        Err(error) => fail(&format!("{tool}: {error}")),
        Ok(said) if !said.status.success() => fail(String::from_utf8_lossy(&said.stderr).trim()),
        Ok(said) => words_of(&String::from_utf8_lossy(&said.stdout))
            .iter()
            .filter_map(|word| word.strip_prefix("-L"))
            .map(PathBuf::from)
            .collect(),
    }
}

/// Returns the folder that LIBFV_DIR names, and has cargo build again if the library in it changes.
fn named_folder(folder: &Path, is_static: bool) -> Vec<PathBuf> {
    let names: &[&str] = if is_static {
        &["libfv.a"]
    } else {
        &["libfv.so", "libfv.a"]
    };
    let files = names.iter().map(|it| folder.join(it));
    let files: Vec<PathBuf> = files.filter(|it| it.exists()).collect();
    if files.is_empty() {
        fail(&format!("no {} in {}", names.join(" and no "), folder.display()));
    }
    for file in files {
        println!("cargo:rerun-if-changed={}", file.display());
    }
    vec![folder.to_owned()]
}

fn main() {
    for name in [
        "DOCS_RS",
        "LIBFV_DIR",
        "LIBFV_STATIC",
        "PKG_CONFIG",
        "PKG_CONFIG_PATH",
        "PKG_CONFIG_LIBDIR",
        "PKG_CONFIG_SYSROOT_DIR",
    ] {
        println!("cargo:rerun-if-env-changed={name}");
    }
    println!("cargo:rerun-if-changed=build.rs");
    if is_set("DOCS_RS") {
        return;
    }
    let is_static = is_set("CARGO_FEATURE_STATIC") || is_set("LIBFV_STATIC");
    let folders = match env::var_os("LIBFV_DIR") {
        Some(folder) => named_folder(Path::new(&folder), is_static),
        None => folders_of_pkg_config(is_static),
    };
    for folder in folders {
        println!("cargo:rustc-link-search=native={}", folder.display());
    }
    println!("cargo:rustc-link-lib={}fv", if is_static { "static=" } else { "" });
}
