//! Finds the archive `liblaea_c.a` and links it. It never builds the archive, for that is a proof.
//!
//! The archive is looked for in the folder that `LAEA_ARCHIVE_DIR` names, else in
//! `crates/laea_c/out` of the repository. One that is missing, or older than the sources that it is
//! made of, stops the build with what to do.

use std::env;
use std::fs;
use std::io;
use std::path::{Path, PathBuf};
use std::process::exit;
use std::time::SystemTime;

const ARCHIVE: &str = "liblaea_c.a";
const VARIABLE: &str = "LAEA_ARCHIVE_DIR";

fn main() {
    println!("cargo:rerun-if-changed=build.rs");
    println!("cargo:rerun-if-env-changed={VARIABLE}");
    let manifest = env::var_os("CARGO_MANIFEST_DIR").expect("cargo sets CARGO_MANIFEST_DIR");
    let root = Path::new(&manifest).join("../..");
    let root = root.canonicalize().unwrap_or(root);
    let folder = match env::var_os(VARIABLE) {
        Some(named) => PathBuf::from(named),
        None => root.join("crates/laea_c/out"),
    };
    println!("cargo:rerun-if-changed={}", folder.join(ARCHIVE).display());
    for source in sources(&root).unwrap_or_default() {
        println!("cargo:rerun-if-changed={}", source.display());
    }
    let platform = ["ARCH", "OS", "POINTER_WIDTH"].map(target);
    let fault = wrong_platform(&platform).or_else(|| bad_archive(&root, &folder.join(ARCHIVE)));
    if let Some(fault) = fault {
        eprintln!("{fault}");
        exit(1);
    }
    println!("cargo:rustc-link-search=native={}", folder.display());
    println!("cargo:rustc-link-lib=static=laea_c");
}

/// What cargo says of the platform that is built for.
fn target(name: &str) -> String {
    env::var(format!("CARGO_CFG_TARGET_{name}")).unwrap_or_default()
}

/// Why the archive cannot be linked on a platform, if it cannot.
pub fn wrong_platform(platform: &[String; 3]) -> Option<String> {
    if platform.each_ref().map(String::as_str) == ["x86_64", "linux", "64"] {
        return None;
    }
    let [arch, os, width] = platform;
    Some(format!(
        "The crate laea is for x86-64 Linux, the one platform that the Rattle kit compiles for.\n\
         This build is for {arch} {os} with pointers of {width} bits."
    ))
}

/// Why an archive cannot be linked and what to do, if it cannot.
pub fn bad_archive(root: &Path, archive: &Path) -> Option<String> {
    let fault = fault(root, archive)?;
    Some(format!(
        "{fault}\nWhat to do, one of:\n  \
         - run `make archive` in the repository's root, which proves and builds the archive\n    \
           (it needs the Rattle kit), and build again;\n  \
         - take an archive that was built from these sources on another x86-64 Linux machine, and\n    \
           set {VARIABLE} to its folder."
    ))
}

fn fault(root: &Path, archive: &Path) -> Option<String> {
    let shown = archive.display();
    if archive.is_relative() {
        return Some(format!(
            "{VARIABLE} leads to {shown}: name the folder from the root on, for the build runs elsewhere."
        ));
    }
    let built = match fs::metadata(archive).and_then(|found| found.modified()) {
        Ok(built) => built,
        Err(error) => return Some(format!("There is no archive {shown}: {error}.")),
    };
    match newest_source(root) {
        Err(error) => Some(format!("The sources of {shown} cannot be read: {error}.")),
        Ok(Some((changed, source))) if changed > built => Some(format!(
            "The archive {shown} is older than {}.",
            source.display()
        )),
        Ok(_) => None,
    }
}

/// What the archive is made of: the list of crates, and each crate's code and the definitions that its
/// contracts cite; nothing where the crate stands outside the repository.
fn sources(root: &Path) -> io::Result<Vec<PathBuf>> {
    let list = root.join("crates.txt");
    if !list.is_file() {
        return Ok(Vec::new());
    }
    let mut found = vec![list];
    for entry in fs::read_dir(root.join("crates"))? {
        let package = entry?.path();
        let folders = ["src", "specs"].map(|name| package.join(name));
        found.extend(folders.into_iter().filter(|folder| folder.is_dir()));
    }
    Ok(found)
}

/// The source of the archive that was changed last, with the time; nothing where there are no sources
/// to compare with.
fn newest_source(root: &Path) -> io::Result<Option<(SystemTime, PathBuf)>> {
    let mut newest = None;
    let mut todo = sources(root)?;
    while let Some(path) = todo.pop() {
        let found = fs::metadata(&path)?;
        if found.is_dir() {
            for entry in fs::read_dir(path)? {
                todo.push(entry?.path());
            }
        } else {
            newest = newest.max(Some((found.modified()?, path)));
        }
    }
    Ok(newest)
}
