//! What the build script says of platforms and archives, tried on folders made for it.

#[allow(dead_code)]
#[path = "../build.rs"]
mod build;

use std::fs::{self, File};
use std::path::{Path, PathBuf};
use std::time::{Duration, SystemTime};

/// A repository with one crate, all of it from the second 1,000.
fn repository(name: &str) -> PathBuf {
    let root = Path::new(env!("CARGO_TARGET_TMPDIR")).join(name);
    if root.exists() {
        fs::remove_dir_all(&root).expect("a folder of an earlier run can be removed");
    }
    for file in [
        "crates.txt",
        "README.md",
        "crates/one/src/lib.rt",
        "crates/one/src/inner/part.rt",
        "crates/one/specs/Words.antt",
        "crates/one/proofs/Laws.antt",
        "crates/one/must-fail/wrong.edit",
        "crates/laea_c/out/liblaea_c.a",
    ] {
        change(&root.join(file), 1_000);
    }
    root
}

/// Writes a file as if it were changed at a second.
fn change(path: &Path, second: u64) {
    fs::create_dir_all(path.parent().expect("a folder")).expect("the folder can be made");
    let file = File::create(path).expect("the file can be written");
    file.set_modified(SystemTime::UNIX_EPOCH + Duration::from_secs(second))
        .expect("the time can be set");
}

fn fault(root: &Path) -> Option<String> {
    build::bad_archive(root, &root.join("crates/laea_c/out/liblaea_c.a"))
}

fn says_what_to_do(fault: &str) -> bool {
    fault.contains("`make archive` in the repository's root")
        && fault.contains("LAEA_ARCHIVE_DIR")
}

#[test]
fn platforms() {
    let fault = |parts: [&str; 3]| build::wrong_platform(&parts.map(String::from));
    assert_eq!(fault(["x86_64", "linux", "64"]), None);
    for other in [
        ["aarch64", "linux", "64"],
        ["x86", "linux", "32"],
        ["x86_64", "linux", "32"],
        ["x86_64", "windows", "64"],
        ["x86_64", "macos", "64"],
        ["", "", ""],
    ] {
        let said = fault(other).expect("only x86-64 Linux is built for");
        assert!(said.contains("x86-64 Linux"));
        assert!(said.contains(&format!("{} {}", other[0], other[1])));
    }
}

#[test]
fn missing_archive() {
    let root = repository("missing");
    fs::remove_file(root.join("crates/laea_c/out/liblaea_c.a")).expect("it was there");
    let said = fault(&root).expect("no archive");
    assert!(said.starts_with("There is no archive"), "{said}");
    assert!(says_what_to_do(&said), "{said}");
}

/// An archive of the same second or later is linked, an older one is not; proofs, edits and
/// what rt makes are no part of it.
#[test]
fn older_archive() {
    let root = repository("older");
    assert_eq!(fault(&root), None);
    for other in [
        "README.md",
        "crates/one/proofs/Laws.antt",
        "crates/one/must-fail/wrong.edit",
        "crates/one/out/src/lib.rt",
    ] {
        change(&root.join(other), 3_000);
        assert_eq!(fault(&root), None, "{other}");
    }
    for source in [
        "crates.txt",
        "crates/one/src/lib.rt",
        "crates/one/src/inner/part.rt",
        "crates/one/specs/Words.antt",
        "crates/one/specs/inner/Part.antt",
        "crates/two/src/lib.rt",
    ] {
        change(&root.join(source), 2_000);
        let said = fault(&root).expect(source);
        assert!(said.contains(source), "{said}");
        assert!(said.contains("older"), "{said}");
        assert!(says_what_to_do(&said), "{said}");
        change(&root.join(source), 1_000);
        assert_eq!(fault(&root), None, "{source}");
    }
}

/// A folder named from where the caller stands is another one where the build runs.
#[test]
fn relative_folder() {
    let root = repository("relative");
    let said = build::bad_archive(&root, Path::new("out/liblaea_c.a")).expect("refused");
    assert!(
        said.starts_with("LAEA_ARCHIVE_DIR leads to out/liblaea_c.a"),
        "{said}"
    );
    assert!(says_what_to_do(&said), "{said}");
}

/// Outside the repository there are no sources to compare with.
#[test]
fn no_sources() {
    let root = repository("alone");
    change(&root.join("crates/one/src/lib.rt"), 2_000);
    assert!(fault(&root).is_some());
    fs::remove_file(root.join("crates.txt")).expect("it was there");
    assert_eq!(fault(&root), None);
}
