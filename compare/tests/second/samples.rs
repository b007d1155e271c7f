//! The samples: each capture's listing and decoded text, by the second
//! program and by the product.

use super::second;
use super::text::{listing, showing};
use compare::product::Product;
use compare::receiver::Receiver;
use std::fs;
use std::path::{Path, PathBuf};

/// The samples' folder: `SAMPLES`, or beside this package.
pub fn folder() -> PathBuf {
    match std::env::var_os("SAMPLES") {
        Some(folder) => PathBuf::from(folder),
        None => Path::new(env!("CARGO_MANIFEST_DIR")).join("../samples"),
    }
}

/// The captures of a part of the samples.
pub fn captures(part: &str) -> Vec<PathBuf> {
    let files = fs::read_dir(folder().join(part)).expect("the samples");
    let paths = files.map(|file| file.expect("a file").path());
    paths
        .filter(|path| path.extension().is_some_and(|each| each == "bin"))
        .collect()
}

/// Compares texts line by line, for a short message.
fn same_text(path: &Path, told: &str, expected: &str) {
    for (line, (told, expected)) in told.lines().zip(expected.lines()).enumerate() {
        assert_eq!(told, expected, "line {} of {}", line + 1, path.display());
    }
    assert_eq!(told.len(), expected.len(), "length of {}", path.display());
}

/// The second program and the product.
pub fn both() -> [Box<dyn Receiver>; 2] {
    [Box::new(second()), Box::new(Product)]
}

/// Both receivers list a capture so.
fn same_listing(path: &Path, expected: &Path) {
    let bytes = fs::read(path).expect("a capture");
    let expected = fs::read_to_string(expected).expect("its listing");
    for receiver in both() {
        same_text(path, &listing(&*receiver, &bytes), &expected);
    }
}

/// Both receivers decode a capture so.
fn same_showing(path: &Path, expected: &Path) {
    let bytes = fs::read(path).expect("a capture");
    let expected = fs::read_to_string(expected).expect("its text");
    let rules = second().rules;
    for receiver in both() {
        same_text(path, &showing(&*receiver, &rules, &bytes), &expected);
    }
}

#[test]
fn listings() {
    let captures = captures("list");
    assert!(captures.len() >= 20);
    for path in captures {
        same_listing(&path, &path.with_extension("out"));
    }
}

#[test]
fn decoded_texts() {
    let captures = captures("show");
    assert!(captures.len() >= 10);
    for path in captures {
        same_showing(&path, &path.with_extension("out"));
    }
}

#[test]
fn opening_auction() {
    let path = folder().join("opening.bin");
    same_listing(&path, &path.with_extension("list"));
    same_showing(&path, &path.with_extension("show"));
}

#[test]
fn document_01s_listing() {
    let mut bytes = super::hex("00000003 00000000 00000003");
    bytes.extend(super::hex(
        "0005F3CF 0000000C 07DB 000000000000000A 0000 000000BF",
    ));
    for receiver in both() {
        let told = listing(&*receiver, &bytes);
        assert_eq!(told, "0 3 0\n12 390095 12\n36 end 2\n");
    }
}
