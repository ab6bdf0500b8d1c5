//! The repository's examples, for the tests.
#![allow(dead_code)]

use std::fs;
use std::path::{Path, PathBuf};

pub fn root() -> PathBuf {
    Path::new(env!("CARGO_MANIFEST_DIR")).join("..")
}

/// The notation files, in order.
pub fn texts() -> Vec<PathBuf> {
    let entries = fs::read_dir(root().join("examples")).unwrap();
    let mut files: Vec<PathBuf> = entries.map(|entry| entry.unwrap().path()).collect();
    files.retain(|file| file.extension().map_or(false, |end| end == "txt"));
    files.sort();
    files
}

pub fn text(name: &str) -> notation::Text {
    let file = root().join(format!("examples/{name}.txt"));
    notation::parse(&fs::read_to_string(file).unwrap()).unwrap()
}

/// An array of tests/c/examples.h.
pub fn from_c(name: &str) -> Option<Vec<u8>> {
    let header = fs::read_to_string(root().join("tests/c/examples.h")).unwrap();
    let (_, rest) = header.split_once(&format!(" {name}[] = {{"))?;
    let (list, _) = rest.split_once('}').unwrap();
    let numbers = list.split(',').map(str::trim).filter(|n| !n.is_empty());
    Some(numbers.map(|n| n.parse().unwrap()).collect())
}

/// What is stored beside an example of tests/c/examples.h: its book or its sheet.
pub enum Stored {
    Book(Vec<u8>),
    Sheet(Vec<u8>),
}

pub fn stored(number: usize) -> Stored {
    let [book, sheet] = ["book", "sheet"].map(|part| from_c(&format!("example_{number}_{part}")));
    match (book, sheet) {
        (Some(book), None) => Stored::Book(book),
        (None, Some(sheet)) => Stored::Sheet(sheet),
        _ => panic!("example {number} has one of book and sheet"),
    }
}

/// What the second solver says: lines, book and sheet.
pub fn solved(question: &[u8]) -> (reference::Answer, Vec<u8>, Vec<u8>) {
    let (mut book, mut sheet) = (vec![0; 65_536], vec![0; 64]);
    let answer = reference::solve(question, &mut book, &mut sheet);
    (answer, book, sheet)
}
