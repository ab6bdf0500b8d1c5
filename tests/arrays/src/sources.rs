//! The sources of crates, found through crates.txt.

use crate::items::Source;
use crate::Trouble;
use std::collections::BTreeMap;
use std::fs;
use std::path::Path;

fn unread(file: &str, what: &str) -> Trouble {
    Trouble::at(0, what).of(file)
}

/// The crates of crates.txt, each with those that it lists.
#[derive(Default)]
pub struct Crates(BTreeMap<String, Vec<String>>);

impl Crates {
    pub fn read(root: &Path) -> Result<Crates, Trouble> {
        let text = fs::read_to_string(root.join("crates.txt"));
        let text = text.map_err(|error| unread("crates.txt", &error.to_string()))?;
        let mut crates = BTreeMap::new();
        for row in text.lines().filter_map(|row| row.split('#').next()) {
            match row.split_once(':') {
                Some((name, known)) => {
                    // A word behind the name says what it is built as.
                    let words: Vec<&str> = name.split_whitespace().collect();
                    let name = match words[..] {
                        [name] | [name, "staticlib"] => name.to_string(),
                        _ => return Err(unread("crates.txt", "a line that is not read")),
                    };
                    let known = known.split_whitespace().map(str::to_string).collect();
                    crates.insert(name, known);
                }
                None if row.trim().is_empty() => {}
                None => return Err(unread("crates.txt", "a line that is not read")),
            }
        }
        Ok(Crates(crates))
    }

    pub fn lists(&self, name: &str, other: &str) -> bool {
        self.0
            .get(name)
            .map_or(false, |known| known.iter().any(|known| known == other))
    }

    pub fn names(&self) -> impl Iterator<Item = &String> {
        self.0.keys()
    }

    /// The crates that one is built from, itself first.
    pub fn of(&self, name: &str) -> Vec<String> {
        let mut found = vec![name.to_string()];
        let mut next = 0;
        while next < found.len() {
            let known = self.0.get(&found[next]).cloned().unwrap_or_default();
            let new: Vec<String> = known
                .into_iter()
                .filter(|name| !found.contains(name))
                .collect();
            found.extend(new);
            next += 1;
        }
        found
    }
}

/// The sources of a crate.
pub fn of_crate(root: &Path, name: &str) -> Result<Vec<Source>, Trouble> {
    let folder = format!("crates/{name}/src");
    let failed = |error: std::io::Error| unread(&folder, &error.to_string());
    let mut sources = Vec::new();
    for entry in fs::read_dir(root.join(&folder)).map_err(failed)? {
        let entry = entry.map_err(failed)?.path();
        let file = entry
            .file_name()
            .unwrap_or_default()
            .to_string_lossy()
            .to_string();
        let module = match file.strip_suffix(".rt") {
            Some("lib" | "main") => name.to_string(),
            Some(module) => format!("{name}::{module}"),
            // Text is built into nothing.
            None if file.ends_with(".txt") => continue,
            None => return Err(unread(&folder, &format!("{file} is not read"))),
        };
        let text = fs::read_to_string(&entry).map_err(failed)?;
        sources.push((format!("{folder}/{file}"), module, text));
    }
    sources.sort();
    match sources.is_empty() {
        true => Err(unread(&folder, "no sources")),
        false => Ok(sources),
    }
}
