//! What a tree's sources hold, and what of it may not be.

use crate::arrays::{arrays, Array};
use crate::items::{What, World};
use crate::lent::{lent, Lent};
use crate::sources::{of_crate, Crates};
use crate::Trouble;
use std::collections::BTreeSet;
use std::fmt;
use std::path::Path;

/// "Solving .. holds no array over 1,024 bytes".
const MOST: usize = 1024;

/// The crate that solves, and the one that exports its calls.
const SOLVING: &str = "solving";
const CALLS: &str = "jemuling_c";

#[derive(Default)]
pub struct Judged {
    crates: usize,
    files: usize,
    arrays: Vec<Array>,
    lent: Vec<Lent>,
    /// The crates that have a function.
    pub with_code: BTreeSet<String>,
    /// What may not be, a line for each.
    pub faults: Vec<String>,
}

/// Judges the tree at a root.
pub fn judged(root: &Path) -> Judged {
    let mut judged = Judged::default();
    if let Err(trouble) = judged.read(root) {
        judged.faults.push(trouble.to_string());
    }
    judged
}

impl Judged {
    fn read(&mut self, root: &Path) -> Result<(), Trouble> {
        let crates = Crates::read(root)?;
        // What solving is built from, and what of the calls is built from solving.
        let mut names = crates.of(SOLVING);
        for name in crates.of(CALLS) {
            if !names.contains(&name) && crates.of(&name).contains(&names[0]) {
                names.push(name);
            }
        }
        let mut sources = Vec::new();
        for name in &names {
            sources.extend(of_crate(root, name)?);
        }
        self.crates = names.len();
        self.files = sources.len();
        let world = World::read(sources, crates)?;
        for (path, item) in &world.items {
            if let What::Function(_) = item.what {
                self.with_code
                    .extend(path.split("::").next().map(str::to_string));
            }
        }
        let lent = lent(&world, SOLVING)?;
        self.arrays = arrays(&world)?;
        self.too_large();
        self.lent = lent;
        self.too_much();
        Ok(())
    }

    fn too_large(&mut self) {
        for array in self.arrays.iter().filter(|array| array.bytes > MOST) {
            let guessed = match array.guessed {
                true => ", counting the widest numbers, since no type is written",
                false => "",
            };
            let Array {
                place,
                written,
                bytes,
                ..
            } = array;
            self.faults
                .push(format!("{place}: {written} has {bytes} bytes{guessed}"));
        }
        if self.arrays.is_empty() {
            self.faults.push("no array was found".to_string());
        }
    }

    fn too_much(&mut self) {
        for Lent {
            place,
            name,
            others,
            ..
        } in &self.lent
        {
            let faults = others
                .iter()
                .map(|other| format!("{place}: {name} is lent {other}"));
            self.faults.extend(faults);
        }
        if !self.lent.iter().any(|function| function.exported) {
            self.faults.push(format!("no call of {CALLS} solves"));
        }
    }

    /// The largest array, the first of several.
    fn largest(&self) -> Option<&Array> {
        self.arrays.iter().rev().max_by_key(|array| array.bytes)
    }

    /// Its bytes.
    pub fn most(&self) -> usize {
        self.largest().map_or(0, |array| array.bytes)
    }
}

impl fmt::Display for Judged {
    fn fmt(&self, f: &mut fmt::Formatter) -> fmt::Result {
        let (crates, files) = (self.crates, self.files);
        writeln!(
            f,
            "solving: {crates} crates, {files} files, {} arrays",
            self.arrays.len()
        )?;
        if let Some(Array {
            place,
            written,
            bytes,
            ..
        }) = self.largest()
        {
            writeln!(f, "the largest has {bytes} bytes: {written} ({place})")?;
        }
        for function in self.lent.iter().filter(|function| function.exported) {
            writeln!(f, "{} is lent {}", function.name, function.taken.join(", "))?;
        }
        for fault in &self.faults {
            writeln!(f, "FAILED {fault}")?;
        }
        write!(f, "{} faults", self.faults.len())
    }
}
