//! What solving is lent: the references that its functions take from outside.

use crate::items::{Field, Function, Item, Named, What, World, GIVEN, KEYWORDS};
use crate::sizes::{plain, Scope};
use crate::Trouble;
use std::collections::BTreeSet;

/// A function that solving is called by, and what it takes by reference.
pub struct Lent {
    pub place: String,
    pub name: String,
    pub exported: bool,
    pub taken: Vec<String>,
    /// What of it is neither question, book nor sheet.
    pub others: Vec<String>,
}

/// The public functions of the crate that solves, and the public ones that call them.
pub fn lent(world: &World, solving: &str) -> Result<Vec<Lent>, Trouble> {
    let mut lent = Vec::new();
    for (path, item) in &world.items {
        if let What::Function(function) = &item.what {
            let public = function.public || function.exported;
            if public
                && (is_of(path, solving)
                    || calls(world, solving, item, function, &mut BTreeSet::new())?)
            {
                lent.push(read(world, path, item, function)?);
            }
        }
    }
    Ok(lent)
}

fn is_of(path: &str, name: &str) -> bool {
    path.split("::").next() == Some(name)
}

/// Whether a function calls one of a crate, itself or by others. A method may be any of its name.
fn calls(
    world: &World,
    solving: &str,
    item: &Item,
    function: &Function,
    seen: &mut BTreeSet<String>,
) -> Result<bool, Trouble> {
    let source = &world.files[item.file];
    let mut called: Vec<(String, &Item)> = Vec::new();
    for i in function.body.clone() {
        let name = match source.name(i) {
            Some(name) if KEYWORDS.contains(&name) || plain(name).is_some() => continue,
            Some(name) if GIVEN.contains(&name) => continue,
            Some(name) if !source.is(i - 1, "::") => name,
            _ => continue,
        };
        let (called_here, method) = (source.is(i + 1, "("), source.is(i - 1, "."));
        match world.named(item.file, i) {
            _ if method && called_here => {
                let method = format!("::{name}");
                let methods = world
                    .items
                    .iter()
                    .filter(|(path, _)| path.ends_with(&method));
                called.extend(methods.map(|(path, item)| (path.clone(), item)));
            }
            Some((Named::Item(path, item), _)) if !method => called.push((path, item)),
            Some(_) if !method => {}
            _ if called_here || source.is(i + 1, "::") => {
                return Err(source.trouble(i, "a call that is not read"));
            }
            _ => {}
        }
    }
    for (path, found) in called {
        if let What::Function(inner) = &found.what {
            let own = is_of(&path, solving);
            if own || seen.insert(path) && calls(world, solving, found, inner, seen)? {
                return Ok(true);
            }
        }
    }
    Ok(false)
}

fn read(world: &World, path: &str, item: &Item, function: &Function) -> Result<Lent, Trouble> {
    let source = &world.files[item.file];
    let scope = Scope::new(world, item.file);
    let mut lent = Lent {
        place: source.place(function.open),
        name: path.rsplit("::").next().unwrap_or_default().to_string(),
        exported: function.exported,
        taken: Vec::new(),
        others: Vec::new(),
    };
    for Field { name, kind } in &function.parameters {
        // A form of `self` has no type: what has an `impl` here holds no reference.
        let (refers, written) = match kind.is_empty() {
            true => (name.starts_with('&'), String::new()),
            false => (
                scope.refers(&scope.kind(kind.clone())?, kind.start)?,
                source.shown(kind.clone()),
            ),
        };
        if refers {
            lent.taken.push(name.to_string());
            match (name.as_str(), written.as_str()) {
                ("input", "&[u8]") | ("proof" | "model", "&[u8]" | "&mut [u8]") => {}
                (name, "") => lent.others.push(name.to_string()),
                (name, written) => lent.others.push(format!("{name}: {written}")),
            }
        }
    }
    Ok(lent)
}
