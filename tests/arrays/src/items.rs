//! What the sources declare, and what a path in them names.
//!
//! Rattle has more forms than are read here. Those that could hide an array and that these sources
//! do not have (stars and other names in a `use`, groups inside groups, modules inside a file, `const fn`)
//! are errors.

use crate::sizes::plain;
use crate::sources::Crates;
use crate::words::{tokens, Token, Word};
use crate::Trouble;
use std::collections::{BTreeMap, BTreeSet};
use std::ops::Range;

/// A part of a file's tokens.
pub type Part = Range<usize>;

/// Names that are no values.
pub const KEYWORDS: [&str; 28] = [
    "as", "break", "const", "continue", "else", "enum", "extern", "fn", "for", "if", "impl", "in",
    "let", "loop", "match", "mod", "move", "mut", "pub", "ref", "return", "static", "struct",
    "type", "unsafe", "use", "where", "while",
];

/// Names that Rattle gives every file.
pub const GIVEN: [&str; 6] = ["Option", "Some", "None", "Result", "Ok", "Err"];

/// What may be derived: it changes no layout.
const DERIVED: [&str; 8] = [
    "Clone",
    "Copy",
    "PartialEq",
    "Eq",
    "PartialOrd",
    "Ord",
    "Hash",
    "Debug",
];

/// The characters of a part that are shown.
const LONGEST: usize = 80;

pub struct File {
    /// Its name, from the repository's root.
    pub name: String,
    /// The module that it is, as `crate::module`.
    pub module: String,
    pub text: String,
    pub tokens: Vec<Token>,
    /// The brackets of each `impl`, with the type's full path.
    impls: Vec<(Part, String)>,
}

impl File {
    pub fn word(&self, i: usize) -> Option<&Word> {
        self.tokens.get(i).map(|token| &token.word)
    }

    pub fn name(&self, i: usize) -> Option<&str> {
        match self.word(i) {
            Some(Word::Name(name)) => Some(name),
            _ => None,
        }
    }

    /// Whether a token is this sign or this name.
    pub fn is(&self, i: usize, text: &str) -> bool {
        match self.word(i) {
            Some(Word::Sign(sign)) => *sign == text,
            Some(Word::Name(name)) => name == text,
            _ => false,
        }
    }

    /// The token behind this one; behind its bracket, if it opens one.
    pub fn after(&self, i: usize) -> usize {
        match self.word(i) {
            Some(Word::Sign("(" | "[" | "{")) => self.tokens[i].other + 1,
            _ => i + 1,
        }
    }

    /// The tokens of a part that stand in no bracket of it, opening ones included.
    pub fn outer(&self, part: Part) -> impl Iterator<Item = usize> + '_ {
        let first = Some(part.start).filter(|start| *start < part.end);
        std::iter::successors(first, move |&i| {
            Some(self.after(i)).filter(|next| *next < part.end)
        })
    }

    /// The first of these that is this sign or name.
    pub fn find(&self, part: Part, text: &str) -> Option<usize> {
        self.outer(part).find(|i| self.is(*i, text))
    }

    /// The parts between commas.
    pub fn listed(&self, part: Part) -> Vec<Part> {
        let mut parts = Vec::new();
        let mut start = part.start;
        while start < part.end {
            let end = self.find(start..part.end, ",").unwrap_or(part.end);
            parts.push(start..end);
            start = end + 1;
        }
        parts
    }

    /// The same of types: a comma in angle brackets parts nothing.
    pub fn listed_types(&self, part: Part) -> Vec<Part> {
        let mut parts = Vec::new();
        let (mut start, mut depth) = (part.start, 0);
        for i in self.outer(part.clone()) {
            match self.word(i) {
                Some(Word::Sign("<")) => depth += 1,
                Some(Word::Sign(">")) => depth -= 1,
                Some(Word::Sign(",")) if depth == 0 => {
                    parts.push(start..i);
                    start = i + 1;
                }
                _ => {}
            }
        }
        parts.extend(Some(start..part.end).filter(|last| !last.is_empty()));
        parts
    }

    /// What stands in a bracket.
    pub fn inside(&self, open: usize) -> Part {
        open + 1..self.tokens[open].other
    }

    /// A part as it is written, on one line, the start of a long one.
    pub fn shown(&self, part: Part) -> String {
        let text = &self.text[self.tokens[part.start].start..self.tokens[part.end - 1].end];
        let text = text.split_whitespace().collect::<Vec<_>>().join(" ");
        match text.char_indices().nth(LONGEST) {
            Some((cut, _)) => format!("{} ..", &text[..cut]),
            None => text,
        }
    }

    fn line(&self, i: usize) -> usize {
        self.tokens.get(i).map_or(0, |token| token.line)
    }

    /// Where a token stands.
    pub fn place(&self, i: usize) -> String {
        format!("{}:{}", self.name, self.line(i))
    }

    pub fn trouble(&self, i: usize, what: &str) -> Trouble {
        Trouble::at(self.line(i), what).of(&self.name)
    }
}

pub struct Field {
    pub name: String,
    pub kind: Part,
}

pub struct Function {
    pub public: bool,
    pub exported: bool,
    /// The bracket of its parameters; one without a colon is a form of `self`, and has no type.
    pub open: usize,
    pub parameters: Vec<Field>,
    pub result: Option<Part>,
    pub body: Part,
}

pub enum What {
    Struct(Vec<Field>),
    /// Each variant with its fields.
    Enum(Vec<(String, Vec<Field>)>),
    Alias(Part),
    Constant {
        kind: Part,
        value: Part,
    },
    Function(Function),
    Module,
    Use(Vec<String>),
}

/// An item, and the file that it stands in.
pub struct Item {
    pub file: usize,
    pub what: What,
}

impl Item {
    pub fn is_type(&self) -> bool {
        matches!(self.what, What::Struct(_) | What::Enum(_))
    }
}

/// What a path names.
pub enum Named<'a> {
    /// An item, with its full path.
    Item(String, &'a Item),
    /// A variant, by its type's full path.
    Variant(String),
    /// Something of a crate whose sources are not here.
    Elsewhere,
}

pub struct World {
    pub files: Vec<File>,
    /// By full path: `crate::module::name`, `crate::module::Type::name`.
    pub items: BTreeMap<String, Item>,
    modules: BTreeSet<String>,
    /// What each crate lists: no other has a name in it.
    crates: Crates,
}

/// A source: its name from the root, the module that it is, and its text.
pub type Source = (String, String, String);

impl World {
    pub fn read(sources: Vec<Source>, crates: Crates) -> Result<World, Trouble> {
        let mut world = World {
            files: Vec::new(),
            items: BTreeMap::new(),
            modules: BTreeSet::new(),
            crates,
        };
        for (name, module, text) in sources {
            if module.split("::").any(|name| plain(name).is_some()) {
                return Err(Trouble::at(0, "a module with a name that is not read").of(&name));
            }
            world.modules.insert(module.clone());
            world.files.push(File {
                tokens: tokens(&text).map_err(|trouble| trouble.of(&name))?,
                name,
                module,
                text,
                impls: Vec::new(),
            });
        }
        let mut impls = Vec::new();
        for file in 0..world.files.len() {
            let source = &world.files[file];
            let (module, all) = (source.module.clone(), 0..source.tokens.len());
            impls.extend(world.declare(file, &module, all)?);
        }
        // A type may have them in another file.
        for (file, name, part) in impls {
            let own = match world.named(file, name) {
                Some((Named::Item(path, item), end)) if end == part.start && item.is_type() => path,
                _ => return Err(world.files[file].trouble(name, "an impl that is not read")),
            };
            world.files[file].impls.push((part.clone(), own.clone()));
            world.declare(file, &own, part.start + 1..part.end)?;
        }
        Ok(world)
    }

    /// Puts down what a part of a file declares, under a module or a type; the `impl`s are left,
    /// each with the place of its name and its brackets.
    fn declare(
        &mut self,
        file: usize,
        under: &str,
        part: Part,
    ) -> Result<Vec<(usize, usize, Part)>, Trouble> {
        let mut impls = Vec::new();
        let mut i = part.start;
        while i < part.end {
            let source = &self.files[file];
            while source.is(i, "#") {
                // One of the whole file stands before all items.
                let of_file = i == 0 && source.is(i + 1, "!");
                let end = source.after(if of_file { i + 2 } else { i + 1 });
                // Others may change how a type is laid out.
                if !read_attribute(&source.shown(i..end), of_file) {
                    return Err(source.trouble(i, "an attribute that is not read"));
                }
                i = end;
            }
            if i == part.end {
                break;
            }
            let public = source.is(i, "pub") && !source.is(i + 1, "(");
            i = past_pub(source, i);
            let exported = source.is(i, "extern") && source.word(i + 1) == Some(&Word::Text);
            i += if exported { 2 } else { 0 };
            let open = self.past_lifetimes(file, i + 2)?;
            let end = match source.name(i) {
                Some("use" | "mod" | "type" | "const") => self.sign(file, i, ";")? + 1,
                Some("struct") if !source.is(open, "{") => self.sign(file, i, ";")? + 1,
                Some("impl" | "fn" | "enum" | "struct") => source.after(self.sign(file, i, "{")?),
                _ => return Err(source.trouble(i, "a declaration that is not read")),
            };
            let what = match source.name(i) {
                Some("impl") => {
                    let own = self.past_lifetimes(file, i + 1)?;
                    impls.push((file, own, source.tokens[end - 1].other..end - 1));
                    None
                }
                Some("mod") if end == i + 3 => Some(What::Module),
                Some("use") if !public => {
                    for (name, path) in self.used(file, i + 1..end - 1)? {
                        self.put(file, under, name, What::Use(path))?;
                    }
                    None
                }
                Some("struct") => Some(What::Struct(self.fields(file, open)?)),
                Some("enum") if source.is(open, "{") => {
                    Some(What::Enum(self.variants(file, open)?))
                }
                Some("type") => Some(What::Alias(self.sign(file, i, "=")? + 1..end - 1)),
                Some("const") => {
                    let equals = self.sign(file, i, "=")?;
                    Some(What::Constant {
                        kind: i + 3..equals,
                        value: equals + 1..end - 1,
                    })
                }
                Some("fn") => Some(What::Function(self.function(file, open, public, exported)?)),
                _ => return Err(source.trouble(i, "a declaration that is not read")),
            };
            if let Some(what) = what {
                // The name stands behind the keyword.
                self.put(file, under, i + 1, what)?;
            }
            i = end;
        }
        Ok(impls)
    }

    /// Puts an item down under its name, which is its own and no number's type.
    fn put(&mut self, file: usize, under: &str, i: usize, what: What) -> Result<(), Trouble> {
        let source = &self.files[file];
        let name = source.name(i).unwrap_or_default();
        let taken = KEYWORDS.contains(&name) || GIVEN.contains(&name) || plain(name).is_some();
        if name.is_empty() || taken {
            return Err(source.trouble(i, "a declaration that is not read"));
        }
        match self
            .items
            .insert(format!("{under}::{name}"), Item { file, what })
        {
            None => Ok(()),
            Some(_) => Err(self.files[file].trouble(i, "a name that is declared twice")),
        }
    }

    /// The first such sign behind a token.
    fn sign(&self, file: usize, i: usize, sign: &str) -> Result<usize, Trouble> {
        let source = &self.files[file];
        let found = source.find(i..source.tokens.len(), sign);
        found.ok_or_else(|| source.trouble(i, &format!("no {sign} follows")))
    }

    /// The token behind lifetimes in angle brackets.
    fn past_lifetimes(&self, file: usize, i: usize) -> Result<usize, Trouble> {
        match self.files[file].is(i, "<") {
            true => {
                let end = self.sign(file, i, ">")?;
                let source = &self.files[file];
                // The name of a type or a number would hide one that is declared.
                let lifetime = |j| source.is(j, ",") || source.word(j) == Some(&Word::Lifetime);
                match (i + 1..end).all(lifetime) {
                    true => Ok(end + 1),
                    false => Err(source.trouble(i, "a declaration that is not read")),
                }
            }
            false => Ok(i),
        }
    }

    /// The paths of a `use`, each with the token of the name that it gives: names with `::` between
    /// them, and last a name or a group of names.
    fn used(&self, file: usize, part: Part) -> Result<Vec<(usize, Vec<String>)>, Trouble> {
        let source = &self.files[file];
        let unread = |i| source.trouble(i, "a use that is not read");
        let mut path = Vec::new();
        let mut i = part.start;
        loop {
            let next = source.after(i);
            if source.is(i, "{") && next == part.end && !path.is_empty() {
                let names = source.listed(source.inside(i)).into_iter();
                let names = names.map(|one| match source.name(one.start) {
                    Some(name) if one.len() == 1 && name != "self" => {
                        let path = path.iter().cloned().chain([name.to_string()]);
                        Ok((one.start, path.collect()))
                    }
                    _ => Err(unread(one.start)),
                });
                return names.collect();
            }
            path.push(source.name(i).ok_or_else(|| unread(i))?.to_string());
            if next == part.end {
                return Ok(vec![(i, path)]);
            }
            if !source.is(next, "::") || next + 1 >= part.end {
                return Err(unread(next));
            }
            i = next + 1;
        }
    }

    /// Fields in round brackets, in curly ones, or none.
    fn fields(&self, file: usize, open: usize) -> Result<Vec<Field>, Trouble> {
        let source = &self.files[file];
        let mut fields = Vec::new();
        let parts = match source.is(open, "(") || source.is(open, "{") {
            true => source.listed_types(source.inside(open)),
            false => Vec::new(),
        };
        for part in parts {
            let i = past_pub(source, part.start);
            let (name, kind) = match source.name(i) {
                _ if source.is(open, "(") => (fields.len().to_string(), i..part.end),
                Some(name) if source.is(i + 1, ":") => (name.to_string(), i + 2..part.end),
                _ => return Err(source.trouble(i, "a field that is not read")),
            };
            fields.push(Field { name, kind });
        }
        Ok(fields)
    }

    /// The variants of an enum, which a byte tells apart.
    fn variants(&self, file: usize, open: usize) -> Result<Vec<(String, Vec<Field>)>, Trouble> {
        let source = &self.files[file];
        let mut variants = Vec::new();
        // One without a number has the next.
        let mut next = 0;
        for part in source.listed(source.inside(open)) {
            // A number behind it must be one that the byte can be.
            let (end, number) = match source.find(part.clone(), "=") {
                Some(equals) => (equals, of_a_byte(source, equals + 1..part.end)),
                None => (part.end, Some(next)),
            };
            if number == Some(256) {
                return Err(source.trouble(open, "more variants than a byte tells"));
            }
            let bare = end == part.start + 1;
            match (source.name(part.start), number) {
                (Some(name), Some(number)) if bare || source.after(part.start + 1) == end => {
                    variants.push((name.to_string(), self.fields(file, part.start + 1)?));
                    next = number + 1;
                }
                _ => return Err(source.trouble(part.start, "a variant that is not read")),
            }
        }
        Ok(variants)
    }

    fn function(
        &self,
        file: usize,
        open: usize,
        public: bool,
        exported: bool,
    ) -> Result<Function, Trouble> {
        let source = &self.files[file];
        let body = self.sign(file, open, "{")?;
        let arrow = source.after(open);
        let result = match arrow == body {
            true => None,
            false => Some(arrow + 1..body),
        };
        if !source.is(open, "(") || result.is_some() && !source.is(arrow, "->") {
            return Err(source.trouble(open, "a function that is not read"));
        }
        let parameters = source.listed_types(source.inside(open));
        let parameters = parameters.into_iter().map(|part| {
            let colon = source.find(part.clone(), ":").unwrap_or(part.end);
            let name = part.start + usize::from(source.is(part.start, "mut"));
            Field {
                name: source.shown(name..colon),
                kind: (colon + 1).min(part.end)..part.end,
            }
        });
        Ok(Function {
            public,
            exported,
            open,
            parameters: parameters.collect(),
            result,
            body: source.inside(body),
        })
    }

    /// The type whose `impl` a token stands in.
    fn own_type(&self, file: usize, i: usize) -> Option<&str> {
        let mut impls = self.files[file].impls.iter();
        impls
            .find(|(part, _)| part.contains(&i))
            .map(|(_, path)| path.as_str())
    }

    /// What the path that begins at a token names, and the token behind it.
    pub fn named(&self, file: usize, start: usize) -> Option<(Named<'_>, usize)> {
        let source = &self.files[file];
        let mut path = vec![source.name(start)?];
        let mut end = start + 1;
        while source.is(end, "::") {
            path.push(source.name(end + 1)?);
            end += 2;
        }
        let krate = source.module.split("::").next()?;
        let own = format!("{}::{}", source.module, path[0]);
        let named = match self.items.get(&own).map(|item| &item.what) {
            Some(What::Use(used)) => {
                let used: Vec<&str> = used.iter().map(String::as_str).collect();
                self.absolute(krate, &[&used, &path[1..]].concat())?
            }
            _ if path[0] == "Self" => {
                self.below(self.own_type(file, start)?.to_string(), &path[1..])?
            }
            Some(_) => self.below(own, &path[1..])?,
            None => self.absolute(krate, &path)?,
        };
        Some((named, end))
    }

    /// Whether a path is of std, or of a crate that is not known here.
    pub fn is_foreign(&self, file: usize, start: usize) -> bool {
        let source = &self.files[file];
        let first = source.name(start).unwrap_or_default();
        let own = format!("{}::{first}", source.module);
        match self.items.get(&own).map(|item| &item.what) {
            Some(What::Use(used)) => used[0] == "std",
            _ if plain(first).is_some() || GIVEN.contains(&first) => false,
            _ => self.named(file, start).is_none() || first == "std",
        }
    }

    /// What a path from a crate names.
    fn absolute(&self, krate: &str, path: &[&str]) -> Option<Named<'_>> {
        let first = if path[0] == "crate" { krate } else { path[0] };
        match first == krate || first == "std" || self.crates.lists(krate, first) {
            true if self.modules.contains(first) => self.below(first.to_string(), &path[1..]),
            true => Some(Named::Elsewhere),
            false => None,
        }
    }

    /// What a path from a module or a type names.
    fn below(&self, mut path: String, names: &[&str]) -> Option<Named<'_>> {
        for (i, name) in names.iter().enumerate() {
            if let Some(What::Enum(variants)) = self.items.get(&path).map(|item| &item.what) {
                if variants.iter().any(|(variant, _)| variant == name) {
                    return Some(Named::Variant(path)).filter(|_| i + 1 == names.len());
                }
            }
            path = format!("{path}::{name}");
        }
        match self.items.get_key_value(&path)? {
            (
                _,
                Item {
                    what: What::Use(_), ..
                },
            ) => None,
            (path, item) => Some(Named::Item(path.clone(), item)),
        }
    }
}

/// Whether an attribute leaves alone how a type is laid out, and what is built.
fn read_attribute(attribute: &str, of_file: bool) -> bool {
    match attribute {
        "#![tactic(auto)]" => of_file,
        "#[unsafe(no_mangle)]" | "#[repr(C)]" => true,
        "#[inline(always)]" | "#[inline(never)]" => !of_file,
        _ => attribute.starts_with("#[tactic(") || derives(attribute),
    }
}

fn derives(attribute: &str) -> bool {
    let names = attribute.strip_prefix("#[derive(");
    let names = names.and_then(|names| names.strip_suffix(")]"));
    names.map_or(false, |names| {
        names.split(',').all(|name| DERIVED.contains(&name.trim()))
    })
}

/// The number that a part is, if it is one of a byte.
fn of_a_byte(source: &File, part: Part) -> Option<i128> {
    match source.word(part.start) {
        Some(Word::Number(number, None)) if part.len() == 1 && *number < 256 => Some(*number),
        _ => None,
    }
}

/// The token behind `pub`, which may say where.
fn past_pub(source: &File, i: usize) -> usize {
    match source.is(i, "pub") {
        true if source.is(i + 1, "(") => source.after(i + 1),
        true => i + 1,
        false => i,
    }
}
