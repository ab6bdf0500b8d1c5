//! Every array of the sources, in types and in values, with its bytes.

use crate::items::{File, Item, Named, Part, What, World, GIVEN, KEYWORDS};
use crate::sizes::{plain, Kind, Scope};
use crate::words::Word;
use crate::Trouble;
use std::collections::{BTreeMap, BTreeSet};

/// Functions of a number's type that are given its bytes.
const FROM_BYTES: [&str; 3] = ["from_le_bytes", "from_be_bytes", "from_ne_bytes"];

/// Methods of Rattle's own that make no array, or one of a number's bytes.
#[rustfmt::skip]
const METHODS: &[&str] = &[
    "abs", "abs_diff", "all", "and_then", "any", "clone", "cloned", "contains", "copied",
    "copy_from_slice", "copy_within", "count", "count_ones", "count_zeros", "ends_with",
    "enumerate", "err", "fill", "filter", "find", "first", "fold", "get", "get_mut", "is_empty",
    "is_err", "is_negative", "is_none", "is_ok", "is_positive", "is_power_of_two", "is_some", "iter",
    "iter_mut", "last", "leading_zeros", "len", "map_err", "map_or", "max", "midpoint", "min", "next",
    "ok", "ok_or", "or", "or_else", "position", "pow", "rev", "reverse", "rotate_left",
    "rotate_right", "signum", "skip", "split_at", "split_at_mut", "starts_with", "sum", "swap",
    "take", "then_some", "to_be_bytes", "to_le_bytes", "trailing_zeros", "unsigned_abs", "unwrap_or",
    "zip",
];

/// What others of them begin with.
const CHECKED: [&str; 4] = ["checked_", "wrapping_", "saturating_", "overflowing_"];

/// Those of them that go through a list.
#[rustfmt::skip]
const LISTING: [&str; 10] = [
    "cloned", "copied", "enumerate", "filter", "iter", "iter_mut", "rev", "skip", "take", "zip",
];

/// What a body may not have.
#[rustfmt::skip]
const LEFT: [&str; 10] = [
    "->", "const", "enum", "fn", "impl", "mod", "static", "struct", "type", "use",
];

pub struct Array {
    /// Where it stands, and how it is written.
    pub place: String,
    pub written: String,
    pub bytes: usize,
    /// It has numbers whose type is not written.
    pub guessed: bool,
}

/// All arrays, in the order of files and lines. Every square bracket is looked at, or it is an error.
pub fn arrays(world: &World) -> Result<Vec<Array>, Trouble> {
    let mut found = Vec::new();
    for (number, file) in world.files.iter().enumerate() {
        let mut finder = Finder {
            file,
            scope: Scope::new(world, number),
            wanted: BTreeMap::new(),
            seen: BTreeSet::new(),
            found: BTreeMap::new(),
        };
        for item in world.items.values().filter(|item| item.file == number) {
            finder.item(item)?;
        }
        let brackets = (0..file.tokens.len()).filter(|i| file.is(*i, "["));
        let mut unseen = brackets.filter(|i| !(finder.seen.contains(i) || of_attribute(file, *i)));
        if let Some(bracket) = unseen.next() {
            return Err(file.trouble(bracket, "a bracket that is not read"));
        }
        found.extend(finder.found.into_values());
    }
    Ok(found)
}

/// Whether a bracket is an attribute's.
fn of_attribute(file: &File, i: usize) -> bool {
    i >= 1 && file.is(i - 1, "#") || i == 2 && file.is(0, "#") && file.is(1, "!")
}

struct Finder<'a> {
    file: &'a File,
    scope: Scope<'a>,
    /// The types of array values that are written where they go, by their brackets.
    wanted: BTreeMap<usize, Kind>,
    /// The square brackets that were looked at.
    seen: BTreeSet<usize>,
    found: BTreeMap<usize, Array>,
}

impl Finder<'_> {
    fn put(&mut self, at: usize, part: Part, bytes: usize, guessed: bool) {
        let array = Array {
            place: self.file.place(at),
            written: self.file.shown(part.clone()),
            bytes,
            guessed,
        };
        self.found.insert(at, array);
    }

    fn item(&mut self, item: &Item) -> Result<(), Trouble> {
        match &item.what {
            What::Use(_) | What::Module => Ok(()),
            What::Alias(part) => self.in_type(part.clone()),
            What::Struct(fields) => fields
                .iter()
                .try_for_each(|field| self.in_type(field.kind.clone())),
            What::Enum(variants) => {
                let mut fields = variants.iter().flat_map(|(_, fields)| fields);
                fields.try_for_each(|field| self.in_type(field.kind.clone()))
            }
            What::Constant { kind, value } => {
                self.in_type(kind.clone())?;
                self.want(value.clone(), self.scope.kind(kind.clone())?);
                self.in_value(value.clone())
            }
            What::Function(function) => {
                for parameter in &function.parameters {
                    self.in_type(parameter.kind.clone())?;
                }
                if let Some(result) = &function.result {
                    self.in_type(result.clone())?;
                    if let Ok(kind) = self.scope.kind(result.clone()) {
                        self.returned(function.body.clone(), kind)?;
                    }
                }
                self.in_value(function.body.clone())
            }
        }
    }

    /// The arrays of a type.
    fn in_type(&mut self, part: Part) -> Result<(), Trouble> {
        for i in part {
            if self.file.is(i, "[") {
                let whole = i..self.file.after(i);
                let kind = self.scope.kind(whole.clone())?;
                self.seen.insert(i);
                if let Kind::Array(..) = kind {
                    let (bytes, _) = self.scope.size(&kind, i)?;
                    self.put(i, whole, bytes, false);
                }
            }
        }
        Ok(())
    }

    /// Notes the type of a value: of the brackets in it that are arrays, and of the arrays that
    /// functions make.
    fn want(&mut self, part: Part, kind: Kind) {
        let (file, i) = (self.file, part.start);
        if part.is_empty() {
            return;
        }
        let whole = file.after(i) == part.end;
        let payload = match (file.name(i), &kind) {
            (Some("Some" | "Ok"), Kind::Choice(of)) => of.first(),
            (Some("Err"), Kind::Choice(of)) => of.get(1),
            _ => None,
        };
        match kind {
            Kind::Reference(to) if file.is(i, "&") => {
                let to_mut = usize::from(file.is(i + 1, "mut"));
                self.want(i + 1 + to_mut..part.end, *to);
            }
            Kind::Slice(of) if file.is(i, "[") && whole => {
                if let Ok(length) = self.count(i) {
                    self.want(part, Kind::Array(of, length));
                }
            }
            Kind::Array(of, length) if file.is(i, "[") && whole => {
                if self.count(i).ok() == Some(length) {
                    for element in self.elements(i) {
                        self.want(element, (*of).clone());
                    }
                    self.wanted.insert(i, Kind::Array(of, length));
                }
            }
            Kind::Tuple(of) if file.is(i, "(") && whole => {
                let parts = file.listed(file.inside(i)).into_iter();
                parts.zip(of).for_each(|(part, kind)| self.want(part, kind));
            }
            kind if file.is(i, "(") && whole => self.want(file.inside(i), kind),
            kind if file.is(i, "{") && whole => {
                let last = self.last(file.inside(i));
                self.want(last, kind);
            }
            _ if file.is(i + 1, "(") && file.after(i + 1) == part.end && payload.is_some() => {
                let payload = payload.cloned();
                payload
                    .into_iter()
                    .for_each(|kind| self.want(file.inside(i + 1), kind));
            }
            kind if self.block_end(part.clone()) == Some(part.end) => {
                for branch in self.branches(part) {
                    self.want(branch, kind.clone());
                }
            }
            kind => {
                let made = matches!(kind, Kind::Array(..) | Kind::Choice(_));
                if let Some(name) = self.made(part).filter(|_| made) {
                    if let (Kind::Array(of, _), Some(body)) = (&kind, self.closure(name)) {
                        self.want(body, (**of).clone());
                    }
                    self.wanted.insert(name, kind);
                }
            }
        }
    }

    /// The name of the function that makes an array, if a part is its call.
    fn made(&self, part: Part) -> Option<usize> {
        let last = part.end - 1;
        let open = self.file.tokens[last].other;
        let name = open
            .checked_sub(1)
            .filter(|name| *name > part.start && self.file.is(last, ")"))?;
        let made = self.file.is(name, "from_fn") && self.path_end(part.start) == open
            || self.file.is(name, "map")
                && self.file.is(name - 1, ".")
                && self.receiver(name) == part.start;
        Some(name).filter(|_| made)
    }

    /// What the closure gives back that a call is lent, by the call's name.
    fn closure(&self, name: usize) -> Option<Part> {
        let inside = self.file.inside(name + 1);
        if !self.file.is(inside.start, "|") {
            return None;
        }
        let body = self.file.find(inside.start + 1..inside.end, "|")? + 1;
        Some(body..inside.end)
    }

    /// The token behind the path that begins at one.
    fn path_end(&self, mut i: usize) -> usize {
        while self.file.is(i + 1, "::") && self.file.name(i + 2).is_some() {
            i += 2;
        }
        i + 1
    }

    /// The last expression of statements.
    fn last(&self, body: Part) -> Part {
        let semicolons = self.file.outer(body.clone());
        let semicolon = semicolons.filter(|i| self.file.is(*i, ";")).last();
        let mut start = semicolon.map_or(body.start, |i| i + 1);
        loop {
            match self.block_end(start..body.end) {
                Some(end) if end < body.end && !self.goes_on(end) => start = end,
                _ => return start..body.end,
            }
        }
    }

    /// Whether a method or a `?` follows the block that ends before a token.
    fn goes_on(&self, end: usize) -> bool {
        self.file.is(end, ".") || self.file.is(end, "?")
    }

    /// The token behind a statement that ends with a block.
    fn block_end(&self, part: Part) -> Option<usize> {
        let file = self.file;
        if file.is(part.start, "{") && !part.is_empty() {
            return Some(file.after(part.start));
        }
        match file.name(part.start).filter(|_| !part.is_empty())? {
            "match" | "while" | "for" | "loop" => Some(file.after(file.find(part.clone(), "{")?)),
            "if" => {
                let end = file.after(file.find(part.clone(), "{")?);
                match file.is(end, "else") {
                    true => self.block_end(end + 1..part.end),
                    false => Some(end),
                }
            }
            _ => None,
        }
    }

    /// What an `if` or a `match` may be: the last expressions of its blocks.
    fn branches(&self, part: Part) -> Vec<Part> {
        let file = self.file;
        let open = match file.find(part.clone(), "{") {
            Some(open) => open,
            None => return Vec::new(),
        };
        let (inside, next) = (file.inside(open), file.after(open));
        if !(file.is(part.start, "if") || file.is(part.start, "match")) {
            return Vec::new();
        }
        if file.is(part.start, "if") {
            let mut branches = vec![self.last(inside)];
            match file.is(next, "else") {
                true if file.is(next + 1, "if") => {
                    branches.extend(self.branches(next + 1..part.end));
                }
                true if next + 1 < part.end => {
                    branches.push(self.last(file.inside(next + 1)));
                }
                _ => {}
            }
            return branches;
        }
        let mut branches = Vec::new();
        let mut start = inside.start;
        while let Some(arrow) = file.find(start..inside.end, "=>") {
            let value = arrow + 1..inside.end;
            let block = file.is(value.start, "{");
            let block = Some(file.after(value.start)).filter(|end| block && !self.goes_on(*end));
            let comma = || file.find(value.clone(), ",").unwrap_or(inside.end);
            start = block.unwrap_or_else(comma);
            branches.push(value.start..start);
        }
        branches
    }

    /// Whether a token of a body stands in a closure.
    fn in_closure(&self, body: &Part, mut i: usize) -> bool {
        let file = self.file;
        loop {
            let open = file.tokens[i].within.filter(|open| *open >= body.start);
            let (mut begun, mut taken) = (false, false);
            for j in file.outer(open.map_or(body.start, |open| open + 1)..i) {
                if taken {
                    taken = !file.is(j, "|");
                } else if file.is(j, ",") || file.is(j, ";") {
                    begun = false;
                } else if (file.is(j, "|") || file.is(j, "||")) && !self.is_index(j) {
                    // It follows no value: it is no operation.
                    begun = true;
                    taken = file.is(j, "|");
                }
            }
            match open {
                _ if begun => return true,
                Some(open) => i = open,
                None => return false,
            }
        }
    }

    /// Notes the type of what a body gives back: at its end, and behind `return`.
    fn returned(&mut self, body: Part, kind: Kind) -> Result<(), Trouble> {
        let last = self.last(body.clone());
        self.want(last, kind.clone());
        for i in body.clone().filter(|i| self.file.is(*i, "return")) {
            // One in a closure gives back something else.
            if self.in_closure(&body, i) {
                return Err(self.file.trouble(i, "a return that is not read"));
            }
            let open = self.file.tokens[i].within;
            let end = open.map_or(i + 1, |open| self.file.tokens[open].other);
            let ends = |i: &usize| self.file.is(*i, ";") || self.file.is(*i, ",");
            let end = self.file.outer(i + 1..end).find(ends).unwrap_or(end);
            self.want(i + 1..end, kind.clone());
        }
        Ok(())
    }

    /// The arrays of an expression or of statements.
    fn in_value(&mut self, part: Part) -> Result<(), Trouble> {
        let mut i = part.start;
        while i < part.end {
            if let Some(Word::Bytes(length)) = self.file.word(i) {
                self.put(i, i..i + 1, *length, false);
            }
            // What is declared in a body, or a closure with a type, is not looked for.
            if LEFT.iter().any(|left| self.file.is(i, left)) {
                return Err(self.file.trouble(i, "a form that is not read in a body"));
            }
            if self.file.is(i, "let") {
                i = self.binding(i)?;
                continue;
            }
            if self.file.is(i, "[") {
                self.seen.insert(i);
                if !self.is_index(i) {
                    let kind = match self.wanted.get(&i) {
                        Some(kind) => kind.clone(),
                        None => self.literal(i)?,
                    };
                    let (bytes, _) = self.scope.size(&kind, i)?;
                    self.put(i, i..self.file.after(i), bytes, kind.guessed());
                }
            }
            // A path that begins with its signs, or with a type.
            if self.file.is(i, "::") && self.file.name(i - 1).is_none() {
                return Err(self.file.trouble(i, "a path that is not read"));
            }
            if self.file.name(i).is_some() && !self.file.is(i - 1, "::") {
                let method = self.file.is(i - 1, ".");
                match self.file.is(i + 1, "(") || self.file.is(i + 1, "::") {
                    true if method => self.method(i)?,
                    _ if method => {}
                    _ => self.given(i)?,
                }
            }
            i += 1;
        }
        Ok(())
    }

    /// The type that a `let` writes, and what it is for; the token where its value begins.
    fn binding(&mut self, start: usize) -> Result<usize, Trouble> {
        let rest = start + 1..self.file.tokens.len();
        let end = self
            .file
            .outer(rest)
            .find(|i| self.file.is(*i, "=") || self.file.is(*i, ";"));
        let end = end.ok_or_else(|| self.file.trouble(start, "a let that is not read"))?;
        // A closure with a name could have a function's.
        if ["|", "||", "move"]
            .iter()
            .any(|sign| self.file.is(end + 1, sign))
        {
            return Err(self
                .file
                .trouble(start, "a form that is not read in a body"));
        }
        if let Some(colon) = self.file.find(start + 1..end, ":") {
            let kind = self.scope.kind(colon + 1..end)?;
            self.in_type(colon + 1..end)?;
            if self.file.is(end, "=") {
                let rest = end + 1..self.file.tokens.len();
                let chosen = self.file.is(end + 1, "if") || self.file.is(end + 1, "match");
                let ends = |i: &usize| self.file.is(*i, ";") || !chosen && self.file.is(*i, "else");
                let value = end + 1..self.file.outer(rest).find(ends).unwrap_or(end + 1);
                self.want(value, kind);
            }
        }
        Ok(end)
    }

    /// Whether a bracket opens an index: it follows a value.
    fn is_index(&self, i: usize) -> bool {
        match self.file.word(i - 1) {
            Some(Word::Name(name)) => !KEYWORDS.contains(&name.as_str()),
            Some(Word::Sign(sign)) => [")", "]", "?"].contains(sign),
            Some(Word::Bytes(_) | Word::Number(..)) => true,
            _ => false,
        }
    }

    /// The parts of a bracket that are its elements: the one before the semicolon, or those
    /// between commas.
    fn elements(&self, i: usize) -> Vec<Part> {
        let inside = self.file.inside(i);
        match self.file.find(inside.clone(), ";") {
            Some(semicolon) => std::iter::once(inside.start..semicolon).collect(),
            None => self.file.listed(inside),
        }
    }

    /// How many elements a bracket has.
    fn count(&self, i: usize) -> Result<usize, Trouble> {
        let inside = self.file.inside(i);
        match self.file.find(inside.clone(), ";") {
            Some(semicolon) => self.scope.length(semicolon + 1..inside.end),
            None => Ok(self.elements(i).len()),
        }
    }

    /// Notes the types of what a function, a struct or a variant is given where a path begins. What
    /// is not of these sources may make an array, and only one such function is read.
    fn given(&mut self, i: usize) -> Result<(), Trouble> {
        let (file, world) = (self.file, self.scope.world);
        let name = file.name(i).unwrap_or_default();
        let end = self.path_end(i);
        let open = file.is(end, "(") || file.is(end, "{");
        if KEYWORDS.contains(&name) || GIVEN.contains(&name) {
            return Ok(());
        }
        if let Some(bytes) = plain(name) {
            if FROM_BYTES.contains(&file.name(end - 1).unwrap_or_default()) && file.is(end, "(") {
                let kind = Kind::Array(Box::new(Kind::Plain(1)), bytes);
                self.want(file.inside(end), kind);
            }
            return Ok(());
        }
        let path = end > i + 1 || file.is(end, "::") || file.is(end, "(");
        if path && world.is_foreign(self.scope.file, i) {
            return match file.is(end - 1, "from_fn") && file.is(end, "(") {
                true => self.made_by(end - 1, i),
                false => Err(file.trouble(i, "a path that is not read")),
            };
        }
        let (item, fields) = match world.named(self.scope.file, i) {
            Some((Named::Item(_, item), next)) if open && next == end => match &item.what {
                What::Struct(fields) => (item, fields),
                What::Function(function) if file.is(end, "(") => (item, &function.parameters),
                _ => return Ok(()),
            },
            Some((Named::Variant(path), next)) if open && next == end => {
                let item = &world.items[&path];
                let variants = match &item.what {
                    What::Enum(variants) => variants,
                    _ => return Ok(()),
                };
                let name = file.name(end - 1).unwrap_or_default();
                match variants.iter().find(|(variant, _)| variant == name) {
                    Some((_, fields)) => (item, fields),
                    None => return Ok(()),
                }
            }
            _ => return Ok(()),
        };
        // A comma of a closure parts nothing, and what is called may be a local of that name.
        let closure = |j| file.is(j, "|") && !self.is_index(j);
        let function = matches!(item.what, What::Function(_));
        if file.outer(file.inside(end)).any(closure) || function && self.is_local(i) {
            return Ok(());
        }
        let there = Scope::new(world, item.file);
        for (number, part) in file.listed(file.inside(end)).into_iter().enumerate() {
            let (field, value) = match file.is(end, "(") {
                true => (fields.get(number), part),
                false => {
                    let name = file.name(part.start);
                    let field = fields
                        .iter()
                        .find(|field| Some(field.name.as_str()) == name);
                    let named = file.is(part.start + 1, ":");
                    (field.filter(|_| named), part.start + 2..part.end)
                }
            };
            if let Some(kind) = field.and_then(|field| there.kind(field.kind.clone()).ok()) {
                self.want(value, kind);
            }
        }
        Ok(())
    }

    /// Whether a path is one name that this file may give to a local, too.
    fn is_local(&self, i: usize) -> bool {
        let file = self.file;
        let name = file.name(i).unwrap_or_default();
        let declared = |j: usize| {
            // Not where it is called or named by a path, a declaration, a field or a use.
            let behind = ["(", "{", "::"].iter().any(|sign| file.is(j + 1, sign));
            let before = ["fn", "::", ".", "struct"];
            let before = before.iter().any(|sign| file.is(j - 1, sign));
            let group = file.tokens[j].within.filter(|open| *open > 0);
            let used = group.map_or(false, |open| file.is(open - 1, "::"));
            file.is(j, name) && !behind && !before && !used
        };
        self.path_end(i) == i + 1 && (1..file.tokens.len()).any(declared)
    }

    /// A method: one of these sources, or one of Rattle's own that makes no large array.
    fn method(&mut self, i: usize) -> Result<(), Trouble> {
        let name = self.file.name(i).unwrap_or_default();
        let known = METHODS.contains(&name)
            || CHECKED.iter().any(|prefix| name.starts_with(prefix))
            || self.is_own(name);
        match self.file.is(i + 1, "(") {
            true if name == "map" => self.made_by(i, self.receiver(i)),
            true if known => Ok(()),
            _ => Err(self.file.trouble(i, "a method that is not read")),
        }
    }

    /// Whether a name is one of these sources.
    fn is_own(&self, name: &str) -> bool {
        let own = format!("::{name}");
        let mut paths = self.scope.world.items.keys();
        paths.any(|path| path.ends_with(&own))
    }

    /// Where what a method is called on begins.
    fn receiver(&self, name: usize) -> usize {
        let mut i = name - 2;
        loop {
            while self.file.is(i, ")") || self.file.is(i, "]") {
                let open = self.file.tokens[i].other;
                if !self.is_index(open) {
                    return open;
                }
                i = open - 1;
            }
            if !(self.file.is(i - 1, ".") || self.file.is(i - 1, "::")) {
                return i;
            }
            i -= 2;
        }
    }

    /// An array that a function makes of what a closure gives back.
    fn made_by(&mut self, name: usize, start: usize) -> Result<(), Trouble> {
        let end = self.file.after(name + 1);
        let kind = match self.wanted.get(&name) {
            Some(kind) => Some(kind.clone()),
            None if self.file.is(name, "map") => self.mapped(name)?,
            None => None,
        };
        match kind {
            Some(kind @ Kind::Array(..)) => {
                let (bytes, _) = self.scope.size(&kind, name)?;
                self.put(name, start..end, bytes, kind.guessed());
                Ok(())
            }
            Some(_) => Ok(()),
            None => {
                let written = self.file.shown(start..end);
                Err(self.file.trouble(
                    name,
                    &format!("the type of {written} is not seen: write it"),
                ))
            }
        }
    }

    /// The type of a map, by what it is made from; of one that is no array, the type of that.
    fn mapped(&self, name: usize) -> Result<Option<Kind>, Trouble> {
        let (file, close) = (self.file, name - 2);
        if !file.is(close, ")") {
            return Ok(None);
        }
        let open = file.tokens[close].other;
        let inside = file.inside(open);
        let range = |i| file.is(i, "..") || file.is(i, "..=");
        let lists = file
            .name(open - 1)
            .filter(|_| file.is(open.saturating_sub(2), "."));
        // What goes through a list is none; one of these sources may give back one.
        let listing = |name| LISTING.contains(&name) && !self.is_own(name);
        let branches = ["if", "let", "match"];
        let branches = branches.map(|word| file.find(inside.clone(), word).is_some());
        let alone = !self.is_index(open) && branches == [false; 3];
        let ranges = alone && file.outer(inside).any(range);
        if ranges || lists.map_or(false, listing) {
            return Ok(Some(Kind::Plain(0)));
        }
        let from = self.told(self.receiver(name)..close + 1)?;
        Ok(match (from, self.closure(name)) {
            (Some(Kind::Array(_, length)), Some(body)) => {
                self.told(body)?.map(|of| Kind::Array(Box::new(of), length))
            }
            // What is lent has the methods of what it refers to.
            (Some(Kind::Array(..)), None) | (Some(Kind::Reference(_)), _) => None,
            (from, _) => from,
        })
    }

    /// The type of an array by its elements.
    fn literal(&self, i: usize) -> Result<Kind, Trouble> {
        let length = self.count(i)?;
        let mut of = None;
        for element in self.elements(i) {
            // One that is written tells more than a number.
            of = match (of, self.told(element)?) {
                (Some(Kind::Number) | None, Some(kind)) => Some(kind),
                (of, _) => of,
            };
        }
        // The widest numbers are counted side by side alone.
        let plain = |of: &Kind| !(matches!(of, Kind::Tuple(_) | Kind::Choice(_)) && of.guessed());
        match of.filter(plain) {
            Some(of) => Ok(Kind::Array(Box::new(of), length)),
            None => {
                let written = self.file.shown(i..self.file.after(i));
                Err(self
                    .file
                    .trouble(i, &format!("the type of {written} is not seen: write it")))
            }
        }
    }

    /// The type of an expression, if it tells it.
    fn told(&self, part: Part) -> Result<Option<Kind>, Trouble> {
        let i = part.start;
        if part.is_empty() {
            return Ok(None);
        }
        if let Some(cast) = self
            .file
            .outer(part.clone())
            .filter(|i| self.file.is(*i, "as"))
            .last()
        {
            return Ok(self.cast(i..cast, cast + 1..part.end));
        }
        if self.file.is(part.end - 1, "?") {
            // Its value is the first of what it may be.
            return Ok(match self.told(i..part.end - 1)? {
                Some(Kind::Choice(of)) => of.into_iter().next(),
                _ => None,
            });
        }
        let whole = self.file.after(i) == part.end;
        match &self.file.tokens[i].word {
            Word::Sign("-" | "!") => self.told(i + 1..part.end),
            Word::Sign("(") if whole => {
                let inside = self.file.inside(i);
                match self.file.find(inside.clone(), ",") {
                    None => self.told(inside),
                    Some(_) => {
                        let parts = self.file.listed(inside).into_iter();
                        let of: Option<Vec<Kind>> = parts
                            .map(|part| self.told(part))
                            .collect::<Result<_, _>>()?;
                        Ok(of.map(Kind::Tuple))
                    }
                }
            }
            Word::Name(name) if name == "Some" && self.file.after(i + 1) == part.end => {
                let of = self.told(i + 2..part.end - 1)?;
                Ok(of.map(|of| Kind::Choice(vec![of])))
            }
            Word::Sign("[") if whole => self.literal(i).map(Some),
            Word::Byte if whole => Ok(Some(Kind::Plain(1))),
            Word::Number(_, None) if whole => Ok(Some(Kind::Number)),
            Word::Number(_, Some(suffix)) if whole => Ok(plain(suffix).map(Kind::Plain)),
            Word::Name(name) if whole && (name == "true" || name == "false") => {
                Ok(Some(Kind::Plain(1)))
            }
            Word::Name(_) => Ok(self.of_path(part)),
            _ => Ok(None),
        }
    }

    /// The type of a cast, if it is of the whole: no operation stands before it.
    fn cast(&self, value: Part, kind: Part) -> Option<Kind> {
        let operation = self
            .file
            .outer(value.clone())
            .any(|i| match self.file.word(i) {
                Some(Word::Sign(sign)) => {
                    let prefix = i == value.start && ["-", "!", "*", "(", "["].contains(sign);
                    !prefix && !["::", ".", "(", "[", "{", "?"].contains(sign)
                }
                Some(Word::Name(name)) => name != "as" && KEYWORDS.contains(&name.as_str()),
                _ => false,
            });
        self.scope.kind(kind).ok().filter(|_| !operation)
    }

    /// The type of a constant, of a struct or a variant that is made, or of a call.
    fn of_path(&self, part: Part) -> Option<Kind> {
        let (named, end) = self.scope.world.named(self.scope.file, part.start)?;
        let whole = end == part.end;
        let made = end < part.end && self.file.after(end) == part.end;
        let made = made && (self.file.is(end, "{") || self.file.is(end, "("));
        match named {
            Named::Variant(path) if whole || made => Some(Kind::Declared(path)),
            Named::Item(path, item) => {
                let there = Scope::new(self.scope.world, item.file);
                match &item.what {
                    What::Struct(_) if made => Some(Kind::Declared(path)),
                    What::Constant { kind, .. } if whole => there.kind(kind.clone()).ok(),
                    What::Function(function) if made && !self.is_local(part.start) => {
                        there.kind(function.result.clone()?).ok()
                    }
                    _ => None,
                }
            }
            _ => None,
        }
    }
}
