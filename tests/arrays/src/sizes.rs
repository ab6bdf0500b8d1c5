//! The sizes of types, as Rattle lays them out, and the values of constants.
//!
//! Fields stand in their order, each at a multiple of its own alignment; an enum has a byte that
//! tells the variant, and then the fields of the longest.

use crate::items::{Field, File, Item, Named, Part, What, World};
use crate::words::Word;
use crate::Trouble;

/// A type, as far as its size goes.
#[derive(Clone)]
pub enum Kind {
    /// A number or a truth value, by its bytes.
    Plain(usize),
    /// A number whose type is not written: the widest is counted.
    Number,
    Reference(Box<Kind>),
    Slice(Box<Kind>),
    Array(Box<Kind>, usize),
    /// Values side by side.
    Tuple(Vec<Kind>),
    /// One value of some, behind a byte that tells which: an Option, or a Result, its value first.
    Choice(Vec<Kind>),
    /// A struct or an enum, by its full path.
    Declared(String),
}

impl Kind {
    /// Whether it holds numbers whose type is not written.
    pub fn guessed(&self) -> bool {
        match self {
            Kind::Number => true,
            Kind::Array(of, _) => of.guessed(),
            Kind::Tuple(of) | Kind::Choice(of) => of.iter().any(Kind::guessed),
            _ => false,
        }
    }
}

/// The bytes of a number's type.
pub fn plain(name: &str) -> Option<usize> {
    match name {
        "bool" | "u8" | "i8" => Some(1),
        "u16" | "i16" => Some(2),
        "u32" | "i32" | "f32" => Some(4),
        "u64" | "i64" | "f64" | "usize" | "isize" => Some(8),
        _ => None,
    }
}

/// How many types a type of Rattle's own is one of.
fn choices(name: &str) -> Option<usize> {
    match name {
        "Option" => Some(1),
        "Result" => Some(2),
        _ => None,
    }
}

/// The least and the greatest whole number of a type.
fn range(name: &str) -> Option<(i128, i128)> {
    let bits = 8 * plain(name)?;
    match name.as_bytes()[0] {
        b'u' => Some((0, (1 << bits) - 1)),
        b'i' => Some((-(1 << (bits - 1)), (1 << (bits - 1)) - 1)),
        _ => None,
    }
}

/// The least multiple that is not below.
fn aligned(bytes: usize, alignment: usize) -> usize {
    (bytes + alignment - 1) / alignment * alignment
}

/// No type or constant goes deeper, unless it holds itself.
const DEEPEST: usize = 64;

/// Reads types and constants of one file.
#[derive(Clone, Copy)]
pub struct Scope<'a> {
    pub world: &'a World,
    pub file: usize,
    depth: usize,
}

impl<'a> Scope<'a> {
    pub fn new(world: &'a World, file: usize) -> Scope<'a> {
        Scope {
            world,
            file,
            depth: 0,
        }
    }

    fn trouble(&self, i: usize, what: &str) -> Trouble {
        self.world.files[self.file].trouble(i, what)
    }

    /// The same one step deeper, in some file.
    fn deeper(&self, file: usize, i: usize) -> Result<Scope<'a>, Trouble> {
        let depth = self.depth + 1;
        match depth < DEEPEST {
            true => Ok(Scope {
                file,
                depth,
                ..*self
            }),
            false => Err(self.trouble(i, "it holds itself")),
        }
    }

    /// The type that a part is.
    pub fn kind(&self, part: Part) -> Result<Kind, Trouble> {
        let file = &self.world.files[self.file];
        let i = part.start;
        let unread = || self.trouble(i, "a type that is not read");
        if part.is_empty() {
            return Err(unread());
        }
        if file.is(i, "&") {
            let lifetime = file.word(i + 1) == Some(&Word::Lifetime);
            let to = i + 1 + usize::from(lifetime);
            let to = to + usize::from(file.is(to, "mut"));
            return Ok(Kind::Reference(Box::new(self.kind(to..part.end)?)));
        }
        if file.is(i, "[") && file.after(i) == part.end {
            let inside = file.inside(i);
            return match file.find(inside.clone(), ";") {
                Some(semicolon) => {
                    let of = self.kind(inside.start..semicolon)?;
                    let length = self.length(semicolon + 1..inside.end)?;
                    Ok(Kind::Array(Box::new(of), length))
                }
                None => Ok(Kind::Slice(Box::new(self.kind(inside)?))),
            };
        }
        if let Some(bytes) = file.name(i).and_then(plain).filter(|_| part.len() == 1) {
            return Ok(Kind::Plain(bytes));
        }
        if file.is(i, "(") && file.after(i) == part.end {
            let of = file.listed_types(file.inside(i)).into_iter();
            return Ok(Kind::Tuple(
                of.map(|one| self.kind(one)).collect::<Result<_, _>>()?,
            ));
        }
        if let Some(values) = file.name(i).and_then(choices) {
            if part.len() < 4 || !file.is(i + 1, "<") || !file.is(part.end - 1, ">") {
                return Err(unread());
            }
            let of = file.listed_types(i + 2..part.end - 1);
            let of: Vec<Kind> = of
                .into_iter()
                .map(|one| self.kind(one))
                .collect::<Result<_, _>>()?;
            return match of.len() == values {
                true => Ok(Kind::Choice(of)),
                false => Err(unread()),
            };
        }
        match self.world.named(self.file, i).ok_or_else(unread)? {
            (Named::Item(path, item), end) if end == part.end || lifetimes(file, end..part.end) => {
                match &item.what {
                    What::Struct(_) | What::Enum(_) => Ok(Kind::Declared(path)),
                    What::Alias(part) => self.deeper(item.file, i)?.kind(part.clone()),
                    _ => Err(unread()),
                }
            }
            _ => Err(unread()),
        }
    }

    /// The bytes of a type, and what it is aligned to.
    pub fn size(&self, kind: &Kind, i: usize) -> Result<(usize, usize), Trouble> {
        match kind {
            Kind::Plain(bytes) => Ok((*bytes, *bytes)),
            Kind::Number => Ok((8, 8)),
            // To a slice it has two words, and one to an array may become one.
            Kind::Reference(to) => match **to {
                Kind::Slice(_) | Kind::Array(..) => Ok((16, 8)),
                _ => Ok((8, 8)),
            },
            Kind::Slice(_) => Err(self.trouble(i, "a slice has no size of its own")),
            Kind::Array(of, length) => {
                let (bytes, alignment) = self.size(of, i)?;
                let bytes = bytes.checked_mul(*length);
                let bytes = bytes.ok_or_else(|| self.trouble(i, "larger than any memory"))?;
                Ok((bytes, alignment))
            }
            Kind::Tuple(of) => self.beside(0, of, i),
            Kind::Choice(of) => {
                let mut whole = (1, 1);
                for one in of {
                    let (bytes, alignment) = self.beside(1, std::slice::from_ref(one), i)?;
                    whole = (whole.0.max(bytes), whole.1.max(alignment));
                }
                Ok((aligned(whole.0, whole.1), whole.1))
            }
            Kind::Declared(path) => {
                let item = &self.world.items[path];
                let there = self.deeper(item.file, i)?;
                let mut whole = (0, 1);
                for (tag, fields) in parts(item) {
                    let (bytes, alignment) = there.together(tag, fields)?;
                    whole = (whole.0.max(bytes), whole.1.max(alignment));
                }
                Ok((aligned(whole.0, whole.1), whole.1))
            }
        }
    }

    /// The bytes of fields behind some others.
    fn together(&self, before: usize, fields: &[Field]) -> Result<(usize, usize), Trouble> {
        let start = fields.first().map_or(0, |field| field.kind.start);
        let kinds = fields.iter().map(|field| self.kind(field.kind.clone()));
        self.beside(before, &kinds.collect::<Result<Vec<_>, _>>()?, start)
    }

    /// The bytes of values behind some others.
    fn beside(&self, before: usize, kinds: &[Kind], i: usize) -> Result<(usize, usize), Trouble> {
        let mut whole = (before, 1);
        for kind in kinds {
            let (bytes, alignment) = self.size(kind, i)?;
            whole = (aligned(whole.0, alignment) + bytes, whole.1.max(alignment));
        }
        Ok((aligned(whole.0, whole.1), whole.1))
    }

    /// Whether a type holds a reference.
    pub fn refers(&self, kind: &Kind, i: usize) -> Result<bool, Trouble> {
        match kind {
            Kind::Reference(_) => Ok(true),
            Kind::Array(of, _) | Kind::Slice(of) => self.refers(of, i),
            Kind::Plain(_) | Kind::Number => Ok(false),
            Kind::Tuple(of) | Kind::Choice(of) => {
                for one in of {
                    if self.refers(one, i)? {
                        return Ok(true);
                    }
                }
                Ok(false)
            }
            Kind::Declared(path) => {
                let item = &self.world.items[path];
                let there = self.deeper(item.file, i)?;
                for field in parts(item).iter().flat_map(|(_, fields)| fields.iter()) {
                    if there.refers(&there.kind(field.kind.clone())?, i)? {
                        return Ok(true);
                    }
                }
                Ok(false)
            }
        }
    }

    /// An array's length.
    pub fn length(&self, part: Part) -> Result<usize, Trouble> {
        let start = part.start;
        let value = self.value(part)?;
        usize::try_from(value).map_err(|_| self.trouble(start, "a length that is none"))
    }

    /// The value of a constant expression.
    fn value(&self, part: Part) -> Result<i128, Trouble> {
        let (value, end) = self.operation(part.clone(), 0)?;
        match end == part.end {
            true => Ok(value),
            false => Err(self.trouble(part.start, "a constant that is not read")),
        }
    }

    /// An operand and the operations behind it that bind at least so strongly, and the token
    /// behind them.
    fn operation(&self, part: Part, strength: usize) -> Result<(i128, usize), Trouble> {
        let file = &self.world.files[self.file];
        let (mut left, mut i) = self.operand(part.clone())?;
        while i < part.end {
            if file.is(i, "as") {
                let range = file.name(i + 1).and_then(range);
                let fits = range.map_or(false, |(least, most)| (least..=most).contains(&left));
                if !fits {
                    return Err(self.trouble(i, "a cast that is not read"));
                }
                i += 2;
                continue;
            }
            let (sign, binds) = match file.word(i) {
                Some(Word::Sign(sign)) => (*sign, binds(sign)),
                _ => break,
            };
            if binds == 0 || binds < strength {
                break;
            }
            let (right, end) = self.operation(i + 1..part.end, binds + 1)?;
            let value = operated(sign, left, right);
            left = value.ok_or_else(|| self.trouble(i, "a constant without a value"))?;
            i = end;
        }
        Ok((left, i))
    }

    fn operand(&self, part: Part) -> Result<(i128, usize), Trouble> {
        let file = &self.world.files[self.file];
        let i = part.start;
        let unread = || self.trouble(i, "a constant that is not read");
        if part.is_empty() {
            return Err(unread());
        }
        match file.word(i) {
            Some(Word::Number(value, suffix)) => match suffix {
                Some(suffix) if range(suffix).is_none() => Err(unread()),
                _ => Ok((*value, i + 1)),
            },
            Some(Word::Sign("(" | "{")) => Ok((self.value(file.inside(i))?, file.after(i))),
            Some(Word::Sign("-")) => {
                let (value, end) = self.operand(i + 1..part.end)?;
                Ok((-value, end))
            }
            Some(Word::Name(name)) if plain(name).is_some() => {
                match (range(name), file.name(i + 2)) {
                    (Some((least, _)), Some("MIN")) => Ok((least, i + 3)),
                    (Some((_, most)), Some("MAX")) => Ok((most, i + 3)),
                    _ => Err(unread()),
                }
            }
            Some(Word::Name(_)) => match self.world.named(self.file, i) {
                Some((Named::Item(_, item), end)) => match &item.what {
                    What::Constant { value, .. } => {
                        Ok((self.deeper(item.file, i)?.value(value.clone())?, end))
                    }
                    _ => Err(unread()),
                },
                _ => Err(unread()),
            },
            _ => Err(unread()),
        }
    }
}

/// The fields that a struct has, or that an enum may have behind the byte that tells which.
fn parts(item: &Item) -> Vec<(usize, &[Field])> {
    match &item.what {
        What::Struct(fields) => vec![(0, fields)],
        What::Enum(variants) => variants
            .iter()
            .map(|(_, fields)| (1, fields.as_slice()))
            .collect(),
        _ => Vec::new(),
    }
}

/// Whether a part is lifetimes in angle brackets.
fn lifetimes(file: &File, part: Part) -> bool {
    let last = part.end - 1;
    part.clone().all(|i| match file.word(i) {
        Some(Word::Sign("<")) => i == part.start,
        Some(Word::Sign(">")) => i == last,
        Some(Word::Sign(",")) | Some(Word::Lifetime) => i > part.start && i < last,
        _ => false,
    })
}

/// How strongly an operation binds; 0 is none. A shift is not read: what it drops hangs on the type.
fn binds(sign: &str) -> usize {
    match sign {
        "|" => 1,
        "^" => 2,
        "&" => 3,
        "+" | "-" => 4,
        "*" | "/" | "%" => 5,
        _ => 0,
    }
}

fn operated(sign: &str, left: i128, right: i128) -> Option<i128> {
    match sign {
        "|" => Some(left | right),
        "^" => Some(left ^ right),
        "&" => Some(left & right),
        "+" => left.checked_add(right),
        "-" => left.checked_sub(right),
        "*" => left.checked_mul(right),
        "/" => left.checked_div(right),
        _ => left.checked_rem(right),
    }
}
