//! Changed copies of the tree, each judged as the tree is: what must be found in them, and what is
//! allowed.

use crate::items::{Source, What, World};
use crate::judge::{judged, Judged};
use crate::sources::{of_crate, Crates};
use crate::Trouble;
use std::collections::BTreeSet;
use std::path::{Path, PathBuf};
use std::{env, fs, io, process};

/// Where a text is put into a copy.
#[derive(Clone, Copy)]
enum At<'a> {
    /// Into the first function of a crate, before its first statement.
    Body(&'a str),
    /// Behind all items of the crate's file with that function.
    Items(&'a str),
    /// Before the first parameter of a crate's function.
    Parameter(&'a str, &'a str),
    /// Into a crate of its own, which a crate lists, and which lists what stands before the bar.
    NewCrate(&'a str),
    /// Into a file in a folder of a crate's sources.
    Folder(&'a str),
}

use At::{Body, Folder, Items, NewCrate, Parameter};

/// What is shown, the place, the text, and what must be said of it.
#[rustfmt::skip]
const REFUSED: &[(&str, At, &str, &str)] = &[
    // Document 02's own: a local, a struct, a constant, a nested array.
    ("a local", Body("rounds"), "let list = [0u16; 513];", "[0u16; 513] has 1026 bytes"),
    ("a struct", Items("lines"), "pub struct Planted { pub list: [u16; 513] }", "[u16; 513] has 1026 bytes"),
    ("a length behind a constant", Items("walk"), "const PLANTED: usize = 513; fn planted() { let list = [0u16; PLANTED]; }",
        "[0u16; PLANTED] has 1026 bytes"),
    ("a nested array", Body("steps"), "let lists = [[0u16; 27]; 19];", "[[0u16; 27]; 19] has 1026 bytes"),
    // Other ways to write a length.
    ("a constant of a type", Items("fields"),
        "struct Planted { n: u8 } impl Planted { const N: usize = 0x201; fn of() { let list = [0u16; Self::N]; } }",
        "[0u16; Self::N] has 1026 bytes"),
    ("a constant of another crate", Body("models"), "let list = [0u16; rules_types::limits::Limits::STEPS as usize];", "has 2048 bytes"),
    ("a constant counted out", Items("masks"),
        "const PLANTED: usize = 2 * (rules_types::limits::Limits::CLAUSES + 1); fn planted(list: [u16; PLANTED]) {}",
        "[u16; PLANTED] has 1028 bytes"),
    ("a length counted out", Body("rows"), "let list = [0u8; (u8::MAX as usize + 1) * 4 + 3 % 2];", "has 1025 bytes"),
    ("a length over rows", Body("elimination"), "let list = [\n    0u16; // of lines\n    5_13usize\n];", "has 1026 bytes"),
    // Other places.
    ("a local's type", Body("placing"), "let list: [u16; 513] = [0; 513];", "[u16; 513] has 1026 bytes"),
    ("a parameter", Items("values"), "fn planted(list: [u16; 513]) {}", "[u16; 513] has 1026 bytes"),
    ("a lent array", Items("values"), "fn planted(list: &mut [u16; 513]) {}", "[u16; 513] has 1026 bytes"),
    ("a result", Items("resolvents"), "fn planted() -> [u16; 513] { [0; 513] }", "[u16; 513] has 1026 bytes"),
    ("an argument", Items("resolvents"), "fn other(list: &mut [u16]) {} fn planted() { other(&mut [0u16; 513]) }",
        "[0u16; 513] has 1026 bytes"),
    ("a constant", Items("normalization"), "const PLANTED: [u16; 513] = [0; 513];", "[u16; 513] has 1026 bytes"),
    ("a byte string", Items("normalization"), "const PLANTED: &[u8] = b\"@\";", "has 1025 bytes"),
    ("an alias", Items("machine"), "type Planted = [u16; 513];", "[u16; 513] has 1026 bytes"),
    ("a variant", Items("fractions"), "enum Planted { None, Some([u16; 513]) }", "[u16; 513] has 1026 bytes"),
    ("a tuple struct", Items("fractions"), "struct Planted(pub u8, pub(crate) [u16; 513]);", "[u16; 513] has 1026 bytes"),
    ("an element", Body("problem_parts"), "let one: [u8; 1] = [[1u16; 513][0] as u8];", "[1u16; 513] has 1026 bytes"),
    ("a call's own crate", Body("jemuling"), "let list = [0u16; 513];", "[0u16; 513] has 1026 bytes"),
    ("a new crate below", NewCrate("rows"), "|pub fn planted() { let list = [0u16; 513]; }", "[0u16; 513] has 1026 bytes"),
    ("a new crate between", NewCrate("jemuling"), "solving|pub fn planted() { let list = [0u16; 513]; }", "[0u16; 513] has 1026 bytes"),
    // Closures, branches, and what may be there or not.
    ("an array in a closure", Items("rows"), "fn planted(row: [i64; 8]) -> bool { row.iter().any(|z| [0u16; 513][0] == 0) }",
        "[0u16; 513] has 1026 bytes"),
    ("an array in a closure that makes one", Items("rows"), "fn planted() -> [u8; 4] { std::array::from_fn(|i| [0u16; 513][i] as u8) }",
        "[0u16; 513] has 1026 bytes"),
    ("an array in a closure for an error", Items("models"),
        "fn planted(x: Result<u8, u8>) -> Result<u8, u16> { x.map_err(|place| [0u16; 513][place as usize]) }",
        "[0u16; 513] has 1026 bytes"),
    ("what may be there", Items("models"), "fn planted() -> Option<[u16; 513]> { None }", "[u16; 513] has 1026 bytes"),
    ("a result that may be refused", Items("models"), "fn planted() -> Result<[u16; 513], usize> { Err(1) }", "[u16; 513] has 1026 bytes"),
    ("what refuses", Items("models"), "fn planted() -> Result<Option<u8>, [u16; 513]> { Ok(None) }", "[u16; 513] has 1026 bytes"),
    ("a field that may be there", Items("lines"), "pub struct Planted { pub list: Option<[u16; 513]> }", "[u16; 513] has 1026 bytes"),
    ("a value that is there", Body("values"), "let list = Some([0u16; 513]);", "[0u16; 513] has 1026 bytes"),
    ("a part of a tuple", Items("lines"), "fn planted() -> (u8, [u16; 513]) { (1, [0; 513]) }", "[u16; 513] has 1026 bytes"),
    ("a for's body", Body("elimination"), "for i in (0..4).rev() { let list = [0u16; 513]; }", "[0u16; 513] has 1026 bytes"),
    ("a for's list", Body("elimination"), "for x in [0u16; 513] {}", "[0u16; 513] has 1026 bytes"),
    ("a while's body", Body("rounds"), "while let Some(i) = Some(3) { let list = [0u16; 513]; }", "[0u16; 513] has 1026 bytes"),
    ("an if's value", Body("rounds"), "if let Some(i) = Some([0u16; 513]) {}", "[0u16; 513] has 1026 bytes"),
    ("an else of a let", Body("walk"), "let Some(i) = Some(3) else { let list = [0u16; 513]; return; };", "[0u16; 513] has 1026 bytes"),
    ("an arm", Items("walk"), "fn planted(x: Option<u8>) -> u16 { match x { Some(i) if i < 3 => 3, _ => [0u16; 513][3] } }",
        "[0u16; 513] has 1026 bytes"),
    ("a value that is passed on", Items("walk"), "fn planted() -> Option<u16> { Some(Some([0u16; 513])?[0]) }",
        "[0u16; 513] has 1026 bytes"),
    ("a field before the others", Items("rows"),
        "struct Planted { a: u16, b: u8 } fn planted(b: u8, p: Planted) -> Planted { Planted { a: [0u16; 513][0], b, ..p } }",
        "[0u16; 513] has 1026 bytes"),
    // Arrays that functions make.
    ("an array by a closure", Body("rows"), "let list: [u16; 513] = std::array::from_fn(|i| i as u16);", "[u16; 513] has 1026 bytes"),
    ("an array by a closure, without a type", Body("rows"), "let list = std::array::from_fn(|i| i as u16);",
        "the type of std::array::from_fn(|i| i as u16) is not seen"),
    ("an array by a closure, its type in it", Body("rows"), "let list = std::array::from_fn::<u16, 513, _>(|i| 0);",
        "a call that is not read"),
    ("what makes arrays, as a value", Body("rows"), "let made = std::array::from_fn;", "a path that is not read"),
    ("elements in place of others", Items("rows"), "fn other() -> [u8; 129] { [0; 129] } fn planted() { let list = other().map(|z| z as u64); }",
        "other().map(|z| z as u64) has 1032 bytes"),
    ("elements in place of others, without a type", Items("rows"), "fn planted(row: [i64; 8]) { let lists = row.map(|z| [0u8; 129]); }",
        "the type of row.map(|z| [0u8; 129]) is not seen"),
    ("elements in place of large ones", Body("rows"), "let list: [u8; 513] = [0u16; 513].map(|z| z as u8);", "[0u16; 513] has 1026 bytes"),
    ("another function of Rattle's own", Body("rows"), "let list = core::mem::zeroed();", "a call that is not read"),
    ("another method of Rattle's own", Items("rows"), "fn planted(s: &[u8]) { let list = s.first_chunk(); }", "a method that is not read"),
    ("a return in a closure", Items("rows"), "fn planted(x: Option<u8>) -> [u8; 129] { x.map_or([0; 129], |z| { return [0; 129]; }) }",
        "a return that is not read"),
    ("a return in a closure's arm", Items("rows"),
        "fn planted(x: Option<u8>) -> [u8; 129] { x.map_or([0; 129], |z| match z { 1 => return [0; 129], _ => [1; 129] }) }",
        "a return that is not read"),
    ("elements in place of others, compared", Items("rows"),
        "fn planted(row: [i64; 8]) { let same: bool = row == row.map(|z| z); }", "the type of row.map(|z| z) is not seen"),
    ("elements in place of an arm's", Items("rows"), "fn planted() -> [u8; 200] { match 3 { _ => [0u64; 200] }.map(|z| z as u8) }",
        ".map(|z| z as u8) is not seen"),
    ("elements in place of an arm's block's", Items("rows"),
        "fn planted() -> [u8; 200] { match 3 { _ => { [0u64; 200] }.iter().fold([0; 200], |a, z| a) } }", "[0u64; 200] has 1600 bytes"),
    ("elements in place of a method's own", Items("rows"),
        "struct Planted { list: [u8; 200] } impl Planted { fn take(self) -> [u8; 200] { self.list } } \
        fn planted(p: Planted) { let list = p.take().map(|z| z as u64); }", "the type of p.take().map(|z| z as u64) is not seen"),
    ("elements in place of what is lent", Items("rows"),
        "fn other(s: &[u8; 200]) -> Option<&[u8; 200]> { Some(s) } \
        fn planted(s: &[u8; 200]) -> Option<u64> { let list = (other(s)?).map(|z| z as u64); Some(list[0]) }", "is not seen"),
    ("elements in place of others, behind a range", Items("rows"),
        "fn planted(a: [u8; 200], y: u8) { let list = (if let 0..=3 = y { a } else { a }).map(|z| z as u64); }", "is not seen"),
    ("elements in place of others, behind a range that is matched", Items("rows"),
        "fn planted(a: [u8; 200], y: u8) { let list = (match 0..y { _ => a }).map(|z| z as u64); }", "is not seen"),
    ("an argument behind a closure", Items("rows"),
        "fn other(f: fn(u8, u8) -> u8, list: &[u64], more: &[u8]) {} fn planted() { other(|a, b| a, &[0; 200], &[1]) }",
        "[0; 200] has 1600 bytes"),
    ("an argument of a local with a function's name", Items("rows"),
        "fn other(list: &[u8]) {} fn planted(f: Option<fn(&[u64])>) { if let Some(other) = f { other(&[0; 200]) } }",
        "[0; 200] has 1600 bytes"),
    ("what a local with a function's name gives back", Items("rows"),
        "fn other() -> u8 { 1 } fn planted(p: Option<fn() -> u64>) -> Option<u8> { let other = p?; let list = [other(); 1000]; None }",
        "the type of [other(); 1000] is not seen"),
    ("a closure with a type", Items("rows"), "fn planted(row: [i64; 8]) -> bool { row.iter().any(|z| -> bool { true }) }",
        "a form that is not read in a body"),
    ("a closure with a name", Body("rows"), "let made = |i| 3u64;", "a form that is not read in a body"),
    ("a constant in a body", Body("rows"), "const PLANTED: usize = 513;", "a form that is not read in a body"),
    // Other elements.
    ("what may be there, in a row", Items("rows"), "fn planted(list: [Option<u16>; 257]) {}", "[Option<u16>; 257] has 1028 bytes"),
    ("what may be refused, in a row", Items("rows"), "fn planted(list: [Result<Option<u16>, u64>; 65]) {}", "has 1040 bytes"),
    ("tuples", Items("rows"), "fn planted(list: [(u8, u32); 129]) {}", "[(u8, u32); 129] has 1032 bytes"),
    ("values that are passed on, in a row", Items("rows"),
        "fn other() -> Option<u16> { None } fn planted() -> Option<u8> { let list = [other()?; 513]; None }",
        "[other()?; 513] has 1026 bytes"),
    ("structs", Items("placing"), "fn planted(lines: [lines::line::Line; 12]) {}", "has 1056 bytes"),
    ("structs with a gap", Items("rows"), "struct Planted { a: u8, b: u32, c: u8 } fn planted(list: [Planted; 86]) {}",
        "[Planted; 86] has 1032 bytes"),
    ("structs of arrays", Items("rows"), "struct Planted { a: [u16; 256], b: u8 } fn planted(list: [Planted; 2]) {}",
        "[Planted; 2] has 1028 bytes"),
    ("enums", Items("rows"), "enum Planted { A, B(u8, u32) } fn planted() { let list = [Planted::A; 129]; }",
        "[Planted::A; 129] has 1032 bytes"),
    ("an alias's arrays", Items("rows"), "type Planted = [u16; 256]; fn planted(list: [Planted; 3]) {}", "[Planted; 3] has 1536 bytes"),
    ("slices", Items("rows"), "fn planted(lists: [&[u8]; 65]) {}", "[&[u8]; 65] has 1040 bytes"),
    ("a constant's value", Items("rows"), "const PLANTED: u16 = 3; fn planted() { let list = [PLANTED; 513]; }",
        "[PLANTED; 513] has 1026 bytes"),
    ("a call's value", Items("rows"), "fn other() -> u16 { 3 } fn planted() { let list = [other(); 513]; }", "[other(); 513] has 1026 bytes"),
    ("a list", Items("rows"), "const PLANTED: [u64; 43] = [0; 43]; fn planted() { let list = [PLANTED, PLANTED, PLANTED]; }",
        "[PLANTED, PLANTED, PLANTED] has 1032 bytes"),
    ("truth values", Body("rows"), "let list = [false; 1025];", "[false; 1025] has 1025 bytes"),
    ("numbers of no written type", Body("rows"), "let list = [0; 129];", "[0; 129] has 1032 bytes, counting the widest numbers"),
    // What cannot be told is refused.
    ("elements of no written type", Items("rows"), "fn planted(x: u8) { let list = [x; 4]; }", "the type of [x; 4] is not seen"),
    ("a local with a type's name", Items("rows"), "struct Planted { n: u8 } fn planted(Planted: u64) { let list = [Planted; 1000]; }",
        "the type of [Planted; 1000] is not seen"),
    ("a slice of a local with a type's name", Items("rows"), "struct Planted { n: u8 } fn planted(Planted: u64) { planted(&[Planted]); }",
        "the type of [Planted] is not seen"),
    ("a cast of a part", Items("rows"), "fn planted(x: u64) { let list = [1u64 << x as u8; 1000]; }", "is not seen"),
    ("a length by a shift", Body("rows"), "let list = [0u8; 1510 - (255u8 << 1) as usize];", "a constant that is not read"),
    ("a length by a call", Items("rows"), "fn planted() { let list = [0u8; planted()]; }", "a constant that is not read"),
    ("another layout", Items("rows"), "#[repr(align(4096))] struct Planted { n: u8 }", "an attribute that is not read"),
    ("a number's type anew", Items("rows"), "type u8 = u64;", "a declaration that is not read"),
    ("a name of Rattle's own anew", Items("rows"), "type Option = u8;", "a declaration that is not read"),
    ("a variant's number beyond a byte", Items("rows"), "enum Planted { A = 256 }", "a variant that is not read"),
    ("a variant behind the last of a byte", Items("rows"), "enum Planted { A = 255, B }", "more variants than a byte tells"),
    ("a type parameter", Items("rows"), "struct T { n: u8 } fn other<T>(list: &[T], one: T) {}", "a declaration that is not read"),
    ("numbers in tuples", Items("rows"), "fn planted(x: u128) { let list = [(0, 0); 64]; let y = list[0].0 == x; }",
        "the type of [(0, 0); 64] is not seen"),
    ("references to arrays", Items("rows"), "const PLANTED: &[u8; 3] = &[0; 3]; fn planted(list: [(&[u8; 3], u8); 64]) {}", "has 1536 bytes"),
    ("a path from the root", Body("rows"), "let list = ::std::array::from_fn(|i| 3u64);", "a path that is not read"),
    ("another derive", Items("rows"), "#[derive(Clone, Planted)] struct Planted { n: u8 }", "an attribute that is not read"),
    ("a constant function", Items("rows"), "const fn planted() -> u64 { 3 } const PLANTED: usize = 1000;", "a declaration that is not read"),
    ("names by a star", Items("rows"), "use rules_types::limits::*;", "a use that is not read"),
    ("another name", Items("rows"), "use rules_types::limits::Limits as Other;", "a use that is not read"),
    ("names by a star in a group", Items("rows"), "use rules_types::{limits::*};", "a use that is not read"),
    ("another name in a group", Items("rows"), "use rules_types::limits::{Limits as Other};", "a use that is not read"),
    ("a group in a group", Items("rows"), "use rules_types::{limits::{Limits}};", "a use that is not read"),
    ("a module by a group", Items("rows"), "use rules_types::limits::{self};", "a use that is not read"),
    ("a name of a group that is declared", Items("rows"), "use rules_types::limits::{Limits}; type Limits = [u16; 4];",
        "a name that is declared twice"),
    ("a layout behind a derive", Items("rows"), "#[derive(Clone, Copy)] #[repr(align(4096))] struct Planted { n: u8 }",
        "an attribute that is not read"),
    ("a name passed on", Items("solving"), "pub use walk::backwards::walk;", "a declaration that is not read"),
    ("a module in a file", Items("rows"), "mod planted { const PLANTED: [u16; 513] = [0; 513]; }", "no ; follows"),
    ("a bracket in a contract", Items("rows"), "fn planted() requires { {-{-} } { let list = [0u16; 513]; } // }\n", "requires is not read"),
    ("a comment in a contract", Items("rows"), "fn planted() ensures { -- } /*\n } { let list = [0u16; 513]; } // */ {}\n", "ensures is not read"),
    ("a text in a contract", Items("rows"), "fn planted() requires { \"} /*\" } { let list = [0u16; 513]; } // */ {}\n", "requires is not read"),
    ("a comment in a ghost", Items("rows"), "ghost use Prim // ; /*\n; const PLANTED: [u64; 513] = [0; 513]; // */\n", "ghost is not read"),
    ("a type that goes on", Items("rows"), "struct Planted<'a> { s: &'a [u8] } fn planted() { let list: Planted<'_>= Planted { s: b\"@\" }; }",
        "a type that is not read"),
    ("a module and an item of one name", NewCrate("rows"), "|mod planted; const planted: usize = 4;", "a name that is declared twice"),
    ("a crate that is not listed", Items("machine"), "use lines::line::Line; fn planted(list: [Line; 1]) {}", "a type that is not read"),
    ("a folder", Folder("rows"), "fn planted() { let list = [0u16; 513]; }", "planted is not read"),
    ("a sign", Items("rows"), "fn planted() { let list = $; }", "a sign that is not read"),
    // What solving is lent.
    ("a slice", Parameter("solving", "solve_within"), "list: &mut [u16], ", "solve_within is lent list: &mut [u16]"),
    ("a slice from C", Parameter("jemuling_c", "jemuling_solve"), "list: &mut [u8], ", "jemuling_solve is lent list: &mut [u8]"),
    ("a slice for a preview", Parameter("jemuling_c", "jemuling_preview_solve"), "list: &mut [u8], ",
        "jemuling_preview_solve is lent list: &mut [u8]"),
    ("a slice beside an edition", Parameter("jemuling_c", "jemuling_solve_in"), "list: &mut [u8], ",
        "jemuling_solve_in is lent list: &mut [u8]"),
    ("a slice of a call", Parameter("jemuling", "jemuling_solve"), "list: &mut [u8], ", "jemuling_solve is lent list: &mut [u8]"),
    ("a slice of a preview's call", Parameter("jemuling", "jemuling_preview_solve"), "list: &mut [u8], ",
        "jemuling_preview_solve is lent list: &mut [u8]"),
    ("a slice of an edition's call", Parameter("jemuling", "jemuling_solve_in"), "list: &mut [u8], ",
        "jemuling_solve_in is lent list: &mut [u8]"),
    ("another question", Parameter("solving", "solve_within"), "input: &mut [u8], ", "solve_within is lent input: &mut [u8]"),
    ("a slice in a struct", Items("solving"), "pub struct Planted<'a> { n: u8, list: &'a mut [u8] } pub fn planted(p: Planted) {}",
        "planted is lent p: Planted"),
    ("a slice that may be there", Items("solving"), "pub fn planted(list: Option<&[u8]>) {}", "planted is lent list: Option<&[u8]>"),
    ("a lent self", Items("solving"), "pub struct Planted { n: u8 } impl Planted { pub fn planted(&mut self, input: &[u8]) {} }",
        "planted is lent &mut self"),
    ("an impl with a lifetime", Items("solving"), "pub struct Planted<'a> { s: &'a [u8] } impl<'a> Planted<'a> { pub fn planted(self) {} }",
        "an impl that is not read"),
    ("an impl of an alias", Items("solving"), "pub struct Planted<'a> { s: &'a [u8] } type Other = Planted<'static>; impl Other {}",
        "an impl that is not read"),
    ("a slice from a program", Items("jemuling"), "pub fn planted(list: &[u8]) { solve_on() }", "planted is lent list: &[u8]"),
    ("a call of its own", Items("jemuling"),
        "pub extern \"C\" fn planted(list: &[u8]) { other() } fn other() { solving::solve::solve_within() }", "planted is lent list: &[u8]"),
    ("a call with an empty list of types", Items("jemuling"), "pub extern \"C\" fn planted(list: &[u8]) { list.go::<>() }",
        "a call that is not read"),
    ("a call by an alias", Items("jemuling"), "type Planted = Told; pub extern \"C\" fn planted(list: &[u8]) { Planted::go() }",
        "a call that is not read"),
    ("a call that is not found", Items("jemuling"), "pub extern \"C\" fn planted(list: &[u8]) { other::go() }", "a call that is not read"),
];

/// What is shown, the place, the text, and the bytes of the array that is found then.
#[rustfmt::skip]
const ALLOWED: &[(&str, At, &str, usize)] = &[
    ("arrays side by side", Body("placing"), "let a = [0u16; 512]; let b = [0u16; 512]; let c = [0u16; 512];", 1024),
    ("arrays side by side in a struct", Items("placing"), "struct Planted { a: [u16; 512], b: [u16; 512], c: [u16; 512] }", 1024),
    ("a nested array", Items("placing"), "fn planted(lists: [[u16; 256]; 2]) {}", 1024),
    ("a type before its value", Body("placing"), "let list: [[u16; 256]; 2] = [[0; 256]; 2];", 1024),
    ("a field before its value", Items("rows"), "struct Planted { a: [u16; 512] } fn planted() -> Planted { Planted { a: [0; 512] } }", 1024),
    ("a result before its value", Items("rows"), "fn planted(x: bool) -> [u16; 512] { if x { return [1; 512]; } [0; 512] }", 1024),
    ("structs with a gap", Items("rows"), "struct Planted { a: u8, b: u32, c: u8 } fn planted(list: [Planted; 85]) {}", 1020),
    ("enums without fields", Items("rows"), "enum Planted { A, B } fn planted(list: [Planted; 1024]) {}", 1024),
    ("a result that may be there, before its value", Items("rows"),
        "fn planted(x: bool) -> Option<[u16; 512]> { if x { return None; } Some([0; 512]) }", 1024),
    ("a result that may be refused, before its value", Items("rows"),
        "fn planted(x: u8) -> Result<[u16; 512], usize> { match x { 0 => Ok([0; 512]), _ => Err(3) } }", 1024),
    ("a type before branches", Items("rows"),
        "fn planted(x: bool) { let list: [u16; 512] = if x { [0; 512] } else { std::array::from_fn(|i| 0) }; }", 1024),
    ("an argument before its value", Items("rows"), "fn other(list: &[u16; 512]) {} fn planted() { other(&[0; 512]) }", 1024),
    ("a result before what makes it", Items("rows"), "fn planted(list: [u16; 512]) -> [u16; 512] { list.map(|z| z) }", 1024),
    ("a field before its value, with others", Items("rows"),
        "struct Planted { a: [u16; 512], b: u8 } fn planted(b: u8, p: Planted) -> Planted { Planted { a: [0; 512], b, ..p } }", 1024),
    ("what may be there, in a row", Items("rows"), "fn planted(list: [Option<u16>; 256]) {}", 1024),
    ("enums with numbers", Items("rows"), "enum Planted { A = 64, B = 255 } fn planted(list: [Planted; 1024]) {}", 1024),
    ("an index of what is passed on", Items("rows"),
        "fn other(s: &[u16]) -> Option<&[u16]> { None } fn planted(s: &[u16]) -> Option<u16> { Some(other(s)?[513]) }", 0),
    ("a list that is gone through", Items("rows"), "fn planted(s: &[u16]) -> bool { s.iter().map(|z| *z).any(|z| z == 513) }", 0),
    ("brackets of a contract", Items("rows"), "fn planted() ensures { result ≡ record { list = [0; 513] } } {}", 0),
    ("words of a comment", Items("rows"), "// [u16; 513]\n/* [u16; 513] /* [u16; 513] */ */", 0),
    ("words of a contract", Items("rows"), "fn planted() requires { [0; 513] } ensures list { λ _. [0; 513] } {}", 0),
    ("names of a group", Items("rows"), "use rules_types::{limits}; fn planted(list: [u16; 2 * 0x100]) {}", 1024),
    ("a type of a group", Items("fractions"), "use rules_types::limits::{Limits}; fn planted(list: [u16; 32 * Limits::BOOLEANS]) {}", 1024),
    ("an index", Items("rows"), "fn planted(s: &[u16]) -> u16 { s[513] }", 0),
    ("a crate that solving is not built from", Body("proof_check"), "let list = [0u16; 513];", 0),
];

/// Judges the copies, and says of each what was found and whether that is right. The crates are
/// those with a function: each of them is read.
pub fn tried(root: &Path, crates: &BTreeSet<String>) -> Vec<(String, bool)> {
    let (local, found) = ("let list = [0u16; 513];", "[0u16; 513] has 1026 bytes");
    let refusals = REFUSED.iter();
    let refusals = refusals.map(|(shows, at, text, found)| refused(root, shows, *at, text, found));
    let locals = crates.iter().map(|name| {
        refused(
            root,
            &format!("a local in {name}"),
            Body(name),
            local,
            found,
        )
    });
    let allowed = ALLOWED
        .iter()
        .map(|(shows, at, text, most)| allowed(root, shows, *at, text, *most));
    let said = refusals.chain(locals).chain(allowed).collect();
    let _ = fs::remove_dir_all(copy());
    said
}

/// Where the copies are made: outside the tree, in which no other sources may stand.
fn copy() -> PathBuf {
    env::temp_dir().join(format!("jemuling-arrays-{}", process::id()))
}

/// The first fault of the copy is the one that is expected, in the file that was changed.
fn refused(root: &Path, shows: &str, at: At, text: &str, expected: &str) -> (String, bool) {
    match copied(root, at, text) {
        Err(trouble) => (format!("FAILED {shows}: {trouble}"), false),
        Ok((changed, judged)) => match judged.faults.first() {
            Some(fault) if fault.starts_with(&changed) && fault.contains(expected) => {
                (format!("{shows}: {fault}"), true)
            }
            Some(fault) => (
                format!("FAILED {shows}: {fault}, and not {expected}"),
                false,
            ),
            None => (format!("FAILED {shows}: {text} is not found"), false),
        },
    }
}

/// The copy has no fault, and its largest array has at least so many bytes.
fn allowed(root: &Path, shows: &str, at: At, text: &str, most: usize) -> (String, bool) {
    match copied(root, at, text) {
        Err(trouble) => (format!("FAILED {shows}: {trouble}"), false),
        Ok((_, judged)) => match judged.faults.first() {
            Some(fault) => (format!("FAILED {shows}: {fault}"), false),
            None if judged.most() < most => (format!("FAILED {shows}: {text} is not found"), false),
            None => (
                format!("{shows}: allowed, the largest has {} bytes", judged.most()),
                true,
            ),
        },
    }
}

/// Judges a copy of the tree with a text put in, and says which file that changed, or which sources.
fn copied(root: &Path, at: At, text: &str) -> Result<(String, Judged), Trouble> {
    let copy = copy();
    let failed = |error: io::Error| Trouble::at(0, &error.to_string()).of("a copy");
    if copy.exists() {
        fs::remove_dir_all(&copy).map_err(failed)?;
    }
    let mut listed = fs::read_to_string(root.join("crates.txt")).map_err(failed)?;
    for name in Crates::read(root)?.names() {
        for (file, _, text) in of_crate(root, name)? {
            write(&copy.join(file), &text).map_err(failed)?;
        }
    }
    let text = text.replace('@', &"a".repeat(1025));
    let (file, text) = match at {
        NewCrate(above) => {
            let (below, text) = text.split_once('|').unwrap_or_default();
            let (old, new) = (format!("\n{above}:"), format!("\n{above}: planted"));
            listed = format!("{}planted: {below}\n", listed.replace(&old, &new));
            ("crates/planted/src/lib.rt".to_string(), text.to_string())
        }
        Folder(name) => (format!("crates/{name}/src/planted/planted.rt"), text),
        Body(name) | Items(name) | Parameter(name, _) => put(of_crate(root, name)?, at, &text)?,
    };
    write(&copy.join("crates.txt"), &listed).map_err(failed)?;
    write(&copy.join(&file), &text).map_err(failed)?;
    let changed = match at {
        Folder(name) => format!("crates/{name}/src"),
        _ => file,
    };
    Ok((changed, judged(&copy)))
}

fn write(file: &Path, text: &str) -> io::Result<()> {
    if let Some(folder) = file.parent() {
        fs::create_dir_all(folder)?;
    }
    fs::write(file, text)
}

/// Puts a text into a crate: the file, and its text then.
fn put(sources: Vec<Source>, at: At, text: &str) -> Result<(String, String), Trouble> {
    let world = World::read(sources, Crates::default())?;
    let functions = world
        .items
        .iter()
        .filter_map(|(path, item)| match (&item.what, at) {
            (What::Function(_), Parameter(_, name)) if !path.ends_with(&format!("::{name}")) => {
                None
            }
            (What::Function(function), _) => Some((item.file, function)),
            _ => None,
        });
    let first = functions.min_by_key(|(file, function)| (*file, function.open));
    let (file, function) = first.ok_or_else(|| Trouble::at(0, "no function to put it into"))?;
    let file = &world.files[file];
    let place = match at {
        Body(_) => file.tokens[function.body.start - 1].end,
        Parameter(..) => file.tokens[function.open].end,
        Items(_) | NewCrate(_) | Folder(_) => file.text.len(),
    };
    let (before, after) = file.text.split_at(place);
    Ok((file.name.clone(), format!("{before}{text}{after}")))
}
