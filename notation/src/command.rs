//! What the program does with its arguments.

use crate::book::explain_book;
use crate::decode::decode;
use crate::encode::encode;
use crate::failure::{Failure, Mistake};
use crate::names::Names;
use crate::parse::{parse, Text};
use crate::question::{Question, BYTES};
use crate::sheet::explain_sheet;
use crate::show::show;
use std::env::ArgsOs;
use std::ffi::OsString;
use std::io::Read;

/// A program's arguments after its name, all of them UTF-8.
pub fn words(arguments: ArgsOs) -> Result<Vec<String>, Failure> {
    let word = |argument: OsString| {
        let said = |argument: OsString| {
            let name = argument.to_string_lossy().into_owned();
            in_file(&name, "expected a name in UTF-8")
        };
        argument.into_string().map_err(said)
    };
    arguments.skip(1).map(word).collect()
}

/// The bytes for standard output.
pub fn run(arguments: &[String]) -> Result<Vec<u8>, Failure> {
    let words: Vec<&str> = arguments.iter().map(String::as_str).collect();
    match words[..] {
        ["write", file] => Ok(encode(&text(file)?.question)),
        ["read", question] => read(question, None),
        ["read", question, names] => read(question, Some(names)),
        ["sheet", question, sheet] => in_words(question, None, sheet, explain_sheet),
        ["sheet", question, sheet, names] => in_words(question, Some(names), sheet, explain_sheet),
        ["book", question, book, ref rest @ ..] => {
            let (names, lines) = names_and_lines(rest)?;
            in_words(question, names, book, |question, book, names| {
                explain_book(question, book, lines, names)
            })
        }
        _ => Err(Failure::Usage),
    }
}

/// `[NAMES] [LINES]`: a last argument of digits is the count.
fn names_and_lines<'a>(rest: &[&'a str]) -> Result<(Option<&'a str>, Option<usize>), Failure> {
    match *rest {
        [] => Ok((None, None)),
        [one] if is_count(one) => Ok((None, Some(count(one)?))),
        [names] => Ok((Some(names), None)),
        [names, lines] if is_count(lines) => Ok((Some(names), Some(count(lines)?))),
        _ => Err(Failure::Usage),
    }
}

fn is_count(word: &str) -> bool {
    !word.is_empty() && word.bytes().all(|byte| byte.is_ascii_digit())
}

fn count(digits: &str) -> Result<usize, Failure> {
    digits.parse().map_err(|_| Failure::Usage)
}

fn read(file: &str, names: Option<&str>) -> Result<Vec<u8>, Failure> {
    let question = question(file)?;
    Ok(show(&question, &names_for(&question, names)?).into_bytes())
}

/// Explains a sheet or a book.
fn in_words(
    question_file: &str,
    names: Option<&str>,
    file: &str,
    explain: impl Fn(&Question, &[u8], &Names) -> Result<String, String>,
) -> Result<Vec<u8>, Failure> {
    let question = question(question_file)?;
    let names = names_for(&question, names)?;
    explain(&question, &contents(file)?, &names)
        .map(String::into_bytes)
        .map_err(|message| in_file(file, &message))
}

fn question(file: &str) -> Result<Question, Failure> {
    decode(&question_bytes(file)?).map_err(|message| in_file(file, &message))
}

/// The names of a notation file, or numbered ones.
pub fn names_for(question: &Question, file: Option<&str>) -> Result<Names, Failure> {
    let file = match file {
        Some(file) => file,
        None => return Ok(Names::numbered(question)),
    };
    let names = text(file)?.names;
    if names.fit(question) {
        return Ok(names);
    }
    let message = format!(
        "expected names for marks: {}, figures: {}, found marks: {}, figures: {}",
        question.marks,
        question.figures,
        names.marks.len(),
        names.figures.len()
    );
    Err(Failure::Said(mistake(1, 1, message).of(file)))
}

pub fn text(file: &str) -> Result<Text, Failure> {
    let said = |mistake: Mistake| Failure::Said(mistake.of(file));
    parse(&characters(&contents(file)?).map_err(said)?).map_err(said)
}

/// A notation file's characters; the first byte that is none has a place.
fn characters(bytes: &[u8]) -> Result<String, Mistake> {
    std::str::from_utf8(bytes)
        .map(str::to_string)
        .map_err(|error| {
            let before = String::from_utf8_lossy(&bytes[..error.valid_up_to()]);
            let last = before.rsplit('\n').next().unwrap_or_default();
            let line = before.matches('\n').count() + 1;
            mistake(line, last.chars().count() + 1, "expected UTF-8".into())
        })
}

fn mistake(line: usize, column: usize, message: String) -> Mistake {
    Mistake {
        line,
        column,
        message,
    }
}

/// A file of the notation, a sheet or a book.
fn contents(file: &str) -> Result<Vec<u8>, Failure> {
    std::fs::read(file).map_err(|error| in_file(file, &error.to_string()))
}

/// A question's bytes; one too many is enough to tell that there are too many.
pub fn question_bytes(file: &str) -> Result<Vec<u8>, Failure> {
    let mut bytes = Vec::new();
    let most = BYTES as u64 + 1;
    std::fs::File::open(file)
        .and_then(|file| file.take(most).read_to_end(&mut bytes))
        .map_err(|error| in_file(file, &error.to_string()))?;
    Ok(bytes)
}

fn in_file(file: &str, message: &str) -> Failure {
    Failure::Said(format!("{file}: {message}"))
}
