//! Solves a question and prints in words what the solver did:
//! `explain [--book] [--preview] [--edition N] FILE [NAMES]`, by the options with the whole book where
//! otherwise the short one is shown, as a preview, and in an edition, 1 without. A file that ends in
//! `.txt` is read as notation, any other as the bytes of a question.

mod needed;
mod words;

use explain::options;
use notation::{encode, names_for, question_bytes, text, Failure, Names};
use std::io::Write;
use std::process::ExitCode;
use words::Wanted;

const USAGE: &str = "usage: explain [--book] [--preview] [--edition N] FILE.txt (notation) | \
                     explain [--book] [--preview] [--edition N] FILE [NAMES.txt] (the bytes of a question)";

fn main() -> ExitCode {
    let arguments = match notation::words(std::env::args_os()) {
        Ok(arguments) => arguments,
        Err(failure) => return fail(failure.status(), &failure.to_string()),
    };
    let words: Vec<&str> = arguments.iter().map(String::as_str).collect();
    let (wanted, files) = match wanted(&words) {
        Some(wanted) => wanted,
        None => return fail(2, USAGE),
    };
    let explained = match *files {
        [file] if file.ends_with(".txt") => explain_text(&wanted, file),
        [file] => explain_bytes(&wanted, file, None),
        [file, names] if !file.ends_with(".txt") => explain_bytes(&wanted, file, Some(names)),
        _ => return fail(2, USAGE),
    };
    match explained {
        Ok(explained) => print(&explained),
        Err(failure) => fail(failure.status(), &failure.to_string()),
    }
}

fn fail(status: u8, message: &str) -> ExitCode {
    eprintln!("{message}");
    ExitCode::from(status)
}

fn print(explained: &str) -> ExitCode {
    let mut output = std::io::stdout().lock();
    match output
        .write_all(explained.as_bytes())
        .and_then(|()| output.flush())
    {
        Ok(()) => ExitCode::SUCCESS,
        Err(error) => fail(1, &format!("standard output: {error}")),
    }
}

/// What the options say, and the files behind them.
fn wanted<'a>(words: &'a [&'a str]) -> Option<(Wanted, &'a [&'a str])> {
    let (whole_book, words) = match words {
        ["--book", rest @ ..] => (true, rest),
        _ => (false, words),
    };
    let (calls, edition, files) = options(words)?;
    let wanted = Wanted {
        calls,
        edition,
        whole_book,
    };
    Some((wanted, files))
}

fn explain_text(wanted: &Wanted, file: &str) -> Result<String, Failure> {
    let text = text(file)?;
    let names = |_: &_| Ok(text.names.clone());
    words::explain(wanted, &encode(&text.question), names)
}

fn explain_bytes(wanted: &Wanted, file: &str, names: Option<&str>) -> Result<String, Failure> {
    let names = |question: &_| -> Result<Names, Failure> { names_for(question, names) };
    words::explain(wanted, &question_bytes(file)?, names)
}
