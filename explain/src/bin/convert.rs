//! Carries a first-edition question over to the second edition, `convert IN OUT`, by the library's
//! call, and prints which figures were kept and which became two. A file that ends in `.txt` is
//! notation, any other the bytes of a question. OUT is written whole, or not at all.

use explain::reason;
use jemuling::{carry_back, Carried, Converted, Refusal, QUESTION_BYTES, SHEET_BYTES};
use notation::{
    decode, encode, parse, question_bytes, text, CarriedOver, Failure, Names, Question,
};
use std::fs::{self, File, OpenOptions};
use std::io::{self, Write};
use std::path::{Path, PathBuf};
use std::process::ExitCode;

const USAGE: &str = "usage: convert IN OUT";

fn main() -> ExitCode {
    let words = match notation::words(std::env::args_os()) {
        Ok(words) => words,
        Err(failure) => return fail(failure.status(), &failure.to_string()),
    };
    let (from, to) = match &words[..] {
        [from, to] => (from, to),
        _ => return fail(2, USAGE),
    };
    match convert(from, to) {
        Ok(said) => print(&said, to),
        Err(failure) => fail(failure.status(), &failure.to_string()),
    }
}

fn fail(status: u8, message: &str) -> ExitCode {
    eprintln!("{message}");
    ExitCode::from(status)
}

fn print(said: &str, to: &str) -> ExitCode {
    let mut output = io::stdout().lock();
    match writeln!(output, "{said}").and_then(|()| output.flush()) {
        Ok(()) => ExitCode::SUCCESS,
        Err(error) => fail(1, &format!("standard output: {error}; '{to}' is written")),
    }
}

/// Writes the new question, and says what became of the figures.
fn convert(from: &str, to: &str) -> Result<String, Failure> {
    let (old, names) = old_question(from)?;
    let mut target = vec![0; QUESTION_BYTES];
    let new = match jemuling::convert(&old, &mut target) {
        Converted::Length(length) => &target[..length],
        Converted::Refused(refusal) => return Err(Failure::Said(refused(refusal))),
    };
    let old_question = decode(&old).map_err(Failure::Said)?;
    let new_question = decode(new).map_err(Failure::Said)?;
    let kept = kept(&old, &old_question, new_question.figures)?;
    let names = names.unwrap_or_else(|| Names::numbered(&old_question));
    let carried_over = CarriedOver::new(names, &kept);
    let written = match to.ends_with(".txt") {
        true => in_notation(&carried_over, &new_question, new)?.into_bytes(),
        false => new.to_vec(),
    };
    let failed = |error| Failure::Said(format!("'{to}' cannot be written: {error}"));
    replace(Path::new(to), &written).map_err(failed)?;
    Ok(said(&carried_over))
}

/// The old question's bytes, and its names if it is notation.
fn old_question(file: &str) -> Result<(Vec<u8>, Option<Names>), Failure> {
    if file.ends_with(".txt") {
        let text = text(file)?;
        return Ok((encode(&text.question), Some(text.names)));
    }
    Ok((question_bytes(file)?, None))
}

/// Which of the old figures were kept. The library tells by carrying back a sheet of the new question
/// with the numerators 1, 2, ..: that of a kept figure comes back above 0, and a figure that became two
/// is -1, the difference of neighbours.
fn kept(old: &[u8], question: &Question, new_figures: usize) -> Result<Vec<bool>, Failure> {
    let mut sheet = vec![question.marks as u8];
    sheet.extend(
        (0..question.marks).map(|mark| match question.is_open(mark) {
            true => jemuling::OPEN,
            false => jemuling::NO,
        }),
    );
    sheet.push(new_figures as u8);
    sheet.extend(1_i32.to_le_bytes());
    sheet.extend((1..=new_figures as i32).flat_map(i32::to_le_bytes));
    sheet.resize(SHEET_BYTES, 0);
    let mut back = [0; SHEET_BYTES];
    if let Carried::Refused(Refusal { number, place }) = carry_back(old, &sheet, &mut back) {
        let message = format!("carrying back is refused, {number} at {place}");
        return Err(Failure::Said(message));
    }
    let numerators = back[question.marks + 6..].chunks_exact(4);
    let signs = numerators.map(|bytes| bytes[3] < 128);
    Ok(signs.take(question.figures).collect())
}

/// The new question's text, which gives its bytes again.
fn in_notation(
    carried_over: &CarriedOver,
    question: &Question,
    bytes: &[u8],
) -> Result<String, Failure> {
    let text = carried_over.show(question);
    match parse(&text) {
        Ok(again) if encode(&again.question) == bytes => Ok(text),
        _ => Err(Failure::Said("the text is not the new question".into())),
    }
}

/// Puts the bytes into a file beside this one, which then takes its place and its permissions. A link
/// stays, and what it leads to is replaced.
fn replace(file: &Path, bytes: &[u8]) -> io::Result<()> {
    let file = fs::canonicalize(file).unwrap_or_else(|_| file.to_path_buf());
    let (beside, made) = beside(&file)?;
    let replaced = filled(made, bytes)
        .and_then(|()| match fs::metadata(&file) {
            Ok(before) => fs::set_permissions(&beside, before.permissions()),
            Err(_) => Ok(()),
        })
        .and_then(|()| fs::rename(&beside, &file));
    if replaced.is_err() {
        // what failed is said, whether this one goes or not
        let _ = fs::remove_file(&beside);
    }
    replaced
}

/// A new file in the same folder, with its name.
fn beside(file: &Path) -> io::Result<(PathBuf, File)> {
    let mut number = 0;
    loop {
        let beside = file.with_file_name(format!(".convert.{}.{number}", std::process::id()));
        let made = OpenOptions::new()
            .write(true)
            .create_new(true)
            .open(&beside);
        match made {
            Err(error) if error.kind() == io::ErrorKind::AlreadyExists => number += 1,
            made => return made.map(|made| (beside, made)),
        }
    }
}

fn filled(mut file: File, bytes: &[u8]) -> io::Result<()> {
    file.write_all(bytes)?;
    file.sync_all()
}

fn refused(Refusal { number, place }: Refusal) -> String {
    let hint = match number {
        5 => " (notation? then the file's name must end in .txt)",
        20 => " (a clause '-x <= 0' of its own keeps x as one, 'x >= 0' does not)",
        _ => "",
    };
    format!("refused, {number} at {place}: {}{hint}", reason(number))
}

fn said(carried_over: &CarriedOver) -> String {
    let kept = listed(&carried_over.kept().join(", "));
    let differences = listed(&carried_over.differences().join(", "));
    format!("converted: kept {kept}; became two: {differences}")
}

/// A list in words.
fn listed(names: &str) -> String {
    match names {
        "" => "none".to_string(),
        _ => names.to_string(),
    }
}
