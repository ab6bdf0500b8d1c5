//! A sheet in words.

use crate::decode::{fault, Reader};
use crate::names::Names;
use crate::question::{Question, AMOUNT};

const SHEET: usize = 64;

/// Each mark and figure of a sheet on a line of its own; a slip is said as `byte 2: ...`.
pub fn explain_sheet(question: &Question, sheet: &[u8], names: &Names) -> Result<String, String> {
    if sheet.len() < SHEET {
        return Err(fault(sheet.len(), "expected 64 bytes"));
    }
    let mut reader = Reader {
        bytes: sheet,
        at: 0,
    };
    let mut text = String::new();
    count(&mut reader, question.marks, "marks")?;
    for (number, name) in names.marks.iter().enumerate() {
        let value = mark(&mut reader, question.is_open(number))?;
        text += &format!("mark {name}: {value}\n");
    }
    count(&mut reader, question.figures, "figures")?;
    let denominator = denominator(&mut reader)?;
    for name in &names.figures {
        let value = fraction(reader.amount()?, denominator);
        text += &format!("figure {name}: {value}\n");
    }
    Ok(text)
}

fn count(reader: &mut Reader, expected: usize, what: &str) -> Result<(), String> {
    let place = reader.at;
    let [count] = reader.take()?;
    if usize::from(count) == expected {
        return Ok(());
    }
    let message = format!("expected {expected} as the count of {what}, found {count}");
    Err(fault(place, &message))
}

/// A mark's byte in words: 2 exactly if it is open.
fn mark(reader: &mut Reader, open: bool) -> Result<&'static str, String> {
    let place = reader.at;
    let [byte] = reader.take()?;
    let expected = match (byte, open) {
        (0, false) => return Ok("no"),
        (1, false) => return Ok("yes"),
        (2, true) => return Ok("open: decided by nothing"),
        (_, false) => "0 or 1",
        (_, true) => "2, as the mark stands in no clause",
    };
    Err(fault(place, &format!("expected {expected}, found {byte}")))
}

fn denominator(reader: &mut Reader) -> Result<i32, String> {
    let place = reader.at;
    let denominator = i32::from_le_bytes(reader.take()?);
    if (1..=AMOUNT).contains(&denominator) {
        return Ok(denominator);
    }
    let message = "expected a denominator within 1 to 1,000,000,000";
    Err(fault(place, message))
}

/// A fraction in its lowest terms, whole ones without a denominator.
fn fraction(numerator: i32, denominator: i32) -> String {
    let divisor = common_divisor(numerator.abs(), denominator);
    match denominator / divisor {
        1 => (numerator / divisor).to_string(),
        reduced => format!("{}/{reduced}", numerator / divisor),
    }
}

fn common_divisor(a: i32, b: i32) -> i32 {
    match b {
        0 => a,
        _ => common_divisor(b, a % b),
    }
}
