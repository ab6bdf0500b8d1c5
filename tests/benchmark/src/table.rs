//! A table in Markdown: what the earlier archive and today's come to, as one value where it is the
//! same and as `earlier → today` where it is not; and what today's preview does.

use crate::compare::Compared;
use crate::library::Told;

pub const HEAD: &str = "\
| Questions | Answers | By the preview | Lines | Pairs | Processor time |
|---|---|---|---|---|---|";

/// The row of one question.
pub fn question(name: &str, compared: &Compared) -> String {
    let answers = both(compared.told.map(|told| told.word()));
    let preview = compared.preview.map_or("none".into(), |told| told.word());
    let lines = both(compared.told.map(|told| whole(told.value as u64)));
    let pairs = both(compared.told.map(|told| whole(told.pairs)));
    let times = time(compared.times);
    format!("| {name} | {answers} | {preview} | {lines} | {pairs} | {times} |")
}

/// The row of a family: how many are decided, wide and full, and how many the preview decides; the
/// means of those that both decide, since a refused course stops on its way; and the most lines of
/// one that is decided.
pub fn family(name: &str, family: &[Compared]) -> String {
    let decided: Vec<&Compared> = family.iter().filter(|one| one.both_decide()).collect();
    let mean = |of: fn(&Compared, usize) -> f64| {
        let sum = |i: usize| -> f64 { decided.iter().map(|one| of(one, i)).sum() };
        [0, 1].map(|i| sum(i) / decided.len() as f64)
    };
    let mut lines = both(mean(|one, i| one.told[i].value as f64).map(tenths));
    let mut pairs = both(mean(|one, i| one.told[i].pairs as f64).map(tenths));
    let mut times = time(mean(|one, i| one.times[i]));
    if decided.is_empty() {
        [lines, pairs, times] = ["none", "none", "none"].map(str::to_string);
    }
    let most = both([0, 1].map(|i| whole(most_lines(family, i))));
    let (count, answers) = (whole(family.len() as u64), answers(family));
    let preview = previewed(family);
    format!("| {count} {name} | {answers} | {preview} | {lines}, most {most} | {pairs} | {times} |")
}

/// How many of a family the preview decides.
fn previewed(family: &[Compared]) -> String {
    let told: Option<Vec<Told>> = family.iter().map(|one| one.preview).collect();
    told.map_or("none".into(), |told| {
        let decided = told.iter().filter(|told| told.is_decided()).count();
        format!("decided {}", whole(decided as u64))
    })
}

/// The most lines of a question that this archive decides.
fn most_lines(family: &[Compared], archive: usize) -> u64 {
    let told = family.iter().map(|one| one.told[archive]);
    let lines = told.filter(Told::is_decided).map(|told| told.value as u64);
    lines.max().unwrap_or(0)
}

/// How many of a family are decided, wide and full, and refused otherwise if any is.
fn answers(family: &[Compared]) -> String {
    let count = |is: fn(&Told) -> bool| {
        let of = |i: usize| family.iter().filter(|one| is(&one.told[i])).count();
        [0, 1].map(|i| whole(of(i) as u64))
    };
    let mut text = format!("decided {}", both(count(Told::is_decided)));
    let lost = family.iter().filter(|one| one.is_lost()).count();
    if lost > 0 {
        text += &format!(" ({lost} by the earlier alone)");
    }
    text += &format!(", wide {}", both(count(|told| told.number == 14)));
    text += &format!(", full {}", both(count(|told| told.number == 15)));
    let others = count(|told| !told.is_decided() && !matches!(told.number, 14 | 15));
    if others != ["0", "0"] {
        text += &format!(", refused otherwise {}", both(others));
    }
    text
}

fn both(values: [String; 2]) -> String {
    let [earlier, today] = values;
    match earlier == today {
        true => earlier,
        false => format!("{earlier} → {today}"),
    }
}

/// A number with a comma before each three digits.
fn whole(number: u64) -> String {
    match number {
        0..=999 => number.to_string(),
        _ => format!("{},{:03}", whole(number / 1_000), number % 1_000),
    }
}

/// A number of lines or pairs with one decimal, and with none from 1,000 on.
fn tenths(number: f64) -> String {
    match number < 1_000.0 {
        true => format!("{number:.1}"),
        false => whole(number.round() as u64),
    }
}

/// Two times of so many nanoseconds, in one unit.
fn time(times: [f64; 2]) -> String {
    let (unit, name) = match times[0].max(times[1]) {
        most if most < 1e6 => (1e3, "µs"),
        most if most < 1e9 => (1e6, "ms"),
        _ => (1e9, "s"),
    };
    let [earlier, today] = times.map(|time| time / unit);
    format!("{earlier:.2} → {today:.2} {name}")
}
