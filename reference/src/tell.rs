//! The program's lines in words: each behind its event, its values by name. The log is read for the events; every answer is the program's.

use crate::log::{self, Record};
use crate::side::TURN;

/// What refusals mean, by the table of that part.
const RULES: &str = include_str!("../../docs/RULES.md");
const PART: &str = "## When the card says no";

const FLAGS: [&str; 8] = ["ecn", "rtx", "trimmed", "trimmed_last_hop", "no_buffer", "bit_5", "bit_6", "bit_7"];
const REASONS: [&str; 6] = ["trim", "trim_last_hop", "no_bitmap", "no_buffer", "psne", "gerr"];

/// A done line's word, and the names of its values.
type Named = (&'static str, &'static [&'static str]);

const SACK: &[&str] = &["cack", "base", "bitmap", "count/256", "entropy", "rtx", "mark"];
const NACK: &[&str] = &["psn", "entropy", "rtx"];

/// By the arrival answer.
const ARRIVALS: [Named; 6] =
    [("fresh", SACK), ("known", SACK), ("beyond", NACK), ("no_buffer", NACK), ("trimmed", NACK), ("trimmed_last_hop", NACK)];

/// By the kind, from 1 on. An arrival's line has the arrival answer before its values, which go by it.
const ANSWERS: [Named; 8] = [
    ("started", &[]),
    ("closed", &[]),
    ("sent", &["psn"]),
    ("arrived", &[]),
    ("retired", &["newly", "place", "held", "false_alarms"]),
    ("marked", &["newly"]),
    ("marked", &["newly"]),
    ("resent", &["psn"]),
];

pub struct Told {
    pub text: String,
    /// Whether the log was refused.
    pub refused: bool,
}

/// Names between braces.
fn braced(names: impl Iterator<Item = String>) -> String {
    format!("{{{}}}", names.collect::<Vec<_>>().join(","))
}

/// The packet numbers that a block names, neighbours as a span.
fn psns(base: u64, bitmap: u64) -> String {
    let turn = u64::from(TURN);
    let mut spans: Vec<(u64, u64)> = Vec::new();
    for psn in (0..64).filter(|i| bitmap >> i & 1 == 1).map(|i| (base + i) % turn) {
        match spans.last_mut() {
            Some((_, last)) if *last + 1 == psn => *last = psn,
            _ => spans.push((psn, psn)),
        }
    }
    braced(spans.iter().map(|(first, last)| if first == last { first.to_string() } else { format!("{first}-{last}") }))
}

/// A value as it is told; a bitmap goes with the base beside it.
fn spoken(name: &str, number: u64, base: Option<u64>) -> String {
    match (name, base) {
        ("bitmap", Some(base)) => psns(base, number),
        ("flags", _) => braced(FLAGS.iter().enumerate().filter(|(i, _)| number >> i & 1 == 1).map(|(_, flag)| flag.to_string())),
        ("reason", _) => match (number as usize).checked_sub(1).and_then(|i| REASONS.get(i)) {
            Some(reason) => format!("{number}:{reason}"),
            None => number.to_string(),
        },
        _ => number.to_string(),
    }
}

fn event(record: &Record) -> String {
    let names = log::KINDS[record.kind - 1].fields;
    let base = names.iter().position(|(name, _)| *name == "base").map(|i| record.fields[i]);
    record.words_with(|name, number| spoken(name, number, base))
}

/// The row of the rules' table.
fn meaning(number: u64) -> &'static str {
    let part = RULES.lines().skip_while(|line| *line != PART).skip(1).take_while(|line| !line.starts_with("## "));
    let mut rows = part.map(|line| line.split('|').map(str::trim).collect::<Vec<_>>());
    let row = rows.find(|cells| cells.get(1) == Some(&number.to_string().as_str()));
    row.map_or("a number that the rules do not have", |cells| cells[2])
}

fn refusal(number: u64) -> String {
    format!("refused {number}: {}", meaning(number))
}

/// What a done line says, or nothing where it has not the values of its kind.
fn done(kind: usize, values: &[u64]) -> Option<String> {
    let ((word, names), values) = match kind {
        4 => (ARRIVALS.get(usize::try_from(*values.first()?).ok()?)?, &values[1..]),
        _ => (&ANSWERS[kind - 1], values),
    };
    let base = names.iter().position(|name| *name == "base").and_then(|i| values.get(i)).copied();
    let named: String = names.iter().zip(values).map(|(name, number)| format!(" {name}={}", spoken(name, *number, base))).collect();
    (names.len() == values.len()).then(|| format!("{word}{named}"))
}

/// The answer that a line gives to a record.
fn answer(record: &Record, line: &str) -> Option<String> {
    let numbers: Vec<u64> = line.split(' ').map(|word| word.parse().ok()).collect::<Option<_>>()?;
    match numbers.as_slice() {
        [kind, rest @ ..] if *kind != record.kind as u64 || rest.is_empty() => None,
        [_, 0, values @ ..] => done(record.kind, values),
        [_, number] => Some(refusal(*number)),
        _ => None,
    }
}

/// The last line, and whether it refuses the log.
fn last(line: &str) -> Option<Told> {
    let words: Vec<&str> = line.split(' ').collect();
    match words.as_slice() {
        ["end", count] => Some(Told { text: format!("the log ends after {count} records [{line}]\n"), refused: false }),
        ["log", number, "at", at] => {
            Some(Told { text: format!("at byte {at} the log is {} [{line}]\n", refusal(number.parse().ok()?)), refused: true })
        }
        _ => None,
    }
}

/// A log's events with what the program's text says of each; an error where the text is of another log.
pub fn tell(log: &[u8], text: &str) -> Result<Told, String> {
    let mut lines = text.lines();
    let head = lines.next().filter(|line| *line == "mrc log 1").ok_or("its first line is not 'mrc log 1'")?;
    let mut out = format!("{head}\n");
    let mut at = 0;
    loop {
        let line = lines.next().ok_or("it has no last line")?;
        if let Some(end) = last(line) {
            return Ok(Told { text: out + &end.text, ..end });
        }
        let (record, next) = log::read(log, at).ok().flatten().ok_or(format!("'{line}' is for no record"))?;
        let answer = answer(&record, line).ok_or(format!("'{line}' is no answer to '{}'", record.words()))?;
        out += &format!("{} → {answer} [{line}]\n", event(&record));
        at = next;
    }
}
