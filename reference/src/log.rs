//! The event log, from document 01: its bytes, and the same in words.

use crate::side::{done, room_allowed, Outcome, Receiver, Sender, TURN};
use std::fmt::Write;

pub const LONGEST: usize = 32_768;
pub const SLOTS: usize = 16;
pub const PROGRAM_SLOTS: usize = 4;
/// How many bytes a packet number takes. No other field takes as many.
pub const PSN_WIDTH: usize = 3;

/// A kind's name, and the name and width in bytes of each of its fields.
pub struct Kind {
    pub name: &'static str,
    pub fields: &'static [(&'static str, usize)],
}

/// Kind 1 stands first.
pub const KINDS: [Kind; 8] = [
    Kind { name: "start", fields: &[("send_room", 2), ("send_psn", 3), ("receive_room", 2), ("receive_psn", 3)] },
    Kind { name: "close", fields: &[] },
    Kind { name: "send", fields: &[("size", 2)] },
    Kind { name: "arrive", fields: &[("psn", 3), ("size", 2), ("flags", 1), ("entropy", 4)] },
    Kind { name: "sack", fields: &[("cack", 3), ("base", 3), ("bitmap", 8)] },
    Kind { name: "nack", fields: &[("psn", 3), ("reason", 1)] },
    Kind { name: "timer", fields: &[("psn", 3)] },
    Kind { name: "resend", fields: &[] },
];

#[derive(Clone, Debug, PartialEq)]
pub struct Record {
    pub kind: usize,
    pub slot: u8,
    pub fields: Vec<u64>,
}

impl Record {
    pub fn new(kind: usize, slot: u8, fields: &[u64]) -> Self {
        Record { kind, slot, fields: fields.to_vec() }
    }

    pub fn bytes(&self) -> Vec<u8> {
        let mut out = vec![b'M', b'R', self.kind as u8, self.slot];
        for (&value, &(_, width)) in self.fields.iter().zip(KINDS[self.kind - 1].fields) {
            out.extend(&value.to_be_bytes()[8 - width..]);
        }
        out
    }

    pub fn words(&self) -> String {
        self.words_with(|_, value| value.to_string())
    }

    /// In words, where `value` says how the value of a field is written.
    pub fn words_with(&self, value: impl Fn(&str, u64) -> String) -> String {
        let kind = &KINDS[self.kind - 1];
        let mut out = format!("{} slot={}", kind.name, self.slot);
        for (&number, (name, _)) in self.fields.iter().zip(kind.fields) {
            write!(out, " {name}={}", value(name, number)).expect("a string takes all");
        }
        out
    }

    pub fn from_words(line: &str) -> Result<Self, Wrong> {
        let mut words = line.split_whitespace();
        let found = words.next().unwrap_or("");
        let names = KINDS.map(|kind| kind.name);
        let kind = names.iter().position(|name| *name == found).ok_or_else(|| Wrong::new("kind", quoted(found), &names.join(", ")))? + 1;
        let mut last = "kind";
        let mut field = |name: &'static str, width: usize| -> Result<u64, Wrong> {
            last = name;
            let highest = u64::MAX >> (64 - 8 * width);
            let found = words.next().unwrap_or("");
            let wrong = || Wrong::new(name, quoted(found), &format!("{name}=N, N from 0 to {highest} in decimal"));
            let digits = found.strip_prefix(name).and_then(|rest| rest.strip_prefix('=')).ok_or_else(wrong)?;
            let decimal = !digits.is_empty() && digits.bytes().all(|byte| byte.is_ascii_digit());
            digits.parse().ok().filter(|value| decimal && *value <= highest).ok_or_else(wrong)
        };
        let slot = field("slot", 1)? as u8;
        let fields = KINDS[kind - 1].fields.iter().map(|&(name, width)| field(name, width)).collect::<Result<_, _>>()?;
        match words.next() {
            Some(extra) => Err(Wrong::new(&format!("behind {last}"), quoted(extra), "nothing more")),
            None => Ok(Record { kind, slot, fields }),
        }
    }
}

/// Why words are no record: which field, what was found there and what is allowed.
#[derive(Debug)]
pub struct Wrong(String);

impl Wrong {
    pub fn new(field: &str, found: String, allowed: &str) -> Self {
        Wrong(format!("{field}: found {found}; allowed is {allowed}"))
    }
}

impl std::fmt::Display for Wrong {
    fn fmt(&self, out: &mut std::fmt::Formatter) -> std::fmt::Result {
        out.write_str(&self.0)
    }
}

/// At most 40 characters of a word between quotes, each one that is not printable ASCII by its number.
fn quoted(word: &str) -> String {
    if word.is_empty() {
        return "nothing".into();
    }
    let shown: String = word.chars().take(40).flat_map(char::escape_default).collect();
    let rest = if word.chars().count() > 40 { " and more" } else { "" };
    format!("'{shown}'{rest}")
}

/// The record at an offset with the offset after it, nothing at the end, or the refusal.
pub fn read(log: &[u8], at: usize) -> Result<Option<(Record, usize)>, u8> {
    if log.len() > LONGEST {
        return Err(13);
    }
    let rest = log.get(at..).unwrap_or(&[]);
    match rest {
        [] => Ok(None),
        [_] | [_, _] => Err(10),
        [b'M', b'R', kind @ 1..=8, body @ ..] => {
            let kind = *kind as usize;
            let mut values = body.get(1..).unwrap_or(&[]);
            let slot = *body.first().ok_or(10)?;
            let mut fields = Vec::new();
            for &(_, width) in KINDS[kind - 1].fields {
                if values.len() < width {
                    return Err(10);
                }
                let (field, later) = values.split_at(width);
                fields.push(field.iter().fold(0, |n, &b| n << 8 | u64::from(b)));
                values = later;
            }
            Ok(Some((Record { kind, slot, fields }, log.len() - values.len())))
        }
        [b'M', b'R', ..] => Err(12),
        _ => Err(11),
    }
}

/// A slot of a table: nothing, or both sides of a connection.
pub type Slot = Option<(Sender, Receiver)>;

/// An event of a kind on a slot of the slots lent.
pub fn event(lent: &mut [Slot], slot: usize, kind: usize, f: &[u64]) -> Outcome {
    let slot = lent.iter_mut().take(SLOTS).nth(slot).ok_or(1)?;
    let high = KINDS[kind - 1].fields.iter().zip(f).any(|(&(_, width), &v)| width == PSN_WIDTH && v >= TURN.into());
    if kind == 1 {
        if slot.is_some() {
            return Err(3);
        }
        if !room_allowed(f[0] as u16) || !room_allowed(f[2] as u16) {
            return Err(4);
        }
        if high {
            return Err(5);
        }
        *slot = Some((Sender::new(f[0] as u16, f[1] as u32), Receiver::new(f[2] as u16, f[3] as u32)));
        return done(vec![]);
    }
    let (sender, receiver) = slot.as_mut().ok_or(2)?;
    if high {
        return Err(5);
    }
    match kind {
        2 => {
            *slot = None;
            done(vec![])
        }
        3 => sender.send(f[0] as u16),
        4 => receiver.arrive(f[0] as u32, f[1] as u16, f[2] as u8, f[3] as u32),
        5 => sender.sack(f[0] as u32, f[1] as u32, f[2]),
        6 => sender.nack(f[0] as u32, f[1] as u8),
        7 => sender.timer(f[0] as u32),
        _ => sender.resend(),
    }
}

#[derive(Clone, Default)]
pub struct Card {
    slots: [Slot; PROGRAM_SLOTS],
}

impl Card {
    pub fn event(&mut self, record: &Record) -> Outcome {
        event(&mut self.slots, record.slot.into(), record.kind, &record.fields)
    }
}

/// What ends a log: the records read, or the refusal and its offset.
pub enum Last {
    End(usize),
    Refused(u8, usize),
}

/// Replays a log; `line` is told of each record with its outcome.
pub fn replay(log: &[u8], mut line: impl FnMut(&Record, &Outcome)) -> Last {
    let mut card = Card::default();
    let (mut at, mut count) = (0, 0);
    loop {
        match read(log, at) {
            Ok(Some((record, next))) => {
                let outcome = card.event(&record);
                line(&record, &outcome);
                at = next;
                count += 1;
            }
            Ok(None) => return Last::End(count),
            Err(13) => return Last::Refused(13, LONGEST),
            Err(number) => return Last::Refused(number, at),
        }
    }
}

/// The text that the program writes for a log.
pub fn text(log: &[u8]) -> String {
    let mut out = String::from("mrc log 1\n");
    let last = replay(log, |record, outcome| {
        match outcome {
            Ok(done) => {
                write!(out, "{} 0", record.kind).expect("a string takes all");
                done.values.iter().for_each(|v| write!(out, " {v}").expect("a string takes all"));
            }
            Err(number) => write!(out, "{} {number}", record.kind).expect("a string takes all"),
        }
        out.push('\n');
    });
    match last {
        Last::End(count) => out + &format!("end {count}\n"),
        Last::Refused(number, at) => out + &format!("log {number} at {at}\n"),
    }
}
