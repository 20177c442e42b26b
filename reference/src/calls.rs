//! Calls of the library, from document 01: what each gives, calls in words, and random sequences of them.
//!
//! A call is eight numbers: its op, a, b, c and four fields. The program answers each with a line, its op first.
//!
//!     1 event   kind c with the fields, on slot b of the first a slots
//!     2 empty   the first a slots
//!     3 record  of slot a
//!     4 poke    byte a becomes b
//!     5 fill    the first a bytes become b
//!     6 read    at place b of the first a bytes
//!     7 write   kind c with the fields and slot b into the first a bytes
//!     8 count   a receiver started at PSN a with its count set to b; then an arrival with size c, and flags, entropy and PSN of the fields
//!     9 lent    the same over lent words

use crate::alarms;
use crate::generate::{edge, Chance};
use crate::log::{self, Record, Slot, KINDS, LONGEST, PSN_WIDTH, SLOTS};
use crate::side::{contradiction, distance, on, set_bits, Outcome, Receiver, CONTRADICTIONS, HALF, LARGEST_ROOM, TURN};
use std::collections::BTreeMap;

const TABLE: usize = 20;
const BYTES: usize = 33_000;
const SHOWN: usize = 40;
const LARGEST: u64 = LARGEST_ROOM as u64;

/// The names of the ops, and of each op's numbers before the fields. Of those that take an event, its kind and fields come after.
const OPS: [(&str, &[&str]); 9] = [
    ("event", &["lent", "slot"]),
    ("empty", &["lent"]),
    ("record", &["slot"]),
    ("poke", &["at", "byte"]),
    ("fill", &["bytes", "byte"]),
    ("read", &["bytes", "place"]),
    ("write", &["bytes", "slot"]),
    ("count", &["first", "count", "size", "flags", "entropy", "psn"]),
    ("lent", &["first", "count", "size", "flags", "entropy", "psn"]),
];

const TAKES_EVENT: [u64; 2] = [1, 7];

pub type Call = [u64; 8];

/// How often each thing was met.
pub type Seen = BTreeMap<String, u64>;

fn saw(seen: &mut Seen, what: String) {
    *seen.entry(what).or_default() += 1;
}

pub fn bytes(calls: &[Call]) -> Vec<u8> {
    calls.iter().flatten().flat_map(|n| n.to_be_bytes()).collect()
}

/// The table and the bytes that the program keeps.
pub struct Library {
    slots: Vec<Slot>,
    bytes: Vec<u8>,
    marks: alarms::Followed,
}

/// The kind and the fields of a call's event, if each number fits: a PSN 32 bits, another field its width.
fn event_of(call: &Call) -> Option<(usize, Vec<u64>)> {
    let kind = usize::try_from(call[3]).ok()?;
    let fields = KINDS.get(kind.checked_sub(1)?)?.fields;
    let fits = |&(_, width): &(&str, usize), v: u64| v.checked_shr(8 * if width == PSN_WIDTH { 4 } else { width } as u32).unwrap_or(0) == 0;
    let values: Vec<u64> = call[4..].iter().copied().take(fields.len()).collect();
    fields.iter().zip(&values).all(|(field, &v)| fits(field, v)).then_some((kind, values))
}

/// An answer in numbers: its number, the kind, 0 beside a refusal, and all its values.
fn numbers(kind: usize, outcome: &Outcome) -> Vec<u64> {
    match outcome {
        Err(number) => vec![(*number).into(), 0],
        Ok(done) => [&[0, kind as u64], &done.values[..], &done.unprinted[..]].concat(),
    }
}

/// What an arrival was judged, with what only the library hands out; or its refusal.
fn judged(outcome: &Outcome) -> String {
    match outcome {
        Err(number) => format!("refused {number}"),
        Ok(done) => format!("arrival {} with {}", done.values[0], done.unprinted[0]),
    }
}

/// The one set bit of a SACK that is judged, by its distance from cack: on either side of each edge.
const EDGES: [(u32, &str); 6] = [(TURN - 1, "cack - 1"), (0, "cack"), (1, "cack + 1"), (2, "cack + 2"), (HALF - 1, "cack + half - 1"), (HALF, "cack + half")];

/// What a SACK's bits were judged, where it came to a sender at a place with so many outstanding.
fn judged_bits(stood: Option<(u32, u32)>, fields: &[u64], outcome: &Outcome, seen: &mut Seen) {
    let (Some((place, outstanding)), false) = (stood, matches!(outcome, Err(1 | 2 | 5))) else {
        return;
    };
    let (cack, base, bitmap) = (fields[0] as u32, fields[1] as u32, fields[2]);
    let refused = *outcome == Err(17);
    for way in contradiction(place, outstanding, cack, base).into_iter().filter(|_| refused) {
        saw(seen, CONTRADICTIONS[way].into());
    }
    if let [psn] = set_bits(base, bitmap).collect::<Vec<u32>>()[..] {
        for (_, name) in EDGES.iter().filter(|(by, _)| distance(cack, psn) == *by) {
            saw(seen, format!("one bit, for {name}: {}", if refused { "17" } else { "not 17" }));
        }
    }
}

fn lent_class(lent: usize) -> &'static str {
    match lent {
        0 => "0",
        1 => "1",
        2..=14 => "2 to 14",
        15 => "15",
        16 => "16",
        17 => "17",
        18..=19 => "18, 19",
        _ => "20",
    }
}

fn slot_class(slot: u64) -> &'static str {
    match slot {
        0..=14 => "0 to 14",
        15 => "15",
        16 => "16",
        17..=18 => "17, 18",
        19 => "19",
        20..=0xFFFF_FFFF => "20 on",
        _ => "past 32 bits",
    }
}

fn place_class(place: u64, end: u64) -> &'static str {
    match place {
        u64::MAX => "the largest",
        _ if place > end => "past the end",
        _ if place == end => "at the end",
        0 => "0",
        _ => "inside",
    }
}

impl Library {
    pub fn new() -> Self {
        Library { slots: vec![None; TABLE], bytes: vec![0; BYTES], marks: alarms::Followed::default() }
    }

    /// The line of a call.
    pub fn line(&mut self, call: &Call, seen: &mut Seen) -> String {
        let name = OPS.get((call[0] as usize).wrapping_sub(1)).map_or("unknown", |op| op.0);
        match self.answer(call, seen) {
            None => {
                saw(seen, format!("{name} out of range"));
                format!("{} ?\n", call[0])
            }
            Some(values) => {
                let words: Vec<String> = std::iter::once(call[0]).chain(values).map(|v| v.to_string()).collect();
                words.join(" ") + "\n"
            }
        }
    }

    fn answer(&mut self, call: &Call, seen: &mut Seen) -> Option<Vec<u64>> {
        let [op, a, b, ..] = *call;
        let index = usize::try_from(a).ok()?;
        match op {
            1 => self.event(index, b, event_of(call)?, seen),
            2 => {
                let lent = self.slots.get_mut(..index)?;
                saw(seen, format!("empty {} slots", lent_class(index)));
                if lent.iter().any(Option::is_some) {
                    saw(seen, "empty slots in use".into());
                }
                lent.fill(None);
                if self.slots[index..].iter().any(Option::is_some) {
                    saw(seen, "empty with slots in use left".into());
                }
                Some(vec![])
            }
            3 => {
                let slot = self.slots.get(index)?;
                saw(seen, format!("record of slot {}", slot_class(a)));
                Some(record(slot, seen))
            }
            4 => {
                let byte = self.bytes.get_mut(index)?;
                *byte = u8::try_from(b).ok()?;
                saw(seen, "poke".into());
                Some(vec![])
            }
            5 => {
                let byte = u8::try_from(b).ok()?;
                self.bytes.get_mut(..index)?.fill(byte);
                saw(seen, "fill".into());
                Some(vec![])
            }
            6 => Some(read(self.bytes.get(..index)?, b, seen)),
            7 => {
                let slot = u8::try_from(b).ok()?;
                let (kind, fields) = event_of(call)?;
                Some(write(self.bytes.get_mut(..index)?, slot, kind, &fields, seen))
            }
            8 | 9 => counted(call, seen),
            _ => None,
        }
    }

    fn event(&mut self, lent: usize, slot: u64, (kind, fields): (usize, Vec<u64>), seen: &mut Seen) -> Option<Vec<u64>> {
        let table = self.slots.get_mut(..lent)?;
        let stood = table.get(slot as usize).and_then(|slot| slot.as_ref()).map(|(sender, _)| (sender.place, sender.outstanding()));
        let outcome = log::event(table, slot as usize, kind, &fields);
        if kind == 5 {
            judged_bits(stood, &fields, &outcome, seen);
        }
        for way in self.marks.event(slot, kind, &fields, &outcome) {
            saw(seen, alarms::WAYS[way].into());
        }
        let past = matches!(outcome, Err(1));
        saw(seen, format!("event on slot {} {}", slot_class(slot), if past { "refused 1" } else { "let in" }));
        saw(seen, format!("event with {} slots {}", lent_class(lent), if past { "refused 1" } else { "let in" }));
        if past && slot < lent as u64 {
            saw(seen, "event past 16 in a longer table".into());
        }
        saw(seen, match (&outcome, kind) {
            (_, 4) => format!("arrive: {}", judged(&outcome)),
            (Ok(_), _) => format!("{}: done", KINDS[kind - 1].name),
            (Err(number), _) => format!("{}: refused {number}", KINDS[kind - 1].name),
        });
        Some(numbers(kind, &outcome))
    }
}

/// A slot's record in numbers: all zero if it is not in use, with no word of its three rows.
fn record(slot: &Slot, seen: &mut Seen) -> Vec<u64> {
    match slot {
        None => {
            saw(seen, "record of no connection".into());
            vec![0; 4 + 2 + 3 + 1]
        }
        Some((sender, receiver)) => {
            let (send, receive) = (sender.record(), receiver.record());
            saw(seen, "record of a connection".into());
            if sender.has_marks() {
                saw(seen, "record with marks".into());
            }
            if sender.sizes().len() > 64 {
                saw(seen, "record with more than 64 outstanding".into());
            }
            if sender.sizes().len() == LARGEST_ROOM as usize {
                saw(seen, "record with the largest room outstanding".into());
            }
            [send, receive, sender.sizes()].concat()
        }
    }
}

fn read(log: &[u8], place: u64, seen: &mut Seen) -> Vec<u64> {
    let at = usize::try_from(place).expect("a place has 64 bits");
    let found = log::read(log, at);
    let class = place_class(place, log.len() as u64);
    let mut out = match &found {
        Ok(Some((record, next))) => {
            saw(seen, format!("read a {} record", KINDS[record.kind - 1].name));
            saw(seen, format!("read a record {class}"));
            let kind = record.kind as u64;
            let mut fields = record.fields.clone();
            fields.resize(4, 0);
            [&[0, kind, *next as u64, record.slot.into(), kind], &fields[..]].concat()
        }
        Ok(None) => {
            saw(seen, format!("read {class}"));
            vec![0, 0, 0]
        }
        Err(number) => {
            let left = log.len().saturating_sub(at);
            let short = if *number == 10 { if left < 3 { " before the kind" } else { " in a record" } } else { "" };
            saw(seen, format!("read refused {number}{short}"));
            if *number == 13 && log.len() <= at {
                saw(seen, "read refused 13 past the end".into());
            }
            vec![(*number).into(), 0, 0]
        }
    };
    let body = match found {
        Ok(Some((_, next))) => &log[at + 3..next],
        _ => &[],
    };
    out.push(body.len() as u64);
    out.extend(body.iter().map(|&b| u64::from(b)));
    out
}

fn write(buffer: &mut [u8], slot: u8, kind: usize, fields: &[u64], seen: &mut Seen) -> Vec<u64> {
    let name = KINDS[kind - 1].name;
    let high = KINDS[kind - 1].fields.iter().zip(fields).any(|(field, &v)| field.1 == PSN_WIDTH && v >= u64::from(TURN));
    let bytes = Record::new(kind, slot, fields).bytes();
    let mut out = if high {
        saw(seen, format!("write a {name} refused 5{}", if buffer.len() < bytes.len() { " before 16" } else { "" }));
        vec![5, 0]
    } else if buffer.len() < bytes.len() {
        saw(seen, format!("write a {name} refused 16"));
        vec![16, 0]
    } else {
        saw(seen, format!("write a {name}"));
        buffer[..bytes.len()].copy_from_slice(&bytes);
        vec![0, bytes.len() as u64]
    };
    out.extend(buffer.iter().take(SHOWN).map(|&b| u64::from(b)));
    out
}

/// Ops 8 and 9.
fn counted(call: &Call, seen: &mut Seen) -> Option<Vec<u64>> {
    let [op, first, count, size, flags, entropy, psn, _] = *call;
    let name = OPS[op as usize - 1].0;
    let first = u32::try_from(first).ok()?;
    let count = u32::try_from(count).ok()?;
    let size = u16::try_from(size).ok()?;
    let flags = u8::try_from(flags).ok()?;
    let entropy = u32::try_from(entropy).ok()?;
    let psn = u32::try_from(psn).ok()?;
    if first >= TURN {
        saw(seen, format!("{name}: start refused 5"));
        return Some(vec![5, 0]);
    }
    let mut receiver = Receiver::new(64, first);
    receiver.bytes = count;
    let outcome = if psn < TURN { receiver.arrive(psn, size, flags, entropy) } else { Err(5) };
    saw(seen, format!("{name}: {}", judged(&outcome)));
    if receiver.bytes < count {
        saw(seen, format!("{name}: {} wraps", judged(&outcome)));
    }
    Some([numbers(4, &outcome), receiver.record()].concat())
}

/// All that a sequence of calls can meet.
pub fn reachable() -> Vec<String> {
    let mut all: Vec<String> = Vec::new();
    let mut add = |what: String| all.push(what);
    for (name, _) in OPS {
        add(format!("{name} out of range"));
    }
    add("unknown out of range".into());
    for lent in ["0", "1", "2 to 14", "15", "16", "17", "18, 19", "20"] {
        add(format!("event with {lent} slots refused 1"));
        if lent != "0" {
            add(format!("event with {lent} slots let in"));
        }
        add(format!("empty {lent} slots"));
    }
    for slot in ["0 to 14", "15", "16", "17, 18", "19", "20 on", "past 32 bits"] {
        add(format!("event on slot {slot} refused 1"));
    }
    for slot in ["0 to 14", "15"] {
        add(format!("event on slot {slot} let in"));
    }
    for slot in ["0 to 14", "15", "16", "17, 18", "19"] {
        add(format!("record of slot {slot}"));
    }
    for what in ["event past 16 in a longer table", "empty slots in use", "empty with slots in use left", "poke", "fill"] {
        add(what.into());
    }
    for what in ["record of no connection", "record of a connection", "record with marks"] {
        add(what.into());
    }
    for what in ["record with more than 64 outstanding", "record with the largest room outstanding"] {
        add(what.into());
    }
    // the order of document 01's refusals, kind by kind
    let refusals: [&[u8]; 8] = [&[1, 3, 4, 5], &[1, 2], &[1, 2, 6, 7], &[1, 2, 5, 6, 14], &[1, 2, 5, 17, 8], &[1, 2, 5, 15, 8], &[1, 2, 5, 8], &[1, 2, 9]];
    // each arrival answer, with the MPR or the reason beside it
    let judgements = ["arrival 0 with 0", "arrival 1 with 0", "arrival 2 with 3", "arrival 3 with 4", "arrival 4 with 1", "arrival 5 with 2"];
    for (kind, numbers) in KINDS.iter().zip(refusals) {
        let name = kind.name;
        numbers.iter().for_each(|number| add(format!("{name}: refused {number}")));
        if name == "arrive" {
            judgements.iter().for_each(|judgement| add(format!("{name}: {judgement}")));
        } else {
            add(format!("{name}: done"));
        }
        add(format!("read a {name} record"));
        add(format!("write a {name}"));
        add(format!("write a {name} refused 16"));
        if kind.fields.iter().any(|&(_, width)| width == PSN_WIDTH) {
            add(format!("write a {name} refused 5"));
            add(format!("write a {name} refused 5 before 16"));
        }
    }
    CONTRADICTIONS.iter().chain(&alarms::WAYS).for_each(|way| add(way.to_string()));
    for (i, (_, name)) in EDGES.iter().enumerate() {
        add(format!("one bit, for {name}: {}", if [3, 4].contains(&i) { "not 17" } else { "17" }));
    }
    for what in ["a record 0", "a record inside", "at the end", "past the end", "the largest", "refused 10 before the kind", "refused 10 in a record"] {
        add(format!("read {what}"));
    }
    for what in ["refused 11", "refused 12", "refused 13", "refused 13 past the end"] {
        add(format!("read {what}"));
    }
    for name in ["count", "lent"] {
        for what in ["start refused 5", "refused 5", "refused 6", "refused 14"] {
            add(format!("{name}: {what}"));
        }
        judgements.iter().for_each(|judgement| add(format!("{name}: {judgement}")));
        // fresh and known
        judgements[..2].iter().for_each(|judgement| add(format!("{name}: {judgement} wraps")));
    }
    all
}

/// A call from words, as `event lent=20 slot=0 send size=100`, or `call` and eight numbers.
pub fn from_words(line: &str) -> Result<Call, String> {
    let mut words = line.split_whitespace().peekable();
    let name = words.next().ok_or("an empty line")?;
    let number = |s: &str| s.parse::<u64>().map_err(|_| format!("{s} is no number"));
    if name == "call" {
        let all = words.map(number).collect::<Result<Vec<u64>, String>>()?;
        return all.try_into().map_err(|_| "a call has eight numbers".into());
    }
    let op = OPS.iter().position(|op| op.0 == name).ok_or(format!("no op {name}"))?;
    let mut call = [0; 8];
    call[0] = op as u64 + 1;
    let mut fields: Vec<&str> = OPS[op].1.to_vec();
    let mut at: Vec<usize> = (1..=fields.len()).collect();
    let mut taken = 0;
    while taken < fields.len() {
        let word = words.next().ok_or(format!("{} is missing", fields[taken]))?;
        let (key, value) = word.split_once('=').ok_or(format!("{word} is not NAME=NUMBER"))?;
        if key != fields[taken] {
            return Err(format!("{key} stands where {} belongs", fields[taken]));
        }
        call[at[taken]] = number(value)?;
        taken += 1;
        if taken == fields.len() && TAKES_EVENT.contains(&call[0]) && call[3] == 0 {
            let kind = words.next().ok_or("an event is missing")?;
            let k = KINDS.iter().position(|k| k.name == kind).ok_or(format!("no kind {kind}"))?;
            call[3] = k as u64 + 1;
            fields.extend(KINDS[k].fields.iter().map(|field| field.0));
            at.extend(4..4 + KINDS[k].fields.len());
        }
    }
    match words.next() {
        Some(extra) => Err(format!("{extra} is one word too many")),
        None => Ok(call),
    }
}

/// A sequence of calls that grows with the library that answers them.
struct Script {
    library: Library,
    calls: Vec<Call>,
}

impl Script {
    fn call(&mut self, call: Call) {
        self.library.answer(&call, &mut Seen::new());
        self.calls.push(call);
    }

    fn event(&mut self, lent: u64, slot: u64, kind: u64, fields: &[u64]) {
        let mut call = [1, lent, slot, kind, 0, 0, 0, 0];
        call[4..4 + fields.len()].copy_from_slice(fields);
        self.call(call);
    }
}

/// A PSN near one: on it, close by, at the edges of rooms and of the half; seldom one that is no PSN.
fn near(chance: &mut Chance, psn: u32, room: u32) -> u64 {
    if chance.one_in(12) {
        return chance.pick(&[TURN.into(), TURN as u64 + 1, u32::MAX.into(), u32::MAX as u64 - 3, TURN as u64 + psn as u64]);
    }
    if chance.one_in(300) {
        return (1 << 32) + u64::from(psn);
    }
    let by = match chance.below(10) {
        0..=3 => chance.below(4) as u32,
        4..=6 => chance.below(room.max(1).into()) as u32,
        7 => chance.pick(&[63, 64, room - 1, room, room + 1]),
        8 => chance.pick(&[TURN - 1, TURN - 2, TURN - 64]),
        _ => chance.pick(&[HALF - 1, HALF, HALF + 1, HALF - 64]),
    };
    on(psn, by).into()
}

fn some_size(chance: &mut Chance) -> u64 {
    match chance.below(12) {
        0 => chance.pick(&[0, 47, 9217, 65_535, 65_536]),
        1 => chance.pick(&[48, 9216]),
        _ => 48 + chance.below(9169),
    }
}

fn some_flags(chance: &mut Chance) -> u64 {
    match chance.below(12) {
        0 => chance.below(260),
        1..=4 => chance.pick(&[0, 1, 2, 3]),
        _ => chance.pick(&[0, 0, 1, 2, 4, 8, 16, 20, 24, 5, 10, 6, 9, 18]),
    }
}

fn some_reason(chance: &mut Chance) -> u64 {
    if chance.one_in(60) { 256 } else { chance.below(8) }
}

fn some_bitmap(chance: &mut Chance) -> u64 {
    match chance.below(4) {
        0 => chance.next(),
        1 => 0,
        2 => 1 << chance.below(64),
        _ => chance.below(16),
    }
}

/// The fields of an event of a kind, mostly sensible for a slot: its two sides' PSNs and rooms are (place + 1, outstanding) and (E, room).
fn some_fields(chance: &mut Chance, kind: u64, slot: &Slot, first: u32) -> Vec<u64> {
    let (sent, outstanding, expected, room) = match slot {
        Some((sender, receiver)) => (on(sender.place, 1), sender.outstanding(), receiver.expected, receiver.room),
        None => (first, 4, first, 64),
    };
    let entropy = chance.below(1 << 32);
    match kind {
        1 => {
            let some_room = |chance: &mut Chance| match chance.below(12) {
                0 => chance.pick(&[0, 63, 65, 100, LARGEST + 1, LARGEST + 64, 65_535, 65_536]),
                1 => LARGEST,
                _ => 64 * (1 + chance.below(LARGEST / 64)),
            };
            let (send, receive) = (some_room(chance), some_room(chance));
            let psns = if chance.one_in(8) { [near(chance, first, 64), near(chance, first, 64)] } else { [first.into(), first.into()] };
            vec![send, psns[0], receive, psns[1]]
        }
        3 => vec![some_size(chance)],
        4 => vec![near(chance, expected, room), some_size(chance), some_flags(chance), entropy],
        5 if chance.one_in(2) && outstanding > 0 => {
            // a cack and bits of packets that are outstanding; an honest one has its bits past cack + 1
            let by = chance.below(u64::from(outstanding) + 1) as u32;
            let honest = !chance.one_in(4);
            let from = if honest { by.min(outstanding - 1) } else { 0 };
            let base = on(sent, from + chance.below((outstanding - from).into()) as u32);
            let left = outstanding - distance(sent, base);
            let mask = if left >= 64 { u64::MAX } else { (1 << left) - 1 };
            let next = if honest && distance(sent, base) <= by { 1 } else { 0 };
            vec![on(sent, by + TURN - 1).into(), base.into(), chance.next() & mask & !next]
        }
        5 if chance.one_in(2) => {
            let cack = near(chance, on(sent, TURN - 1), outstanding.max(1));
            edge(chance, cack as u32 % TURN)
        }
        5 => vec![near(chance, on(sent, TURN - 1), outstanding.max(1)), near(chance, sent, outstanding.max(1)), some_bitmap(chance)],
        6 | 7 => {
            let psn = if chance.one_in(2) && outstanding > 0 {
                on(sent, chance.below(outstanding.into()) as u32).into()
            } else {
                near(chance, sent, outstanding.max(1))
            };
            vec![psn, some_reason(chance)]
        }
        _ => vec![],
    }
}

fn an_event(chance: &mut Chance, script: &mut Script, first: u32) {
    let any = chance.below(22);
    let lent = if chance.one_in(4) { chance.pick(&[0, 1, 15, 16, 17, 18, 19, any]) } else { 20 };
    let slot = match chance.below(12) {
        0 => chance.pick(&[15, 16, 17, 18, 19, 20, 255, 256, 1 << 32, u64::MAX, lent, lent.wrapping_sub(1)]),
        1..=3 => chance.pick(&[1, 2, 15]),
        _ => 0,
    };
    let record = script.library.slots.get(slot as usize).cloned().flatten();
    let kind = match record {
        None if chance.one_in(4) => chance.below(10),
        None => 1,
        Some(_) => chance.pick(&[1, 2, 3, 3, 3, 3, 3, 3, 4, 4, 4, 4, 4, 4, 5, 5, 5, 6, 6, 7, 8, 8]),
    };
    let fields = some_fields(chance, kind, &record, first);
    script.event(lent, slot, kind, &fields);
    // what was marked may be sent again at once
    if (kind == 6 || kind == 7) && chance.one_in(3) {
        script.event(lent, slot, 8, &[]);
    }
}

/// Timers run out too early in slot 0, where all of a room is outstanding from `first` on: packets are marked, some are resent, and a SACK names
/// some of either by cack and by its bits. Then the same once more, behind what it has named by cack.
fn too_early(chance: &mut Chance, script: &mut Script, first: u32, room: u64) {
    let mut from = 0;
    for _ in 0..2 {
        for _ in 0..4 + chance.below(28) {
            script.event(20, 0, 7, &[on(first, (from + chance.below(room - from)) as u32).into()]);
            if chance.one_in(3) {
                script.event(20, 0, 8, &[]);
            }
        }
        // cack covers some, and bits may be set from cack + 2 on
        from += 1 + chance.below(room / 2 - 1);
        let left = room - from - 1;
        let mask = if left >= 64 { u64::MAX } else { (1 << left) - 1 };
        let [cack, base] = [from - 1, from + 1].map(|by| on(first, by as u32).into());
        script.event(20, 0, 5, &[cack, base, chance.next() & mask]);
    }
}

/// A log is put together in the bytes, by writes and pokes, and read.
fn a_log(chance: &mut Chance, script: &mut Script, first: u32) {
    match chance.below(8) {
        0..=2 => {
            let kind = chance.below(9);
            let mut fields = some_fields(chance, kind, &None, first);
            let psns = KINDS.get((kind as usize).wrapping_sub(1)).map_or(&[][..], |k| k.fields).iter().map(|field| field.1 == PSN_WIDTH);
            if chance.one_in(2) {
                // one of its PSNs is none
                fields.iter_mut().zip(psns).filter(|(_, is_psn)| *is_psn).take(1 + chance.below(2) as usize).for_each(|(v, _)| *v = TURN.into());
            }
            let whole = KINDS.get((kind as usize).wrapping_sub(1)).map_or(4, |k| 4 + k.fields.iter().map(|f| f.1).sum::<usize>()) as u64;
            let room = chance.pick(&[whole, whole, whole, whole - 1, whole - 1, whole - 1, 0, 64, BYTES as u64, BYTES as u64 + 1]);
            let slot = if chance.one_in(30) { 256 } else { chance.below(256) };
            let mut call = [7, room, slot, kind, 0, 0, 0, 0];
            call[4..4 + fields.len()].copy_from_slice(&fields);
            script.call(call);
            // what was written is read, whole and cut
            let end = chance.pick(&[whole, whole, whole + 1, whole + 2, whole + 40, whole - 1, 3, 2, 1]);
            script.call([6, end, 0, 0, 0, 0, 0, 0]);
            script.call([6, end, whole, 0, 0, 0, 0, 0]);
        }
        3 => script.call([4, chance.pick(&[0, 1, 2, 3, 40, BYTES as u64, 32_768]), chance.pick(&[0x4D, 0x52, 0, 9, 255, 256]), 0, 0, 0, 0, 0]),
        4 => script.call([5, chance.pick(&[0, 1, 40, BYTES as u64, BYTES as u64 + 1]), chance.pick(&[0, 0x4D, 0x52, 256]), 0, 0, 0, 0, 0]),
        5 => {
            // a record that begins inside the bytes
            let at = 1 + chance.below(40);
            let kind = chance.below(10);
            for (i, byte) in [0x4D, 0x52, kind].into_iter().enumerate() {
                script.call([4, at + i as u64, byte, 0, 0, 0, 0, 0]);
            }
            let end = at + chance.pick(&[1, 2, 3, 4, 14, 18, 30]);
            script.call([6, end, at, 0, 0, 0, 0, 0]);
        }
        _ => {
            let end = chance.pick(&[0, 1, 2, 3, 14, 18, 40, LONGEST as u64, LONGEST as u64 + 1, BYTES as u64, BYTES as u64 + 1]);
            let place = chance.pick(&[0, 1, 4, end, end + 1, end.saturating_sub(1), end.saturating_sub(3), u64::MAX, 1 << 32]);
            script.call([6, end, place, 0, 0, 0, 0, 0]);
        }
    }
}

/// Sequence number i of a seed: mostly sensible calls, some wild ones, and at last the records.
pub fn sequence(seed: u64, i: usize) -> Vec<Call> {
    let mut chance = Chance::new(seed.wrapping_mul(1_000_003).wrapping_add(i as u64) ^ 0xCA11);
    let chance = &mut chance;
    let first = match chance.below(3) {
        0 => on(TURN, TURN - chance.below(40) as u32),
        1 => on(HALF, TURN - chance.below(40) as u32),
        _ => chance.below(TURN.into()) as u32,
    };
    let mut script = Script { library: Library::new(), calls: Vec::new() };
    // one in eight sends so much that its room is full, and marks much of it
    if chance.one_in(8) {
        let room = if chance.one_in(8) { LARGEST } else { chance.pick(&[64, 128]) };
        script.event(20, 0, 1, &[room, first.into(), room, first.into()]);
        for _ in 0..room + chance.below(2) {
            script.event(20, 0, 3, &[48 + chance.below(9169)]);
        }
        script.call([3, 0, 0, 0, 0, 0, 0, 0]);
        too_early(chance, &mut script, first, room);
        script.call([3, 0, 0, 0, 0, 0, 0, 0]);
    }
    for _ in 0..45 {
        match chance.below(20) {
            0..=11 => an_event(chance, &mut script, first),
            12 => script.call([3, chance.pick(&[0, 0, 0, 1, 2, 15, 16, 17, 18, 19, 20, u64::MAX]), 0, 0, 0, 0, 0, 0]),
            13 if chance.one_in(2) => script.call([2, chance.pick(&[0, 1, 2, 15, 16, 17, 18, 20, 21]), 0, 0, 0, 0, 0, 0]),
            14 | 15 => {
                let count = match chance.below(3) {
                    0 => (1 << 32) - 1 - chance.below(9216),
                    1 => chance.below((1 << 32) + 9),
                    _ => chance.pick(&[0, 255, 256, u32::MAX.into(), 1 << 32]),
                };
                let begun = near(chance, first, 64);
                let psn = match chance.below(4) {
                    0 => begun,
                    1 => on(begun as u32, TURN - 1 - chance.below(64) as u32).into(),
                    _ => near(chance, begun as u32, 64),
                };
                script.call([8 + chance.below(2), begun, count, some_size(chance), some_flags(chance), chance.below(1 << 32), psn, 0]);
            }
            16..=18 => a_log(chance, &mut script, first),
            19 if chance.one_in(4) => {
                let mut call = [0; 8];
                call.fill_with(|| chance.next() >> chance.below(64));
                call[0] = chance.pick(&[0, 1, 2, 3, 4, 5, 6, 7, 8, 9, 10, 255, 256, 1 << 32, u64::MAX]);
                script.call(call);
            }
            _ => an_event(chance, &mut script, first),
        }
    }
    for slot in [0, 1, 2, 15, chance.pick(&[3, 14, 16, 17, 18, 19])] {
        script.call([3, slot, 0, 0, 0, 0, 0, 0]);
    }
    script.calls
}

const _: () = assert!(SLOTS < TABLE);
