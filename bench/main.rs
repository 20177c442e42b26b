//! Nanoseconds an event, of the library's functions over lent rows and by value and of plain Rust, side by side in one run. All answers of the three
//! are compared first.
//!
//! usage: bench         the table
//!        bench gate    the comparison, and whether each event over lent rows is as fast as it must be, those that touch only what they name
//!                      about as fast at the largest room, and a record of the replay
mod library;
mod plain;

use library::{Lent, Value};
use plain::{Plain, ECN, LARGEST_ROOM, RTX, TURN};
use std::hint::black_box;
use std::process::exit;
use std::time::Instant;

/// Each figure is the best of so many runs, each over so many records.
const RUNS: usize = 50;
const RECORDS: usize = 64;

/// The least part of plain Rust's rate that an event over lent rows may have in the gate, in the best of so many tries: one that goes as far as the
/// room does, and one that touches only what it names. A walk of E by bits comes to half of the first or less; copies of the rows take a SACK to 0.4
/// or less. The library is at 0.5 or more and at 0.7 or more, which leaves room for a machine that is busy.
const FLOOR: f64 = 0.3;
const NAMED_FLOOR: f64 = 0.5;
/// How many times what it takes at the smallest room such an event may take at the largest, where the records no longer fit the nearest cache. A SACK
/// that goes over all words of a row takes five times as long or more.
const GROWTH: f64 = 2.0;
const TRIES: usize = 5;
/// How many times what a resend by value takes at the largest room a record of the replay may take: it copies one slot, writes a line, and is at 5 to 7.
/// With five copies of the whole table it is at 70.
const RECORD: f64 = 25.0;

/// The longest log, the program's buffer for its text, and two records.
const LONGEST_LOG: usize = 32_768;
const TEXT: usize = 65_536;
const START: [u8; 14] = [0x4D, 0x52, 1, 0, 0, 64, 0, 0, 10, 0, 64, 0, 0, 10];
const RESEND: [u8; 4] = [0x4D, 0x52, 8, 0];

/// Arrivals at each record, and how many go in a batch.
const ARRIVALS: u32 = 2 * LARGEST_ROOM as u32;
const BATCH: usize = 256;

/// One of the three. A batch writes four words an answer.
pub trait Card: Clone {
    type Receiver: Clone;
    type Sender: Clone;
    fn receiver(room: u16, first: u32) -> Self::Receiver;
    fn sender(room: u16, first: u32) -> Self::Sender;
    fn arrivals(receiver: &mut Self::Receiver, events: Arrivals, out: &mut [u64]);
    fn sends(sender: &mut Self::Sender, size: &[u16], out: &mut [u64]);
    fn sacks(sender: &mut Self::Sender, events: &Sacks, out: &mut [u64]);
    fn nacks(sender: &mut Self::Sender, events: &Nacks, out: &mut [u64]);
    fn timers(sender: &mut Self::Sender, psn: &[u32], out: &mut [u64]);
    fn resends(sender: &mut Self::Sender, many: usize, out: &mut [u64]);
}

#[derive(Clone, Copy)]
pub struct Arrivals<'a> {
    pub psn: &'a [u32],
    pub size: &'a [u16],
    pub flags: &'a [u8],
    pub entropy: &'a [u32],
}

impl Arrivals<'_> {
    /// One of each for every event, and room for every answer.
    pub fn check(&self, out: &[u64]) {
        let many = self.psn.len();
        assert!(self.size.len() == many && self.flags.len() == many && self.entropy.len() == many && out.len() >= 4 * many);
    }
}

#[derive(Default)]
struct Packets {
    psn: Vec<u32>,
    size: Vec<u16>,
    flags: Vec<u8>,
    entropy: Vec<u32>,
}

impl Packets {
    fn batches(&self) -> impl Iterator<Item = Arrivals<'_>> {
        (0..self.psn.len()).step_by(BATCH).map(|from| {
            let part = from..self.psn.len().min(from + BATCH);
            Arrivals {
                psn: &self.psn[part.clone()],
                size: &self.size[part.clone()],
                flags: &self.flags[part.clone()],
                entropy: &self.entropy[part],
            }
        })
    }
}

#[derive(Default)]
pub struct Sacks {
    pub cack: Vec<u32>,
    pub base: Vec<u32>,
    pub bitmap: Vec<u64>,
}

impl Sacks {
    pub fn check(&self, out: &[u64]) {
        let many = self.cack.len();
        assert!(self.base.len() == many && self.bitmap.len() == many && out.len() >= 4 * many);
    }

    fn last(mut self) -> Sacks {
        let before = self.cack.len() - 1;
        self.cack.drain(..before);
        self.base.drain(..before);
        self.bitmap.drain(..before);
        self
    }
}

#[derive(Default)]
pub struct Nacks {
    pub psn: Vec<u32>,
    pub reason: Vec<u8>,
}

impl Nacks {
    pub fn check(&self, out: &[u64]) {
        assert!(self.reason.len() == self.psn.len() && out.len() >= 4 * self.psn.len());
    }
}

/// What befalls a record: events that are not measured, and then those that are.
enum Work {
    Receives { before: Packets, then: Packets },
    Sends { then: Vec<u16> },
    Sacks { sent: Vec<u16>, marked: Nacks, before: Sacks, then: Sacks },
    Nacks { sent: Vec<u16>, then: Nacks },
    Timers { sent: Vec<u16>, then: Vec<u32> },
    Resends { sent: Vec<u16>, before: Nacks },
}

/// Where a record starts, and what chance brings to it, the same in each run of the program.
struct Start {
    room: u16,
    first: u32,
    chance: u64,
}

impl Start {
    fn below(&mut self, n: u64) -> u64 {
        self.chance ^= self.chance << 13;
        self.chance ^= self.chance >> 7;
        self.chance ^= self.chance << 17;
        self.chance % n
    }

    /// A packet number for each of these places after the first.
    fn psn(&self, places: std::ops::Range<u32>) -> Vec<u32> {
        places.map(|i| (self.first + i) % TURN).collect()
    }

    /// The packet numbers of a whole room.
    fn whole(&self) -> Vec<u32> {
        self.psn(0..self.room as u32)
    }

    /// Shuffled, but each within its room.
    fn shuffled(&mut self, mut psn: Vec<u32>) -> Vec<u32> {
        for part in psn.chunks_mut(self.room as usize) {
            for i in (1..part.len()).rev() {
                part.swap(i, self.below(i as u64 + 1) as usize);
            }
        }
        psn
    }

    fn sizes(&mut self, many: usize) -> Vec<u16> {
        (0..many).map(|_| 64 + self.below(4033) as u16).collect()
    }

    fn sent(&mut self) -> Vec<u16> {
        self.sizes(self.room as usize)
    }

    fn packets(&mut self, psn: Vec<u32>) -> Packets {
        let many = psn.len();
        let flags = (0..many).map(|_| [0, ECN, RTX, ECN | RTX][self.below(4) as usize]).collect();
        let entropy = (0..many).map(|_| self.below(1 << 32) as u32).collect();
        Packets { psn, size: self.sizes(many), flags, entropy }
    }

    fn receives(&mut self, before: Vec<u32>, then: Vec<u32>) -> Work {
        Work::Receives { before: self.packets(before), then: self.packets(then) }
    }

    /// What a receiver replies to these packets.
    fn replies(&mut self, psn: Vec<u32>) -> Sacks {
        let (mut receiver, mut out, mut sacks) = (Plain::receiver(self.room, self.first), [0; 4 * BATCH], Sacks::default());
        for batch in self.packets(psn).batches() {
            Plain::arrivals(&mut receiver, batch, &mut out);
            for reply in out.chunks_exact(4).take(batch.psn.len()) {
                sacks.cack.push(reply[1] as u32);
                sacks.base.push((reply[1] >> 32) as u32);
                sacks.bitmap.push(reply[2]);
            }
        }
        sacks
    }

    fn sacks(&mut self, then: Sacks) -> Work {
        Work::Sacks { sent: self.sent(), marked: Nacks::default(), before: Sacks::default(), then }
    }

    /// A NACK for each packet of the room, in any order.
    fn nacks(&mut self) -> Nacks {
        let psn = self.shuffled(self.whole());
        Nacks { reason: vec![1; psn.len()], psn }
    }
}

/// The lines of the table, whether the event touches only what it names, and what befalls a record.
const EVENTS: [(&str, bool, fn(&mut Start) -> Work); 14] = [
    ("arrival in order", true, |s| s.receives(vec![], s.psn(0..ARRIVALS))),
    ("arrival, shuffled within the room", true, |s| {
        let then = s.shuffled(s.psn(0..ARRIVALS));
        s.receives(vec![], then)
    }),
    ("arrival in order, every tenth twice", true, |s| {
        let then = s.psn(0..ARRIVALS).chunks(10).flat_map(|ten| [ten, &ten[ten.len() - 1..]].concat()).collect();
        s.receives(vec![], then)
    }),
    ("arrival that closes a whole room", false, |s| {
        let before = s.shuffled(s.psn(1..s.room as u32));
        s.receives(before, s.psn(0..1))
    }),
    ("send", true, |s| Work::Sends { then: s.sent() }),
    ("SACK in order", true, |s| {
        let then = s.replies(s.whole());
        s.sacks(then)
    }),
    ("SACK of a shuffled room", true, |s| {
        let psn = s.shuffled(s.whole());
        let then = s.replies(psn);
        s.sacks(then)
    }),
    ("SACK with bits behind a gap", true, |s| {
        let then = s.replies(s.psn(1..s.room as u32));
        s.sacks(then)
    }),
    ("SACK that comes late", true, |s| {
        let (before, then) = (s.replies(s.whole()).last(), s.replies(s.whole()));
        Work::Sacks { sent: s.sent(), marked: Nacks::default(), before, then }
    }),
    ("SACK in order, of marked packets", true, |s| {
        let then = s.replies(s.whole());
        Work::Sacks { sent: s.sent(), marked: s.nacks(), before: Sacks::default(), then }
    }),
    ("SACK of a whole window", false, |s| {
        let then = s.replies(s.whole()).last();
        s.sacks(then)
    }),
    ("NACK", true, |s| Work::Nacks { sent: s.sent(), then: s.nacks() }),
    ("timer", true, |s| Work::Timers { sent: s.sent(), then: s.nacks().psn }),
    ("resend", false, |s| Work::Resends { sent: s.sent(), before: s.nacks() }),
];

#[derive(Clone)]
enum Record<C: Card> {
    Receiver(C::Receiver),
    Sender(C::Sender),
}

/// One record and what befalls it.
struct Lane {
    start: Start,
    work: Work,
}

impl Lane {
    /// The lanes of a line of the table, the first of them over the wrap.
    fn all(work: fn(&mut Start) -> Work, room: u16) -> Vec<Lane> {
        let mut chance = Start { room, first: 0, chance: 0x9E37_79B9_7F4A_7C15 };
        let mut lanes = vec![];
        for first in (0..RECORDS).map(|i| if i == 0 { TURN - room as u32 / 2 } else { chance.below(TURN as u64) as u32 }) {
            let mut start = Start { room, first, chance: first as u64 + 1 };
            let work = work(&mut start);
            lanes.push(Lane { start, work });
        }
        lanes
    }

    fn events(&self) -> usize {
        match &self.work {
            Work::Receives { then, .. } => then.psn.len(),
            Work::Sends { then } => then.len(),
            Work::Sacks { then, .. } => then.cack.len(),
            Work::Nacks { then, .. } => then.psn.len(),
            Work::Timers { then, .. } => then.len(),
            Work::Resends { before, .. } => before.psn.len(),
        }
    }

    /// The record after what is not measured.
    fn ready<C: Card>(&self, out: &mut [u64]) -> Record<C> {
        let Start { room, first, .. } = self.start;
        let sender = |sent: &[u16], out: &mut [u64]| {
            let mut sender = C::sender(room, first);
            C::sends(&mut sender, sent, out);
            sender
        };
        match &self.work {
            Work::Receives { before, .. } => {
                let mut receiver = C::receiver(room, first);
                before.batches().for_each(|batch| C::arrivals(&mut receiver, batch, out));
                Record::Receiver(receiver)
            }
            Work::Sends { .. } => Record::Sender(C::sender(room, first)),
            Work::Sacks { sent, marked, before, .. } => {
                let mut sender = sender(sent, out);
                C::nacks(&mut sender, marked, out);
                C::sacks(&mut sender, before, out);
                Record::Sender(sender)
            }
            Work::Nacks { sent, .. } | Work::Timers { sent, .. } => Record::Sender(sender(sent, out)),
            Work::Resends { sent, before } => {
                let mut sender = sender(sent, out);
                C::nacks(&mut sender, before, out);
                Record::Sender(sender)
            }
        }
    }

    /// What is measured. Each batch's answers are shown to `seen`.
    #[inline(always)]
    fn run<C: Card>(&self, record: &mut Record<C>, out: &mut [u64], mut seen: impl FnMut(&[u64])) {
        match (&self.work, record) {
            (Work::Receives { then, .. }, Record::Receiver(receiver)) => {
                for batch in then.batches() {
                    C::arrivals(receiver, batch, out);
                    seen(&out[..4 * batch.psn.len()]);
                }
                return;
            }
            (Work::Sends { then }, Record::Sender(sender)) => C::sends(sender, then, out),
            (Work::Sacks { then, .. }, Record::Sender(sender)) => C::sacks(sender, then, out),
            (Work::Nacks { then, .. }, Record::Sender(sender)) => C::nacks(sender, then, out),
            (Work::Timers { then, .. }, Record::Sender(sender)) => C::timers(sender, then, out),
            (Work::Resends { before, .. }, Record::Sender(sender)) => C::resends(sender, before.psn.len(), out),
            _ => unreachable!(),
        }
        seen(&out[..4 * self.events()]);
    }

    /// All answers, and those of the last batch that is not measured.
    fn answers<C: Card>(&self, out: &mut [u64]) -> Vec<u64> {
        out.fill(0);
        let mut record = self.ready::<C>(out);
        let mut answers = out.to_vec();
        self.run::<C>(&mut record, out, |batch| answers.extend_from_slice(batch));
        answers
    }
}

/// Nanoseconds of a run over copies of the records.
fn time<C: Card>(lanes: &[Lane], ready: &[Record<C>], out: &mut [u64]) -> f64 {
    let mut records = ready.to_vec();
    let began = Instant::now();
    for (lane, record) in lanes.iter().zip(&mut records) {
        lane.run::<C>(record, out, |batch| {
            black_box(batch);
        });
    }
    let took = began.elapsed().as_nanos() as f64;
    black_box(&records);
    took
}

/// Nanoseconds an event over lent rows, by value and of plain Rust, each the best of its runs, without what the clock takes.
fn measure(work: fn(&mut Start) -> Work, room: u16, clock: f64, out: &mut [u64]) -> [f64; 3] {
    let lanes = Lane::all(work, room);
    let lent: Vec<Record<Lent>> = lanes.iter().map(|lane| lane.ready(out)).collect();
    let value: Vec<Record<Value>> = lanes.iter().map(|lane| lane.ready(out)).collect();
    let rust: Vec<Record<Plain>> = lanes.iter().map(|lane| lane.ready(out)).collect();
    let mut best = [f64::MAX; 3];
    for _ in 0..RUNS {
        best[0] = best[0].min(time(&lanes, &lent, out));
        best[1] = best[1].min(time(&lanes, &value, out));
        best[2] = best[2].min(time(&lanes, &rust, out));
    }
    let many: usize = lanes.iter().map(Lane::events).sum();
    best.map(|took| (took - clock) / many as f64)
}

/// Nanoseconds a record of the replay, the best of its runs. The log is a start and resends, which are all refused: "8 9".
fn replay(clock: f64) -> f64 {
    let records = 1 + (LONGEST_LOG - START.len()) / RESEND.len();
    let log: Vec<u8> = START.into_iter().chain(RESEND.into_iter().cycle().take((records - 1) * RESEND.len())).collect();
    let mut out = vec![0; TEXT];
    let took = (0..RUNS).map(|_| {
        let began = Instant::now();
        let text = library::replays(black_box(&log), &mut out);
        let took = began.elapsed().as_nanos() as f64;
        assert_eq!(text as usize, "8 9\n".len() * records + format!("end {records}\n").len(), "the replay's text is as long as it should be");
        took
    });
    (took.fold(f64::MAX, f64::min) - clock) / records as f64
}

fn main() {
    let rooms = [64, LARGEST_ROOM as u16];
    let mut out = vec![0; 4 * BATCH.max(LARGEST_ROOM)];
    let mut same = 0;
    for (name, _, work) in EVENTS {
        for room in rooms {
            for lane in Lane::all(work, room) {
                let rust = lane.answers::<Plain>(&mut out);
                for (way, library) in [("over lent rows", lane.answers::<Lent>(&mut out)), ("by value", lane.answers::<Value>(&mut out))] {
                    if library != rust {
                        println!("{name}, room {room}, first {}: the library {way} and plain Rust answer differently", lane.start.first);
                        exit(1);
                    }
                }
                same += lane.events();
            }
        }
    }
    println!("{same} answers of the library, over lent rows and by value, and of plain Rust are the same");
    let clock = (0..1000).map(|_| Instant::now().elapsed().as_nanos()).min().unwrap() as f64;
    if std::env::args().nth(1).is_some() {
        for (name, named, work) in EVENTS {
            let floor = if named { NAMED_FLOOR } else { FLOOR };
            let mut last = [[0.0; 3]; 2];
            if !(0..TRIES).any(|_| {
                last = rooms.map(|room| measure(work, room, clock, &mut out));
                last.iter().all(|[lent, _, rust]| rust / lent >= floor) && (!named || last[1][0] <= GROWTH * last[0][0])
            }) {
                let [[small, _, rust], [large, _, far]] = last;
                println!("{name}: over lent rows {small:.1} and {large:.1} ns at rooms {rooms:?}, plain Rust {rust:.1} and {far:.1}: slower than allowed");
                exit(1);
            }
        }
        let (_, _, resend) = EVENTS[EVENTS.len() - 1];
        let mut last = (0.0, 0.0);
        if !(0..TRIES).any(|_| {
            last = (replay(clock), measure(resend, rooms[1], clock, &mut out)[1]);
            last.0 <= RECORD * last.1
        }) {
            println!("a record of the replay takes {:.0} ns, a resend by value {:.0}: slower than allowed", last.0, last.1);
            exit(1);
        }
        println!("each event's rate over lent rows is at least {FLOOR} of that of plain Rust; where it touches only what it names, {NAMED_FLOOR}, and alike at every room; a record of the replay takes {:.0} resends by value", last.0 / last.1);
        return;
    }
    println!("Nanoseconds an event, best of {RUNS} runs; the ratio is the library's rate over lent rows to that of plain Rust\n");
    println!("{:36}{:>32}{:>36}", "", format!("room {}", rooms[0]), format!("room {}", rooms[1]));
    println!("{:36}{}", "", "    lent   value    Rust   ratio    ".repeat(2).trim_end());
    for (name, _, work) in EVENTS {
        let mut line = format!("{name:36}");
        for room in rooms {
            let [lent, value, rust] = measure(work, room, clock, &mut out);
            line += &format!("{lent:>8.1}{value:>8.1}{rust:>8.1}{:>8.2}    ", rust / lent);
        }
        println!("{}", line.trim_end());
    }
    println!("\na record of the replay, which copies one slot and writes a line: {:.1}", replay(clock));
}
