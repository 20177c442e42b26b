//! The two sides of a connection, from document 01 with requests No. 3, 4, 6 and 8 of document 02: packet numbers are kept in ordered maps and sets, one
//! entry each.

use std::collections::{BTreeMap, BTreeSet};

pub const TURN: u32 = 1 << 24;
pub const HALF: u32 = 1 << 23;

/// How far `to` lies ahead of `from` on the circle.
pub fn distance(from: u32, to: u32) -> u32 {
    to.wrapping_sub(from) & (TURN - 1)
}

/// The packet number `by` places on.
pub fn on(from: u32, by: u32) -> u32 {
    from.wrapping_add(by) & (TURN - 1)
}

/// The packet numbers of a block's set bits.
pub fn set_bits(base: u32, bitmap: u64) -> impl Iterator<Item = u32> {
    (0..64).filter(move |bit| bitmap >> bit & 1 == 1).map(move |bit| on(base, bit))
}

/// The ways in which a SACK that contradicts itself comes: it looks honest, or its block is another's; and it is late, finds nothing outstanding, or
/// its cack is unsent too.
pub const CONTRADICTIONS: [&str; 5] = [
    "17 for cack + 1 in a block that begins there",
    "17 for another block",
    "17 for a late SACK",
    "17 with nothing outstanding",
    "17 for an unsent cack",
];

/// In which of these ways one came to a sender at this place.
pub fn contradiction(place: u32, outstanding: u32, cack: u32, base: u32) -> Vec<usize> {
    let far = distance(place, cack);
    let looks_honest = base == on(cack, 1);
    let ways = [looks_honest, !looks_honest, far >= HALF, outstanding == 0, far > outstanding && far < HALF];
    (0..ways.len()).filter(|&i| ways[i]).collect()
}

/// The largest room.
pub const LARGEST_ROOM: u16 = 2048;

pub fn room_allowed(room: u16) -> bool {
    (64..=LARGEST_ROOM).contains(&room) && room % 64 == 0
}

pub fn size_allowed(size: u16) -> bool {
    (48..=9216).contains(&size)
}

/// What an event that is done gives: the values of its line, and what only the library hands out: a SACK's MPR, a NACK's reason.
#[derive(Clone, Debug, PartialEq)]
pub struct Done {
    pub values: Vec<u64>,
    pub unprinted: Vec<u64>,
}

/// What an event gives: the refusal's number, or what is done.
pub type Outcome = Result<Done, u8>;

/// Values, and nothing beside them.
pub fn done(values: Vec<u64>) -> Outcome {
    Ok(Done { values, unprinted: vec![] })
}

/// The words in which a record keeps packet numbers: how many there are up to the last that has a bit, and those. Bit b of word j is number 64 j + b
/// from the block of 64 on in which `from` lies.
fn row(from: u32, has: impl Fn(u32, bool) -> bool) -> Vec<u64> {
    let first = from - from % 64;
    let bit = |i: u32| u64::from(has(on(first, i), i < from % 64)) << (i % 64);
    let words: Vec<u64> = (0..=u32::from(LARGEST_ROOM) / 64).map(|j| (64 * j..64 * j + 64).map(bit).sum()).collect();
    let used = words.iter().rposition(|&word| word != 0).map_or(0, |last| last + 1);
    [&[used as u64], &words[..used]].concat()
}

/// The reasons of a NACK, and the MPR of a SACK.
const TRIM: u64 = 1;
const TRIM_LASTHOP: u64 = 2;
const NO_BITMAP: u64 = 3;
const NO_PKT_BUFFER: u64 = 4;
const MPR: u64 = 0;

#[derive(Clone)]
pub struct Receiver {
    pub room: u32,
    pub expected: u32,
    ahead: BTreeSet<u32>,
    pub bytes: u32,
}

impl Receiver {
    pub fn new(room: u16, first: u32) -> Self {
        Receiver { room: room as u32, expected: first, ahead: BTreeSet::new(), bytes: 0 }
    }

    /// The record in numbers: its room, the expected packet number, the count, and the words of those accepted, all before E with them.
    pub fn record(&self) -> Vec<u64> {
        let accepted = row(self.expected, |psn, before| before || self.ahead.contains(&psn));
        [vec![self.room.into(), self.expected.into(), self.bytes.into()], accepted].concat()
    }

    pub fn arrive(&mut self, psn: u32, size: u16, flags: u8, entropy: u32) -> Outcome {
        if !size_allowed(size) {
            return Err(6);
        }
        if flags & 0xE0 != 0 || flags & 0x0C == 0x0C {
            return Err(14);
        }
        let rtx = u64::from(flags >> 1 & 1);
        let negative = |answer: u64, reason: u64| Ok(Done { values: vec![answer, psn.into(), entropy.into(), rtx], unprinted: vec![reason] });
        if flags & 4 != 0 {
            return negative(4, TRIM);
        }
        if flags & 8 != 0 {
            return negative(5, TRIM_LASTHOP);
        }
        let far = distance(self.expected, psn);
        let known = far >= HALF || self.ahead.contains(&psn);
        if !known && far >= self.room {
            return negative(2, NO_BITMAP);
        }
        if !known && flags & 16 != 0 {
            return negative(3, NO_PKT_BUFFER);
        }
        if !known {
            self.ahead.insert(psn);
            while self.ahead.remove(&self.expected) {
                self.expected = on(self.expected, 1);
            }
        }
        // No. 4: a repeat is counted as well
        self.bytes = self.bytes.wrapping_add(size.into());
        let (base, bitmap) = self.block(psn);
        let cack = on(self.expected, TURN - 1);
        let values = vec![known.into(), cack.into(), base.into(), bitmap, (self.bytes / 256).into(), entropy.into(), rtx, u64::from(flags & 1)];
        Ok(Done { values, unprinted: vec![MPR] })
    }

    fn block(&self, psn: u32) -> (u32, u64) {
        let far = distance(self.expected, psn);
        let base = if far < self.room { on(self.expected, far - far % 64) } else { self.expected };
        let bitmap = self
            .ahead
            .iter()
            .map(|&p| (distance(self.expected, p), distance(base, p)))
            .filter(|&(in_window, bit)| in_window < self.room && bit < 64)
            .fold(0, |bits, (_, bit)| bits | 1 << bit);
        (base, bitmap)
    }
}

#[derive(Clone)]
struct Sent {
    size: u16,
    retired: bool,
    marked: bool,
}

#[derive(Clone)]
pub struct Sender {
    pub room: u32,
    pub place: u32,
    /// By how far a packet lies after the very first place: this never wraps.
    packets: BTreeMap<u64, Sent>,
    retired_to: u64,
    sent_to: u64,
}

impl Sender {
    pub fn new(room: u16, first: u32) -> Self {
        Sender { room: room as u32, place: on(first, TURN - 1), packets: BTreeMap::new(), retired_to: 0, sent_to: 0 }
    }

    pub fn outstanding(&self) -> u32 {
        (self.sent_to - self.retired_to) as u32
    }

    fn psn(&self, packet: u64) -> u32 {
        on(self.place, (packet - self.retired_to) as u32)
    }

    fn held(&self) -> u64 {
        self.packets.values().filter(|p| !p.retired).map(|p| u64::from(p.size)).sum()
    }

    /// The record in numbers: its room, the place, how many are outstanding, the held bytes, and the words of those retired, all to the place with
    /// them, and of those marked.
    pub fn record(&self) -> Vec<u64> {
        let first = on(self.place, 1);
        let sent = |psn: u32| self.packets.get(&(self.retired_to + 1 + u64::from(distance(first, psn))));
        let retired = row(first, |psn, before| before || sent(psn).is_some_and(|p| p.retired));
        let marked = row(first, |psn, _| sent(psn).is_some_and(|p| p.marked));
        [vec![self.room.into(), self.place.into(), self.outstanding().into(), self.held()], retired, marked].concat()
    }

    pub fn has_marks(&self) -> bool {
        self.packets.values().any(|p| p.marked)
    }

    /// The sizes of the packets outstanding.
    pub fn sizes(&self) -> Vec<u64> {
        self.packets.values().map(|p| p.size.into()).collect()
    }

    pub fn send(&mut self, size: u16) -> Outcome {
        if !size_allowed(size) {
            return Err(6);
        }
        if self.outstanding() >= self.room {
            return Err(7);
        }
        self.sent_to += 1;
        self.packets.insert(self.sent_to, Sent { size, retired: false, marked: false });
        done(vec![self.psn(self.sent_to).into()])
    }

    /// The outstanding packet of a PSN, nothing if it is behind, or refusal 8.
    fn find(&self, psn: u32) -> Result<Option<u64>, u8> {
        let far = distance(on(self.place, 1), psn);
        if far < self.outstanding() {
            Ok(Some(self.retired_to + 1 + u64::from(far)))
        } else if far >= HALF {
            Ok(None)
        } else {
            Err(8)
        }
    }

    pub fn sack(&mut self, cack: u32, base: u32, bitmap: u64) -> Outcome {
        // No. 3: no bit for cack + 1, none for cack, none behind it
        if set_bits(base, bitmap).any(|psn| psn == on(cack, 1) || psn == cack || distance(cack, psn) >= HALF) {
            return Err(17);
        }
        let far = distance(self.place, cack);
        if far > self.outstanding() && far < HALF {
            return Err(8);
        }
        let mut named = BTreeSet::new();
        if far <= self.outstanding() {
            named.extend(self.retired_to + 1..=self.retired_to + u64::from(far));
        }
        for psn in set_bits(base, bitmap) {
            named.extend(self.find(psn)?);
        }
        // No. 8: marked before, and retired by this SACK
        let alarms = named.iter().filter(|packet| self.packets[packet].marked).count() as u64;
        let mut newly = 0;
        for packet in named {
            let sent = self.packets.get_mut(&packet).expect("an outstanding packet has an entry");
            newly += u64::from(!sent.retired);
            sent.retired = true;
            sent.marked = false;
        }
        while self.packets.get(&(self.retired_to + 1)).is_some_and(|p| p.retired) {
            self.retired_to += 1;
            self.packets.remove(&self.retired_to);
            self.place = on(self.place, 1);
        }
        done(vec![newly, self.place.into(), self.held(), alarms])
    }

    pub fn timer(&mut self, psn: u32) -> Outcome {
        let marks = match self.find(psn)? {
            Some(packet) => {
                let sent = self.packets.get_mut(&packet).expect("an outstanding packet has an entry");
                let fresh = !sent.retired && !sent.marked;
                sent.marked |= fresh;
                fresh
            }
            None => false,
        };
        done(vec![marks.into()])
    }

    pub fn nack(&mut self, psn: u32, reason: u8) -> Outcome {
        match reason {
            1..=4 => self.timer(psn),
            5 | 6 => self.find(psn).and(done(vec![0])),
            _ => Err(15),
        }
    }

    pub fn resend(&mut self) -> Outcome {
        let packet = self.packets.iter().find(|(_, sent)| sent.marked).map(|(&packet, _)| packet).ok_or(9)?;
        self.packets.get_mut(&packet).expect("just found").marked = false;
        done(vec![self.psn(packet).into()])
    }
}
