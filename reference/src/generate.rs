//! Logs of every family, from a seed: traffic over a network that loses, trims, repeats, delays and swaps, long gaps that close, events that are
//! refused, damaged, cut and random bytes, and the lengths at the edges.

use crate::log::{Card, Record, LONGEST, PROGRAM_SLOTS, SLOTS};
use crate::side::{on, HALF, LARGEST_ROOM, TURN};

const LARGEST: u64 = LARGEST_ROOM as u64;

/// A small generator of numbers (splitmix64).
pub struct Chance(u64);

impl Chance {
    pub fn new(seed: u64) -> Self {
        Chance(seed)
    }

    pub fn next(&mut self) -> u64 {
        self.0 = self.0.wrapping_add(0x9E37_79B9_7F4A_7C15);
        let mut z = self.0;
        z = (z ^ z >> 30).wrapping_mul(0xBF58_476D_1CE4_E5B9);
        z = (z ^ z >> 27).wrapping_mul(0x94D0_49BB_1331_11EB);
        z ^ z >> 31
    }

    pub fn below(&mut self, n: u64) -> u64 {
        self.next() % n
    }

    pub fn one_in(&mut self, n: u64) -> bool {
        self.below(n) == 0
    }

    pub fn pick<T: Copy>(&mut self, from: &[T]) -> T {
        from[self.below(from.len() as u64) as usize]
    }
}

/// A log that grows record by record, with the card that has answered them.
struct Script {
    card: Card,
    bytes: Vec<u8>,
    most: usize,
}

impl Script {
    fn new(most: usize) -> Self {
        Script { card: Card::default(), bytes: Vec::new(), most }
    }

    fn event(&mut self, kind: usize, slot: u8, fields: &[u64]) -> Option<Vec<u64>> {
        let record = Record::new(kind, slot, fields);
        self.bytes.extend(record.bytes());
        self.card.event(&record).ok().map(|done| [done.values, done.unprinted].concat())
    }

    fn full(&self) -> bool {
        self.bytes.len() + 18 > self.most
    }
}

/// How bad the network is: one in so many is lost, repeated, trimmed, without a buffer; how far packets overtake one another.
struct Weather {
    loss: u64,
    repeat: u64,
    trim: u64,
    buffer: u64,
    overtake: u64,
}

fn weather(chance: &mut Chance) -> Weather {
    Weather {
        loss: chance.pick(&[3, 10, 100, 1_000_000]),
        repeat: chance.pick(&[3, 10, 100]),
        trim: chance.pick(&[5, 20, 1_000_000]),
        buffer: chance.pick(&[7, 30, 1_000_000]),
        overtake: chance.pick(&[1, 4, 64, 600]),
    }
}

/// A SACK with one set bit, anywhere in its block and on either side of each edge: cack - 1, cack and cack + 1, and cack + 2; half from cack, and one
/// less.
pub fn edge(chance: &mut Chance, cack: u32) -> Vec<u64> {
    let bit = chance.below(64) as u32;
    let psn = on(cack, chance.pick(&[TURN - 1, 0, 1, 2, HALF - 1, HALF]));
    vec![cack.into(), on(psn, TURN - bit).into(), 1 << bit]
}

/// An honest SACK, mostly; seldom one that looks like it, with the bit for cack + 1, or one at an edge.
fn seldom_twisted(chance: &mut Chance, fields: &[u64]) -> Vec<u64> {
    match (chance.below(24), fields[0] as u32, fields[1] as u32) {
        (0, cack, base) if base == on(cack, 1) => vec![fields[0], fields[1], fields[2] | 1],
        (1, cack, _) => edge(chance, cack),
        _ => fields.to_vec(),
    }
}

/// One connection sends to another's receiving side; replies may be late, lost, heard again or, of a SACK, twisted.
pub fn traffic(chance: &mut Chance, room: u64, first: u32, events: usize) -> Vec<u8> {
    let weather = weather(chance);
    let mut script = Script::new(LONGEST);
    let (near, far) = (chance.below(PROGRAM_SLOTS as u64) as u8, chance.below(PROGRAM_SLOTS as u64) as u8);
    let other_room = some_room(chance);
    let receive_room = if chance.one_in(4) { other_room } else { room.max(other_room) };
    script.event(1, near, &[room, first.into(), receive_room, first.into()]);
    if far != near {
        script.event(1, far, &[room, chance.below(TURN.into()), receive_room, first.into()]);
    }
    let mut wire: Vec<(u64, u64, u64)> = Vec::new();
    let mut replies: Vec<(usize, Vec<u64>)> = Vec::new();
    for _ in 0..events {
        if script.full() {
            break;
        }
        match chance.below(10) {
            0 | 1 => {
                let size = 48 + chance.below(9169);
                for _ in 0..1 + chance.below(4) {
                    if let Some(values) = script.event(3, near, &[size]) {
                        wire.push((values[0], size, 0));
                    }
                    if script.full() {
                        break;
                    }
                }
            }
            2..=4 if !wire.is_empty() => {
                let at = chance.below(weather.overtake.min(wire.len() as u64)) as usize;
                let (psn, size, rtx) = wire[at];
                if !chance.one_in(weather.repeat) {
                    wire.remove(at);
                }
                if chance.one_in(weather.loss) {
                    continue;
                }
                let mut flags = rtx << 1 | chance.below(2);
                if chance.one_in(weather.trim) {
                    flags |= chance.pick(&[4, 8]);
                }
                if chance.one_in(weather.buffer) {
                    flags |= 16;
                }
                let entropy = chance.below(1 << 32);
                if let Some(values) = script.event(4, far, &[psn, size, flags, entropy]) {
                    replies.push(match values[0] {
                        0 | 1 => (5, values[1..4].to_vec()),
                        _ => (6, vec![psn, values[4]]),
                    });
                }
            }
            5..=7 if !replies.is_empty() => {
                let at = if chance.one_in(4) { chance.below(replies.len() as u64) as usize } else { replies.len() - 1 };
                let (kind, fields) = replies[at].clone();
                if !chance.one_in(weather.repeat) {
                    replies.remove(at);
                }
                if !chance.one_in(weather.loss) {
                    let fields = if kind == 5 { seldom_twisted(chance, &fields) } else { fields };
                    script.event(kind, near, &fields);
                }
            }
            8 if !wire.is_empty() => {
                let (psn, _, _) = wire[chance.below(wire.len() as u64) as usize];
                script.event(7, near, &[psn]);
            }
            9 => {
                if let Some(values) = script.event(8, near, &[]) {
                    wire.push((values[0], 48 + chance.below(9169), 1));
                }
            }
            _ => {}
        }
    }
    if chance.one_in(3) && !script.full() {
        script.event(2, near, &[]);
    }
    script.bytes
}

/// Events whose fields are drawn from the edges of what is allowed, so that every refusal comes up.
pub fn edges(chance: &mut Chance, events: usize) -> Vec<u8> {
    let mut script = Script::new(LONGEST);
    let first = chance.pick(&[0, 10, 1000, HALF, TURN - 2, TURN - 1]);
    for _ in 0..events {
        if script.full() {
            break;
        }
        let slot = chance.pick(&[0, 0, 0, 1, 2, PROGRAM_SLOTS as u8 - 1, PROGRAM_SLOTS as u8, SLOTS as u8 - 1, SLOTS as u8, 255]);
        let largest = u32::from(LARGEST_ROOM);
        let near = on(first, chance.pick(&[0, 1, 2, 3, 62, 63, 64, 65, largest - 1, largest, largest + 1, TURN - 1, TURN - 2, HALF - 1, HALF, HALF + 1]));
        let also = on(first, chance.pick(&[0, 1, 4, 63, 64, TURN - 1, TURN - 64, HALF, HALF - 65]));
        let size = chance.pick(&[0, 47, 48, 100, 100, 100, 9216, 9217, 65535]);
        let room = chance.pick(&[0, 63, 64, 64, 64, 65, 128, LARGEST, LARGEST, LARGEST + 1, LARGEST + 64, 4 * LARGEST, 65535]);
        let other = chance.pick(&[64, 64, 128, LARGEST, 100]);
        match chance.pick(&[1, 2, 3, 3, 3, 3, 4, 4, 4, 5, 5, 6, 6, 7, 8]) {
            1 => script.event(1, slot, &[room, first.into(), other, first.into()]),
            2 if chance.one_in(3) => script.event(2, slot, &[]),
            3 => script.event(3, slot, &[size]),
            4 => {
                let flags = if chance.one_in(2) { chance.below(256) } else { chance.pick(&[0, 1, 2, 16]) };
                script.event(4, slot, &[near.into(), size, flags, chance.below(1 << 32)])
            }
            5 if chance.one_in(3) => script.event(5, slot, &edge(chance, near)),
            5 => {
                let base = if chance.one_in(2) { on(near, 1) } else { also };
                let bitmap = chance.pick(&[0, 1, 2, 10, 1 << 63, u64::MAX]) & if chance.one_in(2) { u64::MAX } else { 15 };
                script.event(5, slot, &[near.into(), base.into(), bitmap])
            }
            6 => script.event(6, slot, &[near.into(), chance.below(9)]),
            7 => script.event(7, slot, &[near.into()]),
            _ => script.event(8, slot, &[]),
        };
    }
    script.bytes
}

/// Arrivals whose lines are long: E waits while the last packet of its window is accepted, so that bit 63 of each block is set.
pub fn long(chance: &mut Chance) -> Vec<u8> {
    let mut script = Script::new(LONGEST);
    let first = TURN - 1 - chance.below(6_000_000) as u32;
    script.event(1, 0, &[64, 0, 64, first.into()]);
    let mut expected = first;
    while !script.full() {
        let (psn, flags) = match chance.below(60) {
            0 => (expected, 0),
            _ => (on(expected, 63 - chance.pick(&[0, 0, 0, 1, 2, 40])), chance.below(4)),
        };
        let entropy = (1 << 32) - 1 - chance.below(1 << 31);
        if let Some(values) = script.event(4, 0, &[psn.into(), 48 + chance.below(9169), flags, entropy]) {
            expected = on(values[1] as u32, 1);
        }
    }
    script.bytes
}

/// Which sides of the gaps are in the log: a log has no room for both sides of the largest windows.
#[derive(Clone, Copy, PartialEq)]
pub enum Sides {
    Both,
    Sender,
    Receiver,
}

/// Gaps of more than 64 packets that close at once, the first of them a whole room: the first packet comes behind all others, and the reply to it
/// names all of them. The sender alone hears of the others by blocks of 64, in any order.
pub fn gaps(chance: &mut Chance, sides: Sides, room: u64, first: u32) -> Vec<u8> {
    let mut script = Script::new(LONGEST);
    script.event(1, 0, &[room, first.into(), room, first.into()]);
    let mut expected = first;
    while !script.full() {
        let many = if expected == first || chance.one_in(2) { room } else { room.min(65 + chance.below(room)) };
        let mut packets: Vec<(u32, u64)> = (0..many).map(|i| (on(expected, i as u32), 48 + chance.below(9169))).collect();
        for (_, size) in packets.iter().filter(|_| sides != Sides::Receiver) {
            if !script.full() {
                script.event(3, 0, &[*size]);
            }
        }
        let next = on(expected, many as u32);
        let mut replies = Vec::new();
        if sides == Sides::Sender {
            let before = u64::from(on(expected, TURN - 1));
            for block in 0..many.div_ceil(64) {
                let left = many - 64 * block;
                let bits = if left < 64 { (1 << left) - 1 } else { u64::MAX } & if block == 0 { !1 } else { u64::MAX };
                replies.push(vec![before, on(expected, 64 * block as u32).into(), bits]);
            }
            replies.sort_by_cached_key(|_| chance.next());
            replies.push(vec![on(next, TURN - 1).into(), next.into(), 0]);
        } else {
            packets.sort_by_cached_key(|(psn, _)| (*psn == expected, chance.next()));
            for (psn, size) in packets {
                if script.full() {
                    break;
                }
                let reply = script.event(4, 0, &[psn.into(), size, chance.below(4), chance.below(1 << 32)]);
                replies.extend(reply.filter(|_| psn == expected && sides == Sides::Both).map(|values| values[1..4].to_vec()));
            }
        }
        for reply in replies {
            if !script.full() {
                script.event(5, 0, &reply);
            }
        }
        expected = next;
    }
    script.bytes
}

/// One record of each kind.
pub fn each_kind() -> Vec<u8> {
    let mut script = Script::new(LONGEST);
    script.event(1, 0, &[64, 10, 64, 10]);
    script.event(3, 0, &[100]);
    script.event(4, 0, &[10, 100, 0, 7]);
    script.event(5, 0, &[10, 11, 0]);
    script.event(6, 0, &[10, 1]);
    script.event(7, 0, &[10]);
    script.event(8, 0, &[]);
    script.event(2, 0, &[]);
    script.bytes
}

fn random(chance: &mut Chance, length: usize) -> Vec<u8> {
    (0..length).map(|_| chance.next() as u8).collect()
}

/// Every second one is of the smallest quarter.
fn some_room(chance: &mut Chance) -> u64 {
    let largest = chance.pick(&[LARGEST / 4, LARGEST]);
    64 * (1 + chance.below(largest / 64))
}

fn some_first(chance: &mut Chance) -> u32 {
    match chance.below(3) {
        0 => on(TURN, TURN - chance.below(40) as u32),
        1 => on(HALF, TURN - chance.below(40) as u32),
        _ => chance.below(TURN.into()) as u32,
    }
}

/// Log number `i` of a seed. The first ones are the lengths at the edges and a log cut at every offset; the families take turns after them.
pub fn log(seed: u64, i: usize) -> Vec<u8> {
    let mut chance = Chance::new(seed.wrapping_mul(1_000_003).wrapping_add(i as u64));
    let whole = each_kind();
    if i <= whole.len() {
        return whole[..i].to_vec();
    }
    match i - whole.len() {
        1 => [0x4D, 0x52, 2, 0].repeat(LONGEST / 4),
        2 => [0x4D, 0x52, 2, 0].repeat(LONGEST / 4 + 1)[..LONGEST + 1].to_vec(),
        3 => random(&mut chance, LONGEST),
        4 => random(&mut chance, LONGEST + 1),
        5 => random(&mut chance, 1),
        6 => random(&mut chance, 2),
        n if n % 64 == 7 => long(&mut chance),
        n if n % 64 == 15 => {
            // so large that a send of 6 bytes and an arrival of 14 fit for each packet, and some records beside them
            let (room, first) = (some_room(&mut chance).min(LONGEST as u64 / 20 / 64 * 64 - 64), some_first(&mut chance));
            gaps(&mut chance, Sides::Both, room, first)
        }
        n if n % 64 == 47 => {
            let first = some_first(&mut chance);
            gaps(&mut chance, if n / 64 % 2 == 0 { Sides::Sender } else { Sides::Receiver }, LARGEST, first)
        }
        n => match n % 8 {
            0 => {
                let length = chance.below(64) as usize;
                random(&mut chance, length)
            }
            1 => {
                let mut bytes = edges(&mut chance, 200);
                let at = chance.below(bytes.len() as u64) as usize;
                bytes[at] ^= 1 << chance.below(8);
                bytes
            }
            2 => {
                let bytes = edges(&mut chance, 300);
                let length = chance.below(bytes.len() as u64) as usize;
                bytes[..length].to_vec()
            }
            3 | 4 => edges(&mut chance, 500),
            5 => {
                let (room, first) = (64 * (1 + (n as u64 / 8) % (LARGEST / 64)), some_first(&mut chance));
                traffic(&mut chance, room, first, 1500)
            }
            _ => {
                let (room, first) = (some_room(&mut chance), some_first(&mut chance));
                traffic(&mut chance, room, first, 400)
            }
        },
    }
}
