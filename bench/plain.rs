//! The same work in plain Rust, in place: bits and sizes in rings, by packet number modulo the largest room. Nothing here is proved.
use crate::{Arrivals, Card, Nacks, Sacks};

/// The largest room, as `crates/rules/src/lib.rt` has it.
pub const LARGEST_ROOM: usize = number(env!("LARGEST_ROOM"));
const WORDS: usize = LARGEST_ROOM / 64;
// A ring by packet number needs a largest room that divides the turn.
const _: () = assert!(LARGEST_ROOM.is_power_of_two() && LARGEST_ROOM >= 64);

const fn number(text: &str) -> usize {
    let (digits, mut n, mut i) = (text.as_bytes(), 0, 0);
    while i < digits.len() {
        n = 10 * n + (digits[i] - b'0') as usize;
        i += 1;
    }
    n
}

pub const TURN: u32 = 1 << 24;
const HALF: u32 = 1 << 23;

pub const ECN: u8 = 1;
pub const RTX: u8 = 2;
const TRIMMED: u8 = 4;
const TRIMMED_LAST_HOP: u8 = 8;
const NO_BUFFER: u8 = 16;

#[derive(Clone, Copy)]
struct Arrival {
    psn: u32,
    size: u16,
    flags: u8,
    entropy: u32,
}

#[derive(Clone, Copy)]
enum Verdict {
    Fresh,
    Known,
    Beyond,
    NoBuffer,
    Trim,
    TrimLastHop,
}

struct Sack {
    cack: u32,
    base: u32,
    bitmap: u64,
    count: u32,
    entropy: u32,
    rtx: bool,
    mark: bool,
}

struct Nack {
    psn: u32,
    reason: u8,
    entropy: u32,
    rtx: bool,
}

enum Answer {
    Refused(u8),
    Sent(u32),
    Acked(Verdict, Sack),
    Nacked(Verdict, Nack),
    Retired { newly: u32, place: u32, held: u32, alarms: u32 },
    Marked(u8),
    Expired(u8),
    Resent(u32),
}

/// An answer as four words, as `put` in `batches.rattle` packs it.
#[inline(always)]
fn packed(answer: Answer) -> [u64; 4] {
    let pair = |low: u32, high: u32| low as u64 | (high as u64) << 32;
    match answer {
        Answer::Refused(number) => [(number as u64) << 8, 0, 0, 0],
        Answer::Sent(psn) => [3, psn as u64, 0, 0],
        Answer::Acked(v, s) => {
            let first = 4 | (v as u64) << 8 | (s.rtx as u64) << 16 | (s.mark as u64) << 17;
            [first, pair(s.cack, s.base), s.bitmap, pair(s.count, s.entropy)]
        }
        Answer::Nacked(v, n) => {
            let first = 5 | (v as u64) << 8 | (n.rtx as u64) << 16 | (n.reason as u64) << 24;
            [first, n.psn as u64, 0, pair(0, n.entropy)]
        }
        Answer::Retired { newly, place, held, alarms } => [6, pair(newly, place), held as u64, alarms as u64],
        Answer::Marked(many) => [7 | (many as u64) << 8, 0, 0, 0],
        Answer::Expired(many) => [8 | (many as u64) << 8, 0, 0, 0],
        Answer::Resent(psn) => [9, psn as u64, 0, 0],
    }
}

/// The word and the bit of a packet number in a ring.
#[inline(always)]
fn spot(psn: u32) -> (usize, u32) {
    let p = psn as usize % LARGEST_ROOM;
    (p / 64, p as u32 % 64)
}

/// The bits below n.
#[inline(always)]
fn low(n: u32) -> u64 {
    if n < 64 {
        (1 << n) - 1
    } else {
        u64::MAX
    }
}

/// Clears the run of set bits of a ring from bit b of word j on; how many there were.
#[inline(never)]
fn leave(ring: &mut [u64; WORDS], mut j: usize, b: u32) -> u32 {
    let mut many = (ring[j] >> b).trailing_ones();
    ring[j] &= !(low(many) << b);
    if b + many == 64 {
        j = (j + 1) % WORDS;
        while ring[j] == u64::MAX {
            ring[j] = 0;
            many += 64;
            j = (j + 1) % WORDS;
        }
        let ones = ring[j].trailing_ones();
        ring[j] &= !low(ones);
        many += ones;
    }
    many
}

#[derive(Clone)]
pub struct Receiver {
    room: u32,
    expected: u32,
    count: u32,
    accepted: [u64; WORDS],
}

impl Receiver {
    #[inline(always)]
    fn arrive(&mut self, a: Arrival) -> Answer {
        if self.room == 0 {
            return Answer::Refused(2);
        }
        if a.psn >= TURN {
            return Answer::Refused(5);
        }
        if !(48..=9216).contains(&a.size) {
            return Answer::Refused(6);
        }
        if a.flags >= 32 || a.flags & (TRIMMED | TRIMMED_LAST_HOP) == TRIMMED | TRIMMED_LAST_HOP {
            return Answer::Refused(14);
        }
        if a.flags & TRIMMED != 0 {
            return nacked(Verdict::Trim, 1, a);
        }
        if a.flags & TRIMMED_LAST_HOP != 0 {
            return nacked(Verdict::TrimLastHop, 2, a);
        }
        let d = a.psn.wrapping_sub(self.expected) % TURN;
        if d >= HALF {
            return self.acked(Verdict::Known, a);
        }
        if d >= self.room {
            return nacked(Verdict::Beyond, 3, a);
        }
        let (j, b) = spot(a.psn);
        if self.accepted[j] >> b & 1 == 1 {
            return self.acked(Verdict::Known, a);
        }
        if a.flags & NO_BUFFER != 0 {
            return nacked(Verdict::NoBuffer, 4, a);
        }
        self.accepted[j] |= 1 << b;
        if d == 0 {
            self.advance();
        }
        self.acked(Verdict::Fresh, a)
    }

    /// E moves over all accepted from it on, and their bits make room. Mostly it moves by one, and a test that is foreseen costs less than a count
    /// that must be waited for.
    #[inline(always)]
    fn advance(&mut self) {
        let ((j, b), (k, c)) = (spot(self.expected), spot(self.expected + 1));
        if self.accepted[k] >> c & 1 == 0 {
            self.accepted[j] &= !(1 << b);
            self.expected = (self.expected + 1) % TURN;
        } else {
            self.expected = (self.expected + leave(&mut self.accepted, j, b)) % TURN;
        }
    }

    /// Its size is counted, and a SACK answers it.
    #[inline(always)]
    fn acked(&mut self, v: Verdict, a: Arrival) -> Answer {
        self.count = self.count.wrapping_add(a.size as u32);
        let d = a.psn.wrapping_sub(self.expected) % TURN;
        let base = if d < self.room { (self.expected + d / 64 * 64) % TURN } else { self.expected };
        let (j, b) = spot(base);
        let mut bitmap = self.accepted[j] >> b;
        if b > 0 {
            bitmap |= self.accepted[(j + 1) % WORDS] << (64 - b);
        }
        Answer::Acked(
            v,
            Sack {
                cack: self.expected.wrapping_sub(1) % TURN,
                base,
                bitmap,
                count: self.count / 256,
                entropy: a.entropy,
                rtx: a.flags & RTX != 0,
                mark: a.flags & ECN != 0,
            },
        )
    }
}

#[inline(always)]
fn nacked(v: Verdict, reason: u8, a: Arrival) -> Answer {
    Answer::Nacked(v, Nack { psn: a.psn, reason, entropy: a.entropy, rtx: a.flags & RTX != 0 })
}

#[derive(Clone)]
pub struct Sender {
    room: u32,
    place: u32,
    outstanding: u32,
    held: u32,
    sizes: [u16; LARGEST_ROOM],
    retired: [u64; WORDS],
    marked: [u64; WORDS],
}

impl Sender {
    /// How far a packet number lies after place + 1.
    #[inline(always)]
    fn after_place(&self, psn: u32) -> u32 {
        psn.wrapping_sub(self.place + 1) % TURN
    }

    #[inline(always)]
    fn send(&mut self, size: u16) -> Answer {
        if self.room == 0 {
            return Answer::Refused(2);
        }
        if !(48..=9216).contains(&size) {
            return Answer::Refused(6);
        }
        if self.outstanding >= self.room {
            return Answer::Refused(7);
        }
        let psn = (self.place + 1 + self.outstanding) % TURN;
        self.sizes[psn as usize % LARGEST_ROOM] = size;
        self.outstanding += 1;
        self.held += size as u32;
        Answer::Sent(psn)
    }

    /// The bits named in a word are retired; how many are new, and how many of these were marked.
    #[inline(always)]
    fn retire(&mut self, j: usize, named: u64) -> (u32, u32) {
        let mut fresh = named & !self.retired[j];
        let counted = (fresh.count_ones(), (fresh & self.marked[j]).count_ones());
        self.retired[j] |= named;
        self.marked[j] &= !named;
        while fresh != 0 {
            self.held -= self.sizes[64 * j + fresh.trailing_zeros() as usize] as u32;
            fresh &= fresh - 1;
        }
        counted
    }

    #[inline(always)]
    fn sack(&mut self, cack: u32, base: u32, bitmap: u64) -> Answer {
        if self.room == 0 {
            return Answer::Refused(2);
        }
        if cack >= TURN || base >= TURN {
            return Answer::Refused(5);
        }
        let n = self.outstanding;
        let upto = cack.wrapping_sub(self.place) % TURN;
        let mut named = 0;
        if bitmap != 0 {
            // a set bit that is not 2 or more ahead of cack, and less than half
            let past = base.wrapping_sub(cack) % TURN;
            let ahead = if past < HALF { low(HALF - past) & !low(2u32.saturating_sub(past)) } else { !low(TURN - past + 2) };
            if bitmap & !ahead != 0 {
                return Answer::Refused(17);
            }
            // the block's bits from `from` up to `to` are outstanding, those from there up to `far` unsent
            let o = self.after_place(base);
            let (from, to, far) = if o < HALF { (0, n.saturating_sub(o), HALF - o) } else { (TURN - o, TURN - o + n, 64) };
            if bitmap & low(far) & !low(to) != 0 {
                return Answer::Refused(8);
            }
            named = bitmap & low(to) & !low(from);
        }
        if n < upto && upto < HALF {
            return Answer::Refused(8);
        }
        let (mut newly, mut alarms) = (0, 0);
        let mut count = |(new, marked): (u32, u32)| {
            newly += new;
            alarms += marked;
        };
        if upto <= n {
            let (mut psn, mut left) = (self.place + 1, upto);
            while left > 0 {
                let (j, b) = spot(psn);
                let many = left.min(64 - b);
                count(self.retire(j, low(many) << b));
                psn += many;
                left -= many;
            }
        }
        if named != 0 {
            let (j, b) = spot(base);
            count(self.retire(j, named << b));
            if b > 0 && named >> (64 - b) != 0 {
                count(self.retire((j + 1) % WORDS, named >> (64 - b)));
            }
        }
        let (j, b) = spot(self.place + 1);
        if self.retired[j] >> b & 1 == 1 {
            let by = leave(&mut self.retired, j, b);
            self.place = (self.place + by) % TURN;
            self.outstanding -= by;
        }
        Answer::Retired { newly, place: self.place, held: self.held, alarms }
    }

    #[inline(always)]
    fn nack(&mut self, psn: u32, reason: u8) -> Answer {
        if self.room == 0 {
            return Answer::Refused(2);
        }
        if psn >= TURN {
            return Answer::Refused(5);
        }
        if !(1..=6).contains(&reason) {
            return Answer::Refused(15);
        }
        self.mark(psn, reason <= 4, Answer::Marked)
    }

    #[inline(always)]
    fn timer(&mut self, psn: u32) -> Answer {
        if self.room == 0 {
            return Answer::Refused(2);
        }
        if psn >= TURN {
            return Answer::Refused(5);
        }
        self.mark(psn, true, Answer::Expired)
    }

    /// An outstanding packet number is marked, where it may be; an unsent one is refused.
    #[inline(always)]
    fn mark(&mut self, psn: u32, may: bool, told: fn(u8) -> Answer) -> Answer {
        let i = self.after_place(psn);
        if i >= self.outstanding {
            return if i < HALF { Answer::Refused(8) } else { told(0) };
        }
        let (j, b) = spot(psn);
        if !may || (self.retired[j] | self.marked[j]) >> b & 1 == 1 {
            return told(0);
        }
        self.marked[j] |= 1 << b;
        told(1)
    }

    #[inline(always)]
    fn resend(&mut self) -> Answer {
        if self.room == 0 {
            return Answer::Refused(2);
        }
        let mut i = 0;
        while i < self.outstanding {
            let (j, b) = spot(self.place + 1 + i);
            let ahead = self.marked[j] >> b;
            if ahead != 0 {
                let skip = ahead.trailing_zeros();
                self.marked[j] &= !(1 << (b + skip));
                return Answer::Resent((self.place + 1 + i + skip) % TURN);
            }
            i += 64 - b;
        }
        Answer::Refused(9)
    }
}

#[derive(Clone)]
pub struct Plain;

impl Card for Plain {
    type Receiver = Receiver;
    type Sender = Sender;

    fn receiver(room: u16, first: u32) -> Receiver {
        Receiver { room: room as u32, expected: first, count: 0, accepted: [0; WORDS] }
    }

    fn sender(room: u16, first: u32) -> Sender {
        Sender {
            room: room as u32,
            place: first.wrapping_sub(1) % TURN,
            outstanding: 0,
            held: 0,
            sizes: [0; LARGEST_ROOM],
            retired: [0; WORDS],
            marked: [0; WORDS],
        }
    }

    #[inline(never)]
    fn arrivals(receiver: &mut Receiver, e: Arrivals, out: &mut [u64]) {
        for ((((out, psn), size), flags), entropy) in out.chunks_exact_mut(4).zip(e.psn).zip(e.size).zip(e.flags).zip(e.entropy) {
            out.copy_from_slice(&packed(receiver.arrive(Arrival { psn: *psn, size: *size, flags: *flags, entropy: *entropy })));
        }
    }

    #[inline(never)]
    fn sends(sender: &mut Sender, size: &[u16], out: &mut [u64]) {
        for (out, size) in out.chunks_exact_mut(4).zip(size) {
            out.copy_from_slice(&packed(sender.send(*size)));
        }
    }

    #[inline(never)]
    fn sacks(sender: &mut Sender, e: &Sacks, out: &mut [u64]) {
        for (((out, cack), base), bitmap) in out.chunks_exact_mut(4).zip(&e.cack).zip(&e.base).zip(&e.bitmap) {
            out.copy_from_slice(&packed(sender.sack(*cack, *base, *bitmap)));
        }
    }

    #[inline(never)]
    fn nacks(sender: &mut Sender, e: &Nacks, out: &mut [u64]) {
        for ((out, psn), reason) in out.chunks_exact_mut(4).zip(&e.psn).zip(&e.reason) {
            out.copy_from_slice(&packed(sender.nack(*psn, *reason)));
        }
    }

    #[inline(never)]
    fn timers(sender: &mut Sender, psn: &[u32], out: &mut [u64]) {
        for (out, psn) in out.chunks_exact_mut(4).zip(psn) {
            out.copy_from_slice(&packed(sender.timer(*psn)));
        }
    }

    #[inline(never)]
    fn resends(sender: &mut Sender, many: usize, out: &mut [u64]) {
        for out in out.chunks_exact_mut(4).take(many) {
            out.copy_from_slice(&packed(sender.resend()));
        }
    }
}
