//! The library's functions, by the batches over them in `batches.rattle`: over lent rows, and by value. A lent slice is passed as where it
//! begins and how long it is.
use crate::plain::LARGEST_ROOM;
use crate::{Arrivals, Card, Nacks, Sacks};

struct Slice<T> {
    first: *const T,
    len: usize,
}

fn lent_mut<T>(slice: &mut [T]) -> Slice<T> {
    Slice { first: slice.as_mut_ptr(), len: slice.len() }
}

type Words = Slice<u64>;
type Scalars = Slice<u32>;
type Sizes = Slice<u16>;

extern "C" {
    fn mrc_start_receiving(state: *const u32, state_long: usize, words: *const u64, words_long: usize, room: u16, first: u32);
    fn mrc_arrivals(state: *const u32, state_long: usize, words: *const u64, words_long: usize, psn: *const u32, psn_long: usize, size: *const u16, size_long: usize, flags: *const u8, flags_long: usize, entropy: *const u32, entropy_long: usize, out: *const u64, out_long: usize);
    fn mrc_start_sending(state: *const u32, state_long: usize, sizes: *const u16, sizes_long: usize, retired: *const u64, retired_long: usize, marked: *const u64, marked_long: usize, room: u16, first: u32);
    fn mrc_sends(state: *const u32, state_long: usize, sizes: *const u16, sizes_long: usize, retired: *const u64, retired_long: usize, marked: *const u64, marked_long: usize, size: *const u16, size_long: usize, out: *const u64, out_long: usize);
    fn mrc_sacks(state: *const u32, state_long: usize, sizes: *const u16, sizes_long: usize, retired: *const u64, retired_long: usize, marked: *const u64, marked_long: usize, cack: *const u32, cack_long: usize, base: *const u32, base_long: usize, bitmap: *const u64, bitmap_long: usize, out: *const u64, out_long: usize);
    fn mrc_nacks(state: *const u32, state_long: usize, sizes: *const u16, sizes_long: usize, retired: *const u64, retired_long: usize, marked: *const u64, marked_long: usize, psn: *const u32, psn_long: usize, reason: *const u8, reason_long: usize, out: *const u64, out_long: usize);
    fn mrc_timers(state: *const u32, state_long: usize, sizes: *const u16, sizes_long: usize, retired: *const u64, retired_long: usize, marked: *const u64, marked_long: usize, psn: *const u32, psn_long: usize, out: *const u64, out_long: usize);
    fn mrc_resends(state: *const u32, state_long: usize, sizes: *const u16, sizes_long: usize, retired: *const u64, retired_long: usize, marked: *const u64, marked_long: usize, many: usize, out: *const u64, out_long: usize);

    fn mrc_start_receiving_by_value(record: *mut u64, room: u16, first: u32);
    fn mrc_arrivals_by_value(record: *mut u64, psn: *const u32, psn_long: usize, size: *const u16, size_long: usize, flags: *const u8, flags_long: usize, entropy: *const u32, entropy_long: usize, out: *const u64, out_long: usize);
    fn mrc_start_sending_by_value(record: *mut u64, room: u16, first: u32);
    fn mrc_sends_by_value(record: *mut u64, size: *const u16, size_long: usize, out: *const u64, out_long: usize);
    fn mrc_sacks_by_value(record: *mut u64, cack: *const u32, cack_long: usize, base: *const u32, base_long: usize, bitmap: *const u64, bitmap_long: usize, out: *const u64, out_long: usize);
    fn mrc_nacks_by_value(record: *mut u64, psn: *const u32, psn_long: usize, reason: *const u8, reason_long: usize, out: *const u64, out_long: usize);
    fn mrc_timers_by_value(record: *mut u64, psn: *const u32, psn_long: usize, out: *const u64, out_long: usize);
    fn mrc_resends_by_value(record: *mut u64, many: usize, out: *const u64, out_long: usize);

    fn mrc_replays(log: *const u8, log_long: usize, out: *const u8, out_long: usize, told: *const u64, told_long: usize);
}

/// How many bytes of text the replay of a log has behind its head.
pub fn replays(log: &[u8], out: &mut [u8]) -> u64 {
    let mut told = [0];
    unsafe { mrc_replays(log.as_ptr(), log.len(), out.as_mut_ptr(), out.len(), told.as_mut_ptr(), told.len()) };
    told[0]
}

/// The words of a row for the largest room.
const WORDS: usize = LARGEST_ROOM / 64 + 1;

/// A head, and the words that are lent to it: as many as its room needs.
#[derive(Clone)]
pub struct Receiver {
    state: [u32; 3],
    words: [u64; WORDS],
    lent: usize,
}

/// A head, and the rows that are lent to it: a size for each packet number of the largest room, and as many words as its room needs.
#[derive(Clone)]
pub struct Sender {
    state: [u32; 4],
    sizes: [u16; LARGEST_ROOM],
    retired: [u64; WORDS],
    marked: [u64; WORDS],
    lent: usize,
}

impl Sender {
    fn rows(&mut self) -> (Scalars, Sizes, Words, Words) {
        (
            lent_mut(&mut self.state),
            lent_mut(&mut self.sizes),
            lent_mut(&mut self.retired[..self.lent]),
            lent_mut(&mut self.marked[..self.lent]),
        )
    }
}

/// The library over lent rows.
#[derive(Clone)]
pub struct Lent;

impl Card for Lent {
    type Receiver = Receiver;
    type Sender = Sender;

    fn receiver(room: u16, first: u32) -> Receiver {
        let mut receiver = Receiver { state: [0; 3], words: [0; WORDS], lent: room as usize / 64 + 1 };
        let (state, words) = (lent_mut(&mut receiver.state), lent_mut(&mut receiver.words[..receiver.lent]));
        unsafe { mrc_start_receiving(state.first, state.len, words.first, words.len, room, first) };
        receiver
    }

    fn sender(room: u16, first: u32) -> Sender {
        let lent = room as usize / 64 + 1;
        let mut sender = Sender { state: [0; 4], sizes: [0; LARGEST_ROOM], retired: [0; WORDS], marked: [0; WORDS], lent };
        let (state, sizes, retired, marked) = sender.rows();
        unsafe { mrc_start_sending(state.first, state.len, sizes.first, sizes.len, retired.first, retired.len, marked.first, marked.len, room, first) };
        sender
    }

    fn arrivals(receiver: &mut Receiver, e: Arrivals, out: &mut [u64]) {
        e.check(out);
        let (state, words) = (lent_mut(&mut receiver.state), lent_mut(&mut receiver.words[..receiver.lent]));
        unsafe { mrc_arrivals(state.first, state.len, words.first, words.len, e.psn.as_ptr(), e.psn.len(), e.size.as_ptr(), e.size.len(), e.flags.as_ptr(), e.flags.len(), e.entropy.as_ptr(), e.entropy.len(), out.as_mut_ptr(), out.len()) }
    }

    fn sends(sender: &mut Sender, size: &[u16], out: &mut [u64]) {
        assert!(out.len() >= 4 * size.len());
        let (state, sizes, retired, marked) = sender.rows();
        unsafe { mrc_sends(state.first, state.len, sizes.first, sizes.len, retired.first, retired.len, marked.first, marked.len, size.as_ptr(), size.len(), out.as_mut_ptr(), out.len()) }
    }

    fn sacks(sender: &mut Sender, e: &Sacks, out: &mut [u64]) {
        e.check(out);
        let (state, sizes, retired, marked) = sender.rows();
        unsafe { mrc_sacks(state.first, state.len, sizes.first, sizes.len, retired.first, retired.len, marked.first, marked.len, e.cack.as_ptr(), e.cack.len(), e.base.as_ptr(), e.base.len(), e.bitmap.as_ptr(), e.bitmap.len(), out.as_mut_ptr(), out.len()) }
    }

    fn nacks(sender: &mut Sender, e: &Nacks, out: &mut [u64]) {
        e.check(out);
        let (state, sizes, retired, marked) = sender.rows();
        unsafe { mrc_nacks(state.first, state.len, sizes.first, sizes.len, retired.first, retired.len, marked.first, marked.len, e.psn.as_ptr(), e.psn.len(), e.reason.as_ptr(), e.reason.len(), out.as_mut_ptr(), out.len()) }
    }

    fn timers(sender: &mut Sender, psn: &[u32], out: &mut [u64]) {
        assert!(out.len() >= 4 * psn.len());
        let (state, sizes, retired, marked) = sender.rows();
        unsafe { mrc_timers(state.first, state.len, sizes.first, sizes.len, retired.first, retired.len, marked.first, marked.len, psn.as_ptr(), psn.len(), out.as_mut_ptr(), out.len()) }
    }

    fn resends(sender: &mut Sender, many: usize, out: &mut [u64]) {
        assert!(out.len() >= 4 * many);
        let (state, sizes, retired, marked) = sender.rows();
        unsafe { mrc_resends(state.first, state.len, sizes.first, sizes.len, retired.first, retired.len, marked.first, marked.len, many, out.as_mut_ptr(), out.len()) }
    }
}

/// More than a record by value takes, of which a sender's has two bytes for each size and two rows of words: the last of it is spare.
const RECORD: usize = LARGEST_ROOM / 4 + 2 * WORDS + 16;
const SPARE: [u64; 8] = [0xA5A5_A5A5_A5A5_A5A5; 8];

/// A record by value, which only the library looks into.
#[derive(Clone)]
pub struct Own([u64; RECORD]);

fn own(start: unsafe extern "C" fn(*mut u64, u16, u32), room: u16, first: u32) -> Own {
    let mut record = Own([SPARE[0]; RECORD]);
    unsafe { start(record.0.as_mut_ptr(), room, first) };
    assert!(record.0.ends_with(&SPARE), "a record takes more than is thought here");
    record
}

/// The library by value.
#[derive(Clone)]
pub struct Value;

impl Card for Value {
    type Receiver = Own;
    type Sender = Own;

    fn receiver(room: u16, first: u32) -> Own {
        own(mrc_start_receiving_by_value, room, first)
    }

    fn sender(room: u16, first: u32) -> Own {
        own(mrc_start_sending_by_value, room, first)
    }

    fn arrivals(receiver: &mut Own, e: Arrivals, out: &mut [u64]) {
        e.check(out);
        let record = receiver.0.as_mut_ptr();
        unsafe { mrc_arrivals_by_value(record, e.psn.as_ptr(), e.psn.len(), e.size.as_ptr(), e.size.len(), e.flags.as_ptr(), e.flags.len(), e.entropy.as_ptr(), e.entropy.len(), out.as_mut_ptr(), out.len()) }
    }

    fn sends(sender: &mut Own, size: &[u16], out: &mut [u64]) {
        assert!(out.len() >= 4 * size.len());
        unsafe { mrc_sends_by_value(sender.0.as_mut_ptr(), size.as_ptr(), size.len(), out.as_mut_ptr(), out.len()) }
    }

    fn sacks(sender: &mut Own, e: &Sacks, out: &mut [u64]) {
        e.check(out);
        unsafe { mrc_sacks_by_value(sender.0.as_mut_ptr(), e.cack.as_ptr(), e.cack.len(), e.base.as_ptr(), e.base.len(), e.bitmap.as_ptr(), e.bitmap.len(), out.as_mut_ptr(), out.len()) }
    }

    fn nacks(sender: &mut Own, e: &Nacks, out: &mut [u64]) {
        e.check(out);
        unsafe { mrc_nacks_by_value(sender.0.as_mut_ptr(), e.psn.as_ptr(), e.psn.len(), e.reason.as_ptr(), e.reason.len(), out.as_mut_ptr(), out.len()) }
    }

    fn timers(sender: &mut Own, psn: &[u32], out: &mut [u64]) {
        assert!(out.len() >= 4 * psn.len());
        unsafe { mrc_timers_by_value(sender.0.as_mut_ptr(), psn.as_ptr(), psn.len(), out.as_mut_ptr(), out.len()) }
    }

    fn resends(sender: &mut Own, many: usize, out: &mut [u64]) {
        assert!(out.len() >= 4 * many);
        unsafe { mrc_resends_by_value(sender.0.as_mut_ptr(), many, out.as_mut_ptr(), out.len()) }
    }
}
