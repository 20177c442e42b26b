//! The marks of each slot, followed by events and answers alone: no record of a side is looked at. So the false alarms of a SACK are counted once
//! more, and it is told in which ways SACKs met marks.

use crate::side::{distance, on, set_bits, Outcome, HALF, TURN};
use std::collections::{BTreeMap, BTreeSet};

pub const WAYS: [&str; 6] = [
    "false alarms by cack",
    "false alarms by a bit",
    "SACKs with false alarms in two words",
    "false alarms of packets that were resent before",
    "SACKs that retire a resent packet, which is none",
    "SACKs that retire others and leave a mark",
];

/// The place, which packets are marked, and which were resent and are not retired.
#[derive(Default)]
struct Marks {
    place: u32,
    marked: BTreeSet<u32>,
    resent: BTreeSet<u32>,
}

#[derive(Default)]
pub struct Followed(BTreeMap<u64, Marks>);

impl Followed {
    /// In which ways a SACK met marks, where the event was one. The line must have as many false alarms as are found here.
    pub fn event(&mut self, slot: u64, kind: usize, fields: &[u64], outcome: &Outcome) -> Vec<usize> {
        let Ok(done) = outcome else {
            return vec![];
        };
        let marks = self.0.entry(slot).or_default();
        match kind {
            1 => *marks = Marks { place: on(fields[1] as u32, TURN - 1), ..Marks::default() },
            5 => {
                let (ways, alarms) = marks.sack(fields[0] as u32, fields[1] as u32, fields[2], &done.values);
                assert_eq!(done.values[3], alarms, "false alarms of a SACK in slot {slot}");
                return ways;
            }
            6 | 7 if done.values[0] == 1 => {
                marks.marked.insert(fields[0] as u32);
            }
            8 => {
                let psn = done.values[0] as u32;
                marks.marked.remove(&psn);
                marks.resent.insert(psn);
            }
            _ => {}
        }
        vec![]
    }
}

impl Marks {
    fn sack(&mut self, cack: u32, base: u32, bitmap: u64, values: &[u64]) -> (Vec<usize>, u64) {
        let (place, far) = (self.place, distance(self.place, cack));
        let by_cack = |psn: &u32| far < HALF && (1..=far).contains(&distance(place, *psn));
        let by_bit = |psn: &u32| set_bits(base, bitmap).any(|named| named == *psn);
        let named = |psn: &u32| by_cack(psn) || by_bit(psn);
        let alarms: Vec<u32> = self.marked.iter().copied().filter(named).collect();
        let ways = [
            alarms.iter().any(by_cack),
            alarms.iter().any(by_bit),
            alarms.iter().any(|psn| psn / 64 != alarms[0] / 64),
            alarms.iter().any(|psn| self.resent.contains(psn)),
            self.resent.iter().any(|psn| named(psn) && !self.marked.contains(psn)),
            values[0] > 0 && self.marked.len() > alarms.len(),
        ];
        self.marked.retain(|psn| !named(psn));
        self.resent.retain(|psn| !named(psn));
        self.place = values[1] as u32;
        ((0..ways.len()).filter(|&i| ways[i]).collect(), alarms.len() as u64)
    }
}
