//! The slot machine, frame by frame as document 01 and requests say it.
//!
//! In each slot, first the arrivals: messages released now enter their first wire as whole frames,
//! and frames due now enter theirs, behind all earlier frames and among themselves in an order that
//! an adversary chooses. Where they come to an empty queue, the cabins choose for how many slots from
//! this one on the wire is held. Bytes not yet sent are counted. Then each wire that is not held sends
//! up to its rate in bytes.

use crate::opinion::Table;
use std::collections::{BTreeMap, VecDeque};

/// A message handed to the machine.
#[derive(Clone, Copy, Debug)]
pub struct Release {
    pub slot: u64,
    pub channel: usize,
    pub payload: u64,
}

#[derive(Clone, Debug)]
pub struct Frame {
    pub channel: usize,
    /// The slot in which its message was released.
    pub born: u64,
    pub size: u64,
    message: usize,
    hop: usize,
    entered: u64,
}

/// Puts the arrivals of one slot at one wire into the order in which they are queued.
pub type Order<'a> = dyn FnMut(u64, usize, &mut [Frame]) + 'a;

/// For how many slots the cabins hold a wire, asked with the slot, the wire and the most they may.
pub type Cabins<'a> = dyn FnMut(u64, usize, u64) -> u64 + 'a;

pub type Watch<'a> = dyn FnMut(Seen) + 'a;

/// What one wire did in one slot.
pub struct Seen<'a> {
    pub slot: u64,
    pub wire: usize,
    pub entered: &'a [Frame],
    /// Bytes after the arrivals and before sending.
    pub unsent: u64,
    /// Slots for which the wire is still held, this one counted.
    pub held: u64,
    pub gone: &'a [Frame],
}

/// The most that was seen: bytes not yet sent and slots taken at each wire, slots from end to end.
#[derive(Clone, Debug, PartialEq)]
pub struct Observed {
    pub unsent: Vec<u64>,
    pub delays: Vec<u64>,
    pub ends: Vec<u64>,
}

impl Observed {
    pub fn nothing(table: &Table) -> Observed {
        let wires = table.wires.len();
        Observed { unsent: vec![0; wires], delays: vec![0; wires], ends: vec![0; table.channels.len()] }
    }

    pub fn raise(&mut self, other: &Observed) {
        let raise = |mine: &mut Vec<u64>, other: &Vec<u64>| {
            mine.iter_mut().zip(other).for_each(|(mine, &other)| *mine = (*mine).max(other));
        };
        raise(&mut self.unsent, &other.unsent);
        raise(&mut self.delays, &other.delays);
        raise(&mut self.ends, &other.ends);
    }
}

/// Data, overhead and least data of a frame.
const FRAMINGS: [(u64, u64, u64); 2] = [(1_492, 50, 38), (1_464, 78, 10)];
const FULL_FRAME: u64 = FRAMINGS[0].0 + FRAMINGS[0].1;

/// The frames of a message.
pub fn frames(framing: usize, payload: u64) -> Vec<u64> {
    let (data, overhead, least) = FRAMINGS[framing];
    let mut left = payload;
    let mut sizes = Vec::new();
    while left > 0 {
        let part = left.min(data);
        sizes.push(part.max(least) + overhead);
        left -= part;
    }
    sizes
}

/// For how many slots the cabins may hold each wire: two full frames where it is first on some route,
/// one elsewhere.
fn longest_holds(table: &Table) -> Vec<u64> {
    let mut bytes = vec![FULL_FRAME; table.wires.len()];
    for channel in &table.channels {
        bytes[channel.route[0]] = 2 * FULL_FRAME;
    }
    bytes.iter().zip(&table.wires).map(|(bytes, wire)| bytes.div_ceil(wire.rate as u64)).collect()
}

#[derive(Default)]
struct Queue {
    frames: VecDeque<Frame>,
    /// Bytes of the first frame that are gone.
    sent: u64,
    unsent: u64,
    /// Slots for which the wire is still held.
    held: u64,
}

impl Queue {
    fn enter(&mut self, frame: Frame) {
        self.unsent += frame.size;
        self.frames.push_back(frame);
    }

    /// One slot: a held wire sends nothing, and another one up to `rate` bytes from the head on.
    /// Returns the frames whose last byte left.
    fn send(&mut self, rate: u64) -> Vec<Frame> {
        let mut gone = Vec::new();
        if self.held > 0 {
            self.held -= 1;
            return gone;
        }
        let mut budget = rate;
        while budget > 0 {
            let Some(head) = self.frames.front() else { break };
            let part = budget.min(head.size - self.sent);
            budget -= part;
            self.unsent -= part;
            self.sent += part;
            if self.sent == head.size {
                gone.extend(self.frames.pop_front());
                self.sent = 0;
            }
        }
        gone
    }

    /// In how many slots from now on the wire is held, or the head sends at full rate and does not end.
    fn quiet_slots(&self, rate: u64) -> u64 {
        self.frames.front().map_or(u64::MAX, |head| self.held + (head.size - self.sent - 1) / rate)
    }

    fn send_quietly(&mut self, slots: u64, rate: u64) {
        if !self.frames.is_empty() {
            let held = slots.min(self.held);
            let bytes = (slots - held) * rate;
            self.held -= held;
            self.sent += bytes;
            self.unsent -= bytes;
        }
    }
}

/// What the machine leaves to an adversary.
pub struct Choices<'a> {
    pub order: &'a mut Order<'a>,
    pub cabins: &'a mut Cabins<'a>,
}

struct Machine<'a> {
    table: &'a Table,
    longest_holds: Vec<u64>,
    queues: Vec<Queue>,
    /// Frames on their way: by slot, the wires that they enter.
    due: BTreeMap<u64, Vec<(usize, Frame)>>,
    /// Frames of each message that are not yet at its destination.
    missing: Vec<usize>,
    observed: Observed,
}

/// Runs the machine on releases in ascending slots until every message is at its destination. With
/// nobody to watch, slots in which no frame comes or goes are taken together.
pub fn run(table: &Table, releases: &[Release], mut choices: Choices, mut watch: Option<&mut Watch>) -> Observed {
    let mut machine = Machine {
        table,
        longest_holds: longest_holds(table),
        queues: table.wires.iter().map(|_| Queue::default()).collect(),
        due: BTreeMap::new(),
        missing: vec![0; releases.len()],
        observed: Observed::nothing(table),
    };
    let mut next = 0;
    let mut slot = 0;
    loop {
        while next < releases.len() && releases[next].slot <= slot {
            assert_eq!(releases[next].slot, slot, "releases in ascending slots");
            machine.release(next, releases[next]);
            next += 1;
        }
        machine.slot(slot, &mut choices, &mut watch);
        let coming = releases.get(next).map(|release| release.slot);
        match machine.next_slot(slot, coming) {
            Some(later) if watch.is_none() => slot = machine.pass_quiet_slots(later, coming),
            Some(later) => slot = later,
            None => break,
        }
    }
    assert!(machine.missing.iter().all(|&frames| frames == 0), "every message arrives");
    machine.observed
}

impl Machine<'_> {
    /// The frames of a message are due at its first wire in the slot of its release.
    fn release(&mut self, message: usize, release: Release) {
        let channel = &self.table.channels[release.channel];
        let sizes = frames(channel.framing, release.payload);
        self.missing[message] = sizes.len();
        for size in sizes {
            let frame = Frame { channel: release.channel, born: release.slot, size, message, hop: 0, entered: 0 };
            self.due.entry(release.slot).or_default().push((channel.route[0], frame));
        }
    }

    fn slot(&mut self, slot: u64, choices: &mut Choices, watch: &mut Option<&mut Watch>) {
        let arrivals = self.due.remove(&slot).unwrap_or_default();
        for wire in 0..self.queues.len() {
            let here = arrivals.iter().filter(|(to, _)| *to == wire);
            let mut entered: Vec<Frame> = here.map(|(_, frame)| Frame { entered: slot, ..frame.clone() }).collect();
            if entered.len() > 1 {
                (choices.order)(slot, wire, &mut entered);
            }
            let queue = &mut self.queues[wire];
            if queue.frames.is_empty() && !entered.is_empty() {
                let most = self.longest_holds[wire];
                queue.held = (choices.cabins)(slot, wire, most).min(most);
            }
            entered.iter().for_each(|frame| queue.enter(frame.clone()));
            let (unsent, held) = (queue.unsent, queue.held);
            let gone = queue.send(self.table.wires[wire].rate as u64);
            self.observed.unsent[wire] = self.observed.unsent[wire].max(unsent);
            if let Some(watch) = watch {
                watch(Seen { slot, wire, entered: &entered, unsent, held, gone: &gone });
            }
            for frame in gone {
                self.gone(slot, wire, frame);
            }
        }
    }

    /// A frame whose last byte leaves in this slot reaches what is next whole, one slot and the
    /// propagation later.
    fn gone(&mut self, slot: u64, wire: usize, mut frame: Frame) {
        let taken = slot + 1 - frame.entered;
        self.observed.delays[wire] = self.observed.delays[wire].max(taken);
        let there = slot + 1 + self.table.wires[wire].propagation as u64;
        frame.hop += 1;
        match self.table.channels[frame.channel].route.get(frame.hop) {
            Some(&next) => self.due.entry(there).or_default().push((next, frame)),
            None => self.at_destination(there, frame),
        }
    }

    fn at_destination(&mut self, slot: u64, frame: Frame) {
        self.missing[frame.message] -= 1;
        if self.missing[frame.message] == 0 {
            let end = &mut self.observed.ends[frame.channel];
            *end = (*end).max(slot - frame.born);
        }
    }

    /// The next slot in which anything can happen.
    fn next_slot(&self, slot: u64, release: Option<u64>) -> Option<u64> {
        if self.queues.iter().any(|queue| queue.unsent > 0) {
            return Some(slot + 1);
        }
        self.next_arrival(release)
    }

    fn next_arrival(&self, release: Option<u64>) -> Option<u64> {
        let due = self.due.keys().next().copied();
        due.into_iter().chain(release).min()
    }

    /// Sends through the slots from `slot` on in which no frame comes or goes.
    fn pass_quiet_slots(&mut self, slot: u64, release: Option<u64>) -> u64 {
        let rates = self.table.wires.iter().map(|wire| wire.rate as u64);
        let until_end = self.queues.iter().zip(rates.clone()).map(|(queue, rate)| queue.quiet_slots(rate)).min();
        let until_arrival = self.next_arrival(release).map_or(u64::MAX, |next| next - slot);
        let count = until_end.unwrap_or(u64::MAX).min(until_arrival);
        if count == 0 || count == u64::MAX {
            return slot;
        }
        self.queues.iter_mut().zip(rates).for_each(|(queue, rate)| queue.send_quietly(count, rate));
        slot + count
    }
}
