//! Scripted runs of the slot machine, slot by slot, as text: the same runs can be computed by
//! definitions elsewhere and compared line by line.

use crate::generate::{plain_channel, Draft, DraftWire};
use crate::hex;
use crate::machine::{self, Choices, Frame, Observed, Release, Seen};
use crate::opinion::{self, Table};

struct Script {
    name: &'static str,
    draft: Draft,
    /// Slot, channel, payload; within a slot in the order in which they are queued.
    releases: Vec<(u64, usize, u64)>,
    /// Slots at a wire whose arrivals are put in another order: slot, wire, and the messages as
    /// channel and slot of release. Elsewhere they keep the order in which they left or were released.
    orders: &'static [(u64, usize, &'static [(usize, u64)])],
    /// Slot, wire, and for how many slots the cabins hold it if they may then. At other times they do not.
    holds: &'static [(u64, usize, u64)],
}

/// A draft of wires (rate code, propagation) and plain channels (payload, period, route).
fn draft(hyperperiod: u64, wires: &[(u64, u64)], channels: &[(u64, u64, &[u64])]) -> Draft {
    let mut draft = Draft {
        hyperperiod,
        wire_count: wires.len() as u64,
        channel_count: channels.len() as u64,
        wires: wires.iter().map(|&(code, propagation)| DraftWire { code, propagation, room: 0 }).collect(),
        channels: channels
            .iter()
            .map(|&(payload, period, route)| plain_channel(payload, period, route.to_vec()))
            .collect(),
    };
    draft.tighten().expect("a sound table");
    draft
}

/// The same, one of its channels with IP and UDP.
fn with_udp(mut draft: Draft, channel: usize) -> Draft {
    draft.channels[channel].framing = 1;
    draft.tighten().expect("a sound table");
    draft
}

fn scripts() -> [Script; 8] {
    [two_frames(), ending_together(), shuffled(), two_rates(), later_wire(), full_wire(), three_hops(), two_framings()]
}

fn two_frames() -> Script {
    Script {
        name: "a message of two frames, and a shorter one between them on wire 1",
        draft: draft(100, &[(2, 1), (2, 2)], &[(1_493, 100, &[0, 1]), (55, 50, &[1])]),
        releases: vec![(0, 0, 1_493), (20, 1, 55)],
        orders: &[(20, 1, &[(1, 20), (0, 0)])],
        holds: &[(0, 0, 2), (19, 1, 3)],
    }
}

fn ending_together() -> Script {
    Script {
        name: "several frames ending in one slot at rate 100; wire 0 held again, wire 1 no longer than it may be",
        draft: draft(10, &[(2, 0), (2, 0)], &[(70, 10, &[0, 1]), (1, 5, &[0, 1]), (1, 10, &[0, 1])]),
        releases: vec![(0, 0, 70), (0, 1, 1), (0, 2, 1), (5, 1, 1)],
        orders: &[],
        holds: &[(0, 0, 2), (4, 1, 20), (5, 0, 3)],
    }
}

fn shuffled() -> Script {
    Script {
        name:
            "a shuffled slot: releases in slot 0, frames due and a release in slot 5; wire 1 not held again in slot 8",
        draft: draft(
            12,
            &[(2, 0), (2, 0)],
            &[(1, 6, &[0, 1]), (39, 12, &[0, 1]), (62, 12, &[0]), (62, 12, &[0, 1]), (1, 4, &[1])],
        ),
        releases: vec![(0, 3, 62), (0, 0, 1), (0, 2, 62), (0, 1, 39), (5, 4, 1)],
        orders: &[(5, 1, &[(4, 5), (0, 0), (3, 0)])],
        holds: &[(0, 0, 3), (5, 1, 2), (8, 1, 4)],
    }
}

fn two_rates() -> Script {
    Script {
        name: "wires of rate 100 and 10",
        draft: draft(20, &[(2, 0), (1, 1)], &[(1, 20, &[0, 1])]),
        releases: vec![(0, 0, 1)],
        orders: &[],
        holds: &[(0, 0, 2), (3, 1, 3)],
    }
}

fn later_wire() -> Script {
    Script {
        name: "delays reached exactly on a later wire",
        draft: draft(66, &[(2, 0), (2, 0)], &[(1, 33, &[0, 1]), (63, 66, &[0])]),
        releases: vec![(0, 1, 63), (0, 0, 1), (33, 0, 1)],
        orders: &[(34, 1, &[(0, 33), (0, 0)])],
        holds: &[(0, 0, 31), (34, 1, 16)],
    }
}

fn full_wire() -> Script {
    Script {
        name: "figures reached exactly on a wire full of load",
        draft: draft(1, &[(2, 0)], &[(50, 1, &[0])]),
        releases: (0..34).map(|slot| (slot, 0, 50)).collect(),
        orders: &[],
        holds: &[(0, 0, 31)],
    }
}

fn three_hops() -> Script {
    Script {
        name: "a channel over three wires, and another that it meets on the third; wires 1 and 2 held",
        draft: draft(50, &[(2, 2), (2, 1), (2, 3)], &[(100, 50, &[0, 1, 2]), (60, 25, &[2])]),
        releases: vec![(0, 0, 100), (1, 1, 60)],
        orders: &[],
        holds: &[(1, 2, 8), (4, 1, 2)],
    }
}

fn two_framings() -> Script {
    Script {
        name: "a message with IP and UDP that plain would be one frame, and a plain one",
        draft: with_udp(draft(40, &[(2, 2)], &[(1_465, 40, &[0]), (11, 20, &[0])]), 0),
        releases: vec![(0, 0, 1_465), (3, 1, 11)],
        orders: &[],
        holds: &[(0, 0, 1)],
    }
}

/// Not among the printed runs, for its length.
fn full_later_wire() -> Script {
    let mut releases: Vec<(u64, usize, u64)> = (0..20).map(|count| (88 * count, 0, 1)).collect();
    releases.insert(18, (88 * 18, 1, 5_413));
    releases.insert(0, (0, 1, 5_413));
    Script {
        name: "figures reached exactly on a later wire full of load",
        draft: draft(88, &[(2, 0), (0, 0)], &[(1, 88, &[0, 1]), (5_413, 88, &[0])]),
        releases,
        orders: &[(1_673, 1, &[(0, 1_672), (0, 1_584)])],
        holds: &[(0, 0, 31), (89, 1, 1_542), (1_584, 0, 31)],
    }
}

/// The text of all runs.
pub fn text() -> String {
    scripts().iter().map(Script::text).collect::<Vec<_>>().join("\n")
}

impl Script {
    fn text(&self) -> String {
        let bytes = self.draft.encode();
        let accepted = opinion::verdict(&bytes, usize::MAX).expect("an accepted table");
        let mut lines = vec![format!("run: {}", self.name), format!("table {}", hex::show(&bytes))];
        lines.extend(describe(&accepted.table, &accepted.figures));
        for (slot, channel, payload) in &self.releases {
            lines.push(format!("release in slot {slot}: channel {channel} payload {payload}"));
        }
        for (slot, wire, order) in self.orders {
            let order: Vec<String> = order.iter().map(|(channel, born)| format!("{channel}@{born}")).collect();
            lines.push(format!("order in slot {slot} at wire {wire}: {}", order.join(" ")));
        }
        for (slot, wire, slots) in self.holds {
            lines.push(format!("hold in slot {slot} at wire {wire}: {slots}"));
        }
        let observed = self.run(&accepted.table, Some(&mut |seen| lines.push(line(seen))));
        let Observed { unsent, delays, ends } = observed;
        lines.push(format!("most: unsent {unsent:?} delays {delays:?} ends {ends:?}"));
        lines.join("\n") + "\n"
    }

    fn run(&self, table: &Table, watch: Option<&mut machine::Watch>) -> Observed {
        let release = |&(slot, channel, payload)| Release { slot, channel, payload };
        let releases: Vec<Release> = self.releases.iter().map(release).collect();
        let mut order = |slot: u64, wire: usize, frames: &mut [Frame]| {
            if let Some((_, _, order)) = self.orders.iter().find(|o| (o.0, o.1) == (slot, wire)) {
                frames.sort_by_key(|f| order.iter().position(|&message| message == (f.channel, f.born)));
            }
        };
        let mut cabins = |slot: u64, wire: usize, _| {
            let hold = self.holds.iter().find(|hold| (hold.0, hold.1) == (slot, wire));
            hold.map_or(0, |hold| hold.2)
        };
        machine::run(table, &releases, Choices { order: &mut order, cabins: &mut cabins }, watch)
    }
}

fn describe(table: &Table, figures: &opinion::Figures) -> Vec<String> {
    let mut lines = vec![format!("hyperperiod {}", table.hyperperiod)];
    for (number, wire) in table.wires.iter().enumerate() {
        let (backlog, delay) = (figures.backlogs[number], figures.delays[number]);
        lines.push(format!(
            "wire {number}: rate {} propagation {} backlog {backlog} delay {delay}",
            wire.rate, wire.propagation
        ));
    }
    for (number, channel) in table.channels.iter().enumerate() {
        let framing = ["plain", "with IP and UDP"][channel.framing];
        let frames = machine::frames(channel.framing, channel.payload as u64);
        lines.push(format!(
            "channel {number}: {framing} payload {} frames {frames:?} period {} route {:?} end to end {}",
            channel.payload, channel.period, channel.route, figures.ends[number]
        ));
    }
    lines
}

/// One wire in one slot; a frame is channel@born:size.
fn line(seen: Seen) -> String {
    let Seen { slot, wire, entered, unsent, held, gone } = seen;
    let (entered, gone) = (list(entered), list(gone));
    format!("slot {slot} wire {wire} enter {entered} unsent {unsent} held {held} gone {gone}")
}

fn list(frames: &[Frame]) -> String {
    if frames.is_empty() {
        return "-".to_string();
    }
    let show = |frame: &Frame| format!("{}@{}:{}", frame.channel, frame.born, frame.size);
    frames.iter().map(show).collect::<Vec<_>>().join(" ")
}

/// A run that reaches a figure of a wire and the end-to-end delay of channel 0 exactly.
struct Exact {
    script: Script,
    table: &'static str,
    of_wire: fn(&Observed) -> u64,
    reached: (u64, u64),
}

impl Exact {
    fn check(&self) -> Result<(), String> {
        let bytes = self.script.draft.encode();
        if hex::show(&bytes) != self.table {
            return Err(format!("{}: another table: {}", self.script.name, hex::show(&bytes)));
        }
        let accepted = opinion::verdict(&bytes, usize::MAX).expect("an accepted table");
        let observed = self.script.run(&accepted.table, None);
        if ((self.of_wire)(&observed), observed.ends[0]) == self.reached {
            Ok(())
        } else {
            Err(format!("{}: not so: {observed:?}", self.script.name))
        }
    }
}

/// Tables that are given, with the figures that their runs reach exactly.
pub fn check_exact_runs() -> Result<(), String> {
    let later_wire = Exact {
        script: later_wire(),
        table: "00004204050000019cb000000de000010000210000342001001f8000210000110800",
        of_wire: |seen| seen.delays[1],
        reached: (18, 52),
    };
    let full_wire = Exact {
        script: full_wire(),
        table: "00000102030000019000032000001000020100",
        of_wire: |seen| seen.unsent[0],
        reached: (3_200, 32),
    };
    let full_later_wire = Exact {
        script: full_later_wire(),
        table: "00005804050000044c2000000d6c000100005800070f20010a9280002c00002c8800",
        of_wire: |seen| seen.unsent[1],
        reached: (1_718, 1_807),
    };
    [later_wire, full_wire, full_later_wire].iter().try_for_each(Exact::check)
}
