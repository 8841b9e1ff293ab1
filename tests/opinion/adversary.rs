//! Adversaries that drive the slot machine: they choose when messages are released, how long they
//! are, who is queued first within a slot, and for how long the cabins hold a wire. Releases of a
//! channel are a period or more apart.

use crate::machine::{self, Choices, Frame, Observed, Release};
use crate::opinion::{self, Figures, Table};
use crate::rng::Rng;

/// Messages of one channel in one run.
const MOST_MESSAGES: u64 = 40;
/// The same where every channel releases as often as it may.
const MOST_AT_ONCE: u64 = 80;

/// One run: what is released, who goes last within a slot, and what the cabins do.
#[derive(Clone)]
pub struct Attack {
    pub name: &'static str,
    pub releases: Vec<Release>,
    pub order: Order,
    pub cabins: Cabins,
}

#[derive(Clone)]
pub enum Order {
    Shuffled(u64),
    /// Channels of a higher rank go later; of one rank, the message born first goes last.
    Ranked(Vec<u64>),
}

#[derive(Clone, Debug)]
pub enum Cabins {
    Nobody,
    /// They hold a wire as long and as often as they may.
    Always,
    /// Each time any number of slots up to the most.
    Random(u64),
    /// By wire.
    Planned(Vec<Hold>),
}

/// The first times that the cabins may hold a wire, they hold it for so many slots.
#[derive(Clone, Copy, Debug)]
pub struct Hold {
    times: u64,
    slots: u64,
}

const NEVER: Hold = Hold { times: 0, slots: 0 };
const ONCE: Hold = Hold { times: 1, slots: u64::MAX };
const EACH_TIME: Hold = Hold { times: u64::MAX, slots: u64::MAX };

impl Cabins {
    pub fn drawn(rng: &mut Rng) -> Cabins {
        match rng.below(4) {
            0 => Cabins::Nobody,
            1 => Cabins::Always,
            _ => Cabins::Random(rng.next()),
        }
    }

    /// What the machine asks.
    fn chooser(&self) -> Box<machine::Cabins<'static>> {
        match self {
            Cabins::Nobody => Box::new(|_, _, _| 0),
            Cabins::Always => Box::new(|_, _, most| most),
            Cabins::Random(seed) => {
                let mut rng = Rng::new(*seed);
                Box::new(move |_, _, most| rng.range(0, most))
            }
            Cabins::Planned(holds) => {
                let mut left = holds.clone();
                Box::new(move |_, wire, _| {
                    let Hold { times, slots } = left[wire];
                    left[wire].times = times.saturating_sub(1);
                    if times > 0 {
                        slots
                    } else {
                        0
                    }
                })
            }
        }
    }
}

impl Order {
    /// What the machine asks.
    fn chooser(&self) -> Box<machine::Order<'static>> {
        match self {
            Order::Shuffled(seed) => {
                let mut rng = Rng::new(*seed);
                Box::new(move |_, _, frames| rng.shuffle(frames))
            }
            Order::Ranked(ranks) => {
                let ranks = ranks.clone();
                Box::new(move |_, _, frames: &mut [Frame]| {
                    frames.sort_by_key(|f| (ranks[f.channel], u64::MAX - f.born));
                })
            }
        }
    }
}

impl Attack {
    pub fn run(&mut self, table: &Table) -> Observed {
        self.run_watched(table, None)
    }

    pub fn run_slot_by_slot(&mut self, table: &Table) -> Observed {
        self.run_watched(table, Some(&mut |_| {}))
    }

    fn run_watched(&mut self, table: &Table, watch: Option<&mut machine::Watch>) -> Observed {
        self.releases.sort_by_key(|release| release.slot);
        let choices = Choices { order: &mut *self.order.chooser(), cabins: &mut *self.cabins.chooser() };
        machine::run(table, &self.releases, choices, watch)
    }
}

fn declared(table: &Table, channel: usize) -> u64 {
    table.channels[channel].payload as u64
}

fn period(table: &Table, channel: usize) -> u64 {
    table.channels[channel].period as u64
}

fn rank_last(table: &Table, victim: usize) -> Vec<u64> {
    (0..table.channels.len()).map(|channel| (channel == victim) as u64).collect()
}

/// Every channel releases in slot 0 and then every period, past the longest hold.
pub fn all_at_once(rng: &mut Rng, table: &Table, cabins: Cabins) -> Attack {
    let victim = rng.below(table.channels.len() as u64) as usize;
    let longest = (0..table.wires.len()).map(|wire| opinion::hold(table, wire)).max().unwrap_or(0);
    let end = (2 * table.hyperperiod + longest) as u64;
    let mut releases = Vec::new();
    for channel in 0..table.channels.len() {
        for count in 0..MOST_AT_ONCE.min(end / period(table, channel)) {
            let slot = count * period(table, channel);
            releases.push(Release { slot, channel, payload: declared(table, channel) });
        }
    }
    Attack { name: "all at once", releases, order: Order::Ranked(rank_last(table, victim)), cabins }
}

/// Random phases, gaps and payloads, and a random order within each slot.
pub fn random(rng: &mut Rng, table: &Table, cabins: Cabins) -> Attack {
    let mut releases = Vec::new();
    for channel in 0..table.channels.len() {
        let every = period(table, channel);
        let mut slot = rng.below(every.min(3_000));
        for _ in 0..rng.range(1, MOST_MESSAGES) {
            let most = declared(table, channel);
            let payload = if rng.chance(1, 2) { most } else { rng.range(1, most) };
            releases.push(Release { slot, channel, payload });
            slot += every + if rng.chance(1, 4) { rng.below(every) } else { 0 };
        }
    }
    Attack { name: "random", releases, order: Order::Shuffled(rng.next()), cabins }
}

/// What a run is aimed at.
#[derive(Clone, Copy)]
pub enum Target {
    Wire(usize),
    Channel(usize),
}

/// The plan of an aimed run: each channel's first release and how many there are, period by period,
/// and what the cabins do at each wire.
#[derive(Clone)]
pub struct Plan {
    target: Target,
    first: Vec<u64>,
    count: Vec<u64>,
    ranks: Vec<u64>,
    holds: Vec<Hold>,
}

/// Aims at one slot of one wire. Going backwards from that wire, each wire gets the slot in which a
/// crowd there would hold frames back until just that slot; every channel starts with the crowd of
/// its first wire, and its later messages come close behind. Where the wire itself is the target,
/// messages go on coming while the cabins hold it.
pub fn aimed(rng: &mut Rng, table: &Table, figures: &Figures, target: Target) -> Plan {
    let wire = match target {
        Target::Wire(wire) => wire,
        Target::Channel(channel) => *table.channels[channel].route.last().unwrap(),
    };
    let crowd = crowd_slots(rng, table, figures, wire, target);
    let slot_at = crowd[wire].unwrap();
    let holds = planned_holds(rng, &crowd, wire);
    let mut plan = Plan { target, first: Vec::new(), count: Vec::new(), ranks: Vec::new(), holds };
    for (number, channel) in table.channels.iter().enumerate() {
        let first = crowd[channel.route[0]];
        plan.first.push(first.unwrap_or(rng.below(slot_at + 1)));
        let passes = channel.route.contains(&wire);
        let until = if passes { slot_at + beyond(table, target) } else { slot_at };
        let close_behind = until.saturating_sub(plan.first[number]) / period(table, number) + 1;
        let count = match first {
            None => 0,
            Some(_) if passes || rng.chance(1, 3) => close_behind.min(MOST_MESSAGES),
            Some(_) => 1,
        };
        plan.count.push(count);
        let victim = matches!(target, Target::Channel(victim) if victim == number);
        plan.ranks.push(passes as u64 + victim as u64);
    }
    plan
}

/// How long after the crowd a wire full of load holds the most: twice the hold and a period.
fn beyond(table: &Table, target: Target) -> u64 {
    let Target::Wire(wire) = target else { return 0 };
    let users = table.channels.iter().filter(|channel| channel.route.contains(&wire));
    let longest = users.map(|channel| channel.period).max().unwrap_or(0);
    (2 * opinion::hold(table, wire) + longest) as u64
}

/// The cabins hold the wire aimed at each time, and those before it mostly for the first crowd only.
fn planned_holds(rng: &mut Rng, crowd: &[Option<u64>], wire: usize) -> Vec<Hold> {
    let mut hold = |slot: &Option<u64>| match (slot, rng.below(10)) {
        (None, _) | (_, 0) => NEVER,
        (_, 1) => EACH_TIME,
        _ => ONCE,
    };
    let mut holds: Vec<Hold> = crowd.iter().map(&mut hold).collect();
    holds[wire] = EACH_TIME;
    holds
}

/// For each wire from which frames reach `wire`, the slot in which its crowd gathers.
fn crowd_slots(rng: &mut Rng, table: &Table, figures: &Figures, wire: usize, target: Target) -> Vec<Option<u64>> {
    let all: u128 = figures.delays.iter().sum::<u128>() + table.wires.iter().map(|w| w.propagation).sum::<u128>();
    let mut crowd = vec![None; table.wires.len()];
    crowd[wire] = Some(all as u64);
    for earlier in (0..wire).rev() {
        let mut next = Vec::new();
        for (number, channel) in table.channels.iter().enumerate() {
            let hop = channel.route.iter().position(|&w| w == earlier);
            let after = hop.and_then(|hop| channel.route.get(hop + 1)).and_then(|&w| crowd[w]);
            let aimed_at = matches!(target, Target::Channel(victim) if victim == number);
            if aimed_at && after.is_some() {
                next = vec![after];
                break;
            }
            next.extend(after.map(Some));
        }
        if !next.is_empty() {
            let held_back = figures.delays[earlier] + table.wires[earlier].propagation;
            crowd[earlier] = rng.pick(&next).map(|slot: u64| slot.saturating_sub(held_back as u64));
        }
    }
    crowd
}

impl Plan {
    pub fn attack(&self, table: &Table) -> Attack {
        let mut releases = Vec::new();
        for channel in 0..table.channels.len() {
            for count in 0..self.count[channel] {
                let slot = self.first[channel] + count * period(table, channel);
                releases.push(Release { slot, channel, payload: declared(table, channel) });
            }
        }
        let (order, cabins) = (Order::Ranked(self.ranks.clone()), Cabins::Planned(self.holds.clone()));
        Attack { name: "aimed", releases, order, cabins }
    }

    /// How much of the target's figure a run reached, in millionths.
    pub fn reached(&self, observed: &Observed, figures: &Figures) -> u128 {
        match self.target {
            Target::Wire(wire) => observed.unsent[wire] as u128 * 1_000_000 / figures.backlogs[wire].max(1),
            Target::Channel(channel) => observed.ends[channel] as u128 * 1_000_000 / figures.ends[channel],
        }
    }

    /// The plan with one channel's releases moved, or one more or fewer of them, or another order, or
    /// with one wire held otherwise.
    pub fn changed(&self, rng: &mut Rng, table: &Table) -> Plan {
        let mut plan = self.clone();
        let channel = rng.below(plan.first.len() as u64) as usize;
        let wire = rng.below(plan.holds.len() as u64) as usize;
        let longest = opinion::hold(table, wire) as u64;
        match rng.below(8) {
            0 => plan.count[channel] = rng.range(0, (plan.count[channel] + 1).min(MOST_MESSAGES)),
            1 => plan.ranks[channel] = rng.below(4),
            2 => {
                let near = period(table, channel).min(2_000);
                plan.first[channel] = (plan.first[channel] + rng.range(0, 2 * near)).saturating_sub(near);
            }
            3 => plan.holds[wire] = rng.pick(&[NEVER, ONCE, EACH_TIME]),
            4 => plan.holds[wire] = Hold { times: rng.range(1, 3), slots: rng.range(0, longest) },
            _ => plan.first[channel] = (plan.first[channel] + rng.range(0, 6)).saturating_sub(3),
        }
        plan
    }
}
