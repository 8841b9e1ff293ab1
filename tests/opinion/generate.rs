//! Seeded tables: sound ones at their edges, and damaged ones of every kind.

use crate::opinion::{self, Figures, Table};
use crate::rng::Rng;

const FULL: u64 = opinion::FULL_FRAME as u64;
const SMALL_COST: u64 = opinion::SMALL_FRAME as u64;
const PLAIN_DATA: u64 = opinion::FRAMINGS[0].data as u64;
const PLAIN_OVERHEAD: u64 = opinion::FRAMINGS[0].overhead as u64;
const MOST_ROOM: u64 = (1 << 24) - 1;
const MOST_DEADLINE: u64 = (1 << 24) - 1;

// ---- a table before it is written: every field may hold anything that fits its width ----

#[derive(Clone)]
pub struct DraftWire {
    pub code: u64,
    pub propagation: u64,
    pub room: u64,
}

#[derive(Clone)]
pub struct DraftChannel {
    pub framing: u64,
    pub payload: u64,
    pub period: u64,
    pub deadline: u64,
    /// The hops field; the route written may have another length in a damaged table.
    pub hops: u64,
    pub route: Vec<u64>,
}

#[derive(Clone)]
pub struct Draft {
    pub hyperperiod: u64,
    pub wire_count: u64,
    pub channel_count: u64,
    pub wires: Vec<DraftWire>,
    pub channels: Vec<DraftChannel>,
}

/// Bits gathered most significant first.
struct Gathered {
    bytes: Vec<u8>,
    bits: usize,
}

impl Gathered {
    fn put(&mut self, width: usize, value: u64) {
        for place in (0..width).rev() {
            if self.bits % 8 == 0 {
                self.bytes.push(0);
            }
            let last = self.bytes.len() - 1;
            self.bytes[last] |= ((value >> place & 1) as u8) << (7 - self.bits % 8);
            self.bits += 1;
        }
    }
}

impl Draft {
    pub fn encode(&self) -> Vec<u8> {
        self.gathered().bytes
    }

    fn gathered(&self) -> Gathered {
        let mut gathered = Gathered { bytes: Vec::new(), bits: 0 };
        gathered.put(24, self.hyperperiod);
        gathered.put(7, self.wire_count);
        gathered.put(8, self.channel_count);
        for wire in &self.wires {
            gathered.put(2, wire.code);
            gathered.put(10, wire.propagation);
            gathered.put(24, wire.room);
        }
        for channel in &self.channels {
            gathered.put(1, channel.framing);
            gathered.put(16, channel.payload);
            gathered.put(24, channel.period);
            gathered.put(24, channel.deadline);
            gathered.put(4, channel.hops);
            for &wire in &channel.route {
                gathered.put(6, wire);
            }
        }
        gathered
    }

    /// How many filling bits the last byte has.
    fn filling(&self) -> usize {
        let gathered = self.gathered();
        8 * gathered.bytes.len() - gathered.bits
    }

    fn count(&mut self) {
        self.wire_count = self.wires.len() as u64;
        self.channel_count = self.channels.len() as u64;
    }

    /// The table as the second opinion reads it.
    pub fn table(&self) -> Option<Table> {
        opinion::decode(&self.encode()).ok()
    }

    /// The figures with every room and deadline as large as it goes.
    fn figures(&self) -> Option<Figures> {
        let mut open = self.clone();
        open.wires.iter_mut().for_each(|wire| wire.room = MOST_ROOM);
        let table = open.table()?;
        opinion::test_loads(&table).ok()?;
        opinion::bounds(&table, &opinion::RULES).ok()
    }

    /// Sets every room and deadline exactly to its figure. None where a figure fits no field.
    pub fn tighten(&mut self) -> Option<Figures> {
        let figures = self.figures()?;
        for (wire, &backlog) in self.wires.iter_mut().zip(&figures.backlogs) {
            wire.room = backlog as u64;
        }
        for (channel, &end) in self.channels.iter_mut().zip(&figures.ends) {
            if end > MOST_DEADLINE as u128 {
                return None;
            }
            channel.deadline = end as u64;
        }
        Some(figures)
    }

    fn rate(&self, wire: usize) -> u64 {
        [1, 10, 100, 0][self.wires[wire].code as usize]
    }

    fn share(&self, channel: &DraftChannel) -> u64 {
        price(channel) * (self.hyperperiod / channel.period)
    }

    fn overfull(&self) -> Option<usize> {
        (0..self.wires.len()).find(|&wire| {
            let users = self.channels.iter().filter(|c| c.route.contains(&(wire as u64)));
            users.map(|c| self.share(c)).sum::<u64>() > self.rate(wire) * self.hyperperiod
        })
    }
}

fn price(channel: &DraftChannel) -> u64 {
    opinion::price(channel.framing, channel.payload).expect("a sound payload") as u64
}

// ---- hyperperiods and their divisors ----

pub struct Hyperperiod {
    pub slots: u64,
    pub divisors: Vec<u64>,
}

impl Hyperperiod {
    pub fn of(slots: u64) -> Hyperperiod {
        let low: Vec<u64> = (1..).take_while(|d| d * d <= slots).filter(|d| slots % d == 0).collect();
        let high = low.iter().rev().map(|d| slots / d);
        let mut divisors: Vec<u64> = low.iter().copied().chain(high).collect();
        divisors.dedup();
        Hyperperiod { slots, divisors }
    }
}

const HYPERPERIODS: [u64; 23] = [
    1, 2, 4, 12, 60, 88, 97, 264, 840, 880, 1_000, 2_520, 5_040, 12_500, 27_720, 100_000, 720_720, 1_048_576,
    6_250_000, 8_388_608, 12_252_240, 12_499_999, 12_500_000,
];

pub fn hyperperiods(rng: &mut Rng) -> Vec<Hyperperiod> {
    let drawn: Vec<u64> = (0..30).map(|i| rng.range(1, [500, 20_000, 12_500_000][i % 3])).collect();
    HYPERPERIODS.into_iter().chain(drawn).map(Hyperperiod::of).collect()
}

// ---- sound tables ----

/// What a sound table is drawn from.
pub struct Shape {
    pub wires: (u64, u64),
    pub channels: (u64, u64),
    pub hops: (u64, u64),
    pub least_payload: u64,
    pub most_payload: u64,
    pub least_hyperperiod: u64,
    pub most_hyperperiod: u64,
}

pub const SMALL: Shape = Shape {
    wires: (1, 8),
    channels: (1, 10),
    hops: (1, 8),
    least_payload: 1,
    most_payload: 65_535,
    least_hyperperiod: 1,
    most_hyperperiod: 12_500_000,
};
pub const MIDDLE: Shape = Shape { wires: (8, 64), channels: (8, 128), ..SMALL };
pub const LONGEST: Shape = Shape {
    wires: (64, 64),
    channels: (128, 128),
    hops: (8, 8),
    most_payload: 1_464,
    least_hyperperiod: 100_000,
    ..SMALL
};

/// Long messages over long routes in a long hyperperiod: the largest numerators, and jitters that
/// grow from wire to wire until a room cannot hold the backlog.
pub const TOWERING: Shape = Shape {
    wires: (10, 64),
    channels: (4, 40),
    hops: (8, 8),
    least_payload: 50_000,
    least_hyperperiod: 6_000_000,
    ..SMALL
};

const PAYLOADS: [u64; 19] =
    [1, 9, 10, 11, 37, 38, 39, 1_463, 1_464, 1_465, 1_491, 1_492, 1_493, 1_529, 1_530, 1_531, 2_984, 2_985, 65_535];

fn payload(rng: &mut Rng, least: u64, most: u64) -> u64 {
    let drawn = match rng.below(6) {
        0 => 1,
        1 => rng.range(1, 100),
        2 => rng.pick(&PAYLOADS),
        3 => rng.range(1, 65_535),
        _ => rng.range(1, 1_600),
    };
    drawn.clamp(least, most)
}

fn propagation(rng: &mut Rng) -> u64 {
    match rng.below(4) {
        0 => 0,
        1 => 1_023,
        2 => rng.range(0, 1_023),
        _ => rng.range(0, 20),
    }
}

/// An ascending route of `hops` wires below `wires`.
fn route(rng: &mut Rng, wires: u64, hops: u64) -> Vec<u64> {
    let mut all: Vec<u64> = (0..wires).collect();
    rng.shuffle(&mut all);
    all.truncate(hops as usize);
    all.sort();
    all
}

fn wire(rng: &mut Rng) -> DraftWire {
    DraftWire { code: rng.below(3), propagation: propagation(rng), room: MOST_ROOM }
}

fn channel(rng: &mut Rng, shape: &Shape, wires: u64, hyperperiod: &Hyperperiod) -> DraftChannel {
    let hops = rng.range(shape.hops.0, shape.hops.1).min(wires);
    let from = if rng.chance(2, 3) { hyperperiod.divisors.len() / 2 } else { 0 };
    DraftChannel {
        framing: rng.below(2),
        payload: payload(rng, shape.least_payload, shape.most_payload),
        period: rng.pick(&hyperperiod.divisors[from..]),
        deadline: MOST_DEADLINE,
        hops,
        route: route(rng, wires, hops),
    }
}

/// A table that no test up to 12 refuses.
pub fn sound(rng: &mut Rng, shape: &Shape, pool: &[Hyperperiod]) -> Draft {
    let fits = |h: &&Hyperperiod| (shape.least_hyperperiod..=shape.most_hyperperiod).contains(&h.slots);
    let pool: Vec<&Hyperperiod> = pool.iter().filter(fits).collect();
    let hyperperiod = rng.pick(&pool);
    let wires = rng.range(shape.wires.0, shape.wires.1);
    let channels = rng.range(shape.channels.0, shape.channels.1);
    let mut draft = Draft {
        hyperperiod: hyperperiod.slots,
        wire_count: 0,
        channel_count: 0,
        wires: (0..wires).map(|_| wire(rng)).collect(),
        channels: (0..channels).map(|_| channel(rng, shape, wires, hyperperiod)).collect(),
    };
    relieve(rng, &mut draft, hyperperiod);
    draft.count();
    draft
}

/// Takes load off until no wire is over its rate.
fn relieve(rng: &mut Rng, draft: &mut Draft, hyperperiod: &Hyperperiod) {
    while let Some(wire) = draft.overfull() {
        let uses = |&c: &usize| draft.channels[c].route.contains(&(wire as u64));
        let users: Vec<usize> = (0..draft.channels.len()).filter(uses).collect();
        let chosen = rng.pick(&users);
        let channel = &mut draft.channels[chosen];
        if channel.period < draft.hyperperiod {
            let next = hyperperiod.divisors.iter().position(|&d| d > channel.period).unwrap();
            channel.period = rng.pick(&hyperperiod.divisors[next..]);
        } else if channel.payload > 1 {
            channel.payload = channel.payload.div_ceil(3).min(channel.payload - 1);
        } else if draft.wires[wire].code < 2 {
            draft.wires[wire].code += 1;
        } else {
            draft.channels.remove(chosen);
        }
    }
}

/// A table each of whose wires is loaded exactly full: all channels take all wires, whose rate is
/// one and the same. Channel i has price k × c and period k × p, where the sum of the c is rate × p.
pub fn full(rng: &mut Rng) -> Draft {
    let code = rng.below(3);
    let rate = [1, 10, 100][code as usize];
    let count = rng.range(1, 6);
    let mut factors: Vec<u64> = (0..count).map(|_| rng.pick(&[1, 1, 2, 3, 4, 6])).collect();
    let mut parts: Vec<u64> = (0..count).map(|_| rng.range(SMALL_COST, 200)).collect();
    factors[0] = 1;
    parts[0] += (rate - parts.iter().sum::<u64>() % rate) % rate;
    let period = parts.iter().sum::<u64>() / rate;
    let hyperperiod = period * 12 * rng.range(1, 4);
    let wires = rng.range(1, 5);
    let channels = factors.iter().zip(&parts).map(|(factor, part)| DraftChannel {
        framing: 0,
        payload: factor * part - PLAIN_OVERHEAD,
        period: factor * period,
        deadline: MOST_DEADLINE,
        hops: wires,
        route: (0..wires).collect(),
    });
    let mut draft = Draft {
        hyperperiod,
        wire_count: 0,
        channel_count: 0,
        wires: (0..wires).map(|_| DraftWire { code, ..wire(rng) }).collect(),
        channels: channels.collect(),
    };
    draft.count();
    draft
}

// ---- tables for the slot machine ----

/// Small tables whose hyperperiod the machine can run through.
pub const FOR_MACHINE: Shape = Shape {
    wires: (1, 10),
    channels: (1, 8),
    most_payload: 6_000,
    least_hyperperiod: 4,
    most_hyperperiod: 30_000,
    ..SMALL
};

/// Long routes: every channel passes eight wires.
pub const EIGHT_HOPS: Shape = Shape { wires: (8, 10), channels: (2, 6), hops: (8, 8), ..FOR_MACHINE };

/// The rate of the wires that feed a later one, and for how many slots the cabins may hold them.
const FEEDING_RATE: u64 = 100;
const FEEDING_HOLD: u64 = (2 * FULL).div_ceil(FEEDING_RATE);

/// The channel of a wire that feeds a later one.
#[derive(Clone, Copy)]
struct Feeding {
    price: u64,
    period: u64,
}

/// Tables in which a delay with jitter can be reached exactly: frames held back for just one period
/// meet on a later wire.
pub fn meeting(rng: &mut Rng) -> Draft {
    let hyperperiod = Hyperperiod::of(rng.pick(&[240, 360, 840, 1_584, 2_520]));
    let fits = |d: &&u64| (FEEDING_HOLD + 2..100).contains(*d);
    let periods: Vec<u64> = hyperperiod.divisors.iter().filter(fits).copied().collect();
    let feeding: Vec<Feeding> =
        (0..rng.range(1, 4)).map(|_| Feeding { price: SMALL_COST, period: rng.pick(&periods) }).collect();
    let code = rng.below(3);
    met(rng, hyperperiod.slots, &feeding, code)
}

/// The same with a later wire that is full of load: its backlog can be reached exactly as well.
pub fn meeting_full(rng: &mut Rng) -> Draft {
    let code = rng.below(3);
    let (wires, price, period) = match code {
        0 => {
            let price = rng.range(SMALL_COST, FEEDING_RATE - 1);
            (1, price, price)
        }
        1 => rng.pick(&[(4, 90, 36), (4, 95, 38), (5, 88, 44), (5, 94, 47), (6, 90, 54), (6, 95, 57)]),
        _ => {
            let wires = rng.range(2, 5);
            (wires as usize, FEEDING_RATE, wires)
        }
    };
    let hyperperiod = period * rng.range(1, 6);
    met(rng, hyperperiod, &vec![Feeding { price, period }; wires], code)
}

/// The feeding wires, then the later one of that rate code on which they meet, then further ones.
fn met(rng: &mut Rng, hyperperiod: u64, feeding: &[Feeding], code: u64) -> Draft {
    let later = feeding.len() as u64;
    let further = later + 1..later + 1 + rng.range(0, 6);
    let mut draft = Draft {
        hyperperiod,
        wire_count: 0,
        channel_count: 0,
        wires: (0..further.end).map(|_| short_wire(rng)).collect(),
        channels: Vec::new(),
    };
    draft.wires[later as usize].code = code;
    for (first, feeding) in (0..).zip(feeding) {
        draft.wires[first as usize].code = 2;
        let route = [first, later].into_iter().chain(further.clone().filter(|_| rng.chance(1, 2))).collect();
        draft.channels.push(plain_channel(feeding.price - PLAIN_OVERHEAD, feeding.period, route));
        for payload in held_back(rng, feeding) {
            draft.channels.push(plain_channel(payload, hyperperiod, vec![first]));
        }
    }
    while let Some(wire) = draft.overfull() {
        draft.wires[wire].code += 1;
    }
    rng.shuffle(&mut draft.channels);
    draft.count();
    draft
}

/// Payloads that hold a frame back, the cabins' hold counted, until the slot in which the next one
/// comes: a few bytes of it go then, and the next one whole. None where that slot has no room for both.
fn held_back(rng: &mut Rng, feeding: &Feeding) -> Vec<u64> {
    if feeding.price >= FEEDING_RATE {
        return Vec::new();
    }
    let with_the_next = rng.range(1, FEEDING_RATE - feeding.price);
    fillers(rng, FEEDING_RATE * (feeding.period - FEEDING_HOLD) + with_the_next - feeding.price)
}

fn short_wire(rng: &mut Rng) -> DraftWire {
    DraftWire { code: rng.below(3), propagation: rng.range(0, 9), room: MOST_ROOM }
}

pub fn plain_channel(payload: u64, period: u64, route: Vec<u64>) -> DraftChannel {
    DraftChannel { framing: 0, payload, period, deadline: MOST_DEADLINE, hops: route.len() as u64, route }
}

/// Payloads whose plain prices sum to `bytes`: one message, of several frames where need be, or two.
fn fillers(rng: &mut Rng, bytes: u64) -> Vec<u64> {
    if bytes >= 200 && rng.chance(1, 2) {
        let part = rng.range(SMALL_COST, (bytes - SMALL_COST).min(FULL));
        return [fillers(rng, part), fillers(rng, bytes - part)].concat();
    }
    let full = bytes / FULL;
    match bytes % FULL {
        0 => vec![PLAIN_DATA * full],
        rest if rest >= SMALL_COST => vec![PLAIN_DATA * full + rest - PLAIN_OVERHEAD],
        rest => vec![PLAIN_DATA * (full - 1) + (FULL + rest - SMALL_COST) - PLAIN_OVERHEAD, 1],
    }
}

// ---- edges of a sound table ----

/// The tables around a tightened one: exactly met, one off each way at one wire or channel.
pub fn edges(rng: &mut Rng, tight: &Draft) -> Vec<Vec<u8>> {
    let mut all = vec![tight.encode()];
    let mut add = |change: &dyn Fn(&mut Draft)| {
        let mut draft = tight.clone();
        change(&mut draft);
        all.push(draft.encode());
    };
    let wire = rng.below(tight.wires.len() as u64) as usize;
    let channel = rng.below(tight.channels.len() as u64) as usize;
    let slack = rng.range(1, 5_000);
    add(&|d| d.wires[wire].room = d.wires[wire].room.saturating_sub(1));
    add(&|d| d.wires[wire].room = (d.wires[wire].room + 1).min(MOST_ROOM));
    add(&|d| d.channels[channel].deadline -= 1);
    add(&|d| d.channels[channel].deadline = (d.channels[channel].deadline + 1).min(MOST_DEADLINE));
    add(&|d| {
        d.wires[wire].room = d.wires[wire].room.saturating_sub(1);
        d.channels[channel].deadline -= 1;
    });
    add(&|d| d.channels[channel].payload = (d.channels[channel].payload + 1).min(65_535));
    add(&|d| d.channels[channel].payload = (d.channels[channel].payload - 1).max(1));
    add(&|d| d.channels.iter_mut().for_each(|c| c.deadline = (c.deadline + slack).min(MOST_DEADLINE)));
    add(&|d| d.wires.iter_mut().for_each(|w| w.room = (w.room + slack).min(MOST_ROOM)));
    add(&|d| {
        d.wires[wire].room = MOST_ROOM;
        d.channels[channel].framing ^= 1;
        d.channels[channel].deadline = MOST_DEADLINE;
    });
    all
}

// ---- damaged tables ----

/// One field, or one rule, of a sound table broken.
pub fn damaged(rng: &mut Rng, sound: &Draft) -> Vec<u8> {
    let mut draft = sound.clone();
    let wire = rng.below(draft.wires.len() as u64) as usize;
    let number = rng.below(draft.channels.len() as u64) as usize;
    let channel = &mut draft.channels[number];
    match rng.below(18) {
        0 => draft.hyperperiod = rng.pick(&[0, 12_500_001, 12_500_002, 16_777_215]),
        1 => draft.hyperperiod = rng.range(12_500_000, 12_500_001),
        2 => draft.wire_count = rng.pick(&[0, 65, 127]),
        3 => draft.channel_count = rng.pick(&[0, 129, 255]),
        4 => (draft.wire_count, draft.channel_count) = (0, 0),
        5 => draft.wire_count = rng.range(0, 64),
        6 => draft.channel_count = rng.range(0, 128),
        7 => draft.wires[wire].code = 3,
        8 => channel.payload = 0,
        9 => channel.period = rng.pick(&[0, draft.hyperperiod + 1, 16_777_215]),
        10 => channel.period = rng.range(1, draft.hyperperiod),
        11 => channel.hops = rng.pick(&[0, 9, 10, 11, 12, 13, 14, 15]),
        12 => channel.route[0] = rng.range(draft.wire_count.min(63), 63),
        13 => {
            let last = channel.route.len() - 1;
            channel.route[last] = rng.range(draft.wire_count.min(63), 63);
        }
        14 => {
            let at = rng.below(channel.route.len() as u64) as usize;
            let other = rng.below(channel.route.len() as u64) as usize;
            channel.route[at] = channel.route[other];
        }
        15 => channel.route.reverse(),
        16 => {
            let mut bytes = draft.encode();
            let extra = rng.range(1, 3) as usize;
            let tail = if rng.chance(1, 2) { vec![0; extra] } else { rng.bytes(extra) };
            bytes.extend(tail);
            return bytes;
        }
        _ => {
            let filling = draft.filling();
            let mut bytes = draft.encode();
            if filling > 0 {
                *bytes.last_mut().unwrap() |= 1 << rng.below(filling as u64);
            }
            return bytes;
        }
    }
    draft.encode()
}

/// Several faults at once: which one is named first is the order of the tests.
pub fn damaged_twice(rng: &mut Rng, sound: &Draft) -> Vec<u8> {
    let mut draft = sound.clone();
    for _ in 0..rng.range(2, 4) {
        let wire = rng.below(draft.wires.len() as u64) as usize;
        let number = rng.below(draft.channels.len() as u64) as usize;
        let channel = &mut draft.channels[number];
        match rng.below(10) {
            0 => draft.wires[wire].code = 3,
            1 => channel.payload = 0,
            2 => channel.period = rng.range(0, draft.hyperperiod + 1),
            3 => channel.hops = rng.pick(&[0, 9, 15]),
            4 => channel.route[0] = 63,
            5 => channel.route.reverse(),
            6 => draft.wires[wire].room = draft.wires[wire].room.saturating_sub(1),
            7 => channel.deadline = channel.deadline.saturating_sub(1),
            8 => draft.wires[wire].code = 0,
            _ => channel.payload = 65_535,
        }
    }
    let mut bytes = draft.encode();
    match rng.below(4) {
        0 => bytes.truncate(rng.below(bytes.len() as u64 + 1) as usize),
        1 => bytes.push(rng.next() as u8),
        _ => {}
    }
    bytes
}

/// A header of extreme counts before random bytes.
pub fn extreme_header(rng: &mut Rng) -> Vec<u8> {
    let random = rng.range(0, 16_777_215);
    let hyperperiod = rng.pick(&[0, 1, 2, 840, 12_499_999, 12_500_000, 12_500_001, 16_777_215, random]);
    let random = rng.range(0, 127);
    let wires = rng.pick(&[0, 1, 2, 63, 64, 65, 127, random]);
    let random = rng.range(0, 255);
    let channels = rng.pick(&[0, 1, 2, 127, 128, 129, 255, random]);
    let mut gathered = Gathered { bytes: Vec::new(), bits: 0 };
    gathered.put(24, hyperperiod);
    gathered.put(7, wires);
    gathered.put(8, channels);
    let mut bytes = gathered.bytes;
    let count = rng.pick(&[0, 0, 1, 10, 100, 300]);
    let count = rng.range(0, count) as usize;
    if rng.chance(1, 3) {
        bytes.extend(vec![0; count]);
    } else {
        bytes.extend(rng.bytes(count));
    }
    bytes
}

/// Random bytes, some after a header that can be read on.
pub fn random_bytes(rng: &mut Rng) -> Vec<u8> {
    let count = rng.pick(&[5, 20, 60, 200]);
    let count = rng.range(0, count) as usize;
    let mut bytes = rng.bytes(count);
    if rng.chance(1, 2) && count > 5 {
        let wires = rng.range(1, 4);
        let channels = rng.range(1, 4);
        let mut gathered = Gathered { bytes: Vec::new(), bits: 0 };
        gathered.put(24, rng.range(1, 12_500_000));
        gathered.put(7, wires);
        gathered.put(8, channels);
        bytes[..5].copy_from_slice(&gathered.bytes);
    }
    bytes
}

/// A table cut at every byte, with a byte put in at every place, and with bytes added at its end.
pub fn cut_and_extended(rng: &mut Rng, table: &[u8]) -> Vec<Vec<u8>> {
    let mut all: Vec<Vec<u8>> = (0..table.len()).map(|end| table[..end].to_vec()).collect();
    for at in 0..=table.len() {
        let mut longer = table.to_vec();
        longer.insert(at, if rng.chance(1, 2) { 0 } else { rng.next() as u8 });
        all.push(longer);
    }
    for count in 1..=4 {
        all.push([table, &vec![0; count]].concat());
    }
    all
}

/// A table with each single bit turned.
pub fn bits_turned(table: &[u8]) -> Vec<Vec<u8>> {
    let turn = |bit: usize| {
        let mut other = table.to_vec();
        other[bit / 8] ^= 128 >> (bit % 8);
        other
    };
    (0..8 * table.len()).map(turn).collect()
}

/// A damaged sheet: a bit turned, cut, extended, other counts, filling bits set, random.
pub fn damaged_sheet(rng: &mut Rng, sheet: &[u8]) -> Vec<u8> {
    let mut bytes = sheet.to_vec();
    match rng.below(8) {
        0 => {
            let bit = rng.below(8 * bytes.len() as u64) as usize;
            bytes[bit / 8] ^= 128 >> (bit % 8);
        }
        1 => bytes.truncate(rng.below(bytes.len() as u64) as usize),
        2 => bytes.extend(vec![rng.pick(&[0, 255]); rng.range(1, 3) as usize]),
        3 => bytes[0] = rng.next() as u8,
        4 => bytes[1] = rng.next() as u8,
        5 => *bytes.last_mut().unwrap() |= rng.range(1, 15) as u8,
        6 => bytes[0] = rng.pick(&[0, 1, 128, 129, 130, 131, 255]),
        _ => {
            let count = rng.range(0, 60) as usize;
            bytes = rng.bytes(count);
        }
    }
    bytes
}
