//! The second opinion: the rules of document 01 and of requests, written from those documents alone.
//!
//! It goes about the work by other means than the proved code: the bits are spread out into a list,
//! a table is decoded into structs, and all arithmetic has 128 bits; a roll is taken apart to its end
//! before anything of it is tested.

use std::ops::{Range, RangeInclusive};

/// Why a question was refused: the number and the place of document 01's list.
#[derive(Clone, Copy, Debug, PartialEq, Eq)]
pub struct Refusal {
    pub number: u8,
    pub place: u8,
}

pub type Answer<T> = Result<T, Refusal>;

fn refuse<T>(number: u8, place: usize) -> Answer<T> {
    Err(Refusal { number, place: place as u8 })
}

pub const MOST_HYPERPERIOD: u128 = 12_500_000;
pub const MOST_WIRES: u128 = 64;
pub const MOST_CHANNELS: u128 = 128;
pub const MOST_HOPS: u128 = 8;
pub const MOST_PAYLOAD: u64 = 65_535;

// ---- bits, most significant first ----

struct Bits {
    list: Vec<bool>,
    at: usize,
}

impl Bits {
    fn of(bytes: &[u8]) -> Bits {
        let mut list = Vec::with_capacity(8 * bytes.len());
        for byte in bytes {
            for weight in [128, 64, 32, 16, 8, 4, 2, 1] {
                list.push(byte & weight != 0);
            }
        }
        Bits { list, at: 0 }
    }

    /// The next field, or refusal 1 where it goes past the end.
    fn take(&mut self, width: usize) -> Answer<u128> {
        let Some(field) = self.list.get(self.at..self.at + width) else {
            return refuse(1, 0);
        };
        self.at += width;
        Ok(field.iter().fold(0, |value, bit| 2 * value + *bit as u128))
    }

    /// Whether all that is left is the filling of the last byte with zero bits.
    fn only_filling_left(&self) -> bool {
        let rest = &self.list[self.at..];
        rest.len() < 8 && !rest.contains(&true)
    }
}

fn put(list: &mut Vec<bool>, width: u32, value: u128) {
    assert!(value < 1 << width, "{value} does not fit {width} bits");
    for place in (0..width).rev() {
        list.push(value >> place & 1 == 1);
    }
}

fn packed(mut list: Vec<bool>) -> Vec<u8> {
    while list.len() % 8 != 0 {
        list.push(false);
    }
    let byte = |bits: &[bool]| bits.iter().fold(0, |value, bit| 2 * value + *bit as u8);
    list.chunks(8).map(byte).collect()
}

// ---- the price of a message ----

pub struct Framing {
    pub data: u128,
    pub overhead: u128,
    pub least: u128,
}

pub const FRAMINGS: [Framing; 2] =
    [Framing { data: 1_492, overhead: 50, least: 38 }, Framing { data: 1_464, overhead: 78, least: 10 }];
pub const FULL_FRAME: u128 = 1_542;
pub const SMALL_FRAME: u128 = 88;

fn price_of(framing: usize, payload: u128) -> u128 {
    let row = &FRAMINGS[framing];
    let full = payload / row.data * FULL_FRAME;
    match payload % row.data {
        0 => full,
        rest if rest < row.least => full + SMALL_FRAME,
        rest => full + rest + row.overhead,
    }
}

/// Asks the price of a payload.
pub fn price(framing: u64, payload: u64) -> Answer<u128> {
    if framing > 1 {
        return refuse(20, 0);
    }
    if payload == 0 || payload > MOST_PAYLOAD {
        return refuse(6, 0);
    }
    Ok(price_of(framing as usize, payload as u128))
}

// ---- the table ----

#[derive(Clone, Debug)]
pub struct Wire {
    pub rate: u128,
    pub propagation: u128,
    pub room: u128,
}

#[derive(Clone, Debug)]
pub struct Channel {
    pub framing: usize,
    pub payload: u128,
    pub period: u128,
    pub deadline: u128,
    pub route: Vec<usize>,
}

impl Channel {
    pub fn price(&self) -> u128 {
        price_of(self.framing, self.payload)
    }
}

#[derive(Clone, Debug)]
pub struct Table {
    pub hyperperiod: u128,
    pub wires: Vec<Wire>,
    pub channels: Vec<Channel>,
}

/// Reads a table: refusals 1 to 11.
pub fn decode(bytes: &[u8]) -> Answer<Table> {
    let mut bits = Bits::of(bytes);
    let hyperperiod = bits.take(24)?;
    let wires = bits.take(7)?;
    let channels = bits.take(8)?;
    if !(1..=MOST_HYPERPERIOD).contains(&hyperperiod) {
        return refuse(2, 0);
    }
    if !(1..=MOST_WIRES).contains(&wires) {
        return refuse(3, 0);
    }
    if !(1..=MOST_CHANNELS).contains(&channels) {
        return refuse(4, 0);
    }
    let mut table = Table { hyperperiod, wires: Vec::new(), channels: Vec::new() };
    for number in 0..wires as usize {
        table.wires.push(decode_wire(&mut bits, number)?);
    }
    for number in 0..channels as usize {
        let channel = decode_channel(&mut bits, &table, number)?;
        table.channels.push(channel);
    }
    if !bits.only_filling_left() {
        return refuse(11, 0);
    }
    Ok(table)
}

fn decode_wire(bits: &mut Bits, number: usize) -> Answer<Wire> {
    let code = bits.take(2)?;
    let propagation = bits.take(10)?;
    let room = bits.take(24)?;
    let rate = match code {
        0 => 1,
        1 => 10,
        2 => 100,
        _ => return refuse(5, number),
    };
    Ok(Wire { rate, propagation, room })
}

fn decode_channel(bits: &mut Bits, table: &Table, number: usize) -> Answer<Channel> {
    let framing = bits.take(1)? as usize;
    let payload = bits.take(16)?;
    let period = bits.take(24)?;
    let deadline = bits.take(24)?;
    let hops = bits.take(4)?;
    if payload == 0 {
        return refuse(6, number);
    }
    if period == 0 || table.hyperperiod % period != 0 {
        return refuse(7, number);
    }
    if !(1..=MOST_HOPS).contains(&hops) {
        return refuse(8, number);
    }
    let route = decode_route(bits, hops as usize)?;
    for (hop, &wire) in route.iter().enumerate() {
        if wire >= table.wires.len() {
            return refuse(9, number);
        }
        if hop > 0 && wire <= route[hop - 1] {
            return refuse(10, number);
        }
    }
    Ok(Channel { framing, payload, period, deadline, route })
}

fn decode_route(bits: &mut Bits, hops: usize) -> Answer<Vec<usize>> {
    let mut route = Vec::new();
    for _ in 0..hops {
        route.push(bits.take(6)? as usize);
    }
    Ok(route)
}

// ---- the bounds ----

/// The figures of a table. Jitters are kept for each channel and each hop of its route.
#[derive(Clone, Debug)]
pub struct Figures {
    pub backlogs: Vec<u128>,
    pub delays: Vec<u128>,
    pub ends: Vec<u128>,
    pub jitters: Vec<Vec<u128>>,
}

impl Figures {
    pub fn has_jitter(&self) -> bool {
        self.jitters.iter().flatten().any(|&jitter| jitter > 0)
    }
}

/// The load of a wire over one hyperperiod, in bytes.
pub fn load(table: &Table, wire: usize) -> u128 {
    let uses = |channel: &&Channel| channel.route.contains(&wire);
    let bytes = |channel: &Channel| channel.price() * (table.hyperperiod / channel.period);
    table.channels.iter().filter(uses).map(bytes).sum()
}

/// Test 12.
pub fn test_loads(table: &Table) -> Answer<()> {
    for (number, wire) in table.wires.iter().enumerate() {
        if load(table, number) > wire.rate * table.hyperperiod {
            return refuse(12, number);
        }
    }
    Ok(())
}

/// What a wire passed adds to a channel's jitter.
pub fn jitter_added(delay: u128) -> u128 {
    delay - 1
}

/// Full frames of the cabins that a wire may have to let pass.
pub fn cabin_frames(table: &Table, wire: usize) -> u128 {
    if table.channels.iter().any(|channel| channel.route[0] == wire) {
        2
    } else if table.channels.iter().any(|channel| channel.route.contains(&wire)) {
        1
    } else {
        0
    }
}

/// The slots that a wire needs to let full frames of the cabins pass.
pub fn hold_of(frames: u128, wire: &Wire) -> u128 {
    (frames * FULL_FRAME).div_ceil(wire.rate)
}

/// K: the slots in a row for which the cabins may hold a wire; 0 where no route uses it.
pub fn hold(table: &Table, wire: usize) -> u128 {
    hold_of(cabin_frames(table, wire), &table.wires[wire])
}

/// Whether a wire carries channels and is first on no route.
pub fn is_later(table: &Table, wire: usize) -> bool {
    cabin_frames(table, wire) == 1
}

pub fn is_unused(table: &Table, wire: usize) -> bool {
    cabin_frames(table, wire) == 0
}

/// The two rules that the figures are worked out by. Faults and the slot machine's teeth hand in wrong ones.
pub struct Rules {
    pub jitter_added: fn(u128) -> u128,
    pub hold: fn(&Table, usize) -> u128,
}

pub const RULES: Rules = Rules { jitter_added, hold };

/// Backlogs, delays and end-to-end delays, with test 13. A wire's backlog needs only wires of lower
/// number, so the first wire over its room is found before anything beyond it is worked out.
pub fn bounds(table: &Table, rules: &Rules) -> Answer<Figures> {
    let count = table.channels.len();
    let mut figures =
        Figures { backlogs: Vec::new(), delays: Vec::new(), ends: vec![0; count], jitters: vec![Vec::new(); count] };
    let mut carried = vec![0; count];
    for (number, wire) in table.wires.iter().enumerate() {
        let users: Vec<usize> = (0..count).filter(|&c| table.channels[c].route.contains(&number)).collect();
        let backlog = backlog(table, &users, &carried) + wire.rate * (rules.hold)(table, number);
        if backlog > wire.room {
            return refuse(13, number);
        }
        let delay = backlog.div_ceil(wire.rate);
        for &user in &users {
            figures.jitters[user].push(carried[user]);
            figures.ends[user] += delay + wire.propagation;
            carried[user] += (rules.jitter_added)(delay);
        }
        figures.backlogs.push(backlog);
        figures.delays.push(delay);
    }
    Ok(figures)
}

/// What the channels of a wire bring, without the cabins.
fn backlog(table: &Table, users: &[usize], jitter: &[u128]) -> u128 {
    let h = table.hyperperiod;
    let mut sum = 0;
    for &user in users {
        let channel = &table.channels[user];
        let c = channel.price();
        sum += c * h + c * (h / channel.period) * jitter[user];
    }
    sum / h
}

/// Test 14.
pub fn test_deadlines(table: &Table, figures: &Figures) -> Answer<()> {
    for (number, channel) in table.channels.iter().enumerate() {
        if figures.ends[number] > channel.deadline {
            return refuse(14, number);
        }
    }
    Ok(())
}

// ---- the judgement ----

/// An accepted table with its figures and its sheet.
pub struct Accepted {
    pub table: Table,
    pub figures: Figures,
    pub sheet: Vec<u8>,
}

/// Judges a table for a lent buffer of `lent` bytes.
pub fn verdict(bytes: &[u8], lent: usize) -> Answer<Accepted> {
    let table = decode(bytes)?;
    test_loads(&table)?;
    let figures = bounds(&table, &RULES)?;
    test_deadlines(&table, &figures)?;
    let sheet = write_sheet(&figures);
    if lent < sheet.len() {
        return refuse(15, 0);
    }
    Ok(Accepted { table, figures, sheet })
}

/// What the whole lent buffer holds after a verdict.
pub fn buffer_after(verdict: &Answer<Accepted>, lent: usize) -> Vec<u8> {
    let mut buffer = match verdict {
        Ok(accepted) => accepted.sheet.clone(),
        Err(_) => Vec::new(),
    };
    buffer.resize(lent, 255);
    buffer
}

/// The reply and the whole lent buffer afterwards.
pub fn judge(bytes: &[u8], lent: usize) -> (Answer<usize>, Vec<u8>) {
    let verdict = verdict(bytes, lent);
    let buffer = buffer_after(&verdict, lent);
    (verdict.map(|accepted| accepted.sheet.len()), buffer)
}

/// What the board program prints for a table.
pub fn board(bytes: &[u8]) -> String {
    match verdict(bytes, usize::MAX) {
        Ok(accepted) => board_accepted(&accepted),
        Err(Refusal { number, place }) => format!("refused {number} {place}\n"),
    }
}

fn board_accepted(accepted: &Accepted) -> String {
    let Accepted { table, figures, .. } = accepted;
    let mut text = format!("accepted {} {}\n", table.wires.len(), table.channels.len());
    for (number, (backlog, delay)) in figures.backlogs.iter().zip(&figures.delays).enumerate() {
        text += &format!("link {number} {backlog} {delay}\n");
    }
    for (number, (end, channel)) in figures.ends.iter().zip(&table.channels).enumerate() {
        text += &format!("channel {number} {end} {}\n", channel.deadline);
    }
    text
}

// ---- the sheet ----

/// The sheet of a table's figures.
pub fn write_sheet(figures: &Figures) -> Vec<u8> {
    let mut list = Vec::new();
    put(&mut list, 7, figures.backlogs.len() as u128);
    put(&mut list, 8, figures.ends.len() as u128);
    for (&backlog, &delay) in figures.backlogs.iter().zip(&figures.delays) {
        put(&mut list, 24, backlog);
        put(&mut list, 24, delay);
    }
    for &end in &figures.ends {
        put(&mut list, 28, end);
    }
    packed(list)
}

/// A sheet read back: each wire's backlog and delay, each channel's end-to-end delay.
pub struct Sheet {
    pub wires: Vec<(u128, u128)>,
    pub channels: Vec<u128>,
}

/// Reads a sheet: refusals 16 to 18.
pub fn read_sheet(bytes: &[u8]) -> Answer<Sheet> {
    if bytes.len() < 2 {
        return refuse(16, 0);
    }
    let mut bits = Bits::of(bytes);
    let wires = bits.take(7)?;
    let channels = bits.take(8)?;
    if !(1..=MOST_WIRES).contains(&wires) || !(1..=MOST_CHANNELS).contains(&channels) {
        return refuse(17, 0);
    }
    let needed = 7 + 8 + wires as usize * (24 + 24) + channels as usize * 28;
    if bytes.len() != needed.div_ceil(8) {
        return refuse(16, 0);
    }
    let mut sheet = Sheet { wires: Vec::new(), channels: Vec::new() };
    for _ in 0..wires {
        sheet.wires.push((bits.take(24)?, bits.take(24)?));
    }
    for _ in 0..channels {
        sheet.channels.push(bits.take(28)?);
    }
    if !bits.only_filling_left() {
        return refuse(18, 0);
    }
    Ok(sheet)
}

impl Sheet {
    pub fn wire(&self, number: u64) -> Answer<(u128, u128)> {
        entry(&self.wires, number)
    }

    pub fn channel(&self, number: u64) -> Answer<u128> {
        entry(&self.channels, number)
    }
}

fn entry<T: Copy>(list: &[T], number: u64) -> Answer<T> {
    match list.iter().nth(number.min(1_000) as usize) {
        Some(&figure) => Ok(figure),
        None => refuse(19, 0),
    }
}

/// Asks a sheet for a wire's backlog and delay.
pub fn ask_wire(sheet: &[u8], number: u64) -> Answer<(u128, u128)> {
    read_sheet(sheet)?.wire(number)
}

/// Asks a sheet for a channel's end-to-end delay.
pub fn ask_channel(sheet: &[u8], number: u64) -> Answer<u128> {
    read_sheet(sheet)?.channel(number)
}

// ---- the roll of labels ----

/// What makes a roll sound. Faults hand in other limits.
pub struct Limits {
    pub count: RangeInclusive<usize>,
    pub length: RangeInclusive<usize>,
    pub byte: RangeInclusive<u8>,
}

pub const LIMITS: Limits = Limits { count: 1..=128, length: 1..=24, byte: 32..=126 };

/// Every length byte with the bytes that it counts, to the end; None where there are fewer.
pub fn split_labels(mut rest: &[u8]) -> Option<Vec<&[u8]>> {
    let mut labels = Vec::new();
    while let Some((&length, others)) = rest.split_first() {
        let (label, behind) = others.split_at_checked(length as usize)?;
        labels.push(label);
        rest = behind;
    }
    Some(labels)
}

/// Reads a roll: refusal 21.
pub fn read_roll<'a>(bytes: &'a [u8], limits: &Limits) -> Answer<Vec<&'a [u8]>> {
    let Some((&count, rest)) = bytes.split_first() else { return refuse(21, 0) };
    let Some(labels) = split_labels(rest) else { return refuse(21, 0) };
    let counted = labels.len() == count as usize && limits.count.contains(&labels.len());
    let lengths = labels.iter().all(|label| limits.length.contains(&label.len()));
    let letters = labels.concat().iter().all(|byte| limits.byte.contains(byte));
    if counted && lengths && letters {
        Ok(labels)
    } else {
        refuse(21, 0)
    }
}

/// Where a label of a sound roll stands in it.
pub fn label(labels: &[&[u8]], number: u64) -> Answer<Range<usize>> {
    if number >= labels.len() as u64 {
        return refuse(22, 0);
    }
    let (before, from) = labels.split_at(number as usize);
    let start = 1 + before.concat().len() + before.len() + 1;
    Ok(start..start + from[0].len())
}

/// Asks a roll for a label.
pub fn ask_label(roll: &[u8], number: u64) -> Answer<Range<usize>> {
    label(&read_roll(roll, &LIMITS)?, number)
}
