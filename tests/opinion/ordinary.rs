//! An ordinary judge: document 01 with requests as one writes it in Rust without thought
//! of speed. A table is read bit by bit into vectors, and each rule is worked out over them as the
//! document says it. It stands behind the same interface as the library, and is compared with the
//! second opinion like it.

/// A number of document 01's list, and the place that goes with it.
struct Refusal {
    number: u8,
    place: usize,
}

type Answer<T> = Result<T, Refusal>;

fn refuse<T>(number: u8, place: usize) -> Answer<T> {
    Err(Refusal { number, place })
}

/// The reply in 64 bits.
fn reply(answer: Answer<u64>) -> u64 {
    match answer {
        Ok(value) => value,
        Err(Refusal { number, place }) => (number as u64) << 56 | (place as u64) << 48,
    }
}

// ---- bits ----

struct BitReader<'a> {
    bytes: &'a [u8],
    position: usize,
}

impl<'a> BitReader<'a> {
    fn new(bytes: &'a [u8]) -> BitReader<'a> {
        BitReader { bytes, position: 0 }
    }

    fn bit(&mut self) -> Option<bool> {
        let byte = self.bytes.get(self.position / 8)?;
        let bit = byte >> (7 - self.position % 8) & 1;
        self.position += 1;
        Some(bit == 1)
    }

    fn field(&mut self, width: usize) -> Answer<u64> {
        let mut value = 0;
        for _ in 0..width {
            match self.bit() {
                Some(bit) => value = 2 * value + bit as u64,
                None => return refuse(1, 0),
            }
        }
        Ok(value)
    }

    fn at_last_byte(&self) -> bool {
        self.position.div_ceil(8) == self.bytes.len()
    }

    fn rest_is_zero(&mut self) -> bool {
        while let Some(bit) = self.bit() {
            if bit {
                return false;
            }
        }
        true
    }
}

#[derive(Default)]
struct BitWriter {
    bytes: Vec<u8>,
    length: usize,
}

impl BitWriter {
    fn bit(&mut self, bit: bool) {
        let place = self.length % 8;
        if place == 0 {
            self.bytes.push(0);
        }
        if bit {
            *self.bytes.last_mut().unwrap() |= 128 >> place;
        }
        self.length += 1;
    }

    fn field(&mut self, width: usize, value: u64) {
        for place in (0..width).rev() {
            self.bit(value >> place & 1 == 1);
        }
    }
}

// ---- the price of a message ----

const FULL_FRAME: u64 = 1_542;
const SMALLEST_FRAME: u64 = 88;

struct Framing {
    data: u64,
    overhead: u64,
    least: u64,
}

const PLAIN: Framing = Framing { data: 1_492, overhead: 50, least: 38 };
const IP_UDP: Framing = Framing { data: 1_464, overhead: 78, least: 10 };

impl Framing {
    fn of(code: u64) -> Option<Framing> {
        match code {
            0 => Some(PLAIN),
            1 => Some(IP_UDP),
            _ => None,
        }
    }

    fn price(&self, payload: u64) -> u64 {
        let remainder = payload % self.data;
        let last = if remainder == 0 {
            0
        } else if remainder < self.least {
            SMALLEST_FRAME
        } else {
            remainder + self.overhead
        };
        payload / self.data * FULL_FRAME + last
    }
}

// ---- the table ----

struct Wire {
    rate: u64,
    propagation: u64,
    room: u64,
    /// The numbers of the channels whose routes use it.
    channels: Vec<usize>,
}

struct Channel {
    price: u64,
    period: u64,
    deadline: u64,
    route: Vec<usize>,
}

struct Table {
    hyperperiod: u64,
    wires: Vec<Wire>,
    channels: Vec<Channel>,
}

fn read_wire(reader: &mut BitReader, number: usize) -> Answer<Wire> {
    let code = reader.field(2)?;
    let propagation = reader.field(10)?;
    let room = reader.field(24)?;
    let rate = match code {
        0 => 1,
        1 => 10,
        2 => 100,
        _ => return refuse(5, number),
    };
    Ok(Wire { rate, propagation, room, channels: Vec::new() })
}

impl Table {
    fn read(bytes: &[u8]) -> Answer<Table> {
        let mut reader = BitReader::new(bytes);
        let hyperperiod = reader.field(24)?;
        let wires = reader.field(7)?;
        let channels = reader.field(8)?;
        if !(1..=12_500_000).contains(&hyperperiod) {
            return refuse(2, 0);
        }
        if !(1..=64).contains(&wires) {
            return refuse(3, 0);
        }
        if !(1..=128).contains(&channels) {
            return refuse(4, 0);
        }
        let mut table = Table { hyperperiod, wires: Vec::new(), channels: Vec::new() };
        for number in 0..wires as usize {
            table.wires.push(read_wire(&mut reader, number)?);
        }
        for number in 0..channels as usize {
            let channel = table.read_channel(&mut reader, number)?;
            for &wire in &channel.route {
                table.wires[wire].channels.push(number);
            }
            table.channels.push(channel);
        }
        if reader.at_last_byte() && reader.rest_is_zero() {
            Ok(table)
        } else {
            refuse(11, 0)
        }
    }

    fn read_channel(&self, reader: &mut BitReader, number: usize) -> Answer<Channel> {
        let framing = if reader.field(1)? == 0 { PLAIN } else { IP_UDP };
        let payload = reader.field(16)?;
        let period = reader.field(24)?;
        let deadline = reader.field(24)?;
        let hops = reader.field(4)?;
        if payload == 0 {
            return refuse(6, number);
        }
        if period == 0 || self.hyperperiod % period != 0 {
            return refuse(7, number);
        }
        if !(1..=8).contains(&hops) {
            return refuse(8, number);
        }
        let mut route = Vec::new();
        for _ in 0..hops {
            route.push(reader.field(6)? as usize);
        }
        self.test_route(number, &route)?;
        Ok(Channel { price: framing.price(payload), period, deadline, route })
    }

    fn test_route(&self, number: usize, route: &[usize]) -> Answer<()> {
        for (hop, &wire) in route.iter().enumerate() {
            if wire >= self.wires.len() {
                return refuse(9, number);
            }
            if hop > 0 && wire <= route[hop - 1] {
                return refuse(10, number);
            }
        }
        Ok(())
    }

    // ---- the bounds ----

    /// What a channel brings in a hyperperiod.
    fn share(&self, channel: &Channel) -> u64 {
        channel.price * (self.hyperperiod / channel.period)
    }

    fn test_loads(&self) -> Answer<()> {
        for (number, wire) in self.wires.iter().enumerate() {
            let load: u64 = wire.channels.iter().map(|&user| self.share(&self.channels[user])).sum();
            if load > wire.rate * self.hyperperiod {
                return refuse(12, number);
            }
        }
        Ok(())
    }

    /// The slots that a wire may be held: request Q-4's K, and 0 for a wire without channels.
    fn hold(&self, number: usize, wire: &Wire) -> u64 {
        if wire.channels.is_empty() {
            0
        } else if wire.channels.iter().any(|&user| self.channels[user].route[0] == number) {
            (2 * FULL_FRAME).div_ceil(wire.rate)
        } else {
            FULL_FRAME.div_ceil(wire.rate)
        }
    }

    fn backlog(&self, number: usize, wire: &Wire, jitters: &[u64]) -> u64 {
        let mut sum = 0;
        for &user in &wire.channels {
            let channel = &self.channels[user];
            sum += channel.price * self.hyperperiod + self.share(channel) * jitters[user];
        }
        sum / self.hyperperiod + wire.rate * self.hold(number, wire)
    }

    /// A room has 24 bits, so that no sum over delays within it outgrows 64.
    fn bounds(&self) -> Answer<Sheet> {
        let mut jitters = vec![0; self.channels.len()];
        let mut sheet = Sheet { wires: Vec::new(), ends: vec![0; self.channels.len()] };
        for (number, wire) in self.wires.iter().enumerate() {
            let backlog = self.backlog(number, wire, &jitters);
            if backlog > wire.room {
                return refuse(13, number);
            }
            let delay = backlog.div_ceil(wire.rate);
            sheet.wires.push(WireFigures { backlog, delay });
            for &user in &wire.channels {
                jitters[user] += delay - 1;
                sheet.ends[user] += delay + wire.propagation;
            }
        }
        Ok(sheet)
    }

    fn test_deadlines(&self, sheet: &Sheet) -> Answer<()> {
        for (number, (channel, &end)) in self.channels.iter().zip(&sheet.ends).enumerate() {
            if end > channel.deadline {
                return refuse(14, number);
            }
        }
        Ok(())
    }
}

// ---- the sheet ----

struct WireFigures {
    backlog: u64,
    delay: u64,
}

struct Sheet {
    wires: Vec<WireFigures>,
    ends: Vec<u64>,
}

impl Sheet {
    fn bytes(&self) -> Vec<u8> {
        let mut writer = BitWriter::default();
        writer.field(7, self.wires.len() as u64);
        writer.field(8, self.ends.len() as u64);
        for wire in &self.wires {
            writer.field(24, wire.backlog);
            writer.field(24, wire.delay);
        }
        for &end in &self.ends {
            writer.field(28, end);
        }
        writer.bytes
    }

    fn read(bytes: &[u8]) -> Answer<Sheet> {
        if bytes.len() < 2 {
            return refuse(16, 0);
        }
        let mut reader = BitReader::new(bytes);
        let wires = reader.field(7)?;
        let channels = reader.field(8)?;
        if !(1..=64).contains(&wires) || !(1..=128).contains(&channels) {
            return refuse(17, 0);
        }
        let bits = 15 + 48 * wires as usize + 28 * channels as usize;
        if bytes.len() != bits.div_ceil(8) {
            return refuse(16, 0);
        }
        let mut sheet = Sheet { wires: Vec::new(), ends: Vec::new() };
        for _ in 0..wires {
            sheet.wires.push(WireFigures { backlog: reader.field(24)?, delay: reader.field(24)? });
        }
        for _ in 0..channels {
            sheet.ends.push(reader.field(28)?);
        }
        if reader.rest_is_zero() {
            Ok(sheet)
        } else {
            refuse(18, 0)
        }
    }
}

/// What is asked for, where the sheet has it.
fn numbered<T>(list: &[T], number: u64) -> Answer<&T> {
    match usize::try_from(number).ok().and_then(|number| list.get(number)) {
        Some(found) => Ok(found),
        None => refuse(19, 0),
    }
}

// ---- the roll of labels ----

struct Label {
    start: usize,
    length: usize,
}

/// The labels of a sound roll.
fn labels(roll: &[u8]) -> Option<Vec<Label>> {
    let count = *roll.first()?;
    if !(1..=128).contains(&count) {
        return None;
    }
    let mut labels = Vec::new();
    let mut position = 1;
    for _ in 0..count {
        let length = *roll.get(position)? as usize;
        let start = position + 1;
        let text = roll.get(start..start + length)?;
        if !(1..=24).contains(&length) || !text.iter().all(|byte| (32..=126).contains(byte)) {
            return None;
        }
        labels.push(Label { start, length });
        position = start + length;
    }
    if position == roll.len() {
        Some(labels)
    } else {
        None
    }
}

// ---- the five questions ----

fn judged(table: &[u8], lent: &mut [u8]) -> Answer<u64> {
    let table = Table::read(table)?;
    table.test_loads()?;
    let sheet = table.bounds()?;
    table.test_deadlines(&sheet)?;
    let bytes = sheet.bytes();
    if lent.len() < bytes.len() {
        return refuse(15, 0);
    }
    lent[..bytes.len()].copy_from_slice(&bytes);
    Ok(bytes.len() as u64)
}

pub fn judge(table: &[u8], lent: &mut [u8]) -> u64 {
    lent.fill(255);
    reply(judged(table, lent))
}

pub fn ask_wire(sheet: &[u8], wire: u64) -> u64 {
    let figures = |sheet: Sheet| numbered(&sheet.wires, wire).map(|wire| wire.backlog << 24 | wire.delay);
    reply(Sheet::read(sheet).and_then(figures))
}

pub fn ask_channel(sheet: &[u8], channel: u64) -> u64 {
    reply(Sheet::read(sheet).and_then(|sheet| numbered(&sheet.ends, channel).copied()))
}

pub fn price(framing: u64, payload: u64) -> u64 {
    let Some(framing) = Framing::of(framing) else { return reply(refuse(20, 0)) };
    if !(1..=65_535).contains(&payload) {
        return reply(refuse(6, 0));
    }
    reply(Ok(framing.price(payload)))
}

pub fn label(roll: &[u8], number: u64) -> u64 {
    let Some(labels) = labels(roll) else { return reply(refuse(21, 0)) };
    match usize::try_from(number).ok().and_then(|number| labels.get(number)) {
        Some(label) => reply(Ok((label.start as u64) << 16 | label.length as u64)),
        None => reply(refuse(22, 0)),
    }
}
