//! The baseline of the benchmark: the quickest judge of the same work, document 01 with requests Q-2
//! and Q-4, that we could write without `unsafe`. A record is read by one load and shifts. What is
//! summed over a wire's channels is summed while the routes are read, but for the jitters; for these a
//! wire knows its channels as a set of bits. Nothing is put on the heap. It stands behind the same
//! interface as the library, and is compared with the second opinion like it.

const LEAST_SHEET: usize = 2;

const fn refusal(number: u64, place: usize) -> u64 {
    number << 56 | (place as u64) << 48
}

// ---- reading and writing by words ----

struct Cursor<'a> {
    bytes: &'a [u8],
    at: usize,
}

impl Cursor<'_> {
    #[inline(always)]
    fn has(&self, width: usize) -> bool {
        self.at + width <= 8 * self.bytes.len()
    }

    /// What comes next, at least 57 bits of it, from the highest bit on; zeros after the end.
    #[inline(always)]
    fn word(&self) -> u64 {
        u64::from_be_bytes(bytes_from(self.bytes, self.at / 8)) << (self.at % 8)
    }

    /// The same, at least 121 bits.
    #[inline(always)]
    fn long_word(&self) -> u128 {
        u128::from_be_bytes(bytes_from(self.bytes, self.at / 8)) << (self.at % 8)
    }

    fn ends_clean(&self) -> bool {
        let used = self.at.div_ceil(8);
        let filling = used * 8 - self.at;
        self.bytes.len() == used && self.bytes[used - 1] & ((1 << filling) - 1) as u8 == 0
    }
}

#[inline(always)]
fn bytes_from<const N: usize>(bytes: &[u8], first: usize) -> [u8; N] {
    let rest = &bytes[first..];
    match rest.first_chunk() {
        Some(all) => *all,
        None => last_bytes(rest),
    }
}

#[cold]
fn last_bytes<const N: usize>(rest: &[u8]) -> [u8; N] {
    let mut all = [0; N];
    all[..rest.len()].copy_from_slice(rest);
    all
}

struct Writer<'a> {
    bytes: &'a mut [u8],
    at: usize,
    /// Its lowest `bits` bits are not written yet.
    kept: u64,
    bits: u32,
}

impl Writer<'_> {
    /// A field of at most 63 bits.
    #[inline(always)]
    fn put(&mut self, width: u32, value: u64) {
        let free = 64 - self.bits;
        if width < free {
            self.kept = self.kept << width | value;
            self.bits += width;
        } else {
            self.bits = width - free;
            let word = self.kept << free | value >> self.bits;
            self.bytes[self.at..self.at + 8].copy_from_slice(&word.to_be_bytes());
            self.at += 8;
            self.kept = value;
        }
    }

    fn fill_up(self) {
        let rest = &mut self.bytes[self.at..];
        if self.bits > 0 {
            rest.copy_from_slice(&(self.kept << (64 - self.bits)).to_be_bytes()[..rest.len()]);
        }
    }
}

/// For every bit that is set the word's number and its own.
#[inline(always)]
fn each(words: [u64; 2], mut work: impl FnMut(usize, usize)) {
    for (half, mut bits) in words.into_iter().enumerate() {
        while bits != 0 {
            work(half, bits.trailing_zeros() as usize % 64);
            bits &= bits - 1;
        }
    }
}

// ---- the price ----

const FULL_FRAME: u32 = 1_542;

#[inline(always)]
fn price_in<const DATA: u32, const OVERHEAD: u32, const LEAST: u32>(payload: u32) -> u32 {
    let full = payload / DATA * FULL_FRAME;
    let rest = payload % DATA;
    if rest == 0 {
        full
    } else if rest < LEAST {
        full + 88
    } else {
        full + rest + OVERHEAD
    }
}

#[inline(always)]
fn price_of(udp: bool, payload: u32) -> u32 {
    if udp {
        price_in::<1_464, 78, 10>(payload)
    } else {
        price_in::<1_492, 50, 38>(payload)
    }
}

pub fn price(framing: u64, payload: u64) -> u64 {
    if framing > 1 {
        return refusal(20, 0);
    }
    if payload == 0 || payload > 65_535 {
        return refusal(6, 0);
    }
    price_of(framing == 1, payload as u32) as u64
}

// ---- the table ----

/// By rate code; the last is refused.
const RATES: [u32; 4] = [1, 10, 100, 0];

/// What a wire held as long as it may be does not send, in bytes, by rate code.
const fn held_bytes(frames: u32) -> [u32; 4] {
    let mut bytes = [0; 4];
    let mut code = 0;
    while code < 3 {
        bytes[code] = (frames * FULL_FRAME).next_multiple_of(RATES[code]);
        code += 1;
    }
    bytes
}

const HELD_LATER: [u32; 4] = held_bytes(1);
const HELD_FIRST: [u32; 4] = held_bytes(2);

struct Table {
    hyperperiod: u32,
    wires: usize,
    channels: usize,
    code: [u8; 64],
    /// Whether a wire is first on some route.
    first: [bool; 64],
    /// Propagation + 1.
    passing: [u32; 64],
    room: [u32; 64],
    load: [u64; 64],
    prices: [u32; 64],
    /// The wires' channels, a bit each: those below 64, and those from there on.
    users: [[u64; 64]; 2],
    /// Backlog × 2^24 + delay.
    figures: [u64; 64],
    /// Price × (hyperperiod / period), in the same halves.
    share: [[u64; 64]; 2],
    deadline: [u32; 128],
    jitter: [[u32; 64]; 2],
    /// What the end-to-end delay has beside the jitter after the last wire: `passing` over the route.
    beside: [u32; 128],
}

impl Table {
    fn empty() -> Table {
        Table {
            hyperperiod: 0,
            wires: 0,
            channels: 0,
            code: [0; 64],
            first: [false; 64],
            passing: [0; 64],
            room: [0; 64],
            load: [0; 64],
            prices: [0; 64],
            users: [[0; 64]; 2],
            figures: [0; 64],
            share: [[0; 64]; 2],
            deadline: [0; 128],
            jitter: [[0; 64]; 2],
            beside: [0; 128],
        }
    }

    fn read(&mut self, bytes: &[u8]) -> Result<(), u64> {
        let mut cursor = Cursor { bytes, at: 0 };
        self.read_header(&mut cursor)?;
        for wire in 0..self.wires {
            self.read_wire(&mut cursor, wire)?;
        }
        for channel in 0..self.channels {
            self.read_channel(&mut cursor, channel)?;
        }
        if cursor.ends_clean() {
            Ok(())
        } else {
            Err(refusal(11, 0))
        }
    }

    fn read_header(&mut self, cursor: &mut Cursor) -> Result<(), u64> {
        if !cursor.has(39) {
            return Err(refusal(1, 0));
        }
        let header = cursor.word();
        cursor.at += 39;
        self.hyperperiod = (header >> 40) as u32;
        self.wires = (header >> 33) as usize & 127;
        self.channels = (header >> 25) as usize & 255;
        if self.hyperperiod == 0 || self.hyperperiod > 12_500_000 {
            return Err(refusal(2, 0));
        }
        if self.wires == 0 || self.wires > 64 {
            return Err(refusal(3, 0));
        }
        if self.channels == 0 || self.channels > 128 {
            return Err(refusal(4, 0));
        }
        Ok(())
    }

    #[inline(always)]
    fn read_wire(&mut self, cursor: &mut Cursor, wire: usize) -> Result<(), u64> {
        if !cursor.has(36) {
            return Err(refusal(1, 0));
        }
        let record = cursor.word();
        cursor.at += 36;
        self.code[wire] = (record >> 62) as u8;
        self.passing[wire] = ((record >> 52) as u32 & 1_023) + 1;
        self.room[wire] = (record >> 28) as u32 & 0xff_ffff;
        if self.code[wire] == 3 {
            return Err(refusal(5, wire));
        }
        Ok(())
    }

    /// The fixed 69 bits and the route's 48 at most are one word.
    #[inline(always)]
    fn read_channel(&mut self, cursor: &mut Cursor, channel: usize) -> Result<(), u64> {
        if !cursor.has(69) {
            return Err(refusal(1, 0));
        }
        let record = cursor.long_word();
        let payload = (record >> 111) as u32 & 0xffff;
        let period = (record >> 87) as u32 & 0xff_ffff;
        let deadline = (record >> 63) as u32 & 0xff_ffff;
        let hops = (record >> 59) as usize & 15;
        if payload == 0 {
            return Err(refusal(6, channel));
        }
        if period == 0 || self.hyperperiod % period != 0 {
            return Err(refusal(7, channel));
        }
        if hops == 0 || hops > 8 {
            return Err(refusal(8, channel));
        }
        if !cursor.has(69 + 6 * hops) {
            return Err(refusal(1, 0));
        }
        cursor.at += 69 + 6 * hops;
        let price = price_of(record >> 127 == 1, payload);
        let share = price as u64 * (self.hyperperiod / period) as u64;
        self.share[channel / 64][channel % 64] = share;
        self.deadline[channel] = deadline;
        self.read_route((record as u64) << 5, hops, channel, price, share)
    }

    #[inline(always)]
    fn read_route(&mut self, route: u64, hops: usize, channel: usize, price: u32, share: u64) -> Result<(), u64> {
        let users = &mut self.users[channel / 64];
        let mut rest = route;
        let mut least = 0;
        let mut beside = 0;
        for _ in 0..hops {
            let wire = (rest >> 58) as usize;
            rest <<= 6;
            if wire < least {
                return Err(self.fault_of(route, channel));
            }
            least = wire + 1;
            users[wire] |= 1 << (channel % 64);
            beside += self.passing[wire];
            self.load[wire] += share;
            self.prices[wire] += price;
        }
        if least > self.wires {
            return Err(refusal(9, channel));
        }
        self.beside[channel] = beside;
        self.first[(route >> 58) as usize] = true;
        Ok(())
    }

    /// The refusal of a route that does not ascend.
    #[cold]
    fn fault_of(&self, mut route: u64, channel: usize) -> u64 {
        let mut least = 0;
        loop {
            let wire = (route >> 58) as usize;
            if wire >= self.wires {
                return refusal(9, channel);
            }
            if wire < least {
                return refusal(10, channel);
            }
            least = wire + 1;
            route <<= 6;
        }
    }

    // ---- the bounds ----

    #[inline(always)]
    fn rate(&self, wire: usize) -> u32 {
        RATES[self.code[wire] as usize % 4]
    }

    fn test_loads(&self) -> Result<(), u64> {
        for wire in 0..self.wires {
            if self.load[wire] > self.rate(wire) as u64 * self.hyperperiod as u64 {
                return Err(refusal(12, wire));
            }
        }
        Ok(())
    }

    #[inline(always)]
    fn held(&self, wire: usize) -> u32 {
        let bytes = if self.first[wire] { &HELD_FIRST } else { &HELD_LATER };
        bytes[self.code[wire] as usize % 4]
    }

    /// Wires in ascending number; stopping at the first over its room keeps every delay to 24 bits.
    fn bounds(&mut self) -> Result<(), u64> {
        for wire in 0..self.wires {
            if self.prices[wire] == 0 {
                continue;
            }
            let users = [self.users[0][wire], self.users[1][wire]];
            let mut late = 0;
            each(users, |half, user| late += self.share[half][user] * self.jitter[half][user] as u64);
            let backlog = (self.prices[wire] + self.held(wire)) as u64 + late / self.hyperperiod as u64;
            if backlog > self.room[wire] as u64 {
                return Err(refusal(13, wire));
            }
            let delay = (backlog as u32).div_ceil(self.rate(wire));
            self.figures[wire] = backlog << 24 | delay as u64;
            each(users, |half, user| self.jitter[half][user] += delay - 1);
        }
        Ok(())
    }

    fn ends(&self) -> impl Iterator<Item = u32> + '_ {
        let channels = self.channels;
        self.beside[..channels]
            .iter()
            .zip(&self.jitter.as_flattened()[..channels])
            .map(|(beside, jitter)| beside + jitter)
    }

    fn test_deadlines(&self) -> Result<(), u64> {
        match self.ends().zip(&self.deadline).position(|(end, &deadline)| end > deadline) {
            None => Ok(()),
            Some(channel) => Err(refusal(14, channel)),
        }
    }

    fn write(&self, sheet: &mut [u8]) -> Result<u64, u64> {
        let length = sheet_length(self.wires, self.channels);
        if sheet.len() < length {
            return Err(refusal(15, 0));
        }
        let (bytes, tail) = sheet.split_at_mut(length);
        let mut writer = Writer { bytes, at: 0, kept: 0, bits: 0 };
        writer.put(15, (self.wires << 8 | self.channels) as u64);
        for &figures in &self.figures[..self.wires] {
            writer.put(48, figures);
        }
        for end in self.ends() {
            writer.put(28, end as u64);
        }
        writer.fill_up();
        tail.fill(255);
        Ok(length as u64)
    }

    fn judge(&mut self, bytes: &[u8], sheet: &mut [u8]) -> Result<u64, u64> {
        self.read(bytes)?;
        self.test_loads()?;
        self.bounds()?;
        self.test_deadlines()?;
        self.write(sheet)
    }
}

fn sheet_length(wires: usize, channels: usize) -> usize {
    (15 + 48 * wires + 28 * channels).div_ceil(8)
}

pub fn judge(table: &[u8], sheet: &mut [u8]) -> u64 {
    match Table::empty().judge(table, sheet) {
        Ok(length) => length,
        Err(refused) => {
            sheet.fill(255);
            refused
        }
    }
}

// ---- asking a sheet ----

/// The counts of a sound sheet.
fn counts(sheet: &[u8]) -> Result<(usize, usize), u64> {
    if sheet.len() < LEAST_SHEET {
        return Err(refusal(16, 0));
    }
    let header = u16::from_be_bytes(bytes_from(sheet, 0));
    let wires = (header >> 9) as usize;
    let channels = (header >> 1) as usize & 255;
    if wires == 0 || wires > 64 || channels == 0 || channels > 128 {
        return Err(refusal(17, 0));
    }
    if sheet.len() != sheet_length(wires, channels) {
        return Err(refusal(16, 0));
    }
    let end = Cursor { bytes: sheet, at: 15 + 48 * wires + 28 * channels };
    if !end.ends_clean() {
        return Err(refusal(18, 0));
    }
    Ok((wires, channels))
}

pub fn ask_wire(sheet: &[u8], wire: u64) -> u64 {
    match counts(sheet) {
        Err(refused) => refused,
        Ok((wires, _)) if wire >= wires as u64 => refusal(19, 0),
        Ok(_) => Cursor { bytes: sheet, at: 15 + 48 * wire as usize }.word() >> 16,
    }
}

pub fn ask_channel(sheet: &[u8], channel: u64) -> u64 {
    match counts(sheet) {
        Err(refused) => refused,
        Ok((_, channels)) if channel >= channels as u64 => refusal(19, 0),
        Ok((wires, _)) => Cursor { bytes: sheet, at: 15 + 48 * wires + 28 * channel as usize }.word() >> 36,
    }
}

// ---- asking a roll ----

pub fn label(roll: &[u8], number: u64) -> u64 {
    labels(roll, number).unwrap_or(refusal(21, 0))
}

/// The label's start and length, or 22; None for a roll with a fault.
fn labels(roll: &[u8], number: u64) -> Option<u64> {
    let &count = roll.first()?;
    if count.wrapping_sub(1) > 127 {
        return None;
    }
    let mut found = refusal(22, 0);
    let mut at = 1;
    for label in 0..count as u64 {
        let &length = roll.get(at)?;
        let start = at + 1;
        at = start + length as usize;
        let bytes = roll.get(start..at)?;
        if length.wrapping_sub(1) > 23 || bytes.iter().any(|byte| byte.wrapping_sub(32) > 94) {
            return None;
        }
        if label == number {
            found = (start as u64) << 16 | length as u64;
        }
    }
    (at == roll.len()).then_some(found)
}
