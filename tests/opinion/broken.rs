//! Faces broken on purpose, one fault each: the comparison has to see every one of them.

use crate::ffi::{self, Face};
use crate::opinion::{self, Answer, Figures, Limits, Refusal, Rules, Table, FULL_FRAME, LIMITS, RULES};

pub const FAULTS: [&str; 41] = [
    "the length of an accepted sheet is one more",
    "refusal 14 is called 13",
    "every refusal has place 0",
    "a refusal leaves the buffer as it was",
    "the byte after the lent buffer is written",
    "one bit of the last channel's delay is turned",
    "bytes after the sheet are 0",
    "jitter is left out",
    "each channel's share of a backlog is rounded up",
    "each channel's share of a backlog is rounded down",
    "a deadline exactly met is refused",
    "a room exactly met is refused",
    "a load exactly full is refused",
    "a further byte of 0 is overlooked",
    "a wire's delay is one more from wire 5 on",
    "channels are numbered modulo 2^32",
    "the filling bits of a sheet are not looked at",
    "plain payload 1,530 costs one byte more",
    "payload 65,536 is taken for 0 and then for 1",
    "jitter grows by the delay minus 2",
    "load is a sum of hundredths, each rounded up",
    "no channels are taken for nothing late",
    "a first wire is held as a later one",
    "a later wire is held as a first one",
    "a hold is rounded down to whole slots",
    "the hold is added to the delay and not to the backlog",
    "an unused wire is held",
    "a label is one byte to the side",
    "a label's length byte is counted in",
    "a label's end stands in the place of its length",
    "a label of 25 bytes is taken",
    "an empty label is taken",
    "byte 31 is taken in a label",
    "byte 127 is taken in a label",
    "129 labels are taken",
    "no labels are taken for a roll",
    "the last label is not tested",
    "labels after the one asked for are not tested",
    "a byte after a roll is overlooked",
    "refusal 22 comes before 21",
    "labels are numbered modulo 2^32",
];

pub struct Broken {
    inner: Box<dyn Face>,
    fault: usize,
}

impl Broken {
    /// `fault` counts from 1.
    pub fn new(inner: Box<dyn Face>, fault: usize) -> Option<Broken> {
        (1..=FAULTS.len()).contains(&fault).then_some(Broken { inner, fault })
    }

    fn wrong_reply(&self, reply: u64) -> u64 {
        match (self.fault, reply >> 56) {
            (1, 0) => reply + 1,
            (2, 14) => reply - (1 << 56),
            (3, number) if number > 0 => number << 56,
            (22, 4) => 8,
            _ => reply,
        }
    }

    fn wrong_buffer(&self, reply: u64, before: &[u8], sheet: &mut [u8]) {
        let accepted = reply >> 56 == 0;
        match self.fault {
            4 if !accepted => sheet.copy_from_slice(before),
            // SAFETY: none; a library that writes past its buffer. The comparer's guard lies there.
            5 => unsafe { sheet.as_mut_ptr().add(sheet.len()).write_volatile(255) },
            6 if accepted => sheet[reply as usize - 2] ^= 1,
            7 if accepted => sheet[reply as usize..].fill(0),
            _ => {}
        }
    }

    /// The verdict of a judge that has one rule wrong; None where the right judge may speak.
    fn wrong_verdict(&self, bytes: &[u8]) -> Option<Answer<Vec<u8>>> {
        let table = opinion::decode(bytes).ok()?;
        opinion::test_loads(&table).ok()?;
        let wrong = match self.fault {
            8 => opinion::bounds(&table, &Rules { jitter_added: |_| 0, ..RULES }),
            9 => shares_rounded(&table, |numerator, h| numerator.div_ceil(h)),
            10 => shares_rounded(&table, |numerator, h| numerator / h),
            11 => opinion::bounds(&harder(&table, 0, 1), &RULES),
            12 => opinion::bounds(&harder(&table, 1, 0), &RULES),
            13 => full_refused(&table).and_then(|()| opinion::bounds(&table, &RULES)),
            20 => opinion::bounds(&table, &Rules { jitter_added: |delay| delay.saturating_sub(2), ..RULES }),
            21 => hundredths_refused(&table).and_then(|()| opinion::bounds(&table, &RULES)),
            23 => opinion::bounds(&table, &Rules { hold: |t, w| frames_held(t, w, [0, 1, 1]), ..RULES }),
            24 => opinion::bounds(&table, &Rules { hold: |t, w| frames_held(t, w, [0, 2, 2]), ..RULES }),
            25 => opinion::bounds(&table, &Rules { hold: rounded_down, ..RULES }),
            26 => only_delay_held(&table),
            27 => opinion::bounds(&table, &Rules { hold: |t, w| frames_held(t, w, [1, 1, 2]), ..RULES }),
            _ => return None,
        };
        let table = if self.fault == 11 { harder(&table, 0, 1) } else { table };
        Some(wrong.and_then(|figures| {
            opinion::test_deadlines(&table, &figures)?;
            Ok(opinion::write_sheet(&figures))
        }))
    }
}

/// The limits of a roll, one of them wrong.
fn wrong_limits(fault: usize) -> Option<Limits> {
    Some(match fault {
        31 => Limits { length: 1..=25, ..LIMITS },
        32 => Limits { length: 0..=24, ..LIMITS },
        33 => Limits { byte: 31..=126, ..LIMITS },
        34 => Limits { byte: 32..=127, ..LIMITS },
        35 => Limits { count: 1..=129, ..LIMITS },
        36 => Limits { count: 0..=128, ..LIMITS },
        _ => return None,
    })
}

/// The roll with blanks in the place of its last label.
fn last_blank(roll: &[u8]) -> Option<Vec<u8>> {
    let last = opinion::split_labels(roll.get(1..)?)?.last()?.len();
    Some([&roll[..roll.len() - last], &vec![b' '; last]].concat())
}

/// The roll up to that label, and so counted; None where it is not below the count.
fn up_to(roll: &[u8], number: u64) -> Option<Vec<u8>> {
    let count = (0..*roll.first()?).position(|label| label as u64 == number)? + 1;
    let end = (0..count).try_fold(1, |at, _| Some(at + 1 + *roll.get(at)? as usize))?;
    Some([&[count as u8][..], roll.get(1..end)?].concat())
}

/// The table with smaller rooms and deadlines.
fn harder(table: &Table, room: u128, deadline: u128) -> Table {
    let mut table = table.clone();
    table.wires.iter_mut().for_each(|wire| wire.room = wire.room.saturating_sub(room));
    table.channels.iter_mut().for_each(|channel| channel.deadline = channel.deadline.saturating_sub(deadline));
    table
}

fn full_refused(table: &Table) -> Answer<()> {
    for (number, wire) in table.wires.iter().enumerate() {
        if opinion::load(table, number) >= wire.rate * table.hyperperiod {
            return Err(Refusal { number: 12, place: number as u8 });
        }
    }
    Ok(())
}

/// Test 12 over hundredths of the wire, those of each channel rounded up.
fn hundredths_refused(table: &Table) -> Answer<()> {
    for (number, wire) in table.wires.iter().enumerate() {
        let users = table.channels.iter().filter(|channel| channel.route.contains(&number));
        let hundredths = |channel: &opinion::Channel| (100 * channel.price()).div_ceil(channel.period * wire.rate);
        if users.map(hundredths).sum::<u128>() > 100 {
            return Err(Refusal { number: 12, place: number as u8 });
        }
    }
    Ok(())
}

/// A hold of other full frames: for an unused wire, a later one, and one that is first on some route.
fn frames_held(table: &Table, wire: usize, frames: [u128; 3]) -> u128 {
    opinion::hold_of(frames[opinion::cabin_frames(table, wire) as usize], &table.wires[wire])
}

fn rounded_down(table: &Table, wire: usize) -> u128 {
    opinion::cabin_frames(table, wire) * FULL_FRAME / table.wires[wire].rate
}

fn only_delay_held(table: &Table) -> Answer<Figures> {
    let held = |wire: usize| table.wires[wire].rate * opinion::hold(table, wire);
    let mut roomier = table.clone();
    roomier.wires.iter_mut().enumerate().for_each(|(number, wire)| wire.room += held(number));
    let mut figures = opinion::bounds(&roomier, &RULES)?;
    figures.backlogs.iter_mut().enumerate().for_each(|(number, backlog)| *backlog -= held(number));
    Ok(figures)
}

/// The bounds with one rounding for each channel in the place of one at the end.
fn shares_rounded(table: &Table, round: fn(u128, u128) -> u128) -> Answer<Figures> {
    let mut figures = opinion::bounds(table, &RULES)?;
    let h = table.hyperperiod;
    for (number, wire) in table.wires.iter().enumerate() {
        let mut sum = wire.rate * opinion::hold(table, number);
        for (channel, jitters) in table.channels.iter().zip(&figures.jitters) {
            if let Some(hop) = channel.route.iter().position(|&w| w == number) {
                let c = channel.price();
                sum += round(c * h + c * (h / channel.period) * jitters[hop], h);
            }
        }
        figures.backlogs[number] = sum;
        figures.delays[number] = sum.div_ceil(wire.rate);
    }
    Ok(figures)
}

impl Face for Broken {
    fn judge(&self, table: &[u8], sheet: &mut [u8]) -> u64 {
        if let Some(verdict) = self.wrong_verdict(table) {
            return spoken(verdict, sheet);
        }
        let before = sheet.to_vec();
        let table = match table {
            [shorter @ .., 0] if self.fault == 14 && opinion::decode(shorter).is_ok() => shorter,
            table => table,
        };
        let reply = self.inner.judge(table, sheet);
        self.wrong_buffer(reply, &before, sheet);
        self.wrong_reply(reply)
    }

    fn ask_wire(&self, sheet: &[u8], wire: u64) -> u64 {
        let reply = self.inner.ask_wire(sheet, wire);
        if self.fault == 15 && reply >> 56 == 0 && wire >= 5 {
            reply + 1
        } else {
            reply
        }
    }

    fn ask_channel(&self, sheet: &[u8], channel: u64) -> u64 {
        let channel = if self.fault == 16 { channel & 0xffff_ffff } else { channel };
        let reply = self.inner.ask_channel(sheet, channel);
        if self.fault == 17 && reply >> 56 == 18 {
            1
        } else {
            reply
        }
    }

    fn price(&self, framing: u64, payload: u64) -> u64 {
        match (self.fault, framing, payload) {
            (18, 0, 1_530) => self.inner.price(framing, payload) + 1,
            (19, _, 65_536) => self.inner.price(framing, 1),
            _ => self.inner.price(framing, payload),
        }
    }

    fn label(&self, roll: &[u8], number: u64) -> u64 {
        if let Some(limits) = wrong_limits(self.fault) {
            let read = opinion::read_roll(roll, &limits);
            return ffi::label_reply(&read.and_then(|labels| opinion::label(&labels, number)));
        }
        let right = self.inner.label(roll, number);
        let granted = right >> 56 == 0;
        match (self.fault, roll) {
            (28, _) if granted => right + (1 << 16),
            (29, _) if granted => right - (1 << 16) + 1,
            (30, _) if granted => right + (right >> 16),
            (37, _) => last_blank(roll).map_or(right, |other| self.inner.label(&other, number)),
            (38, _) => up_to(roll, number).map_or(right, |part| self.inner.label(&part, number)),
            (39, [shorter @ .., _]) if self.inner.label(shorter, 0) >> 56 == 0 => self.inner.label(shorter, number),
            (40, _) if roll.first().is_none_or(|&count| number >= count as u64) => 22 << 56,
            (41, _) => self.inner.label(roll, number & 0xffff_ffff),
            _ => right,
        }
    }

    fn name(&self) -> &'static str {
        FAULTS[self.fault - 1]
    }
}

fn spoken(verdict: Answer<Vec<u8>>, sheet: &mut [u8]) -> u64 {
    sheet.fill(255);
    let verdict = match verdict {
        Ok(wrong) if wrong.len() > sheet.len() => Err(Refusal { number: 15, place: 0 }),
        Ok(wrong) => {
            sheet[..wrong.len()].copy_from_slice(&wrong);
            Ok(wrong.len())
        }
        Err(refusal) => Err(refusal),
    };
    ffi::judge_reply(&verdict)
}
