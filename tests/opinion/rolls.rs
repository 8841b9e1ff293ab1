//! The comparison on rolls of labels: sound ones, and ones with every kind of fault, asked for numbers
//! below the count, at it and beyond it.

use crate::compare::{hash, show_reply, Outcome};
use crate::ffi::{self, Face};
use crate::hex;
use crate::opinion::{self, Answer, Refusal, LIMITS};
use crate::rng::Rng;
use std::collections::HashSet;
use std::ops::Range;
use Kind::*;

/// What the gate demands, besides a least count of each kind.
const ROLLS: u64 = 200_000;
const EACH_REFUSAL: u64 = 100_000;
const GRANTED: u64 = 100_000;

const MOST_COUNT: u64 = *LIMITS.count.end() as u64;
const MOST_LENGTH: u64 = *LIMITS.length.end() as u64;
const LEAST_BYTE: u64 = *LIMITS.byte.start() as u64;
const MOST_BYTE: u64 = *LIMITS.byte.end() as u64;

/// How a roll was made.
#[derive(Clone, Copy, PartialEq)]
enum Kind {
    Sound,
    CutShort,
    BytesAfter,
    CountZero,
    CountOver,
    OtherCount,
    LengthZero,
    LengthOver,
    PastTheEnd,
    ByteBelow,
    ByteAbove,
    SeveralFaults,
    OtherByte,
    RandomBytes,
}

/// In the order of `Kind`: what a roll of that kind has, and how many different ones are demanded.
const KINDS: [(&str, u64); 14] = [
    ("no fault", 5_000),
    ("it is cut short", 100_000),
    ("bytes after it", 10_000),
    ("a count of 0", 2_000),
    ("a count of 129 or more", 10_000),
    ("another count than its labels", 5_000),
    ("a length of 0", 5_000),
    ("a length of 25 or more", 10_000),
    ("a length that runs past the end", 2_000),
    ("a byte of 31 or less", 10_000),
    ("a byte of 127 or more", 10_000),
    ("several faults", 5_000),
    ("any one byte another", 100_000),
    ("random bytes", 10_000),
];

impl Kind {
    fn name(self) -> &'static str {
        KINDS[self as usize].0
    }

    /// Whether a roll that was made so can be sound, or can have a fault.
    fn can_be(self, sound: bool) -> bool {
        match self {
            Sound => sound,
            SeveralFaults | OtherByte | RandomBytes => true,
            _ => !sound,
        }
    }
}

// ---- a roll before it is written ----

#[derive(Clone)]
struct Label {
    length: u8,
    bytes: Vec<u8>,
}

#[derive(Clone)]
struct Draft {
    count: u8,
    labels: Vec<Label>,
    after: Vec<u8>,
}

impl Draft {
    fn encode(&self) -> Vec<u8> {
        let mut roll = vec![self.count];
        for label in &self.labels {
            roll.push(label.length);
            roll.extend(&label.bytes);
        }
        roll.extend(&self.after);
        roll
    }

    /// The label that gets a fault: the first, the last, or any.
    fn one(&mut self, rng: &mut Rng) -> &mut Label {
        let last = self.labels.len() - 1;
        let any = rng.below(self.labels.len() as u64) as usize;
        &mut self.labels[rng.pick(&[0, last, last, any])]
    }
}

fn letter(rng: &mut Rng) -> u8 {
    let any = rng.range(LEAST_BYTE, MOST_BYTE);
    rng.pick(&[LEAST_BYTE, LEAST_BYTE + 1, MOST_BYTE - 1, MOST_BYTE, any, any, any, any]) as u8
}

fn label(rng: &mut Rng, length: u64) -> Label {
    Label { length: length as u8, bytes: (0..length).map(|_| letter(rng)).collect() }
}

fn any_label(rng: &mut Rng, most: u64) -> Label {
    let any = rng.range(1, most);
    let length = rng.pick(&[1, most, any, any]);
    label(rng, length)
}

fn draft(rng: &mut Rng, count: u64, most: u64) -> Draft {
    Draft { count: count as u8, labels: (0..count).map(|_| any_label(rng, most)).collect(), after: Vec::new() }
}

fn sound(rng: &mut Rng) -> Draft {
    let few = rng.range(1, 6);
    let some = rng.range(1, 24);
    let any = rng.range(1, MOST_COUNT);
    let count = rng.pick(&[1, 2, few, few, few, few, some, some, some, some, any, MOST_COUNT - 1, MOST_COUNT]);
    draft(rng, count, MOST_LENGTH)
}

fn longest(rng: &mut Rng) -> Draft {
    let labels = (0..MOST_COUNT).map(|_| label(rng, MOST_LENGTH)).collect();
    Draft { count: MOST_COUNT as u8, labels, after: Vec::new() }
}

/// Puts a fault of a kind into a draft.
fn damage(rng: &mut Rng, draft: &mut Draft, kind: Kind) {
    match kind {
        BytesAfter => draft.after = after(rng),
        CountZero if rng.chance(1, 8) => *draft = Draft { count: 0, labels: Vec::new(), after: Vec::new() },
        CountZero => draft.count = 0,
        CountOver => {
            let any = rng.range(MOST_COUNT + 1, 255);
            draft.count = rng.pick(&[MOST_COUNT + 1, MOST_COUNT + 1, 255, any]) as u8;
            let as_counted = rng.chance(3, 4);
            while as_counted && draft.labels.len() < draft.count as usize {
                draft.labels.push(any_label(rng, 3));
            }
        }
        OtherCount => {
            let right = draft.labels.len() as u64;
            let any = rng.range(1, MOST_COUNT);
            let count = rng.pick(&[right - 1, right + 1, any]).clamp(1, MOST_COUNT);
            draft.count = if count == right { right % MOST_COUNT + 1 } else { count } as u8;
        }
        LengthZero => *draft.one(rng) = label(rng, 0),
        LengthOver => {
            let any = rng.range(MOST_LENGTH + 1, 255);
            let length = rng.pick(&[MOST_LENGTH + 1, MOST_LENGTH + 1, MOST_LENGTH + 2, 255, any]);
            *draft.one(rng) = label(rng, length);
        }
        PastTheEnd => {
            let last = draft.labels.len() - 1;
            let label = &mut draft.labels[last];
            label.bytes.truncate(rng.below(MOST_LENGTH) as usize);
            let short = label.bytes.len() as u64 + 1;
            let any = rng.range(short, MOST_LENGTH);
            label.length = rng.pick(&[short, MOST_LENGTH, any]) as u8;
        }
        ByteBelow => {
            let any = rng.below(LEAST_BYTE);
            other_byte(rng, draft, [LEAST_BYTE - 1, LEAST_BYTE - 1, 0, any]);
        }
        ByteAbove => {
            let any = rng.range(MOST_BYTE + 1, 255);
            other_byte(rng, draft, [MOST_BYTE + 1, MOST_BYTE + 1, 255, any]);
        }
        SeveralFaults => {
            for _ in 0..rng.range(2, 3) {
                let kind = rng.pick(&[OtherCount, LengthZero, LengthOver, ByteBelow, ByteAbove, BytesAfter]);
                damage(rng, draft, kind);
            }
        }
        Sound | CutShort | OtherByte | RandomBytes => unreachable!("no fault of a draft"),
    }
}

/// A byte of a label, its first, its last, or any.
fn other_byte(rng: &mut Rng, draft: &mut Draft, bytes: [u64; 4]) {
    let label = &mut draft.one(rng).bytes;
    if !label.is_empty() {
        let any = rng.below(label.len() as u64) as usize;
        let place = rng.pick(&[0, label.len() - 1, any]);
        label[place] = rng.pick(&bytes) as u8;
    }
}

/// One byte, some, or a label more.
fn after(rng: &mut Rng) -> Vec<u8> {
    let any = rng.next() as u8;
    match rng.below(3) {
        0 => vec![rng.pick(&[0, 1, b' ', 255, any])],
        1 => {
            let count = rng.range(2, 30) as usize;
            rng.bytes(count)
        }
        _ => {
            let label = any_label(rng, MOST_LENGTH);
            [vec![label.length], label.bytes].concat()
        }
    }
}

/// Bytes of which some could be a roll.
fn random_bytes(rng: &mut Rng) -> Vec<u8> {
    let length = rng.pick(&[3, 8, 30]);
    let length = rng.range(0, length) as usize;
    let mut bytes = rng.bytes(length);
    if rng.chance(1, 2) {
        bytes.iter_mut().for_each(|byte| *byte %= 4);
        bytes.iter_mut().for_each(|byte| *byte += if rng.chance(1, 2) { b' ' } else { 0 });
    }
    bytes
}

// ---- the comparison ----

pub struct Rolls<'a> {
    face: &'a dyn Face,
    rng: Rng,
    seen: HashSet<u64>,
    by_kind: [u64; KINDS.len()],
    longest: u64,
    granted: u64,
    refused_roll: u64,
    refused_number: u64,
}

impl<'a> Rolls<'a> {
    pub fn new(face: &'a dyn Face, seed: u64) -> Rolls<'a> {
        Rolls {
            face,
            rng: Rng::new(!seed),
            seen: HashSet::new(),
            by_kind: [0; KINDS.len()],
            longest: 0,
            granted: 0,
            refused_roll: 0,
            refused_number: 0,
        }
    }

    /// One longest roll: with each fault, and at every byte, or at every so many, cut short and with another.
    pub fn longest(&mut self, step: usize) -> Outcome {
        let draft = longest(&mut self.rng);
        self.faults(&draft)?;
        let roll = draft.encode();
        self.cut_short(&roll, step)?;
        (0..roll.len()).step_by(step).try_for_each(|place| self.other_byte(&roll, place))
    }

    pub fn round(&mut self) -> Outcome {
        for _ in 0..45 {
            let draft = sound(&mut self.rng);
            self.faults(&draft)?;
            let roll = draft.encode();
            let step = roll.len().div_ceil(30);
            self.cut_short(&roll, step)?;
        }
        self.every_byte()?;
        for _ in 0..150 {
            let bytes = random_bytes(&mut self.rng);
            self.roll(RandomBytes, bytes)?;
        }
        Ok(())
    }

    /// A sound roll, and the same with a fault of each kind.
    fn faults(&mut self, sound: &Draft) -> Outcome {
        self.roll(Sound, sound.encode())?;
        let once = [CountZero, OtherCount, LengthZero, PastTheEnd, SeveralFaults];
        let twice = [BytesAfter, CountOver, LengthOver, ByteBelow, ByteAbove];
        for kind in once.into_iter().chain(twice).chain(twice) {
            let mut draft = sound.clone();
            damage(&mut self.rng, &mut draft, kind);
            self.roll(kind, draft.encode())?;
        }
        let roll = sound.encode();
        for _ in 0..3 {
            let place = self.rng.below(roll.len() as u64) as usize;
            self.other_byte(&roll, place)?;
        }
        Ok(())
    }

    fn other_byte(&mut self, roll: &[u8], place: usize) -> Outcome {
        let mut other = roll.to_vec();
        other[place] = self.rng.next() as u8;
        self.roll(OtherByte, other)
    }

    /// Cut short at every byte, or at every so many, and before each of the last few.
    fn cut_short(&mut self, roll: &[u8], step: usize) -> Outcome {
        let last = roll.len().saturating_sub(4)..roll.len();
        for end in (0..roll.len()).step_by(step).chain(last) {
            self.roll(CutShort, roll[..end].to_vec())?;
        }
        Ok(())
    }

    /// A small roll with every byte in every place.
    fn every_byte(&mut self) -> Outcome {
        let count = self.rng.range(1, 3);
        let roll = draft(&mut self.rng, count, 3).encode();
        for place in 0..roll.len() {
            for byte in 0..=255 {
                let mut other = roll.clone();
                other[place] = byte;
                self.roll(OtherByte, other)?;
            }
        }
        Ok(())
    }

    // ---- one roll ----

    fn roll(&mut self, kind: Kind, roll: Vec<u8>) -> Outcome {
        if !self.seen.insert(hash(&roll)) {
            return Ok(());
        }
        let roll = roll.into_boxed_slice();
        let read = opinion::read_roll(&roll, &LIMITS);
        if !kind.can_be(read.is_ok()) {
            return Err(format!("{}, and the second opinion says otherwise\nroll {}", kind.name(), hex::show(&roll)));
        }
        self.by_kind[kind as usize] += 1;
        self.longest += (read.is_ok() && roll.len() == 3_201) as u64;
        for number in self.numbers(&roll, kind) {
            let answer = match &read {
                Ok(labels) => opinion::label(labels, number),
                Err(refusal) => Err(*refusal),
            };
            self.ask(&roll, number, answer)?;
        }
        Ok(())
    }

    /// Numbers below the count, of a roll made sound all of them; around it; and far above it.
    fn numbers(&mut self, roll: &[u8], kind: Kind) -> Vec<u64> {
        let count = roll.first().map_or(0, |&count| count as u64);
        let below = self.rng.below(count.max(1));
        let mut numbers = match kind {
            Sound => (0..count).collect(),
            _ => vec![0, below, count.saturating_sub(1)],
        };
        let far = [count + 1, 255, 256 + below, 1 << 16, (1 << 32) + below, 1 << 63, u64::MAX - 1];
        numbers.extend([count, u64::MAX, self.rng.pick(&far), self.rng.pick(&far)]);
        numbers
    }

    fn ask(&mut self, roll: &[u8], number: u64, answer: Answer<Range<usize>>) -> Outcome {
        match &answer {
            Ok(_) => self.granted += 1,
            Err(Refusal { number: 21, .. }) => self.refused_roll += 1,
            Err(_) => self.refused_number += 1,
        }
        let (expected, got) = (ffi::label_reply(&answer), self.face.label(roll, number));
        if got == expected {
            return Ok(());
        }
        let (expected, got) = (show_reply(expected), show_reply(got));
        Err(format!("asked for label {number}\nroll {}\nexpected {expected}\ngot      {got}", hex::show(roll)))
    }

    // ---- what was done ----

    fn all(&self) -> u64 {
        self.by_kind.iter().sum()
    }

    pub fn print(&self) {
        println!(
            "rolls {}, of these sound and longest: {}; labels granted {}, refused 21: {}, 22: {}",
            self.all(),
            self.longest,
            self.granted,
            self.refused_roll,
            self.refused_number
        );
        for ((what, _), count) in KINDS.iter().zip(self.by_kind) {
            println!("{count:7} rolls: {what}");
        }
    }

    /// What the gate demands: of what, how many there were, how many there have to be.
    pub fn demands(&self) -> Vec<(String, u64, u64)> {
        let mut all = vec![
            ("rolls".to_string(), self.all(), ROLLS),
            ("longest rolls".to_string(), self.longest, 1),
            ("labels granted".to_string(), self.granted, GRANTED),
            ("refusal 21".to_string(), self.refused_roll, EACH_REFUSAL),
            ("refusal 22".to_string(), self.refused_number, EACH_REFUSAL),
        ];
        for ((what, least), count) in KINDS.iter().zip(self.by_kind) {
            all.push((format!("rolls: {what}"), count, *least));
        }
        all
    }
}
