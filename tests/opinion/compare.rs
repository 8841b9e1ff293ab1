//! The comparison: the face against the second opinion, on many generated tables, sheets, prices and
//! rolls of labels.

use crate::ffi::{self, Face};
use crate::generate::{self, Draft, Hyperperiod, Shape};
use crate::hex;
use crate::opinion::{self, Answer};
use crate::rng::Rng;
use crate::rolls::Rolls;
use std::collections::HashSet;
use std::hash::{DefaultHasher, Hash, Hasher};

/// What the gate demands.
pub const TABLES: u64 = 300_000;
const ACCEPTED: u64 = 30_000;
const WITH_JITTER: u64 = 5_000;
const WITH_LATER: u64 = 5_000;
const WITH_UNUSED: u64 = 5_000;
const EACH_NUMBER: u64 = 100;

const GUARD: usize = 16;
const LONGEST_SHEET: usize = 834;

/// A disagreement, told.
pub type Outcome = Result<(), String>;

pub struct Comparison<'a> {
    face: &'a dyn Face,
    rng: Rng,
    seen: HashSet<u64>,
    pool: Vec<Hyperperiod>,
    tables: u64,
    judgements: u64,
    accepted: u64,
    with_jitter: u64,
    with_later: u64,
    with_unused: u64,
    longest: u64,
    asked: u64,
    prices: u64,
    rolls: Rolls<'a>,
    /// Tables by the reply to their first judgement; 0 is accepted.
    by_table: [u64; 21],
    /// Refusals of every kind of question.
    by_number: [u64; 21],
}

impl<'a> Comparison<'a> {
    pub fn new(face: &'a dyn Face, seed: u64) -> Comparison<'a> {
        let mut rng = Rng::new(seed);
        let pool = generate::hyperperiods(&mut rng);
        Comparison {
            face,
            rng,
            seen: HashSet::new(),
            pool,
            tables: 0,
            judgements: 0,
            accepted: 0,
            with_jitter: 0,
            with_later: 0,
            with_unused: 0,
            longest: 0,
            asked: 0,
            prices: 0,
            rolls: Rolls::new(face, seed),
            by_table: [0; 21],
            by_number: [0; 21],
        }
    }

    /// The whole comparison, over at least `tables` different tables.
    pub fn run(&mut self, tables: u64) -> Outcome {
        self.prices(1)?;
        self.empty_sheets()?;
        self.rolls.longest(1)?;
        self.rolls.round()?;
        self.longest_tables()?;
        self.rounds(tables)
    }

    /// A small part of every kind, for slow machines such as valgrind's.
    pub fn run_reduced(&mut self, tables: u64) -> Outcome {
        self.prices(97)?;
        self.empty_sheets()?;
        self.rolls.longest(100)?;
        self.edges_of(&generate::LONGEST)?;
        self.rounds(tables)
    }

    fn rounds(&mut self, tables: u64) -> Outcome {
        let mut round = 0;
        while self.tables < tables {
            self.round(round)?;
            round += 1;
        }
        Ok(())
    }

    fn round(&mut self, round: u64) -> Outcome {
        self.rolls.round()?;
        for _ in 0..40 {
            self.edges_of(&generate::SMALL)?;
        }
        for _ in 0..6 {
            let draft = generate::full(&mut self.rng);
            self.edges(draft)?;
        }
        for _ in 0..4 {
            self.edges_of(&generate::MIDDLE)?;
        }
        for _ in 0..3 {
            self.edges_of(&generate::TOWERING)?;
        }
        if round % 4 == 0 {
            self.edges_of(&generate::LONGEST)?;
        }
        for _ in 0..40 {
            self.damaged()?;
        }
        self.single_bits_and_bytes()?;
        for _ in 0..80 {
            let table = generate::extreme_header(&mut self.rng);
            self.table(&table)?;
        }
        for _ in 0..150 {
            let table = generate::random_bytes(&mut self.rng);
            self.table(&table)?;
        }
        Ok(())
    }

    fn edges_of(&mut self, shape: &Shape) -> Outcome {
        let draft = generate::sound(&mut self.rng, shape, &self.pool);
        self.edges(draft)
    }

    /// Rooms and deadlines exactly met, and one off each.
    fn edges(&mut self, mut draft: Draft) -> Outcome {
        if draft.tighten().is_none() {
            return self.table(&draft.encode());
        }
        for table in generate::edges(&mut self.rng, &draft) {
            self.table(&table)?;
        }
        Ok(())
    }

    fn damaged(&mut self) -> Outcome {
        let mut draft = generate::sound(&mut self.rng, &generate::SMALL, &self.pool);
        draft.tighten();
        for _ in 0..4 {
            let table = generate::damaged(&mut self.rng, &draft);
            self.table(&table)?;
        }
        for _ in 0..2 {
            let table = generate::damaged_twice(&mut self.rng, &draft);
            self.table(&table)?;
        }
        Ok(())
    }

    fn single_bits_and_bytes(&mut self) -> Outcome {
        let mut draft = generate::sound(&mut self.rng, &generate::SMALL, &self.pool);
        draft.tighten();
        self.every_bit_and_byte(&draft.encode())
    }

    fn every_bit_and_byte(&mut self, table: &[u8]) -> Outcome {
        for other in generate::bits_turned(table) {
            self.table(&other)?;
        }
        for other in generate::cut_and_extended(&mut self.rng, table) {
            self.table(&other)?;
        }
        Ok(())
    }

    /// Every bit and byte of one longest table that is accepted with nothing to spare.
    fn longest_tables(&mut self) -> Outcome {
        loop {
            let mut draft = generate::sound(&mut self.rng, &generate::LONGEST, &self.pool);
            if draft.tighten().is_some() && draft.channels.len() == 128 {
                return self.every_bit_and_byte(&draft.encode());
            }
        }
    }

    // ---- one table ----

    fn table(&mut self, table: &[u8]) -> Outcome {
        if !self.seen.insert(hash(table)) {
            return Ok(());
        }
        let lent = self.lent();
        let verdict = self.judge(table, lent)?;
        self.tables += 1;
        match verdict {
            Ok(accepted) => {
                self.by_table[0] += 1;
                self.note(table, &accepted);
                self.other_lengths(table, accepted.sheet.len())?;
                self.ask_back(table, &accepted)
            }
            Err(refusal) => {
                self.by_table[refusal.number as usize] += 1;
                self.refused_buffer(table, lent)
            }
        }
    }

    fn note(&mut self, table: &[u8], accepted: &opinion::Accepted) {
        let any = |is: fn(&opinion::Table, usize) -> bool| {
            (0..accepted.table.wires.len()).any(|wire| is(&accepted.table, wire)) as u64
        };
        self.accepted += 1;
        self.with_jitter += accepted.figures.has_jitter() as u64;
        self.with_later += any(opinion::is_later);
        self.with_unused += any(opinion::is_unused);
        self.longest += (table.len() == 2_165) as u64;
    }

    fn lent(&mut self) -> usize {
        let most = self.rng.pick(&[0, 20, 60, LONGEST_SHEET, LONGEST_SHEET, LONGEST_SHEET, LONGEST_SHEET]);
        match most {
            LONGEST_SHEET => LONGEST_SHEET + self.rng.below(20) as usize,
            most => self.rng.range(0, most as u64) as usize,
        }
    }

    /// Judges one table for one lent length: reply, whole buffer, guards, and the table itself.
    fn judge(&mut self, table: &[u8], lent: usize) -> Result<Answer<opinion::Accepted>, String> {
        let verdict = opinion::verdict(table, lent);
        let expected = opinion::buffer_after(&verdict, lent);
        let reply = ffi::judge_reply(&verdict.as_ref().map(|accepted| accepted.sheet.len()).map_err(|&r| r));
        let question: Box<[u8]> = table.into();
        let pattern = self.rng.bytes(lent + 2 * GUARD);
        let mut block = pattern.clone();
        let got = self.face.judge(&question, &mut block[GUARD..GUARD + lent]);
        self.judgements += 1;
        let tell = |what: &str, expected: String, got: String| {
            Err(format!("{what}\ntable {}\nlent {lent}\nexpected {expected}\ngot      {got}", hex::show(table)))
        };
        if got != reply {
            return tell("reply", show_reply(reply), show_reply(got));
        }
        if block[GUARD..GUARD + lent] != expected[..] {
            return tell("buffer", hex::show(&expected), hex::show(&block[GUARD..GUARD + lent]));
        }
        if block[..GUARD] != pattern[..GUARD] || block[GUARD + lent..] != pattern[GUARD + lent..] {
            return tell("bytes beside the lent buffer", hex::show(&pattern), hex::show(&block));
        }
        if question[..] != *table {
            return tell("the table was changed", hex::show(table), hex::show(&question));
        }
        if let Err(refusal) = &verdict {
            self.by_number[refusal.number as usize] += 1;
        }
        Ok(verdict)
    }

    /// Lent lengths around the sheet's, and for some tables every one from 0 to past the sheet.
    fn other_lengths(&mut self, table: &[u8], length: usize) -> Outcome {
        if length < 200 && self.rng.chance(1, 100) {
            for lent in 0..length + 4 {
                let _ = self.judge(table, lent)?;
            }
        } else if self.rng.chance(1, 4) {
            let short = self.rng.below(length as u64) as usize;
            for lent in [short, length - 1, length, length + 1] {
                let _ = self.judge(table, lent)?;
            }
        }
        Ok(())
    }

    /// The buffer that a refusal leaves answers nothing.
    fn refused_buffer(&mut self, table: &[u8], lent: usize) -> Outcome {
        if self.rng.chance(1, 16) {
            let mut buffer = self.rng.bytes(lent);
            self.face.judge(table, &mut buffer);
            self.ask(&buffer, 0)?;
        }
        Ok(())
    }

    // ---- sheets ----

    /// Asks an accepted sheet back for every wire and channel and past the end, then damages it.
    fn ask_back(&mut self, table: &[u8], accepted: &opinion::Accepted) -> Outcome {
        let mut buffer = vec![0; accepted.sheet.len()].into_boxed_slice();
        self.face.judge(table, &mut buffer);
        let figures = &accepted.figures;
        for (wire, figure) in figures.backlogs.iter().copied().zip(figures.delays.iter().copied()).enumerate() {
            self.same_wire(&buffer, wire as u64, &Ok(figure))?;
        }
        for (channel, &end) in figures.ends.iter().enumerate() {
            self.same_channel(&buffer, channel as u64, &Ok(end))?;
        }
        for past in [0, 1, 1 << 8, 1 << 32] {
            self.ask(&buffer, figures.backlogs.len() as u64 + past)?;
            self.ask(&buffer, figures.ends.len() as u64 + past)?;
        }
        self.ask(&buffer, 1 << 32)?;
        self.ask(&buffer, u64::MAX)?;
        for _ in 0..2 {
            let damaged = generate::damaged_sheet(&mut self.rng, &buffer).into_boxed_slice();
            let number = self.rng.below(figures.backlogs.len() as u64 + 2);
            self.ask(&damaged, number)?;
        }
        Ok(())
    }

    /// Asks a sheet for a wire and for a channel of one number.
    fn ask(&mut self, sheet: &[u8], number: u64) -> Outcome {
        let read = opinion::read_sheet(sheet);
        let wire = match &read {
            Ok(sheet) => sheet.wire(number),
            Err(refusal) => Err(*refusal),
        };
        let channel = match &read {
            Ok(sheet) => sheet.channel(number),
            Err(refusal) => Err(*refusal),
        };
        self.same_wire(sheet, number, &wire)?;
        self.same_channel(sheet, number, &channel)
    }

    fn same_wire(&mut self, sheet: &[u8], number: u64, expected: &Answer<(u128, u128)>) -> Outcome {
        self.refused(expected);
        let got = self.face.ask_wire(sheet, number);
        self.same("wire", sheet, number, ffi::wire_reply(expected), got)
    }

    fn same_channel(&mut self, sheet: &[u8], number: u64, expected: &Answer<u128>) -> Outcome {
        self.refused(expected);
        let got = self.face.ask_channel(sheet, number);
        self.same("channel", sheet, number, ffi::figure_reply(expected), got)
    }

    fn same(&mut self, what: &str, sheet: &[u8], number: u64, expected: u64, got: u64) -> Outcome {
        self.asked += 1;
        if got == expected {
            return Ok(());
        }
        let (expected, got) = (show_reply(expected), show_reply(got));
        Err(format!("asked for {what} {number}\nsheet {}\nexpected {expected}\ngot      {got}", hex::show(sheet)))
    }

    fn refused<T>(&mut self, answer: &Answer<T>) {
        if let Err(refusal) = answer {
            self.by_number[refusal.number as usize] += 1;
        }
    }

    /// Sheets of 0 to 3 bytes, of every first byte; and NULL for an empty one.
    fn empty_sheets(&mut self) -> Outcome {
        for length in 0..4 {
            for first in 0..=255 {
                let mut sheet = self.rng.bytes(length).into_boxed_slice();
                sheet.iter_mut().take(1).for_each(|byte| *byte = first);
                self.ask(&sheet, 0)?;
            }
        }
        if self.face.null_is_empty() {
            Ok(())
        } else {
            Err("NULL with length 0 is not as an empty slice".to_string())
        }
    }

    // ---- prices ----

    fn prices(&mut self, step: usize) -> Outcome {
        let beyond = [65_537, 65_536 + 38, 131_071, 1 << 24, 1 << 32, (1 << 32) + 1, 1 << 63, u64::MAX];
        let framings = [0, 1, 2, 3, 255, 256, 1 << 32, (1 << 32) + 1, u64::MAX - 1, u64::MAX];
        for &framing in &framings[..4] {
            for payload in (0..=65_536).step_by(step) {
                self.price(framing, payload)?;
            }
        }
        for framing in framings {
            for payload in beyond.into_iter().chain([0, 1, 38, 1_492, 65_535, 65_536]) {
                self.price(framing, payload)?;
            }
        }
        Ok(())
    }

    fn price(&mut self, framing: u64, payload: u64) -> Outcome {
        let answer = opinion::price(framing, payload);
        self.refused(&answer);
        self.prices += 1;
        let (expected, got) = (ffi::figure_reply(&answer), self.face.price(framing, payload));
        if got == expected {
            return Ok(());
        }
        let (expected, got) = (show_reply(expected), show_reply(got));
        Err(format!("price of framing {framing}, payload {payload}\nexpected {expected}\ngot      {got}"))
    }

    // ---- what was done ----

    pub fn print(&self) {
        println!("compared with the second opinion: {}", self.face.name());
        println!("tables {}, judgements {}", self.tables, self.judgements);
        println!(
            "accepted {}, of these with a jitter above 0: {}, a later wire: {}, an unused one: {}, longest: {}",
            self.accepted, self.with_jitter, self.with_later, self.with_unused, self.longest
        );
        println!("sheets asked {}, prices asked {}", self.asked, self.prices);
        println!("refusal  tables  all questions");
        for number in 1..=20 {
            println!("{number:7} {:7} {:14}", self.by_table[number], self.by_number[number]);
        }
        self.rolls.print();
    }

    /// What the gate demands and this run has not.
    pub fn shortfalls(&self) -> Vec<String> {
        let mut all = Vec::new();
        let mut demand = |what: String, count: u64, least: u64| {
            if count < least {
                all.push(format!("{what}: {count}, and {least} are demanded"));
            }
        };
        demand("tables".to_string(), self.tables, TABLES);
        demand("accepted".to_string(), self.accepted, ACCEPTED);
        demand("accepted with a jitter above 0".to_string(), self.with_jitter, WITH_JITTER);
        demand("accepted with a later wire".to_string(), self.with_later, WITH_LATER);
        demand("accepted with an unused wire".to_string(), self.with_unused, WITH_UNUSED);
        for number in 1..=20 {
            demand(format!("refusal {number}"), self.by_number[number], EACH_NUMBER);
        }
        for (what, count, least) in self.rolls.demands() {
            demand(what, count, least);
        }
        all
    }
}

pub fn hash(bytes: &[u8]) -> u64 {
    let mut hasher = DefaultHasher::new();
    bytes.hash(&mut hasher);
    hasher.finish()
}

pub fn show_reply(reply: u64) -> String {
    format!("number {} place {} value {}", reply >> 56, reply >> 48 & 255, reply & ((1 << 48) - 1))
}
