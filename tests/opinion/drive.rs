//! The slot machine driven by the adversaries on accepted tables with nothing to spare: no figure is
//! exceeded, how close they came, and that they exceed figures that are wrong on purpose.

use crate::adversary::{self, Attack, Cabins, Target};
use crate::ffi::Face;
use crate::generate::{self, Draft, Hyperperiod};
use crate::hex;
use crate::machine::{self, Observed};
use crate::opinion::{self, is_later, is_unused, Figures, Rules, Table, RULES};
use crate::rng::Rng;

pub const TABLES: u64 = 400;
const EACH_WRONG: u64 = 20;
const CLIMB: u64 = 40;
/// One run in this many is done again without taking quiet slots together.
const SLOT_BY_SLOT: u64 = 100;

/// A figure that a run exceeded, told.
pub type Outcome = Result<(), String>;

/// How close runs came to one kind of figure.
struct Closeness {
    what: &'static str,
    count: u64,
    exact: u64,
    largest: f64,
    sum: f64,
}

impl Closeness {
    fn of(what: &'static str) -> Closeness {
        Closeness { what, count: 0, exact: 0, largest: 0.0, sum: 0.0 }
    }

    fn note(&mut self, seen: u64, figure: u128) {
        if figure == 0 {
            return;
        }
        let ratio = seen as f64 / figure as f64;
        self.count += 1;
        self.exact += (seen as u128 == figure) as u64;
        self.largest = self.largest.max(ratio);
        self.sum += ratio;
    }

    fn print(&self) {
        let mean = self.sum / self.count.max(1) as f64;
        let Closeness { what, count, exact, largest, .. } = self;
        println!("{what:34} {count:6} figures, {exact:6} reached exactly, largest {largest:.4}, mean {mean:.4}");
    }
}

/// Figures that are wrong on purpose, and on how many tables a run exceeded them.
struct Wrong {
    what: &'static str,
    figures: fn(&Table) -> Figures,
    broken: u64,
}

fn by(table: &Table, rules: &Rules) -> Figures {
    opinion::bounds(table, rules).expect("no figure is larger")
}

fn no_jitter(table: &Table) -> Figures {
    by(table, &Rules { jitter_added: |_| 0, ..RULES })
}

fn delay_minus_two(table: &Table) -> Figures {
    by(table, &Rules { jitter_added: |delay| delay.saturating_sub(2), ..RULES })
}

fn hold_minus_one(table: &Table) -> Figures {
    by(table, &Rules { hold: |table, wire| opinion::hold(table, wire).saturating_sub(1), ..RULES })
}

/// The same, only on wires that are first on no route.
fn later_hold_minus_one(table: &Table) -> Figures {
    let hold = |table: &Table, wire| opinion::hold(table, wire) - is_later(table, wire) as u128;
    by(table, &Rules { hold, ..RULES })
}

fn first_held_as_later(table: &Table) -> Figures {
    let hold = |table: &Table, wire| opinion::hold_of(opinion::cabin_frames(table, wire).min(1), &table.wires[wire]);
    by(table, &Rules { hold, ..RULES })
}

fn backlog_minus_one(table: &Table) -> Figures {
    let mut figures = by(table, &RULES);
    figures.backlogs.iter_mut().for_each(|backlog| *backlog = backlog.saturating_sub(1));
    figures
}

/// The same, only where a jitter is above 0: the backlogs that first wires reach do not count.
fn backlog_minus_one_later(table: &Table) -> Figures {
    let mut figures = by(table, &RULES);
    for wire in 0..table.wires.len() {
        if jitter_at(table, &figures, wire) > 0 {
            figures.backlogs[wire] -= 1;
        }
    }
    figures
}

/// The largest jitter of any channel at a wire.
fn jitter_at(table: &Table, figures: &Figures, wire: usize) -> u128 {
    let hops = table.channels.iter().zip(&figures.jitters).flat_map(|(c, jitters)| c.route.iter().zip(jitters));
    hops.filter(|(&w, _)| w == wire).map(|(_, &jitter)| jitter).max().unwrap_or(0)
}

pub struct Drive<'a> {
    face: &'a dyn Face,
    rng: Rng,
    pool: Vec<Hyperperiod>,
    tables: u64,
    runs: u64,
    messages: u64,
    of_frames: u64,
    eight_hops: u64,
    with_later: u64,
    with_unused: u64,
    rates: [u64; 3],
    first: Closeness,
    later: Closeness,
    delays: Closeness,
    one_hop: Closeness,
    more_hops: Closeness,
    wrong: [Wrong; 7],
}

impl<'a> Drive<'a> {
    pub fn new(face: &'a dyn Face, seed: u64) -> Drive<'a> {
        let mut rng = Rng::new(seed);
        let pool = generate::hyperperiods(&mut rng);
        let wrong = |what, figures| Wrong { what, figures, broken: 0 };
        Drive {
            face,
            rng,
            pool,
            tables: 0,
            runs: 0,
            messages: 0,
            of_frames: 0,
            eight_hops: 0,
            with_later: 0,
            with_unused: 0,
            rates: [0; 3],
            first: Closeness::of("backlog, all jitters 0"),
            later: Closeness::of("backlog, with a jitter above 0"),
            delays: Closeness::of("wire delay"),
            one_hop: Closeness::of("end to end, one wire"),
            more_hops: Closeness::of("end to end, two to eight wires"),
            wrong: [
                wrong("no jitter", no_jitter),
                wrong("jitter of delay - 2 per hop", delay_minus_two),
                wrong("backlog - 1", backlog_minus_one),
                wrong("backlog - 1 only with jitter", backlog_minus_one_later),
                wrong("a hold of K - 1", hold_minus_one),
                wrong("a hold of K - 1 only on later wires", later_hold_minus_one),
                wrong("first wires held as later ones", first_held_as_later),
            ],
        }
    }

    pub fn run(&mut self, tables: u64) -> Outcome {
        while self.tables < tables {
            let mut draft = match self.tables % 6 {
                0 => generate::meeting(&mut self.rng),
                1 | 2 => generate::meeting_full(&mut self.rng),
                3 => generate::full(&mut self.rng),
                4 => generate::sound(&mut self.rng, &generate::FOR_MACHINE, &self.pool),
                _ => generate::sound(&mut self.rng, &generate::EIGHT_HOPS, &self.pool),
            };
            if let Some(figures) = draft.tighten() {
                self.table(&draft, &figures)?;
            }
        }
        Ok(())
    }

    fn table(&mut self, draft: &Draft, figures: &Figures) -> Outcome {
        let bytes = draft.encode();
        let accepted = opinion::verdict(&bytes, usize::MAX).map_err(|why| format!("{why:?} {}", hex::show(&bytes)))?;
        self.same_sheet(&bytes, &accepted.sheet)?;
        let table = accepted.table;
        self.tables += 1;
        self.eight_hops += table.channels.iter().any(|channel| channel.route.len() == 8) as u64;
        self.with_later += (0..table.wires.len()).any(|wire| is_later(&table, wire)) as u64;
        self.with_unused += (0..table.wires.len()).any(|wire| is_unused(&table, wire)) as u64;
        for wire in &table.wires {
            self.rates[[1, 10, 100].iter().position(|&rate| rate == wire.rate).unwrap()] += 1;
        }
        let mut observed = Observed::nothing(&table);
        for cabins in [Cabins::Always, Cabins::Always, Cabins::Nobody] {
            let attack = adversary::all_at_once(&mut self.rng, &table, cabins);
            self.attack(&bytes, &table, figures, attack, &mut observed)?;
        }
        for _ in 0..3 {
            let cabins = Cabins::drawn(&mut self.rng);
            let attack = adversary::random(&mut self.rng, &table, cabins);
            self.attack(&bytes, &table, figures, attack, &mut observed)?;
        }
        for target in targets(&table, figures) {
            self.aim(&bytes, &table, figures, target, &mut observed)?;
        }
        self.note(&table, figures, &observed);
        Ok(())
    }

    /// The figures that are put to the test are those on the face's sheet.
    fn same_sheet(&self, bytes: &[u8], sheet: &[u8]) -> Outcome {
        let mut buffer = vec![0; sheet.len()];
        let reply = self.face.judge(bytes, &mut buffer);
        if reply == sheet.len() as u64 && buffer == sheet {
            return Ok(());
        }
        Err(format!("{} gives another sheet: table {}", self.face.name(), hex::show(bytes)))
    }

    /// Aims at one target, and changes the plan for as long as that brings it closer.
    fn aim(&mut self, bytes: &[u8], table: &Table, figures: &Figures, target: Target, most: &mut Observed) -> Outcome {
        let mut best = adversary::aimed(&mut self.rng, table, figures, target);
        let mut reached = 0;
        for step in 0..CLIMB {
            let plan = match step {
                0 => best.clone(),
                1..4 => adversary::aimed(&mut self.rng, table, figures, target),
                _ => best.changed(&mut self.rng, table),
            };
            let observed = self.attack(bytes, table, figures, plan.attack(table), most)?;
            let now = plan.reached(&observed, figures);
            if now >= reached {
                (best, reached) = (plan, now);
            }
            if reached == 1_000_000 {
                break;
            }
        }
        Ok(())
    }

    fn attack(
        &mut self,
        bytes: &[u8],
        table: &Table,
        figures: &Figures,
        mut attack: Attack,
        most: &mut Observed,
    ) -> Result<Observed, String> {
        let observed = attack.run(table);
        self.runs += 1;
        if self.runs % SLOT_BY_SLOT == 0 && attack.run_slot_by_slot(table) != observed {
            return Err(format!("slots taken together differ: table {}", hex::show(bytes)));
        }
        self.messages += attack.releases.len() as u64;
        let several = |r: &&machine::Release| machine::frames(table.channels[r.channel].framing, r.payload).len() > 1;
        self.of_frames += attack.releases.iter().filter(several).count() as u64;
        if exceeds(&observed, figures) {
            let Attack { name, releases, cabins, .. } = attack;
            return Err(format!(
                "a figure is exceeded\ntable {}\nadversary {name}\nreleases {releases:?}\ncabins {cabins:?}\n\
                 figures {figures:?}\nseen {observed:?}",
                hex::show(bytes)
            ));
        }
        most.raise(&observed);
        Ok(observed)
    }

    fn note(&mut self, table: &Table, figures: &Figures, observed: &Observed) {
        for wire in 0..table.wires.len() {
            let kind = if jitter_at(table, figures, wire) > 0 { &mut self.later } else { &mut self.first };
            kind.note(observed.unsent[wire], figures.backlogs[wire]);
            self.delays.note(observed.delays[wire], figures.delays[wire]);
        }
        for (number, channel) in table.channels.iter().enumerate() {
            let kind = if channel.route.len() == 1 { &mut self.one_hop } else { &mut self.more_hops };
            kind.note(observed.ends[number], figures.ends[number]);
        }
        for wrong in &mut self.wrong {
            wrong.broken += exceeds(observed, &(wrong.figures)(table)) as u64;
        }
    }

    pub fn print(&self) {
        println!(
            "slot machine: {} tables with nothing to spare ({} with a route of 8 wires; wires of rate 1, 10, 100: {:?})",
            self.tables, self.eight_hops, self.rates
        );
        println!("tables with a later wire {}, with an unused one {}", self.with_later, self.with_unused);
        println!("runs {}, messages {}, of several frames {}", self.runs, self.messages, self.of_frames);
        for closeness in [&self.first, &self.later, &self.delays, &self.one_hop, &self.more_hops] {
            closeness.print();
        }
        for wrong in &self.wrong {
            println!("wrong on purpose, {}: exceeded on {} tables", wrong.what, wrong.broken);
        }
    }

    /// What shows too little: wrong figures that the adversaries left standing, and kinds of tables that hardly came.
    pub fn without_teeth(&self) -> Vec<String> {
        let wrong =
            self.wrong.iter().map(|w| (format!("wrong on purpose, {}: exceeded", w.what), w.broken, EACH_WRONG));
        let met = [
            ("a later wire: met", self.with_later, EACH_WRONG),
            ("an unused wire: met", self.with_unused, EACH_WRONG),
            ("a route of 8 wires: met", self.eight_hops, 1),
        ];
        let met = met.into_iter().map(|(what, count, asked)| (what.to_string(), count, asked));
        let few = wrong.chain(met).filter(|&(_, count, asked)| count < asked);
        let mut all: Vec<String> =
            few.map(|(what, count, asked)| format!("{what} on {count} tables, {asked} are asked for")).collect();
        if self.of_frames == 0 || self.rates.contains(&0) {
            all.push("a message of several frames and a wire of each rate: not all met".to_string());
        }
        all
    }
}

fn exceeds(observed: &Observed, figures: &Figures) -> bool {
    let over = |seen: &[u64], figures: &[u128]| seen.iter().zip(figures).any(|(&seen, &figure)| seen as u128 > figure);
    over(&observed.unsent, &figures.backlogs)
        || over(&observed.delays, &figures.delays)
        || over(&observed.ends, &figures.ends)
}

/// Every wire with a jitter above 0, and every channel.
fn targets(table: &Table, figures: &Figures) -> Vec<Target> {
    let wires = (0..table.wires.len()).filter(|&wire| jitter_at(table, figures, wire) > 0);
    wires.map(Target::Wire).chain((0..table.channels.len()).map(Target::Channel)).collect()
}
