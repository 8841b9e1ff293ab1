//! The library's C face, `libmagsurinda.a`, and faces of the same kind: two judges in Rust, and faces
//! broken on purpose. With `--cfg archive` the runner links the library, with `--cfg piped` besides it
//! asks those for other processors as well; without either the baseline stands in the library's place,
//! to try the runner itself.

use crate::opinion::Answer;
use crate::{baseline, ordinary};
use std::ops::Range;

/// One face: the five functions that reply, over slices.
pub trait Face {
    fn judge(&self, table: &[u8], sheet: &mut [u8]) -> u64;
    fn ask_wire(&self, sheet: &[u8], wire: u64) -> u64;
    fn ask_channel(&self, sheet: &[u8], channel: u64) -> u64;
    fn price(&self, framing: u64, payload: u64) -> u64;
    fn label(&self, roll: &[u8], number: u64) -> u64;
    fn name(&self) -> &'static str;
    /// Whether NULL with length 0 gets the replies of empty slices.
    fn null_is_empty(&self) -> bool {
        true
    }
}

/// A judge in Rust.
struct Judge {
    name: &'static str,
    judge: fn(&[u8], &mut [u8]) -> u64,
    ask_wire: fn(&[u8], u64) -> u64,
    ask_channel: fn(&[u8], u64) -> u64,
    price: fn(u64, u64) -> u64,
    label: fn(&[u8], u64) -> u64,
}

const BASELINE: Judge = Judge {
    name: "baseline",
    judge: baseline::judge,
    ask_wire: baseline::ask_wire,
    ask_channel: baseline::ask_channel,
    price: baseline::price,
    label: baseline::label,
};

const ORDINARY: Judge = Judge {
    name: "ordinary",
    judge: ordinary::judge,
    ask_wire: ordinary::ask_wire,
    ask_channel: ordinary::ask_channel,
    price: ordinary::price,
    label: ordinary::label,
};

impl Face for Judge {
    fn judge(&self, table: &[u8], sheet: &mut [u8]) -> u64 {
        (self.judge)(table, sheet)
    }
    fn ask_wire(&self, sheet: &[u8], wire: u64) -> u64 {
        (self.ask_wire)(sheet, wire)
    }
    fn ask_channel(&self, sheet: &[u8], channel: u64) -> u64 {
        (self.ask_channel)(sheet, channel)
    }
    fn price(&self, framing: u64, payload: u64) -> u64 {
        (self.price)(framing, payload)
    }
    fn label(&self, roll: &[u8], number: u64) -> u64 {
        (self.label)(roll, number)
    }
    fn name(&self) -> &'static str {
        self.name
    }
}

/// The names that `named` knows.
pub const NAMES: [&str; 3] = ["library", "baseline", "ordinary"];

pub fn named(name: &str) -> Option<Box<dyn Face>> {
    match name {
        "library" => Some(built_for()),
        "baseline" => Some(Box::new(BASELINE)),
        "ordinary" => Some(Box::new(ORDINARY)),
        _ => None,
    }
}

#[cfg(archive)]
mod archive {
    #[link(name = "magsurinda", kind = "static")]
    extern "C" {
        pub fn magsurinda_judge(table: *const u8, table_len: usize, sheet: *mut u8, sheet_len: usize) -> u64;
        pub fn magsurinda_ask_wire(sheet: *const u8, sheet_len: usize, wire: u64) -> u64;
        pub fn magsurinda_ask_channel(sheet: *const u8, sheet_len: usize, channel: u64) -> u64;
        pub fn magsurinda_price(framing: u64, payload: u64) -> u64;
        pub fn magsurinda_label(roll: *const u8, roll_len: usize, number: u64) -> u64;
    }
}

/// The library.
#[cfg(archive)]
pub struct Library;

// SAFETY, for all five: pointer and length come from one live slice, the table and the lent sheet
// are different slices, and the library reads and writes only within them.
#[cfg(archive)]
impl Face for Library {
    fn judge(&self, table: &[u8], sheet: &mut [u8]) -> u64 {
        unsafe { archive::magsurinda_judge(table.as_ptr(), table.len(), sheet.as_mut_ptr(), sheet.len()) }
    }
    fn ask_wire(&self, sheet: &[u8], wire: u64) -> u64 {
        unsafe { archive::magsurinda_ask_wire(sheet.as_ptr(), sheet.len(), wire) }
    }
    fn ask_channel(&self, sheet: &[u8], channel: u64) -> u64 {
        unsafe { archive::magsurinda_ask_channel(sheet.as_ptr(), sheet.len(), channel) }
    }
    fn price(&self, framing: u64, payload: u64) -> u64 {
        unsafe { archive::magsurinda_price(framing, payload) }
    }
    fn label(&self, roll: &[u8], number: u64) -> u64 {
        unsafe { archive::magsurinda_label(roll.as_ptr(), roll.len(), number) }
    }
    fn name(&self) -> &'static str {
        "libmagsurinda.a"
    }
    fn null_is_empty(&self) -> bool {
        use std::ptr::{null, null_mut};
        let table = [0u8; 5];
        // SAFETY: a length of 0 names no byte.
        unsafe {
            archive::magsurinda_judge(null(), 0, null_mut(), 0) == self.judge(&[], &mut [])
                && archive::magsurinda_judge(table.as_ptr(), 5, null_mut(), 0) == self.judge(&table, &mut [])
                && archive::magsurinda_ask_wire(null(), 0, 0) == self.ask_wire(&[], 0)
                && archive::magsurinda_ask_channel(null(), 0, 0) == self.ask_channel(&[], 0)
                && archive::magsurinda_label(null(), 0, 0) == self.label(&[], 0)
        }
    }
}

/// The library, as the runner was built for it.
#[cfg(all(archive, not(piped)))]
pub fn built_for() -> Box<dyn Face> {
    Box::new(Library)
}

#[cfg(all(archive, piped))]
pub fn built_for() -> Box<dyn Face> {
    Box::new(crate::piped::Together::start())
}

#[cfg(not(archive))]
pub fn built_for() -> Box<dyn Face> {
    Box::new(BASELINE)
}

// ---- the reply in 64 bits ----

/// Refusal number × 2^56 + place × 2^48 + value.
fn in_64_bits<T>(answer: &Answer<T>, value: impl Fn(&T) -> u64) -> u64 {
    match answer {
        Ok(granted) => value(granted),
        Err(refusal) => (refusal.number as u64) << 56 | (refusal.place as u64) << 48,
    }
}

pub fn judge_reply(answer: &Answer<usize>) -> u64 {
    in_64_bits(answer, |&length| length as u64)
}

pub fn wire_reply(answer: &Answer<(u128, u128)>) -> u64 {
    in_64_bits(answer, |&(backlog, delay)| (backlog << 24 | delay) as u64)
}

pub fn figure_reply(answer: &Answer<u128>) -> u64 {
    in_64_bits(answer, |&figure| figure as u64)
}

pub fn label_reply(answer: &Answer<Range<usize>>) -> u64 {
    in_64_bits(answer, |stretch| (stretch.start << 16 | stretch.len()) as u64)
}
