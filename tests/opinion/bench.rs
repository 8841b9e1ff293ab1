//! The benchmark: the library and both judges in Rust judge the same accepted tables in one run. It
//! prints times and ratios and asserts none of them.

use crate::ffi::{self, Face};
use crate::generate::{self, Shape, LONGEST};
use crate::rng::Rng;
use std::hint::black_box;
use std::time::Instant;

/// Wires and channels of the tables judged; every route has 8 hops.
const SIZES: [(u64, u64); 3] = [(16, 32), (32, 64), (64, 128)];
const HOPS: u64 = 8;
/// Judgements timed together.
const BATCH: u32 = 20;

pub fn run(seed: u64, repetitions: u64) {
    let faces = ffi::NAMES.map(|name| ffi::named(name).unwrap());
    println!("nanoseconds of one judgement, medians of {repetitions} times {BATCH}");
    println!("wires channels bytes  library baseline ordinary  library/baseline  library/ordinary");
    for (wires, channels) in SIZES {
        let table = table(seed, wires, channels);
        let [library, baseline, ordinary] = medians(&faces, &table, repetitions);
        println!(
            "{wires:5} {channels:8} {:5} {library:8.0} {baseline:8.0} {ordinary:8.0} {:17.2} {:17.2}",
            table.len(),
            library / baseline,
            library / ordinary
        );
    }
}

/// Writes the tables to a folder, each as WIRESxCHANNELS.
pub fn write_tables(seed: u64, folder: &str) -> std::io::Result<()> {
    SIZES.iter().try_for_each(|&(wires, channels)| {
        std::fs::write(format!("{folder}/{wires}x{channels}"), table(seed, wires, channels))
    })
}

/// An accepted table of that size with nothing to spare.
fn table(seed: u64, wires: u64, channels: u64) -> Vec<u8> {
    let mut rng = Rng::new(seed);
    let pool = generate::hyperperiods(&mut rng);
    let shape = Shape { wires: (wires, wires), channels: (channels, channels), hops: (HOPS, HOPS), ..LONGEST };
    loop {
        let mut draft = generate::sound(&mut rng, &shape, &pool);
        if draft.tighten().is_some() && draft.channels.len() as u64 == channels {
            return draft.encode();
        }
    }
}

/// The median times of one judgement, in nanoseconds, all taken in turn.
fn medians(faces: &[Box<dyn Face>; 3], table: &[u8], repetitions: u64) -> [f64; 3] {
    let mut times = [(); 3].map(|()| Vec::new());
    for _ in 0..repetitions {
        for (face, times) in faces.iter().zip(&mut times) {
            times.push(time(face.as_ref(), table));
        }
    }
    times.map(median)
}

fn time(face: &dyn Face, table: &[u8]) -> f64 {
    let start = Instant::now();
    judge(face, table, BATCH);
    start.elapsed().as_nanos() as f64 / BATCH as f64
}

/// Judges an accepted table so many times.
pub fn judge(face: &dyn Face, table: &[u8], times: u32) {
    let mut sheet = [0; 834];
    for _ in 0..times {
        let reply = black_box(face).judge(black_box(table), black_box(&mut sheet));
        assert_eq!(reply >> 56, 0, "an accepted table");
    }
}

fn median(mut times: Vec<f64>) -> f64 {
    times.sort_by(f64::total_cmp);
    times[times.len() / 2]
}
