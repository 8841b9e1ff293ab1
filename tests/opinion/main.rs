//! A second opinion on the library: `opinion COMMAND`, see `USAGE`.

mod adversary;
mod baseline;
mod bench;
mod broken;
mod compare;
mod drive;
mod ffi;
mod generate;
mod hex;
mod machine;
mod opinion;
mod ordinary;
#[cfg(piped)]
mod piped;
mod rng;
mod rolls;
mod scripted;
mod vectors;

use ffi::Face;
use std::process::exit;

const USAGE: &str = "\
opinion vectors FILE.. TABLES
                         the outside vectors and a folder of tables, answered by the second opinion and by the face
opinion compare [OPTIONS]  the face compared with the second opinion on generated tables and rolls of labels
    --seed S             another seed; --tables N   more tables
    --reduced N          only N tables, with no demand on their counts
    --face NAME          library, or one of two judges in Rust: baseline, ordinary
    --break N            compare a face with fault N: has to exit 1
opinion machine [--seed S] [--tables N]
                         the slot machine driven by adversaries on tables with nothing to spare; a small N
                         leaves wrong figures standing, and does not count as passed
opinion bench [--seed S] [--repetitions N]
                         times of the library and of both judges in Rust, and ratios, at three sizes
opinion sizes FOLDER     writes the tables of these three sizes
opinion judged NAME TIMES FILE
                         has the face of that name judge a table so many times
opinion scripted         eight small runs of the slot machine, slot by slot
opinion faults           the faults that --break knows, one to a line
Exit status: 0 agreed; 1 a disagreement or a figure exceeded, printed; 2 bad usage; 4 too few of a
kind were compared, or wrong figures were left standing.
";

const SEED: u64 = 20_261_115;

fn main() {
    let words: Vec<String> = std::env::args().skip(1).collect();
    let words: Vec<&str> = words.iter().map(String::as_str).collect();
    match words[..] {
        ["vectors", ref files @ .., tables] => run_vectors(files, tables),
        ["compare", ref rest @ ..] => run_compare(rest),
        ["machine", ref rest @ ..] => run_machine(rest),
        ["bench", ref rest @ ..] => run_bench(rest),
        ["sizes", folder] => bench::write_tables(SEED, folder).unwrap_or_else(|why| unreadable(folder, why)),
        ["judged", name, times, file] => run_judged(name, times, file),
        ["scripted"] => print!("{}", scripted::text()),
        ["faults"] => broken::FAULTS.iter().enumerate().for_each(|(at, what)| println!("{} {what}", at + 1)),
        _ => usage(),
    }
}

fn usage() -> ! {
    eprint!("{USAGE}");
    exit(2)
}

fn fail(status: i32, why: &str) -> ! {
    println!("{why}");
    exit(status)
}

/// The options given, each with its word.
struct Options<'a>(&'a [&'a str]);

impl<'a> Options<'a> {
    /// Refuses names that are not of the list.
    fn of(words: &'a [&'a str], names: &[&str]) -> Options<'a> {
        if words.chunks(2).any(|option| option.len() < 2 || !names.contains(&option[0])) {
            usage();
        }
        Options(words)
    }

    fn word(&self, name: &str) -> Option<&'a str> {
        self.0.chunks(2).find(|option| option[0] == name).map(|option| option[1])
    }

    fn number(&self, name: &str) -> Option<u64> {
        self.word(name).map(|word| word.parse().unwrap_or_else(|_| usage()))
    }

    fn seed(&self) -> u64 {
        self.number("--seed").unwrap_or(SEED)
    }
}

fn face(name: &str) -> Box<dyn Face> {
    ffi::named(name).unwrap_or_else(|| usage())
}

fn unreadable(file: &str, why: std::io::Error) -> ! {
    eprintln!("opinion: {file}: {why}");
    exit(2)
}

fn run_vectors(files: &[&str], tables: &str) {
    let face = ffi::built_for();
    let told = |why: String| -> ! { fail(1, &format!("vectors: {why}")) };
    vectors::document_prices(face.as_ref()).unwrap_or_else(|why| told(why));
    vectors::short_cases(face.as_ref()).unwrap_or_else(|why| told(why));
    let shipped = vectors::shipped_tables(tables, face.as_ref()).unwrap_or_else(|why| told(why));
    let mut kinds = vectors::Kinds::new();
    for file in files {
        let text = std::fs::read_to_string(file).unwrap_or_else(|why| unreadable(file, why));
        vectors::run(&text, face.as_ref(), &mut kinds).unwrap_or_else(|why| told(format!("{file}, {why}")));
    }
    if kinds.values().sum::<usize>() < vectors::LINES || shipped < vectors::TABLES {
        fail(4, &format!("vectors: too few: {kinds:?}, {shipped} shipped tables"));
    }
    println!("vectors: {kinds:?} and {shipped} shipped tables agree: the second opinion and {}", face.name());
}

fn run_compare(words: &[&str]) {
    let options = Options::of(words, &["--seed", "--tables", "--reduced", "--face", "--break"]);
    let mut face = face(options.word("--face").unwrap_or("library"));
    if let Some(fault) = options.number("--break") {
        let Some(broken) = broken::Broken::new(face, fault as usize) else { usage() };
        face = Box::new(broken);
    }
    let mut comparison = compare::Comparison::new(face.as_ref(), options.seed());
    let reduced = options.number("--reduced");
    let outcome = match reduced {
        Some(tables) => comparison.run_reduced(tables),
        None => comparison.run(options.number("--tables").unwrap_or(0).max(compare::TABLES)),
    };
    println!("seed {}", options.seed());
    comparison.print();
    if let Err(why) = outcome {
        fail(1, &format!("DISAGREEMENT: {why}"));
    }
    if reduced.is_none() {
        let shortfalls = comparison.shortfalls();
        if !shortfalls.is_empty() {
            fail(4, &format!("too few compared: {}", shortfalls.join("; ")));
        }
    }
    println!("compare: all agree");
}

fn run_machine(words: &[&str]) {
    let options = Options::of(words, &["--seed", "--tables"]);
    let face = ffi::built_for();
    let tables = options.number("--tables").unwrap_or(drive::TABLES);
    let mut drive = drive::Drive::new(face.as_ref(), options.seed());
    let outcome = scripted::check_exact_runs().and_then(|()| drive.run(tables));
    println!("seed {}", options.seed());
    drive.print();
    if let Err(why) = outcome {
        fail(1, &why);
    }
    let left = drive.without_teeth();
    if !left.is_empty() {
        println!("machine: no figure exceeded, which counts as passed only where wrong figures would be; too little shows that:");
        if tables < drive::TABLES {
            println!("{tables} tables are few: without --tables it is {}", drive::TABLES);
        }
        fail(4, &left.join("\n"));
    }
    println!("machine: no figure exceeded");
}

fn run_bench(words: &[&str]) {
    let options = Options::of(words, &["--seed", "--repetitions"]);
    bench::run(options.seed(), options.number("--repetitions").unwrap_or(501));
}

fn run_judged(name: &str, times: &str, file: &str) {
    let table = std::fs::read(file).unwrap_or_else(|why| unreadable(file, why));
    bench::judge(face(name).as_ref(), &table, times.parse().unwrap_or_else(|_| usage()));
}
